"""The kept texts as an archive by which another program, or another reader, is held against this one."""
import json
import os

import schedules
import xl_report
from archives import Packed

DATA = 'crates/test_runs/data/'
README = """The kept texts of xl %s: what it writes for each input.

runs/LIST     a line for each run: its name, its status, its words
runs/NAME.in  what it reads, and runs/NAME.out what it writes
json/NAME.jsonl  the same as `tools/report --json` writes it, if it is a report
report.schema.json  the JSON Schema of these objects
xl_report.py  reads lines and JSON, in Python, and needs nothing else

A program conforms if each run gives the bytes and the status. A reader conforms if it makes of each NAME.out what stands in
NAME.jsonl. The JSON is of version %d; what may change under one version stands in the schema.

  while read -r name status words; do
    $words < runs/$name.in | cmp - runs/$name.out
  done < runs/LIST
"""


def read(path):
    with open(os.path.join(schedules.TOP, path), 'rb') as file:
        return file.read()


def runs():
    """Each run that needs no clock and no network: its name, status, words, input and output."""
    for line in read(DATA + 'runs').decode().splitlines():
        name, status, words = line.split(' ', 2)
        if words.split()[1:2] != ['node']:
            yield name, status, words, read(DATA + name + '.in'), read(DATA + name + '.out')


def stories(paths):
    """The same of the stories, by the paths of the committed files."""
    for path in paths:
        if path.endswith('.xl') and path[:-3] + '.out' in paths:
            status = read(path[:-3] + '.status').decode().strip() if path[:-3] + '.status' in paths else '0'
            name = 'story_' + path[len('schedules/') : -3].replace('/', '_')
            yield name, status, 'xl replay', read(path), read(path[:-3] + '.out')


def as_json(content):
    """The objects of a report, or None if it is none."""
    try:
        found = list(xl_report.objects(content.splitlines(keepends=True)))
    except xl_report.Strange:
        return None
    return ''.join(json.dumps(it, separators=(',', ':')) + '\n' for it in [xl_report.FORMAT, *found]).encode()


def files(version, paths):
    """All files of the archive."""
    told, found = [], []
    for name, status, words, given, written in [*runs(), *stories(paths)]:
        told.append('%s %s %s\n' % (name, status, words))
        found += [Packed('runs/%s.in' % name, given), Packed('runs/%s.out' % name, written)]
        objects = as_json(written) if words.split()[1:2] != ['negative'] else None
        found += [Packed('json/%s.jsonl' % name, objects)] * (objects is not None)
    found.append(Packed('runs/LIST', ''.join(told).encode()))
    found.append(Packed('README', (README % (version, xl_report.VERSION)).encode()))
    found.append(Packed('report.schema.json', read('docs/report.schema.json')))
    return found + [Packed('xl_report.py', read('tools/lib/xl_report.py'))]
