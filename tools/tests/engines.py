"""Engines that run the scripts which draw a run: Node, if it is here, else Chromium."""
import json
import os
import re
import shutil
import subprocess
import tempfile
import unittest
from urllib.parse import unquote

import run_page
from testing import PROGRAM
from told import tell

LIMIT = 240  # seconds
SHOWN = 'document.getElementById("made").textContent = encodeURIComponent(JSON.stringify(made))'


def in_node(text):
    with tempfile.TemporaryDirectory(prefix='made-') as folder:
        path = os.path.join(folder, 'made.js')
        with open(path, 'w', encoding='utf-8') as file:
            file.write(text + 'console.log(JSON.stringify(made))\n')
        done = subprocess.run(['node', path], capture_output=True, text=True, timeout=LIMIT)
    if done.returncode:
        raise AssertionError(done.stderr)
    return json.loads(done.stdout)


def in_chromium(text):
    with tempfile.TemporaryDirectory(prefix='made-') as folder:
        path = os.path.join(folder, 'made.html')
        with open(path, 'w', encoding='utf-8') as file:
            script = text.replace('</script', '<\\/script') + SHOWN
            file.write('<!DOCTYPE html>\n<meta charset="utf-8">\n<pre id="made"></pre>\n<script>\n%s\n</script>\n' % script)
        options = ['--headless', '--no-sandbox', '--disable-gpu', '--user-data-dir=' + folder]
        done = subprocess.run(['chromium', *options, '--dump-dom', 'file://' + path], capture_output=True, text=True, timeout=LIMIT)
    return json.loads(unquote(re.search('<pre id="made">([^<]*)</pre>', done.stdout)[1]))


ENGINES = {'node': in_node, 'chromium': in_chromium}


def engine():
    """What runs a script here; without it the test is skipped, with a word."""
    found = next((it for it in ENGINES if shutil.which(it)), None)
    if not found:
        print('not tried: neither node nor chromium is here')
        raise unittest.SkipTest('neither node nor chromium is here')
    return ENGINES[found]


def asked(name, text, window=(None, None)):
    """A run as its page has it."""
    status, told = tell(PROGRAM, text)
    return {'name': name, 'window': window, 'text': text, 'status': status, 'told': '\n'.join([*told, ''])}


def made(runs, body):
    """What the body of a function makes of each run by the scripts that draw it."""
    known, given = (json.dumps(it) for it in (run_page.KNOWN, runs))
    script = 'const known = %s, runs = %s\n%s\n' % (known, given, run_page.scripts(run_page.DRAWING))
    return engine()(script + 'const made = runs.map(run => {\n%s\n})\n' % body)


def steps_of(runs):
    """What a page shows of each run: its steps, and what each node holds before them."""
    return made(runs, 'return new Steps(new Story(run.text, run.status, run.told), run.name, run.window).data()')


def ends_of(runs):
    """How the page of each run says that it ended: the kind, the verdict, and the notes below the report."""
    return made(runs, 'const it = new Steps(new Story(run.text, run.status, run.told), run.name); return [it.words.kind(), it.words.verdict(), it.notes()]')
