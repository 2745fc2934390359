"""What the tests of the tools share."""
import importlib.util
import os
import subprocess
import sys
import unittest
import xml.dom.minidom

from places import TOOLS, load

import schedules

STORIES = os.path.join(schedules.TOP, 'schedules')
os.environ['XL_BUILD'] = 'no'  # a test never starts the proofs of this repository
PROGRAM = schedules.find_program(None)


def run(tool, *words, text='', seconds=120):
    words = [sys.executable, os.path.join(TOOLS, tool), *words]
    environment = {**os.environ, 'XL': PROGRAM}
    return subprocess.run(words, input=text, capture_output=True, text=True, timeout=seconds, env=environment)


def main_with_toml():
    """Runs the tests, unless this Python is older than 3.11, and so has no reader of TOML."""
    if importlib.util.find_spec('tomllib') is None:
        print('not tried, since this Python has no tomllib')
    else:
        unittest.main()


def stories(folder=''):
    """Each story of the folder in schedules/: its name and its text."""
    folder = os.path.join(STORIES, folder)
    for name in sorted(os.listdir(folder)):
        if name.endswith('.xl'):
            yield name, schedules.read_text(os.path.join(folder, name))


def text_boxes(drawn):
    """Each text of a picture with its estimated ends and its height."""
    boxes = []
    for element in xml.dom.minidom.parseString(drawn.encode()).getElementsByTagName('text'):
        spans = element.getElementsByTagName('tspan') or [element]
        words = ''.join(span.firstChild.data for span in spans)
        kinds = ' '.join(span.getAttribute('class') for span in spans)
        width = len(words.rstrip()) * (9.5 if 'large' in kinds else 7 if 'bold' in kinds else 6.1)
        x = float(element.getAttribute('x'))
        left = {'start': x, 'middle': x - width / 2, 'end': x - width}[element.getAttribute('text-anchor')]
        boxes.append((words, left, left + width, float(element.getAttribute('y'))))
    return boxes
