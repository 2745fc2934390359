"""The page of a run: what `xl tell` wrote of it, and the scripts that draw this, put it into words, and step through it."""
import json
import os
from html import escape

import lanes
import svg
import timeline
import words

LIB = os.path.dirname(os.path.realpath(__file__))
DRAWING = 'text', 'svg', 'told', 'story', 'words', 'lanes', 'timeline', 'sentences', 'steps'  # these need no page
SCRIPTS = 'page', 'page_steps', 'page_print'
# what the scripts take from the tools, so that both say and draw the same
KNOWN = {
    'refusals': words.REFUSALS,
    'lines': words.REFUSED_LINES,
    'said': {
        'kinds': words.KINDS,
        'built': words.BUILT,
        'aside': words.SAID,
        'verdicts': words.VERDICTS,
        'warning': words.WARNING,
        'noneShort': [words.NONE_SHORT, words.NONE_SHORT_OF_BRANCHES],
        'ofOneSequence': words.OF_ONE_SEQUENCE,
        'mostPairs': words.MOST_PAIRS,
    },
    'drawing': {'light': svg.LIGHT, 'dark': svg.DARK, 'font': svg.FONT, 'legend': timeline.LEGEND, 'brief': lanes.BRIEF},
}


def read(name):
    """A file of what a page is made of."""
    with open(os.path.join(LIB, name), encoding='utf-8') as file:
        return file.read()


def scripts(names):
    return '\n'.join(read(name + '.js') for name in names)


def inert(what):
    """JSON that may stand in a script element."""
    return json.dumps(what, ensure_ascii=False, separators=(',', ':')).replace('<', '\\u003c')


def filled(template, values):
    """The template with a value in each place that is named between two pairs of @; a name without one stays."""
    parts = template.split('@@')
    return ''.join(values.get(it, '@@%s@@' % it) if place % 2 else it for place, it in enumerate(parts))


def style():
    return filled(read('page.css'), {'LIGHT': svg.variables(svg.LIGHT), 'DARK': svg.variables(svg.DARK)})


def template():
    """The page without a run, and without what draws one."""
    return filled(read('page.html'), {'STYLE': style(), 'SCRIPT': scripts(SCRIPTS)})


def text(run):
    """The page of a run: its name, the text of its schedule, and the status and the lines that `tell` told of it.

    Of the text and of the lines each byte is one character. A run may have a `window`, the first and the last line of the
    schedule that are shown, and `why` its last line is refused."""
    values = {'NAME': escape(run['name']), 'RUN': inert(run), 'KNOWN': inert(KNOWN), 'DRAWING': scripts(DRAWING)}
    return filled(template(), values)
