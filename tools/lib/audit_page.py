"""The HTML of pages for auditors: tables, and numbers in the colours of a heat map. No script, and no request."""
from dataclasses import dataclass
from html import escape

STYLE = """
:root{color-scheme:light dark;--paper:#fff;--ink:#1d2530;--mute:#5d6773;--lane:#c2cad3;--red:#c81e2b;--amber:#8a5a00;--green:#17805a}
@media (prefers-color-scheme:dark){:root{--paper:#14181e;--ink:#e6eaf0;--mute:#9da8b5;--lane:#4a5461;--red:#ff6b70;--amber:#e3b341;
--green:#4fc998}}
body{margin:0 auto;max-width:1200px;padding:20px;background:var(--paper);color:var(--ink);
font:15px/1.45 system-ui,"Segoe UI",Roboto,"Helvetica Neue",Arial,"DejaVu Sans",sans-serif}
h1{font-size:25px;margin:0 0 6px}h2,caption{font-size:18px;font-weight:600;text-align:left;margin:28px 0 8px}caption{padding:0 0 8px}
p{max-width:75ch}.verdict{font-weight:600;font-size:17px}.short{color:var(--red)}.ok{color:var(--green)}.quiet,.about{color:var(--mute)}
.scroll{overflow-x:auto;margin-top:28px}table{border-collapse:collapse}
th,td{border:1px solid var(--lane);padding:4px 9px;text-align:left;font-variant-numeric:tabular-nums;overflow-wrap:anywhere}
th[scope=col]{overflow-wrap:normal}td.number{text-align:right}td.heat{text-align:right;font-weight:600}
.heat0{background:color-mix(in srgb,var(--red) 30%,var(--paper))}.heat1{background:color-mix(in srgb,var(--amber) 26%,var(--paper))}
.heat2{background:color-mix(in srgb,var(--green) 14%,var(--paper))}.heat3{background:color-mix(in srgb,var(--green) 32%,var(--paper))}
@media print{.scroll{overflow:visible}tr{break-inside:avoid}}
"""
ABOUT = """<p class="about">The slack of a pair is both quorums together, less both sizes, plus the members on both lists.
Each liar on both lists takes one away. From 1 on it is proved, for runs in which no message is forged, that two honest
nodes with these lists never report different ledgers of one sequence. At 0 or less the pair is short (red). The paper's
condition is also about ledgers of different sequences on different branches; nothing that is proved rests on it.</p>
"""
UNTESTED = """<p class="about"><strong>No signature was tested</strong>, neither of a list nor of a manifest. These are the
lists as the files have them, and who uses which list isn't known here.</p>"""
TESTED = """<p class="about">Each list of this page was to be signed by the key that its publisher's manifest names, and each
manifest by both of its keys. Whether a later manifest revokes one isn't known here, nor who uses which list. What
validators.txt names is signed by nobody.</p>"""
PAGE = """<!doctype html>
<html lang="en">
<meta charset="utf-8">
<meta name="viewport" content="width=device-width,initial-scale=1">
<title>%(title)s</title>
<style>%(style)s</style>
<h1>%(title)s</h1>
%(parts)s
</html>
"""


@dataclass
class Heat:
    """A slack, in its colour: red is short, amber a slack of 1 or 2."""

    slack: int

    def cell(self):
        warmth = 0 if self.slack < 1 else 1 if self.slack < 3 else 2 if self.slack < 6 else 3
        return '<td class="heat heat%d">%s%s</td>' % (warmth, '+' * (self.slack > 0), self.slack)


@dataclass
class Mark:
    """Whether a member stands on a list."""

    is_there: bool

    def cell(self):
        return '<td>%s</td>' % ('yes' if self.is_there else '')


def cell(told):
    if isinstance(told, (Heat, Mark)):
        return told.cell()
    if isinstance(told, int):
        return '<td class="number">%d</td>' % told
    return '<td>%s</td>' % escape(told)


def row(first, rest):
    return '<tr><th scope="row">%s</th>%s</tr>\n' % (escape(str(first)), ''.join(map(cell, rest)))


def table(caption, columns, rows):
    """A table, in which the first of each row names it."""
    heads = ''.join('<th scope="col">%s</th>' % escape(it) for it in columns)
    body = ''.join(row(it[0], it[1:]) for it in rows)
    return '<div class="scroll"><table><caption>%s</caption>\n<tr>%s</tr>\n%s</table></div>' % (escape(caption), heads, body)


def page(title, parts, more=''):
    """A page of these parts, in the style of all and perhaps in more."""
    return PAGE % {'title': escape(title), 'style': STYLE + more, 'parts': '\n'.join(parts)}
