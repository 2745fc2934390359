"""What came of the tries of tools/sweep: the share of each kind of outcome in each cell, as a table and as curves."""
import csv
import io
import math
import re
from collections import namedtuple
from html import escape

import bounds
import command
import schedules
import svg

SETTING = ('size', 'quorum', 'nodes', 'restarts', 'rounds')
CELL = ('overlap', 'liars', 'silent')
OUTCOME = ('fork', 'branches', 'reports', 'short', 'forged')
COLUMNS = (*SETTING, *CELL, 'seed', 'try', *OUTCOME)
NORMAL = 1.959964  # of a normal distribution 95 percent lie within so many deviations
LEFT, WIDE, HIGH, LOW = 64, 640, 280, 120
DASHES, APART = ('', '7 4', '2 4'), 7
PANELS = {
    'fork': 'tries that fork',
    'branches': 'tries with reports on two branches',
    'reports': 'tries in which anything is reported',
}

Setting, Cell = namedtuple('Setting', SETTING), namedtuple('Cell', CELL)


def wilson(count, tries):
    """The interval of a share, by Wilson, with 95 percent."""
    share, square = count / tries, NORMAL**2
    middle = (share + square / (2 * tries)) / (1 + square / tries)
    half = NORMAL * math.sqrt(share * (1 - share) / tries + square / (4 * tries**2)) / (1 + square / tries)
    return max(0.0, middle - half) if count else 0.0, min(1.0, middle + half) if count < tries else 1.0


def percent(share):
    return '%.*f%%' % (1 if 0.001 <= share <= 0.999 or share in (0, 1) else 3, 100 * share)


def many(count, word):
    return '%s %s%s' % (format(count, ','), word, '' if count == 1 else 's')


def last_short(setting, liars):
    """The greatest overlap with which two of the lists are short, with so many liars in it."""
    return bounds.last_short(setting.size, setting.quorum, liars)


class Tally:
    """The tries of one cell, and how many of them had each outcome."""

    def __init__(self):
        self.tries, self.counts = 0, dict.fromkeys(PANELS, 0)

    def add(self, row):
        self.tries += 1
        for what in PANELS:
            self.counts[what] += row[what] not in ('', '0')

    def share(self, what):
        return self.counts[what] / self.tries

    def words(self, what):
        ends = tuple(map(percent, wilson(self.counts[what], self.tries)))
        return '%s of %s (%s to %s)' % (format(self.counts[what], ','), format(self.tries, ','), *ends)


class Shares:
    """All rows of the given files. A row that stands there twice counts once."""

    def __init__(self, paths):
        self.rows = {}
        for path in paths:
            self.read(path, schedules.read_text(path))
        if not self.rows:
            command.stop('there is no try in %s' % ', '.join(paths))
        found = sorted({key[: len(SETTING)] for key in self.rows})
        if len(found) > 1:
            told = '; '.join(self.setting_words(Setting(*it)) for it in found[:2])
            command.stop('the rows are of more than one sweep, and each is drawn by itself: %s' % told)
        self.setting, self.tallies = Setting(*found[0]), {}
        for key in sorted(self.rows):
            cell = Cell(*key[len(SETTING) : len(SETTING) + len(CELL)])
            self.tallies.setdefault(cell, Tally()).add(dict(zip(OUTCOME, self.rows[key])))
        self.curves = sorted({cell[1:] for cell in self.tallies})
        self.liars, self.silent = (sorted({it[place] for it in self.curves}) for place in (0, 1))
        self.overlaps = sorted({cell.overlap for cell in self.tallies})
        self.panels = [it for it in PANELS if it != 'branches' or self.setting.rounds]

    def read(self, path, text):
        for number, words in enumerate(csv.reader(io.StringIO(text)), 1):
            if tuple(words) == COLUMNS or not words:
                continue
            if len(words) != len(COLUMNS) or not all(re.fullmatch('[0-9]{1,18}', it) for it in words if it):
                command.stop('line %d of %s is no row of tools/sweep' % (number, path))
            if '' in words[: -len(OUTCOME)]:
                command.stop('line %d of %s lacks a number' % (number, path))
            key, outcome = tuple(map(int, words[: -len(OUTCOME)])), tuple(words[-len(OUTCOME) :])
            if self.rows.setdefault(key, outcome) != outcome:
                command.stop('line %d of %s says otherwise of a try than a row before' % (number, path))

    @staticmethod
    def setting_words(setting):
        kind = 'in which nodes decide' if setting.rounds else 'with restarts' if setting.restarts else 'of votes'
        return '%d lists of %d with a quorum of %d, tries %s' % (setting.nodes, setting.size, setting.quorum, kind)

    def curve_name(self, liars, silent):
        return many(liars, 'liar') + (', %d silent' % silent if self.silent != [0] else '')

    def table(self):
        """A row for each cell: how many tries, and of each outcome the number, the share and its interval."""
        heads = {'fork': 'fork', 'branches': 'two branches', 'reports': 'any report'}
        rows = [['overlap', 'liars', 'silent', 'slack', 'tries']]
        for what in self.panels:
            rows[0] += [heads[what], 'share', '95%']
        for cell, tally in self.tallies.items():
            slack = cell.overlap - last_short(self.setting, cell.liars)
            rows.append([*map(str, cell), '%+d' % slack if slack else '0', str(tally.tries)])
            for what in self.panels:
                ends = wilson(tally.counts[what], tally.tries)
                rows[-1] += [str(tally.counts[what]), percent(tally.share(what)), '%s-%s' % tuple(map(percent, ends))]
        widths = [max(map(len, column)) for column in zip(*rows)]
        return ''.join('  '.join(it.rjust(width) for it, width in zip(row, widths)) + '\n' for row in rows)

    def bound_words(self, liars, silent):
        """What is proved of a curve, and what was seen at its last cell before."""
        name, last = self.curve_name(liars, silent), last_short(self.setting, liars)
        if last >= self.setting.size:
            found = '%s: no overlap rules a fork out' % name
        else:
            found = '%s: no fork from %s on' % (name, many(last + 1, 'shared member'))
        short = [cell for cell in self.tallies if cell[1:] == (liars, silent) and cell.overlap <= last]
        if short:
            found += '; at %d it was %s' % (short[-1].overlap, self.tallies[short[-1]].words('fork'))
        return found


class Panel:
    """One share over the overlap: a curve for each number of liars and of silent members."""

    def __init__(self, shares, what, top, high):
        self.shares, self.what, self.top, self.high = shares, what, top, high
        self.first, self.last = shares.overlaps[0] - 0.5, shares.overlaps[-1] + 0.5

    def x(self, overlap):
        return LEFT + WIDE * (overlap - self.first) / (self.last - self.first)

    def y(self, share):
        return self.top + self.high * (1 - share)

    def axes(self):
        parts = [svg.text(LEFT, self.top - 10, 'Share of ' + PANELS[self.what], 'bold ink')]
        for share in range(0, 101, 20 if self.high > 200 else 50):
            y = self.y(share / 100)
            parts.append(svg.line(LEFT, y, LEFT + WIDE, y, 'lane-line', ' stroke-opacity="0.6"'))
            parts.append(svg.text(LEFT - 8, y + 4, '%d%%' % share, 'mute', 'end'))
        step = -(-len(self.shares.overlaps) // 16)
        for overlap in self.shares.overlaps[::step]:
            x = self.x(overlap)
            parts.append(svg.line(x, self.y(0), x, self.y(0) + 5, 'lane-line'))
            parts.append(svg.text(x, self.y(0) + 19, str(overlap), 'mute', 'middle'))
        return parts

    def bounds(self):
        """The proved bound of each number of liars: a dashed line right of the last overlap that is short.

        It speaks of forks alone. The words stand on the lines."""
        lines, words = [], []
        for place, liars in enumerate(self.shares.liars if self.what == 'fork' else ()):
            x, y = self.x(last_short(self.shares.setting, liars) + 0.5), self.top + 14 + 16 * (place % 8)
            if LEFT <= x <= LEFT + WIDE:
                colour = colour_of(self.shares, liars)
                lines.append(svg.line(x, self.top, x, self.y(0), colour + '-line', ' stroke-dasharray="5 4"'))
                words.append(svg.text(x + 5, y, 'bound, ' + many(liars, 'liar'), 'halo ' + colour))
        return lines + words

    def curve(self, liars, silent):
        shares = self.shares
        colour, dash = colour_of(shares, liars), DASHES[shares.silent.index(silent) % len(DASHES)]
        apart = min(APART, 0.6 * WIDE / (self.last - self.first) / len(shares.curves))
        aside = apart * (shares.curves.index((liars, silent)) - (len(shares.curves) - 1) / 2)
        points, parts = [], []
        for cell, tally in shares.tallies.items():
            if cell[1:] == (liars, silent):
                x = self.x(cell.overlap) + aside
                points.append((x, self.y(tally.share(self.what)), cell.overlap))
                told = 'overlap %d, %s: %s' % (cell.overlap, shares.curve_name(liars, silent), tally.words(self.what))
                marks = self.marks(x, tally, colour, svg.diamond if dash else svg.dot)
                parts.append('<g><title>%s</title>%s</g>' % (escape(told), marks))
        bound = last_short(shares.setting, liars) if self.what == 'fork' else None
        return self.lines(points, colour, dash, bound) + parts

    def marks(self, x, tally, colour, mark):
        """A share with its interval."""
        low, high = map(self.y, wilson(tally.counts[self.what], tally.tries))
        found = [svg.line(x, low, x, high, colour + '-line')]
        found += [svg.line(x - 3, y, x + 3, y, colour + '-line') for y in (low, high)]
        return ''.join([*found, mark(x, self.y(tally.share(self.what)), 4, colour)])

    @staticmethod
    def lines(points, colour, dash, bound):
        """From each point to the next; faint across the bound, since nothing lies between the two."""
        found = []
        for one, other in zip(points, points[1:]):
            more = ' stroke-dasharray="%s"' % dash if dash else ''
            more += ' stroke-opacity="0.35"' if bound is not None and one[2] <= bound < other[2] else ''
            found.append(svg.line(*one[:2], *other[:2], colour + '-line wide', more))
        return found

    def draw(self):
        parts = self.axes() + self.bounds()
        for curve in self.shares.curves:
            parts += self.curve(*curve)
        return parts


def colour_of(shares, liars):
    return 'ledger%d' % (shares.liars.index(liars) % len(svg.LIGHT['ledgers']))


def about(shares):
    """What the picture shows, in words."""
    tries = sorted(it.tries for it in shares.tallies.values())
    count = '%s tries' % ' to '.join(format(it, ',') for it in sorted({tries[0], tries[-1]}))
    told = [
        'By the number of members that the lists share. %s at each point, with intervals of 95%% (Wilson).' % count,
        'Dashed: the proved bound. Left of it a schedule may fork; right of it none does, if no message is forged.',
        'This measures tries of tools/sweep, and no real network.',
    ]
    if shares.setting.rounds:
        told.append('Nodes decide for themselves here, by timers and transactions.')
    if shares.setting.restarts:
        told.append('Nodes are restarted, and saves are torn.')
    return ' '.join(told)


def legend(shares, y):
    """A line for each curve, and the place below them."""
    parts = []
    for liars, silent in shares.curves:
        mark = svg.dot if silent == shares.silent[0] else svg.diamond
        parts.append(mark(26, y - 4, 4, colour_of(shares, liars)))
        more, y = svg.block(38, y, shares.bound_words(liars, silent) + '.', 'ink', LEFT + WIDE - 38, svg.PLAIN, 18)
        parts, y = parts + more, y + 4
    return parts, y


def draw(shares, scheme):
    """The whole picture."""
    setting, told = shares.setting, about(shares)
    count = {2: 'Two', 3: 'Three', 4: 'Four'}.get(setting.nodes, str(setting.nodes))
    title = '%s lists of %d with a quorum of %d: how often do tries fork?' % (count, setting.size, setting.quorum)
    parts, y = svg.block(20, 30, title, 'bold large ink', LEFT + WIDE - 20, svg.BOLD, 22)
    more, y = svg.block(20, y, told, 'mute', LEFT + WIDE - 20, svg.PLAIN, 18)
    parts += more
    for what in shares.panels:
        panel = Panel(shares, what, y + 24, HIGH if what == 'fork' else LOW)
        parts += panel.draw()
        y = panel.y(0) + 34
    parts.append(svg.text(LEFT + WIDE / 2, y + 4, 'shared members, of %d' % setting.size, 'mute', 'middle'))
    more, y = legend(shares, y + 34)
    said = ['%s.' % shares.bound_words(*it) for it in shares.curves]
    for cell, tally in shares.tallies.items():
        said.append('Overlap %d, %s: %s fork.' % (cell.overlap, shares.curve_name(*cell[1:]), tally.words('fork')))
    return svg.page(LEFT + WIDE + 36, y + 6, scheme, title, ' '.join([told, *said]), parts + more)
