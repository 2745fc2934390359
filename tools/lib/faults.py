"""Each fault of a schedule, with its place in the line and what may have been meant.

The program alone says what is refused, and it stops at the first such line. So that line is mended. If nothing is near, a
plain line stands in for a declaration, and another line is left out. Then the program is asked again."""
import re
from dataclasses import dataclass

import refusals
import schedules
import words

MOST = 20  # so many faults are looked for
DECLARING = ('node', 'liar', 'name', 'ledger')
WITHOUT_TOKEN = (33, 34, 35, 36, 42)
HEADER = 'xl-schedule 1'
MARK = '\xef\xbb\xbf'  # a byte order mark
STAND_INS = {'node': 'node {0} 1 {0}', 'ledger': 'ledger {0} root 0', 'name': 'name {0} ' + '0' * 64}


class Slow(Exception):
    """The program didn't come to its end in time."""


@dataclass
class Fault:
    """A refused line: its number from 1, the code, why in words, what is wrong from byte to byte, and what may be meant."""

    line: int
    code: int
    why: str
    start: int
    end: int
    meant: str = None

    def columns(self, lines):
        """The first column and the one behind the last, from 1, in units of UTF-16, as editors count them."""
        line = lines[self.line - 1] if self.line <= len(lines) else ''
        return [units(line[:it]) + 1 for it in (self.start, self.end)]


def units(text):
    """How many units of UTF-16 the bytes have."""
    return len(text.encode('latin-1').decode('utf-8', 'replace').encode('utf-16-le')) // 2


def spans_of(line):
    """Where each token stands in its line."""
    return [it.span() for it in re.finditer(r'\S+', line)]


class Spot:
    """Where a refused line is wrong, and what may be meant there."""

    def __init__(self, line, refused):
        self.line, self.refused = line, refused
        self.spans = spans_of(line)
        self.places = [*enumerate(refusals.places(refused.tokens) if refused.tokens else [])]

    def span(self):
        """The bytes that are wrong."""
        if not self.spans:
            return 0, 0
        if self.refused.code == 34:
            return min(17000, len(self.line)), len(self.line)
        if self.refused.code == 37:
            return self.wrong_number()
        if self.refused.code == 33 and self.line.startswith(MARK):
            return 0, len(MARK)
        return self.entry(*self.place())

    def wrong_number(self):
        """Behind the last token if some lack, else the tokens too many."""
        most = max(len(it.split()) for it in refusals.forms_of(self.refused.tokens))
        if len(self.spans) > most:
            return self.spans[most][0], self.spans[-1][1]
        return self.spans[-1][1], self.spans[-1][1]

    def place(self):
        """Which token is wrong, and which entry of it, or None if it is wrong as a whole."""
        code, tokens = self.refused.code, self.refused.tokens
        if code in WITHOUT_TOKEN or len(tokens) < 2:
            return 0, None
        if code == 41:
            return 1, None
        if code == 43:
            return (2 if self.refused.token == '14' else 3), None
        of_code = {38: self.wrong_numbers, 39: self.wrong_ids, 40: self.wrong_words, 44: self.undeclared}
        found = next(of_code[code](), None) if code in of_code else None
        return found or (self.anywhere(), None)

    def wrong_numbers(self):
        for place, (kind, token) in self.places:
            least, most = refusals.NUMBERS.get(kind, (0, 2**32 - 1))
            if kind in refusals.NUMBERS or kind == 'LIST':
                for number, entry in enumerate(refusals.entries_of(kind, token)):
                    if not refusals.is_number(entry, least, most):
                        yield place, number if kind == 'LIST' else None

    def wrong_ids(self):
        for place, (kind, token) in self.places:
            entries = [refusals.printed(it) for it in refusals.entries_of(kind, token)]
            if kind in refusals.IDS and refusals.printed(token) == self.refused.token:
                yield place, None
            elif kind == 'IDS' and self.refused.token in entries:
                yield place, entries.index(self.refused.token)

    def wrong_words(self):
        for place, (kind, token) in self.places[1:]:
            told = kind.split('|') if kind[:1].islower() else []
            if told and token not in told and refusals.printed(token) == self.refused.token:
                yield place, None

    def undeclared(self):
        nodes, liars = self.refused.names(('node',)), self.refused.names(('liar',))
        declared = {'NODE': nodes, 'LIAR': liars, 'PEER': nodes + liars, 'FRAME': []}
        for place, (kind, token) in self.places:
            if kind in declared and (token not in declared[kind] or kind == 'PEER' and token == self.refused.tokens[1]):
                yield place, None

    def anywhere(self):
        told = [refusals.printed(it) for it in self.refused.tokens[1:]]
        return 1 + told.index(self.refused.token) if self.refused.token in told else 0

    def entry(self, place, number):
        start, end = self.spans[min(place, len(self.spans) - 1)]
        if number is None:
            return start, end
        entries = self.line[start:end].split(',')
        start += sum(len(it) + 1 for it in entries[:number])
        return start, start + len(entries[number])

    def meant(self):
        """The known word that is near what stands there, or None."""
        if not self.spans:
            return None
        token, place = self.line[slice(*self.span())], self.place()[0]
        kind = dict((at, kind) for at, (kind, _) in self.places).get(place, '')
        if self.refused.code == 33:
            return HEADER.split()[0] if refusals.near(token, HEADER.split()[:1]) else None
        if self.refused.code == 36:
            return refusals.near(token, refusals.WORDS)
        if self.refused.code == 40 and '|' in kind:
            return refusals.near(token, kind.split('|'))
        if self.refused.code == 39 and kind in ('ID', 'IDS', 'PARENT', 'LEDGER'):
            return refusals.near(token, self.refused.known_ids(kind))
        return None


class Finder:
    """Looks for the faults of a text."""

    def __init__(self, program, text, seconds=None):
        self.program, self.seconds = program, seconds
        self.lines = schedules.read_lines(text)
        self.before = 0  # how many lines were put in front
        self.moved = {}  # for each mended line where it was mended, and by how many bytes that moved the rest
        self.lost, self.stood_in, self.has_lost_event = set(), set(), False

    def each(self):
        """The faults, in their order."""
        while True:
            report = schedules.run_replay(self.program, '\n'.join(self.lines) + '\n', self.seconds)
            if report.status is None:
                raise Slow
            schedules.stop_on_problem(self.program, report)
            if not report.bad:
                return
            line, code, token = int(report.bad[0]), int(report.bad[1]), report.bad[2]
            refused = refusals.Refused(self.lines, line, code, token)
            fault = self.fault(line, refused)
            if line not in self.stood_in and not self.follows(refused):
                yield fault
            if not self.mend(line, fault, refused):
                return

    def fault(self, line, refused):
        words_of = self.lines[line - 1] if line <= len(self.lines) else ''
        spot = Spot(words_of, refused)
        start, end = (self.as_written(line, it) for it in spot.span())
        return Fault(line - self.before, refused.code, refused.why(), start, end, spot.meant())

    def as_written(self, line, place):
        """Where a place of a line that was mended stands in the line as it was."""
        moved = 0
        for mended, by in sorted(self.moved.get(line, [])):
            moved += by if mended + moved < place else 0
        return place - moved

    def follows(self, refused):
        """Whether it is refused only because a line before it was left out."""
        if refused.tokens[:1] == ['deliver'] and refused.code == 44:
            return self.has_lost_event
        return refused.code in (39, 44) and refused.token in self.lost

    def mend(self, line, fault, refused):
        """Puts what may be meant, or leaves the line out. False if nothing behind it can be judged."""
        if refused.code == 35 and refused.token == '1000000' or line > len(self.lines):
            return False
        if refused.code == 33:
            self.mend_header(refused)
        elif fault.meant:
            self.put_meant(line, refused, fault)
        elif refused.tokens[0] in STAND_INS and refused.tokens[1:] and refused.code != 41 and line not in self.stood_in:
            self.stood_in.add(line)
            self.lines[line - 1] = STAND_INS[refused.tokens[0]].format(refused.tokens[1])
        else:
            self.leave_out(line, refused)
        return True

    def put_meant(self, line, refused, fault):
        words_of = self.lines[line - 1]
        start, end = Spot(words_of, refused).span()
        self.lines[line - 1] = words_of[:start] + fault.meant + words_of[end:]
        self.moved.setdefault(line, []).append((fault.start, len(fault.meant) - (end - start)))

    def leave_out(self, line, refused):
        self.lines[line - 1] = '#'
        if refused.code != 41 and refused.tokens[0] in DECLARING:
            self.lost.update(refused.tokens[1:2])
        self.has_lost_event |= refused.tokens[0] not in schedules.DECLARATIONS

    def mend_header(self, refused):
        """A header in place of one that is mistyped, or before a first line of another kind."""
        if refused.tokens[:1] and (refused.tokens[0] in refusals.WORDS or refused.tokens[0].startswith('#')):
            self.lines.insert(0, HEADER)
            self.before = 1
        else:
            self.lines[0] = HEADER


def find(program, text, most=MOST, seconds=None):
    """The first faults of the text, and whether there are more."""
    found = []
    for fault in Finder(program, text, seconds).each():
        if len(found) == most:
            return found, True
        found.append(fault)
    return found, False


def name_of(code):
    """A code in words, without the token of one line."""
    return words.capital(words.REFUSED_LINES[code].replace('“{0}”', 'a token').replace('{0}', 'so many'))
