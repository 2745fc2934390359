"""Why a line of a schedule is refused, in words, and what may have been meant. docs/FORMATS.md has the codes."""
import difflib
import re

import schedules
import words

NUMBERS = {'LEDGERS': (2, 16384), 'VERSION': (1, 2), 'MS': (0, 4 * 10**12), 'FRAME': (0, None)}
NUMBERS.update({it: (1, 64) for it in ('NODE', 'LIAR', 'PEER')})
NUMBERS.update({it: (0, 2**32 - 1) for it in ('QUORUM', 'SEQ', 'CLOSE', 'SECOND', 'PSEQ', 'TIME')})
IDS = {
    'ID': 'neither 64 hexadecimal digits nor a name that was declared',
    'PARENT': 'neither `root` nor a ledger that was declared',
    'LEDGER': 'no ledger that was declared',
    'NAME': 'no new name, which is 1 to 16 of a to z and 0 to 9, a letter first',
    'IDS': 'no list of ids, each greater than the one before, at most 256, or `-` for none',
    'DIGITS': 'no bytes, which are 2 to 16480 hexadecimal digits, two for each',
}
TORN = ['%s old|new %s' % (word, event) for word in ('cut', 'fail') for event in ('issue NODE SEQ ID full|partial', 'timer NODE')]
LIES = ('proposal ID ID PSEQ CLOSE TIME', 'validation SEQ ID SECOND full|partial')
LIES += (LIES[1] + ' ID', 'header LEDGER', 'set IDS', 'tx ID')
FORMS = [
    'node NODE QUORUM LIST',
    'node NODE QUORUM LIST observing',
    'liar NODE',
    'limit LEDGERS',
    'speak VERSION',
    'at MS',
    'name NAME ID',
    'ledger NAME PARENT CLOSE',
    'issue NODE SEQ ID full|partial',
    'submit NODE ID',
    'timer NODE',
    'timers',
    'deliver FRAME',
    'all',
    'drop',
    'greet NODE PEER',
    'list NODE QUORUM LIST',
    'restart NODE',
    *TORN,
    *('lie LIAR NODE ' + it for it in LIES),
    'prefer NODE',
    'heard NODE',
    'raw NODE DIGITS',
]
ROOT = 'root'
FEW = 5  # so many names are listed
WORDS = sorted({it.split()[0] for it in FORMS})
OF_LISTS = ('node', 'liar', 'limit', 'at', 'name')
MOST = {'1000000': 'lines', '4096': 'names', '1024': '`list` lines'}
OF_A_LIST = {
    '11': 'it has no member',
    '12': 'it has more than 64 members',
    '13': 'a member stands there twice',
    '14': 'the quorum isn\'t more than half of its members and at most all of them',
    '15': 'a member is outside 1 to 64',
}


def printed(token):
    """A token as the program prints it."""
    return ''.join(it if '!' <= it <= '~' else '?' for it in token[:32]) or '-'


def forms_of(tokens):
    """The forms of the line's word; of a lie or a torn event those of its kind, if it is one."""
    found = [it for it in FORMS if it.split()[0] == tokens[0]]
    place = {'lie': 3, 'cut': 2, 'fail': 2}.get(tokens[0])
    kind = tokens[place] if place and len(tokens) > place else None
    return [it for it in found if place and it.split()[place] == kind] or found


def places(tokens):
    """The tokens of the line with what each should be, by the form that it has."""
    form = next((it for it in forms_of(tokens) if len(it.split()) == len(tokens)), None)
    return list(zip(form.split(), tokens)) if form else []


def is_number(token, least, most):
    is_decimal = re.fullmatch('0|[1-9][0-9]*', token) is not None
    return is_decimal and int(token) >= least and (most is None or int(token) <= most)


def entries_of(kind, token):
    return token.split(',') if kind in ('LIST', 'IDS') else [token]


def near(token, known):
    """The known word that is near, or None."""
    return next(iter(difflib.get_close_matches(token, known, 1, 0.6)), None)


def meant(token, known, *unlisted):
    """The known word that is near, or all of them if they are few, except those that aren't listed."""
    found = near(token, known)
    if found:
        return '; did you mean “%s”?' % found
    known = [it for it in known if it not in unlisted]
    return '; declared by then: %s' % ', '.join(known) if 0 < len(known) <= FEW else ''


class Refused:
    """A refused line among those of its schedule; `command` is the word of the program that refused it."""

    def __init__(self, lines, line, code, token, command='replay'):
        self.before, self.code, self.token, self.command = lines[: line - 1], int(code), token, command
        self.tokens = lines[line - 1].split() if line <= len(lines) else []

    def why(self):
        """The cause in words."""
        found = getattr(self, 'why_%d' % self.code, None)
        return (found and self.tokens and found()) or words.REFUSED_LINES.get(self.code, 'code %d' % self.code).format(self.token)

    def names(self, word):
        """The names that lines before this one declare."""
        return [it[1] for it in map(str.split, self.before) if len(it) > 1 and it[0] in word]

    def known_ids(self, kind):
        """The names that may stand at a place of this kind."""
        names = self.names(('ledger',) if kind in ('PARENT', 'LEDGER') else ('name', 'ledger'))
        return names + [ROOT] * (kind != 'LEDGER')

    def why_33(self):
        if self.tokens[0].startswith(('\xef\xbb\xbf', '\xff\xfe', '\xfe\xff')):
            return 'a byte order mark stands before “xl-schedule 1”, which an editor wrote'
        return None

    def why_35(self):
        return 'there are more than %s %s' % (self.token, MOST.get(self.token, 'lines'))

    def why_36(self):
        known = OF_LISTS if self.command == 'lists' else WORDS
        if self.command == 'lists' and self.tokens[0] in WORDS:
            return '“%s” is no word of lists, which have %s lines alone' % (self.token, ', '.join(known))
        return words.REFUSED_LINES[36].format(self.token) + meant(self.tokens[0], known)

    def why_37(self):
        forms, count = forms_of(self.tokens), len(self.tokens)
        told = ' or '.join('`%s` (%d words)' % (it, len(it.split())) for it in dict.fromkeys(forms))
        found = 'a line is %s, and this one has %d' % (told, count)
        if any(it.startswith('#') for it in self.tokens[1:]):
            return found + '; a comment is a line of its own'
        if any(it.startswith(',') or it.endswith(',') for it in self.tokens):
            return found + '; a list has no spaces'
        lacks = {it.split()[-1] for it in forms if len(it.split()) == count + 1}
        return found + ('; %s lacks' % lacks.pop().replace('|', ' or ') if len(lacks) == 1 else '')

    def why_38(self):
        for kind, token in places(self.tokens):
            least, most = NUMBERS.get(kind, (0, 2**32 - 1))
            if kind not in NUMBERS and kind != 'LIST':
                continue
            for entry in entries_of(kind, token):
                if is_number(entry, least, most):
                    continue
                if not entry:
                    return 'an entry of the list is empty: numbers are joined by single commas, with no spaces'
                what = 'a member\'s number' if kind == 'LIST' else 'a number from %d%s' % (least, ' to %d' % most if most else ' on')
                return '“%s” isn\'t %s' % (printed(entry), what)
        return None

    def why_39(self):
        for kind, token in places(self.tokens):
            if kind in IDS and self.token in [printed(it) for it in [token, *entries_of(kind, token)]]:
                told = '' if kind in ('NAME', 'DIGITS', 'IDS') else meant(self.token, self.known_ids(kind), ROOT)
                return '“%s” is %s%s' % (self.token, IDS[kind], told)
        return None

    def why_40(self):
        for kind, token in places(self.tokens)[1:]:
            told = kind.split('|') if kind[:1].islower() else []
            if told and token not in told and printed(token) == self.token:
                return '“%s” stands there, and not %s' % (self.token, ' or '.join(told))
        return None

    def why_41(self):
        group = next((it for it in (('node', 'liar'), ('name', 'ledger')) if self.tokens[0] in it), None)
        for number, tokens in enumerate(map(str.split, self.before), 1):
            if group and tokens[:1] and tokens[0] in group and tokens[1:2] == self.tokens[1:2]:
                return '“%s” was declared before, in line %d' % (self.token, number)
            if not group and tokens[:1] == self.tokens[:1]:
                return 'there is a `%s` line before, line %d' % (self.tokens[0], number)
        return None

    def why_43(self):
        return OF_A_LIST.get(self.token) and 'of the list and its quorum: ' + OF_A_LIST[self.token]

    def why_44(self):
        if self.tokens[0] == 'deliver':
            return 'frame %s isn\'t sent by then; the first one is 1' % self.token
        for kind, token in places(self.tokens):
            if printed(token) == self.token and kind in ('NODE', 'LIAR', 'PEER'):
                if kind == 'LIAR' and token not in self.names(('liar',)):
                    return '%s isn\'t declared as a liar' % token
                if kind == 'NODE' and token not in self.names(('node',)):
                    return '%s isn\'t declared as a node' % token
                if kind == 'PEER' and token == self.tokens[1]:
                    return 'node %s can\'t greet itself' % token
                if kind == 'PEER':
                    return '%s is declared neither as a node nor as a liar' % token
        return None


def why(lines, line, code, token, command='replay'):
    """Why the program refuses this line, as a sentence without its full stop."""
    return Refused(lines, int(line), code, token, command).why()


def told(text, bad, command='replay'):
    """A refused line of the text in one sentence: its number, its code, and why."""
    line, code, token = bad
    return 'line %s is refused (code %s): %s' % (line, code, why(schedules.read_lines(text), line, code, token, command))
