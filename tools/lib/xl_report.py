"""Reads the reports of xl: each line as a dictionary. One file, which needs Python 3.9 and nothing else.

  import xl_report
  for it in xl_report.objects(open('story.out')):          # the lines of a report, as they come
      if it['what'] == 'full':
          print(it['node'], it['seq'], it['id'])
  for it in xl_report.objects_of_json(open('story.jsonl')):  # what `tools/report --json` wrote
      ...
  status, objects = xl_report.replay('story.xl', program='xl')

docs/FORMATS.md has the keys, and what may change under one VERSION. Whoever reads passes over a `what` and a key that it
doesn't know. A text that is no report raises Strange, with the number of the line."""
import collections
import json
import re
import subprocess

VERSION = 1
FORMAT = {'what': 'format', 'version': VERSION}
BEGIN_OF_JOURNAL = 'xl-journal 1\n'
NUMBER = '(?:0|[1-9][0-9]*)'
DIGITS = '[0-9a-f]{64}'
ID = '(?:[a-z][a-z0-9]{0,15}|%s)' % DIGITS
TOKEN = '[!-~]{1,32}'
VALUES = {
    '(?:#)': (1, 2, 3, 5, 6, 7, 8, 9, 19, 23, 25, 27, 28, 29, 30, 31, 32, 45, 46, 48, 49, 50, 51, 52, 53, 54, 56),
    '(?:# #)': (4, 18, 20, 57),
    '(?:@)': (16, 17, 21, 22, 24, 26),
    '(?:%s %s)' % (DIGITS, DIGITS): (10, 55),
}
PLACE = re.compile(r'([a-z]+2?)=(\(\?:[^()]*\)|[^ ]+)')


class Form:
    """A line of a report: words, and places with their names, each the expression that may stand there."""

    def __init__(self, form):
        self.text, self.word = form, form.split()[0]
        self.places = dict(PLACE.findall(form))
        self.plain = expand(PLACE.sub(r'\2', form))
        self.named = re.compile(expand(PLACE.sub(r'(?P<\1>\2)', form)))

    def is_number(self, place):
        return not re.search('[a-z@~,]', self.places[place])


def expand(form):
    return form.replace('#', NUMBER).replace('@', ID)


def words_of(form):
    """The words of a form; a place with two values is one of them."""
    return re.findall(r'(?:\(\?:[^()]*\)|[^ ])+', form)


def forms(*texts):
    return [Form(text) for text in texts]


def with_values(start, codes):
    """Lines that begin so and end with a code and its values, one for each kind of values."""
    told = [(values, [code for code in ofs if code in codes]) for values, ofs in VALUES.items()]
    return forms(*(start + ' code=(?:%s) values=%s' % ('|'.join(map(str, ofs)), values) for values, ofs in told if ofs))


def lines(told):
    return '(?:(?:%s)\n)' % '|'.join(form.plain for form in told)


BAD_LINE_FORMS = forms('bad line=# code=(?:3[3-9]|4[0-4]) token=' + TOKEN)
OUTCOME_FORMS = (
    forms(
        'switched node=# seq=# id=@',
        'built node=# seq=# id=@ how=(?:full|partial|none)',
        'full node=# seq=# id=@',
        'preferred node=# seq=# id=@',
        'preferred node=# none',
        'heard node=# member=# id=@',
        'heard node=# member=# none',
    )
    + with_values('refused line=# node=#', range(1, 49))
)
SHORT_FORMS, FORGED_FORMS = forms('short node=# node2=# sum=# bound=#'), forms('forged count=#')
VERDICT_FORMS = forms('agree', 'fork seq=# node=# id=@ node2=# id2=@')
PAIR_FORMS = forms('pair node=# node2=# overlap=# liars=# sum=# bound=# answer=(?:ok|short)')
PAPER_FORMS = forms('paper node=# node2=# left=# right=# answer=(?:yes|no)')
FRAME_FORMS = forms(
    'frame from=# to=# kind=(?:proposal) prev={0} set={0} pseq=# close=# time=#'.format(DIGITS),
    'frame from=# to=# kind=(?:validation) seq=# id=%s signed=# flag=(?:full|partial)' % DIGITS,
    'frame from=# to=# kind=(?:validation) seq=# id={0} signed=# flag=(?:full|partial) validated={0}'.format(DIGITS),
    'frame from=# to=# kind=(?:header) seq=# id={0} parent={0} close=#'.format(DIGITS),
    'frame from=# to=# kind=(?:set) count=# set=' + DIGITS,
    'frame from=# to=# kind=(?:tx) id=' + DIGITS,
)
SHOW_END_FORMS = (
    forms('frames count=#')
    + with_values('bad place=#', (1, 2, 3, 4, 5, 6, 7, 45))
    + forms('bad place=268435456 code=35 values=(?:268435456)')
)
REPORT_FORMS = forms('full seq=# id=' + DIGITS)
MEMBERS = '[0-9]{1,2}(?:,[0-9]{1,2})*'
MERGE_FORMS = with_values('refused line=#', range(49, 58)) + forms(
    'kept line=# seq=#',
    'list quorum=# members=' + MEMBERS,
    'list none',
)
FLAGS_FORMS = forms(
    'majority node=# seq=# id=@',
    'enabled node=# seq=# id=@',
    'lost node=# seq=# id=@',
    'fee node=# seq=# value=#',
    'flags count=#',
)
AUDIT_FORMS = forms(
    'yes count=#',
    *(f'yes count=# {how}' for how in ('last=(?:cut)', 'tags=(?:untagged)', 'last=(?:cut) tags=(?:untagged)')),
    'no entry=#',
    'bad line=# code=(?:48) token=#',
)
JUDGED_FORMS = forms('journal number=# node=# yes count=#', 'journal number=# node=# no entry=#')
KEYS_FORMS = forms('keys journal=# journal2=#')
BLAMED_FORK_FORMS = forms(
    'fork seq=# journal=# entry=# id={0} quorum=# members={1} journal2=# entry2=# id2={0} quorum2=# members2={1}'
    ' least=# shown=#'.format(DIGITS, MEMBERS)
)
TWICE_FORMS = forms('twice seq=# member=# journal=# entry=# id={0} journal2=# entry2=# id2={0}'.format(DIGITS))
ANSWER_FORMS = forms(
    'confessed seq=# member=# id={0} journal=# entry=#'.format(DIGITS),
    'denied seq=# member=# id={0} journal=#'.format(DIGITS),
)
SHOWN_FORMS = BLAMED_FORK_FORMS + TWICE_FORMS + ANSWER_FORMS
GIVEN_FORMS = forms('heard count=# given drained=#')
CLEAR_FORMS, BLAMED_FORMS = forms('clear'), forms('blame wrong=# keys=# forks=# twice=#')
POSITION, IDS, FLAG_OF = 'prev=@ set=@ pseq=# close=# time=#', 'ids=[-a-z0-9,]+', 'flag=(?:full|partial)'
VALIDATION = 'seq=# id=@ signed=# ' + FLAG_OF
ASKED = 'asked=(?:issue) node=# seq=# id=@ ' + FLAG_OF, 'asked=(?:timer) node=#'
LIES = 'proposal ' + POSITION, 'validation ' + VALIDATION, 'validation %s validated=@' % VALIDATION, 'header id=@', 'set ' + IDS, 'tx id=@'
SAID = (*LIES[:3], 'header seq=# id=@ parent=@ close=#', 'set count=# set=@', 'tx id=@')
HAPPENS = (
    'issue node=# seq=# id=@ ' + FLAG_OF,
    *(it + ' node=#' for it in ('timer', 'restart', 'prefer', 'heard')),
    'submit node=# id=@',
    'deliver frame=#',
    'drop',
    'greet node=# peer=#',
    *('%s held=(?:old|new) %s' % (it, asked) for it in ('cut', 'fail') for asked in ASKED),
    'list node=# quorum=# members=' + MEMBERS,
    *('lie from=# to=# said=(?:%s) %s' % tuple(it.split(' ', 1)) for it in LIES),
    'raw node=# digits=[0-9a-f]+',
)
HOLDS = (
    'time moment=#',
    'kept seq=#',
    'issuing issues=(?:on)',
    'issuing issues=(?:off) seq=#',
    'list quorum=# members=' + MEMBERS,
    'row member=# ' + VALIDATION,
    'row member=# %s validated=@' % VALIDATION,
    'row member=# none',
    'known count=#',
    'ledger seq=# id=@ parent=@ close=#',
    *('report %s%s' % (it, more) for it in ('seq=# id=@', 'none') for more in ('', ' list=(?:relisted)')),
    'prefers seq=# id=@',
    'prefers none',
    'round phase=(?:open|establish|accepted) mode=(?:proposing|observing|switched) since=#',
    'position ' + POSITION,
    'set ' + IDS,
    'pending ' + IDS,
    'proposal member=# ' + POSITION,
    'proposal member=# none',
    'agreement agree=# positions=#',
)


def kinds(start, told):
    """Lines that begin so and go on by their kind, the first word of each."""
    return forms(*('%s kind=(?:%s)%s' % (start, *re.fullmatch('([a-z]+)(.*)', it).groups()) for it in told))


TELL_FORMS = kinds('event line=# moment=#', HAPPENS) + kinds('sent frame=# from=# to=#', SAID) + kinds('held node=#', HOLDS)
GEN_FORMS = forms('gen rounds=#', *(word + ' count=#' for word in ('lines', 'sent', 'refused', 'built', 'full')))
FORMS = {
    'replay': OUTCOME_FORMS + SHORT_FORMS + FORGED_FORMS + VERDICT_FORMS + BAD_LINE_FORMS,
    'tell': TELL_FORMS,
    'lists': PAIR_FORMS + PAPER_FORMS,
    'show': FRAME_FORMS + SHOW_END_FORMS,
    'node': REPORT_FORMS,
    'gen': GEN_FORMS,
    'merge': MERGE_FORMS,
    'flags': FLAGS_FORMS,
    'audit': AUDIT_FORMS,
    'blame': JUDGED_FORMS + KEYS_FORMS + SHOWN_FORMS + GIVEN_FORMS + CLEAR_FORMS + BLAMED_FORMS,
}

BAD_LINE, OUTCOME, SHORT, FORGED = lines(BAD_LINE_FORMS), lines(OUTCOME_FORMS), lines(SHORT_FORMS), lines(FORGED_FORMS)
VERDICT, PAIR, PAPER, FRAME = lines(VERDICT_FORMS), lines(PAIR_FORMS), lines(PAPER_FORMS), lines(FRAME_FORMS)
REPLAY_END, SHOW_END = SHORT + '*' + FORGED + VERDICT, lines(SHOW_END_FORMS)
TOLD = '(?=(?:.*\n)*?event )(?:%s|%s)*' % (OUTCOME, lines(TELL_FORMS))
REPORT, SETTINGS = lines(REPORT_FORMS), 'settings (?:.|\n)*\n'
ENTRIES = 'frame|timer|submit|issue|greet|drain|reports|stop|stopped|relist'
JOURNAL_LINE = '(?:(?:xl-journal 1|settings|key|peers|%s)(?: [^\n]*)?\n)' % ENTRIES
JOURNAL = '(?:xl-journal 1\n%s*)?' % JOURNAL_LINE
MERGED, AUDITED = lines(MERGE_FORMS), lines(AUDIT_FORMS)
JUDGED, MIXED, BLAMED_FORK = lines(JUDGED_FORMS), lines(KEYS_FORMS), lines(BLAMED_FORK_FORMS)
TWICE, ANSWER = lines(TWICE_FORMS), lines(ANSWER_FORMS)
# a member's own journals say something of both its words, or none of them was read
NAMED = '(?:%s(?:%s{2})?)' % (TWICE, ANSWER)
GIVEN, CLEAR, BLAMED = lines(GIVEN_FORMS), lines(CLEAR_FORMS), lines(BLAMED_FORMS)
FLAG, FLAGS_END = lines(FLAGS_FORMS[:-1]), lines(FLAGS_FORMS[-1:])

BY_WORD = collections.defaultdict(list)
for _form in (form for told in FORMS.values() for form in told):
    BY_WORD[_form.word].append(_form)
WHOLE = {
    ('replay', 0): OUTCOME + '*' + REPLAY_END,
    ('replay', 1): OUTCOME + '*' + REPLAY_END,
    ('replay', 3): OUTCOME + '*' + BAD_LINE,
    ('tell', 0): TOLD + REPLAY_END,
    ('tell', 1): TOLD + REPLAY_END,
    ('tell', 3): TOLD + BAD_LINE,
    ('lists', 0): '(?:%s(?:%s{2})?)*' % (PAIR, PAPER),
    ('lists', 3): BAD_LINE,
    ('show', 0): FRAME + '*' + SHOW_END,
    ('show', 3): FRAME + '*' + SHOW_END,
    ('node', 0): REPORT + '*' + JOURNAL,
    ('node', 3): SETTINGS,
    ('node', 8): REPORT + '*',
    ('node', 9): REPORT + '*' + JOURNAL,
    ('audit', 0): AUDITED,
    ('audit', 1): AUDITED,
    ('audit', 3): BAD_LINE + '|' + AUDITED,
    ('blame', 0): JUDGED + '+' + GIVEN + CLEAR,
    ('blame', 1): JUDGED + '+(?:%s+|%s*%s*)' % (MIXED, BLAMED_FORK, NAMED) + GIVEN + BLAMED,
    ('blame', 3): JUDGED + '*(?:%s|%s)' % (BAD_LINE, AUDITED),
    ('merge', 0): MERGED + '*',
    ('merge', 3): MERGED + '*' + BAD_LINE,
    ('flags', 0): FLAG + '*' + FLAGS_END,
    ('flags', 3): FLAG + '*' + BAD_LINE,
}
_COMPILED = {}


def matches(form, text):
    if form not in _COMPILED:
        _COMPILED[form] = re.compile(form.encode())
    return _COMPILED[form].fullmatch(text) is not None


class Strange(Exception):
    """A text that is no report."""


def value_of(form, place, text):
    if place != 'values':
        return int(text) if form.is_number(place) else text
    return [int(word) if form.is_number(place) else word for word in text.split(' ')]


def object_by(form, line):
    """The object of a line by a form, or None."""
    found = form.named.fullmatch(line)
    if not found:
        return None
    return {'what': form.word, **{it: value_of(form, it, text) for it, text in found.groupdict().items()}}


def object_of(line, told=()):
    """The object of a line, which comes without its end, or None. The forms that are told are tried first."""
    word = line.split(' ')[0]
    read = (object_by(form, line) for form in [*(form for form in told if form.word == word), *BY_WORD[word]])
    return next((it for it in read if it is not None), None)


def forms_of(text):
    """The forms of the command that may have written the text as a whole; none if no command or several may.

    Some lines have two meanings: `refused 5 57 1 2` is one of a replay and one of merged rolls."""
    data = text.encode('utf-8', 'surrogateescape')
    whole = {name for name, status in WHOLE if matches(WHOLE[name, status], data)}
    return FORMS[whole.pop()] if len(whole) == 1 else ()


def read_as(line, number, told=()):
    """The object of a line, which comes with its end."""
    if not line.endswith('\n'):
        raise Strange('line %d of the report has no end' % number)
    read = object_of(line[:-1], told)
    if read is None:
        raise Strange('line %d is of no report: %s' % (number, ascii(line[:-1][:100])))
    return line[:-1], read


def has_two_meanings(line):
    read = [object_by(form, line[:-1]) for form in BY_WORD[line.split(' ')[0]]]
    first = next((it for it in read if it is not None), None)
    return any(it not in (None, first) for it in read)


def objects_in(lines):
    """Each line of a report with its object, as soon as it comes; lines come with their ends.

    A line of two meanings waits for all that follow. The words of refused settings may go over several lines. What stands
    behind a node's reports is its journal, of which no object is written; it is read, so that its writer can go on."""
    lines, gone = iter(lines), []
    for number, line in enumerate(lines, 1):
        if line == BEGIN_OF_JOURNAL:
            collections.deque(lines, 0)
            return
        if line.startswith('settings '):
            words = line + ''.join(lines)
            if not words.endswith('\n'):
                raise Strange('line %d of the report has no end' % (number + words.count('\n')))
            yield words[:-1], {'what': 'settings', 'word': words[len('settings ') : -1]}
            return
        gone.append(line)
        if has_two_meanings(line):
            rest = [line, *lines]
            told = forms_of(''.join(gone[:-1] + rest))
            yield from (read_as(it, place, told) for place, it in enumerate(rest, number))
            return
        yield read_as(line, number)


def lines_of(text):
    """The lines of a text, each with its end."""
    return re.findall('[^\n]*\n|[^\n]+', text)


def objects_of(text):
    """Each line of a report with its object."""
    return objects_in(lines_of(text))


def line_of(read):
    """The line of an object, or None where it is none of a report's."""
    if not isinstance(read, dict) or not isinstance(read.get('what'), str):
        return None
    if read['what'] == 'settings' and isinstance(read.get('word'), str):
        return 'settings ' + read['word']
    for form in BY_WORD.get(read['what'], ()):
        line = form_filled(form, read)
        if line is not None and object_by(form, line) == read:
            return line
    return None


def form_filled(form, read):
    """The words of the form, each place with what the object has there."""
    words = []
    for word in words_of(form.text):
        place = word.partition('=')[0]
        if place not in form.places:
            words.append(word)
        elif place not in read:
            return None
        else:
            told = read[place]
            words += [str(it) for it in told] if isinstance(told, list) else [str(told)]
    return ' '.join(words)


def as_text(line):
    """A line of a file that was opened as text or as bytes. What isn't UTF-8 comes out as it came in."""
    return line.decode('utf-8', 'surrogateescape') if isinstance(line, bytes) else line


def objects(lines):
    """The dictionary of each line, as it comes; lines come with their ends, as a file has them."""
    return (it for _, it in objects_in(map(as_text, lines)))


def object_of_json(line, number):
    """The object of a line of JSON, or None of a format line and of an empty one."""
    if not line.strip():
        return None
    try:
        read = json.loads(line)
    except ValueError:
        read = None
    if not isinstance(read, dict) or not isinstance(read.get('what'), str):
        raise Strange('line %d is no object of a report: %s' % (number, ascii(line[:100])))
    if read['what'] != 'format':
        return read
    if read.get('version') != VERSION:
        raise Strange('line %d is of version %s, and this reads %d' % (number, ascii(read.get('version')), VERSION))
    return None


def objects_of_json(lines):
    """The object of each line of what `tools/report --json` wrote, as it comes."""
    read = (object_of_json(as_text(line), number) for number, line in enumerate(lines, 1))
    return (it for it in read if it is not None)


def replay(path, program='xl'):
    """Replays a schedule, and gives the status and the objects of what was written."""
    with open(path, 'rb') as file:
        done = subprocess.run([program, 'replay'], stdin=file, stdout=subprocess.PIPE)
    return done.returncode, list(objects(done.stdout.splitlines(keepends=True)))
