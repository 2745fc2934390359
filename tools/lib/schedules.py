"""What the tools know of schedules: their lines, what they declare, and how the program runs them."""
import os
import re
import shutil
import subprocess
import sys
from dataclasses import dataclass

import command

TOP = os.path.dirname(os.path.dirname(os.path.dirname(os.path.realpath(__file__))))
NUMBERS = range(1, 65)
ROOT = '0' * 64
ENDINGS = ('short', 'forged', 'agree', 'fork')
NEVER_SAVED = ('30', '31', '32')
DECLARATIONS = ('xl-schedule', 'node', 'liar', 'limit', 'speak', 'at', 'name', 'ledger')
ROUND_WORDS = ('timer', 'timers', 'submit', 'greet')
NODE_BYTES, LEDGER_BYTES, DEFAULT_LIMIT, LIMITS = 1717000, 244, 1024, range(2, 16385)
PROBLEMS = {2: 'words refused', 4: 'input failed', 5: 'output failed', 6: 'out of memory'}


def find_program(given):
    """The program that is given, else the one that XL names, else the repository's own, proved or not as `xl` has it.

    Tools that are installed have no repository: then it is the `xl` of the path."""
    script = os.path.join(TOP, 'xl')
    path = given or os.environ.get('XL') or (script if os.path.isfile(script) else 'xl')
    if os.path.realpath(path) == script:
        if subprocess.run([script, '--version'], stdin=subprocess.DEVNULL, stdout=subprocess.DEVNULL).returncode:
            command.stop('the program could not be built; run ./xl --version to see why')
        out = os.path.join(TOP, 'crates', 'xl_node', 'out')
        made = [it for it in (os.path.join(out, 'xl_node'), os.path.join(out, 'xl_unproved')) if os.path.exists(it)]
        return max(made, key=os.path.getmtime, default=script)
    found = shutil.which(path)
    if not found:
        command.stop('%s is no program that can be run; name one by --xl, or by XL in the environment' % path)
    return found


def add_program_option(parser):
    parser.add_argument(
        '--xl', metavar='PROGRAM', help='the program to run (else what XL names, else the repository\'s own)'
    )


def add_window_options(parser):
    parser.add_argument('--from', dest='first', type=int, metavar='LINE', help='the first line of a window')
    parser.add_argument('--to', dest='last', type=int, metavar='LINE', help='the last line of a window')


def stop_on_no_line(text, first=None, last=None):
    """Ends the tool if a window has no line of the text."""
    count = len(read_lines(text))
    if first is not None and last is not None and first > last:
        command.stop('from line %d to line %d there is none' % (first, last))
    for line, most in ((first, count), (last, last)):
        if line is not None and not 1 <= line <= most:
            command.stop('there is no line %d; the last one is %d' % (line, count))


def read_text(path):
    """The bytes of the file, or of standard input for `-`, each as one character."""
    try:
        if path == '-':
            return sys.stdin.buffer.read().decode('latin-1')
        with open(path, encoding='latin-1', newline='') as file:
            return file.read()
    except OSError as error:
        command.stop('%s can\'t be read: %s' % (path, error.strerror))


def read_lines(text):
    """The lines of a schedule, without their ends."""
    return [line.rstrip('\r') for line in re.sub(r'\n\Z', '', text).split('\n')]


def is_passed_over(tokens):
    return not tokens or tokens[0].startswith('#')


def inner_event(tokens):
    """The tokens of the event itself, also where `cut old` and the like stand before it."""
    return tokens[2:] if tokens[:1] in (['cut'], ['fail']) else tokens


def has_rounds(lines):
    """Whether events may send other frames than a validation each."""
    return any(inner_event(line.split())[:1] in ([word] for word in ROUND_WORDS) for line in lines)


def quorum_of(text, size):
    """A number, or so many percent of the size, rounded up; None where it is no quorum of so many members."""
    found = re.fullmatch('([0-9]{1,4})(%?)', text)
    if not found:
        return None
    quorum = -(-int(found[1]) * size // 100) if found[2] else int(found[1])
    return quorum if size < 2 * quorum <= 2 * size else None


def bytes_of_nodes(text):
    """The memory that the declared nodes may take, as docs/PERFORMANCE.md has it: each has room for so many ledgers.

    The text is bytes, and may be no schedule at all."""
    numbers, limit = set(), DEFAULT_LIMIT
    for line in text.split(b'\n'):
        tokens = line.decode('latin-1').split()
        if is_passed_over(tokens):
            continue
        if tokens[0] not in DECLARATIONS:
            break
        number = int(tokens[1]) if re.fullmatch('[0-9]{1,5}', ''.join(tokens[1:2])) else 0
        if tokens[0] == 'node' and number in NUMBERS:
            numbers.add(number)
        elif tokens[0] == 'limit' and number in LIMITS:
            limit = number
    return len(numbers) * (NODE_BYTES + LEDGER_BYTES * limit)


def bytes_of_auditor(journal):
    """The memory that an auditor's core may take, by the limit of the journal's settings, if they have one."""
    tokens = b'\n'.join(journal.split(b'\n')[1:2]).decode('latin-1').split(' ')
    limit = int(tokens[4]) if len(tokens) > 4 and re.fullmatch('[0-9]{1,6}', tokens[4]) else 0
    return NODE_BYTES + LEDGER_BYTES * min(limit, 262144)


def bytes_of_auditors(journals):
    """The same of several journals, of which one is stepped at a time."""
    return max(bytes_of_auditor(b'\n' + behind) for behind in journals.split(b'xl-journal 1\n'))


class Report:
    """What `xl replay` wrote: outcomes, and how it ended."""

    def __init__(self, status, text):
        lines = [line.split() for line in text.splitlines()]
        self.status, self.text = status, text
        self.bad = lines.pop()[1:] if status == 3 and lines else None
        self.outcomes = [line for line in lines if line[0] not in ENDINGS]
        self.short = [[int(word) for word in line[1:]] for line in lines if line[0] == 'short']
        self.forged = sum(int(line[1]) for line in lines if line[0] == 'forged')
        self.fork = next((line[1:] for line in lines if line[0] == 'fork'), None)
        self.last_line = int(self.bad[0]) - 1 if self.bad else None


def run_replay(program, text, seconds=None, command='replay'):
    """Runs the text whole. A run that takes too long has no status."""
    words = dict(input=text.encode('latin-1'), stdout=subprocess.PIPE, stderr=subprocess.DEVNULL, timeout=seconds)
    try:
        ended = subprocess.run([program, command], **words)
    except subprocess.TimeoutExpired:
        return Report(None, '')
    except OSError as error:
        command.stop('%s can\'t be run: %s' % (program, error.strerror))
    return Report(ended.returncode, ended.stdout.decode('latin-1'))


def stop_on_problem(program, report):
    if report.status not in (0, 1, 3):
        command.stop('%s replay ended with status %s (%s)' % (program, report.status, PROBLEMS.get(report.status, 'unknown')))


@dataclass
class Node:
    quorum: int
    members: list
    observes: bool
    opened: int


class Network:
    """The declared numbers, and all lists that were in force: pairs of a quorum and members, in order."""

    def __init__(self):
        self.nodes, self.liars, self.lists, self.speak = {}, [], {}, 1

    def declare(self, tokens, moment=1000):
        if tokens[0] == 'node':
            members = [int(member) for member in tokens[3].split(',')]
            self.nodes[int(tokens[1])] = Node(int(tokens[2]), members, len(tokens) > 4, moment)
            self.lists[int(tokens[1])] = [(int(tokens[2]), members)]
        elif tokens[0] == 'speak':
            self.speak = int(tokens[1])
        elif tokens[0] == 'liar':
            self.liars.append(int(tokens[1]))

    def relist(self, tokens):
        """A `list` line: from here on the node has this list."""
        self.lists[int(tokens[1])].append(list_of(tokens))

    def members(self):
        """Each member of a list that was in force."""
        return {member for lists in self.lists.values() for _, members in lists for member in members}

    def others(self, number):
        return [other for other in sorted([*self.nodes, *self.liars]) if other != number]


def list_of(tokens):
    """The quorum and the members of a `node` or a `list` line."""
    return int(tokens[2]), [int(member) for member in tokens[3].split(',')]


class Names:
    """Which name is printed for an id, as the program prints it: the first one that stands for it.

    Of a declared ledger the program prints the name alone, so its parent's name and its close time take its id's place."""

    def __init__(self):
        self.ids, self.first, self.parents, self.sequences = {}, {}, {}, {}
        self.put('root', ROOT)
        self.sequences[ROOT] = 0

    def declare(self, tokens):
        if tokens[0] == 'name':
            self.put(tokens[1], self.id_of(tokens[2]))
        elif tokens[0] == 'ledger':
            parent = self.ids[tokens[2]]
            ledger = '%s %s' % (self.first[parent], tokens[3])
            self.put(tokens[1], ledger)
            self.parents[ledger] = parent
            self.sequences[ledger] = self.sequences[parent] + 1

    def put(self, name, ledger):
        self.ids[name] = ledger
        self.first.setdefault(ledger, name)

    def id_of(self, token):
        return self.ids.get(token, token.lower())

    def short(self, token):
        token = self.first.get(self.id_of(token), token)
        return token if len(token) <= 16 else token[:8] + '…'


def in_utf8(words):
    """The words as people read them: bytes that were read as one character each, and are UTF-8 where they can be."""
    return words.encode('latin-1').decode('utf-8', 'replace')


def first_comment(lines):
    """The paragraphs of the first comment that stands before any event."""
    paragraphs, is_open = [], False
    for words in lines:
        tokens = words.split()
        if tokens and tokens[0].startswith('#'):
            said = in_utf8(' '.join(tokens).lstrip('#').strip())
            if said and is_open:
                paragraphs[-1] += ' ' + said
            elif said:
                paragraphs.append(said)
            is_open = bool(said)
        elif paragraphs or (tokens and tokens[0] not in DECLARATIONS):
            break
    return paragraphs


def first_sentence(lines):
    """The first sentence of the first comment, or None."""
    paragraphs = first_comment(lines)
    return re.match(r'.*?(?:[.!?](?= |$)|$)', paragraphs[0]).group() if paragraphs else None
