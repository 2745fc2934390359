"""What `xl blame` writes of written journals, and the entries that it names."""
import re
import subprocess
from collections import namedtuple
from dataclasses import dataclass, field

import command

# How a written journal begins.
HEAD = b'xl-journal 1'
STATUSES = {0: 'clear', 1: 'blame', 3: 'bad'}

Judged = namedtuple('Judged', 'journal node is_right entries')
Report = namedtuple('Report', 'journal entry id quorum members')
Fork = namedtuple('Fork', 'sequence one other least shown')
Word = namedtuple('Word', 'journal entry id')
Twice = namedtuple('Twice', 'sequence member one other')
# What a member's own journals say of its word for a ledger: the entry that issued or gave it; None if they haven't got it.
Answer = namedtuple('Answer', 'sequence member id journal entry')


def report_of(words):
    journal, entry, id_, quorum, members = words
    return Report(int(journal), int(entry), id_, int(quorum), tuple(map(int, members.split(','))))


def word_of(words):
    return Word(int(words[0]), int(words[1]), words[2])


@dataclass
class Blame:
    """The lines, by their words."""

    status: int
    text: str
    journals: list = field(default_factory=list)
    mixed: list = field(default_factory=list)
    forks: list = field(default_factory=list)
    twice: list = field(default_factory=list)
    answers: list = field(default_factory=list)
    # How many frames were heard with a right tag, and how many of them stand in a journal of their sender.
    heard: tuple = None
    bad: list = None

    def read(self, words):
        """Takes a line. One that isn't known is passed over."""
        does = getattr(self, 'read_' + words[0], None)
        if does:
            does(words[1:])

    def read_journal(self, words):
        self.journals.append(Judged(int(words[0]), int(words[1]), words[2] == 'yes', int(words[3])))

    def read_keys(self, words):
        self.mixed.append((int(words[0]), int(words[1])))

    def read_fork(self, words):
        one, other = report_of(words[1:6]), report_of(words[6:11])
        self.forks.append(Fork(int(words[0]), one, other, int(words[11]), int(words[12])))

    def read_twice(self, words):
        self.twice.append(Twice(int(words[0]), int(words[1]), word_of(words[2:5]), word_of(words[5:8])))

    def read_confessed(self, words):
        self.answers.append(Answer(int(words[0]), int(words[1]), words[2], int(words[3]), int(words[4])))

    def read_denied(self, words):
        self.answers.append(Answer(int(words[0]), int(words[1]), words[2], int(words[3]), None))

    def read_heard(self, words):
        self.heard = int(words[0]), int(words[2])

    def read_bad(self, words):
        self.bad = words

    def node(self, journal):
        """Whose the journal is."""
        return next(it.node for it in self.journals if it.journal == journal)

    def answer(self, twice, word):
        """What the member's own journals say of one of its two words; None if none of them was read."""
        asked = twice.sequence, twice.member, word.id
        return next((it for it in self.answers if it[:3] == asked), None)

    def named(self, fork):
        """The words of the members of both lists that said both ledgers of the fork's sequence, or two others."""
        both = set(fork.one.members) & set(fork.other.members)
        return [it for it in self.twice if it.sequence == fork.sequence and it.member in both]


def read(status, text):
    found = Blame(status, text)
    for line in text.splitlines():
        if line:
            found.read(line.split(' '))
    return found


def ask(program, journals):
    """What `xl blame` says of these journals, each of them bytes."""
    ended = subprocess.run([program, 'blame'], input=joined(journals), capture_output=True, check=False)
    if ended.returncode not in STATUSES:
        why = ended.stderr.decode('latin-1').strip()
        command.stop('%s blame ended with status %d: %s' % (program, ended.returncode, why))
    return read(ended.returncode, ended.stdout.decode('latin-1'))


def whole(text):
    """The journal that stands in the bytes, behind what else stands before it: its whole lines."""
    found = re.search(b'^' + HEAD + b'$', text, re.M)
    return text[found.start() : text.rfind(b'\n') + 1] if found else b''


def joined(journals):
    """The whole lines of all journals. A line that is cut off would join the next journal's first one."""
    return b''.join(map(whole, journals))


class Entries:
    """The entries of journals that stand one right behind the other."""

    def __init__(self, text):
        self.lines = text.split(b'\n')
        heads = [place for place, line in enumerate(self.lines) if line == HEAD]
        self.firsts = [self.first_of(place + 2) for place in heads]

    def first_of(self, place):
        """The place of the first entry: behind the keys."""
        while place < len(self.lines) and self.lines[place].startswith(b'key '):
            place += 1
        return place

    def words(self, journal, entry):
        """The words of an entry; journals and entries count from 1."""
        return self.lines[self.firsts[journal - 1] + entry - 1].decode('latin-1').split(' ')
