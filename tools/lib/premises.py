"""The premises of the law of journals, tested on the journals of a network.

The law says that no two reports differ if the lists in force at them are enough. It asks that each journal's entries are
right, which `xl audit` tests, and two things of all journals together, which are tested here:

- each frame that a node heard with a right tag from no liar stands in a drain of a journal of its sender;
- no life of a node opens with a number below the one that its life before had kept."""
import hashlib
import hmac
from dataclasses import dataclass, field

HEAD = 46  # bytes of a frame beside its body: 14 before it, 32 of its tag behind it
SENDER, RECEIVER = slice(6, 10), slice(10, 14)


def length_of(frame):
    return HEAD + int.from_bytes(frame[4:6], 'big')


def frames_in(drained):
    """The frames of what a drain gave, one behind the other."""
    while drained:
        length = length_of(drained)
        yield drained[:length]
        drained = drained[length:]


def members_of(word):
    return {int(it) for it in word.split(',')}


@dataclass
class Heard:
    """A frame that a node heard with a right tag, and the line of its journal."""

    node: int
    sender: int
    line: int
    frame: bytes


@dataclass
class Journal:
    """What the lines of one journal say of frames and of the kept number."""

    me: int = 0
    opened: int = 0
    kept: int = 0
    members: set = field(default_factory=set)
    keys: dict = field(default_factory=dict)
    given: set = field(default_factory=set)
    heard: list = field(default_factory=list)

    def read(self, number, words):
        """Takes a line, by its words."""
        does = {'settings': self.open, 'key': self.key, 'drain': self.drain, 'relist': self.relist}
        does.update(issue=self.issue, timer=self.timer)
        if words[0] == 'frame':
            self.hear(number, words[2])
        elif words[0] in does:
            does[words[0]](words)

    def open(self, words):
        self.me, self.members, self.opened = int(words[1]), members_of(words[3]), int(words[8])
        self.kept = self.opened

    def key(self, words):
        self.keys[int(words[1])] = bytes.fromhex(words[2])

    def drain(self, words):
        if words[-2] == '=' and words[-1] != '-':
            self.given.update(frames_in(bytes.fromhex(words[-1])))

    def relist(self, words):
        if words[-1] == 'ok':
            self.members = members_of(words[3])

    def issue(self, words):
        if 'ok' in words[: words.index('=')]:
            self.kept = int(words[2])

    def timer(self, words):
        if 'ok' in words[: words.index('=')]:
            self.kept = int(words[words.index('built') + 1])

    def hear(self, number, digits):
        frame = bytes.fromhex(digits) if digits != '-' else b''
        if len(frame) < HEAD or frame[:2] != b'XL' or len(frame) != length_of(frame):
            return
        sender, receiver = (int.from_bytes(frame[place], 'big') for place in (SENDER, RECEIVER))
        if receiver == self.me != sender and sender in self.members and self.is_sealed(sender, frame):
            self.heard.append(Heard(self.me, sender, number, frame))

    def is_sealed(self, sender, frame):
        key = self.keys.get(sender)
        return key is not None and hmac.compare_digest(hmac.digest(key, frame[:-32], hashlib.sha256), frame[-32:])


def journal_of(text):
    """A written journal, of its bytes."""
    journal = Journal()
    for number, line in enumerate(text.decode('latin-1').splitlines(), 1):
        words = line.split(' ')
        if len(words) > 1:
            journal.read(number, words)
    return journal


def tested(journals, liars):
    """How many frames were heard, and what is wrong, a line each. The lives of one node stand in their order; who has no
    journal of each life counts as a liar."""
    given, kept, found = {}, {}, []
    for it in journals:
        if it.opened < kept.get(it.me, 0):
            found.append('node %d opened with %d, below the %d that it had kept' % (it.me, it.opened, kept[it.me]))
        kept[it.me] = it.kept
        given.setdefault(it.me, set()).update(it.given)
    heard = [it for journal in journals for it in journal.heard]
    for it in heard:
        if it.sender not in liars and it.frame not in given.get(it.sender, ()):
            found.append('line %d of node %d: no journal of node %d gave that frame' % (it.line, it.node, it.sender))
    return len(heard), found
