"""Tries by rounds, in which the nodes decide for themselves, and whether their reports stand on two branches.

No message is forged and nobody lies in them: some of what is said is lost, and that is all. Two reports stand on two
branches if the later ledger doesn't follow the earlier one. With one sequence that would be a fork; with two it isn't."""
import math
import time
from dataclasses import dataclass

from told import report_of, tell

FIRST_SECOND = 16  # a choice: earlier seconds only make tries longer
HEARD, LOST = ['timers', 'all'], ['timers', 'drop']


@dataclass(frozen=True)
class Told:
    """A line `full`: who reports which ledger of which sequence."""

    node: str
    sequence: int
    ledger: str


def replayed(program, text):
    """The report of a schedule, and as its `parents` for each ledger that a node came to know the one that it follows."""
    status, lines = tell(program, text)
    report = report_of(status, lines)
    held = (line.split() for line in lines if line.startswith('held '))
    report.parents = {words[4]: words[5] for words in held if words[2] == 'ledger'}
    return report


def told_in(report):
    """The reports in order."""
    return [Told(node, int(sequence), ledger) for word, node, sequence, ledger in (it[:4] for it in report.outcomes if it[0] == 'full')]


def follows(parents, ledger, earlier):
    while ledger != earlier and ledger in parents:
        ledger = parents[ledger]
    return ledger == earlier


def two_branches(report):
    """The first two reports of different sequences that stand on two branches, the lower one first; or None."""
    told = told_in(report)
    for place, late in enumerate(told):
        for early in told[:place]:
            low, high = sorted((early, late), key=lambda it: it.sequence)
            if low.sequence < high.sequence and not follows(report.parents, high.ledger, low.ledger):
                return low, high
    return None


class Rounds:
    """One schedule: transactions that some nodes are given, and then seconds. Each is a block of lines."""

    def __init__(self, lists, dice, heading):
        self.dice, self.nodes = dice, sorted(lists.network.nodes)
        given = [line for line, number in zip(lists.lines, lists.numbers) if number or line.startswith('node')]
        self.head = ['xl-schedule 1', '# ' + heading, *given]
        self.lost, self.mute = dice.choice((0, 0.02, 0.1, 0.3)), dice.choice((0, 0, 0.1, 0.3))
        self.blocks = [self.submits(number) for number in range(1, dice.choice((1, 1, 2)) + 1)]
        start = FIRST_SECOND + (lists.moment // 1000 if lists.moment > 1000 else 0)
        for second in range(start, start + dice.randint(8, 30)):
            is_lost = second == start and dice.random() < 0.5
            self.blocks.append(['at %d' % (1000 * second), *(LOST if is_lost else self.second())])

    def submits(self, number):
        given = self.dice.sample(self.nodes, self.dice.randint(1, len(self.nodes)))
        return ['submit %d %064x' % (node, number) for node in sorted(given)]

    def second(self):
        """What is said in a second reaches all, or nobody, or some nodes' words are lost."""
        if self.dice.random() < self.lost:
            return LOST
        lost = [node for node in self.nodes if self.dice.random() < self.mute]
        heard = [node for node in self.nodes if node not in lost]
        if not lost:
            return HEARD
        return [*('timer %d' % it for it in lost), 'drop', *('timer %d' % it for it in heard), 'all']

    def text(self, blocks=None):
        return '\n'.join(self.head + sum(self.blocks if blocks is None else blocks, [])) + '\n'


class Smaller:
    """The schedule without what isn't needed for its two branches: `blocks` are those that are left by now."""

    def __init__(self, rounds, program):
        self.rounds, self.program, self.blocks = rounds, program, [list(block) for block in rounds.blocks]
        self.until = math.inf

    def text(self):
        return self.rounds.text(self.blocks)

    def put(self, place, *blocks):
        """Puts these blocks in the place of one, if two branches stay and there is time."""
        some = self.blocks[:place] + list(blocks) + self.blocks[place + 1 :]
        if time.monotonic() < self.until and two_branches(replayed(self.program, self.rounds.text(some))) is not None:
            self.blocks = some

    def shrink(self, until):
        """Leaves out blocks, and then lines of them, from the end on, up to this moment of the monotonic clock."""
        self.until = until
        for place in reversed(range(len(self.blocks))):
            self.put(place)
        for place in reversed(range(len(self.blocks))):
            first, *rest = self.blocks[place]
            if rest != HEARD and first.startswith('at '):
                self.put(place, [first, *HEARD])
            for line in reversed(range(len(self.blocks[place]))):
                block = self.blocks[place]
                self.put(place, block[:line] + block[line + 1 :])
