"""Schedules that are made and not written: random ones with every word, those of `xl gen`, and small ones for tests."""
import random

X, Y = 'name x ' + '1' * 64, 'name y ' + '2' * 64

PAIR_SHORT = [
    'node 1 4 1,2,3,4,5',
    'node 2 4 1,2,3,4,5',
    'node 6 3 3,4,5,6',
    'node 3 4 1,2,3,4,5',
    'node 4 3 3,4,5,6',
    'liar 5',
]
PAIR_ENOUGH = ['node 1 4 1,2,3,4,5', 'node 2 4 1,2,3,4,5', 'node 3 4 1,2,3,4,5', 'node 4 4 1,2,3,4,5', 'liar 5']
ONE_TOO_SMALL = ['node %d 3 1,2,3,4' % node for node in (1, 2)] + ['node %d 3 3,4,5,6' % node for node in (3, 4, 5, 6)]
FORK = [
    'node 1 2 1,2,3',
    'node 3 2 2,3,4',
    'node 4 2 2,3,4',
    'liar 2',
    'issue 1 1 x full',
    'issue 3 1 y full',
    'issue 4 1 y full',
]
FORKED = FORK + ['lie 2 1 validation 1 x 1 full', 'all']


def schedule(lines):
    return '\n'.join(['xl-schedule 1', *lines]) + '\n'


class RandomSchedule:
    """A schedule with every word of an event, in which no line is refused: of so many nodes, or of two to five."""

    def __init__(self, dice, count=None):
        self.dice, self.moment, self.sequence = dice, 800000000000, 1
        count = count or dice.randint(2, 5)
        self.nodes, self.liars = list(range(1, count + 1)), [40] * (count < 40 and dice.randint(0, 1))
        self.numbers = self.nodes + self.liars
        self.lines = [X, Y, 'ledger a root 30', 'ledger b a 60', 'at %d' % self.moment]
        self.lines += ['speak 2'] * dice.randint(0, 1) + ['liar %d' % it for it in self.liars]
        for node in self.nodes:
            self.lines.append('node %d %s%s' % (node, self.trusted(), ' observing' * (dice.random() < 0.2)))
        self.lines.append('issue 1 1 x full')
        for _ in range(dice.randint(10, 60)):
            self.lines.append(self.event())

    def trusted(self):
        """A quorum and a list."""
        members = sorted(self.dice.sample(self.numbers, self.dice.randint(1, len(self.numbers))))
        return '%d %s' % (self.dice.randint(len(members) // 2 + 1, len(members)), ','.join(map(str, members)))

    def event(self):
        dice, node = self.dice, self.dice.choice(self.nodes)
        words = [
            self.issue(node),
            'timer %d' % node,
            'restart %d' % node,
            'prefer %d' % node,
            'heard %d' % node,
            'list %d %s' % (node, self.trusted()),
            'deliver 1',
            'drop',
            'submit %d %064x' % (node, dice.randint(1, 9)),
            '%s %s' % (self.torn(), self.issue(node)),
            '%s timer %d' % (self.torn(), node),
            'raw %d 584c' % node,
            'greet %d %d' % (node, dice.choice([it for it in self.numbers if it != node])),
        ]
        words += [self.lie(node)] * 2 * len(self.liars)
        return dice.choice([self.at(), 'timers', 'all']) if dice.random() < 0.5 else dice.choice(words)

    def at(self):
        self.moment += self.dice.choice((0, 1000, 2000, 4000, 16000))
        return 'at %d' % self.moment

    def torn(self):
        return self.dice.choice(('cut', 'fail')) + ' ' + self.dice.choice(('old', 'new'))

    def issue(self, node):
        self.sequence += self.dice.randint(0, 1)
        return 'issue %d %d %s %s' % (
            node,
            self.sequence,
            self.dice.choice('xyab'),
            self.dice.choice(('full', 'partial')),
        )

    def lie(self, node):
        second = self.moment // 1000
        said = self.dice.choice(
            (
                'validation %d %s %d full%s'
                % (self.dice.randint(1, 3), self.dice.choice('xyab'), second, self.dice.choice(('', ' x', ' root'))),
                'header a',
                'header b',
                'set -',
                'tx %064x' % self.dice.randint(1, 9),
                'proposal root %064x 0 %d %d' % (1, second, second),
            )
        )
        return 'lie 40 %d %s' % (node, said)


def generated(rounds, speak=None):
    """The schedule of `xl gen`, as docs/FORMATS.md has it, with a `speak` line if asked."""
    lines = ['speak %d' % speak] if speak else []
    lines += ['at 800000000000'] + ['node %d 6 1,2,3,4,5,6,7' % node for node in range(1, 8)]
    for second in range(1, 4 * rounds + 8):
        lines.append('at %d' % (800000000000 + 1000 * second))
        closing, rest = divmod(second - 4, 4)
        if second == 1:
            lines.append('submit 1 %064x' % 1)
        elif rest == 0 and 1 <= closing <= rounds:
            lines += ['submit %d %064x' % (node, 1 + closing) for node in (1, 2, 3)]
        lines += ['timers', 'all']
    return schedule(lines)


def made(count):
    """So many random schedules."""
    return [schedule(RandomSchedule(random.Random(seed)).lines) for seed in range(count)]
