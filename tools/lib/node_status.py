"""The text that says how a running node is, as objects, and as a text for Prometheus."""
import re
from dataclasses import dataclass, field

# What the exit status of a node says.
ENDS = {
    0: 'its run was over',
    2: 'its words were refused',
    3: 'its settings were refused',
    4: 'its input failed',
    5: 'its output failed',
    6: 'it ran out of memory',
    7: 'its number can\'t be kept, or another node runs in its folder',
    8: 'an address can\'t be listened at',
    9: 'all its turns are spent',
}
FORM = re.compile(r'xl-status 1\n(?:[a-z_]+(?: [!-~]+)*\n)+')
NUMBERS = 'speak turns heartbeat_ms run_ms me moment limit ledgers kept lost quorum'.split()


@dataclass
class Status:
    """What a node says. A number that it doesn't say is None, and so is a ledger that isn't there."""

    numbers: dict = field(default_factory=dict)
    validating: bool = True
    # The sequence whose save failed, after which it issues nothing.
    failed: int = None
    report: tuple = None
    prefers: tuple = None
    heard: list = field(default_factory=list)
    # For each silent member the moment, in milliseconds, at which it was last heard.
    silent: dict = field(default_factory=dict)
    # What became of the last look at a file of rolls: taken, unread, or refused with the line and the code.
    rolls: tuple = None
    # The exit status, and the words that say more, if it has ended.
    ended: int = None
    cause: str = ''

    def __getattr__(self, name):
        if name in NUMBERS:
            return self.numbers.get(name)
        raise AttributeError(name)

    def read(self, word, values):
        """Takes a line. One that isn't known is passed over."""
        if word in NUMBERS:
            self.numbers[word] = int(values[0])
        elif word == 'validating':
            self.validating = values[0] == 'yes'
        elif word == 'issues':
            self.failed = int(values[1]) if values[0] == 'no' else None
        elif word in ('report', 'prefers'):
            setattr(self, word, None if values[0] == 'none' else (int(values[0]), values[1]))
        elif word == 'heard':
            self.heard.append(int(values[0]))
        elif word == 'silent':
            self.silent[int(values[0])] = int(values[1])
        elif word == 'rolls':
            self.rolls = values[0], *map(int, values[1:])
        elif word == 'ended':
            self.ended, self.cause = int(values[0]), ' '.join(values[1:])

    def silent_for(self, member):
        """For how many seconds a member is silent."""
        return max(0, self.moment - self.silent[member]) // 1000


def read(text):
    """The status of the text, or None if it is none."""
    if not FORM.fullmatch(text):
        return None
    status = Status()
    try:
        for line in text.splitlines()[1:]:
            word, *values = line.split(' ')
            status.read(word, values)
    except (ValueError, IndexError):
        return None
    return None if status.me is None or status.moment is None else status


class Metrics:
    """Lines of Prometheus' text format, each metric with what it means."""

    def __init__(self, node):
        self.node, self.lines, self.named = node, [], set()

    def put(self, name, means, value, kind='gauge', **labels):
        """One value, unless it isn't known."""
        if value is None:
            return
        if name not in self.named:
            self.named.add(name)
            self.lines += ['# HELP xl_%s %s' % (name, means), '# TYPE xl_%s %s' % (name, kind)]
        told = ','.join('%s="%s"' % pair for pair in {'node': self.node, **labels}.items())
        self.lines.append('xl_%s{%s} %s' % (name, told, value))

    def text(self):
        return '\n'.join(self.lines) + '\n'


def metrics_of(status, age, is_fresh):
    """What a status says, and how old it is, in seconds."""
    found = Metrics(status.me)
    runs = int(is_fresh and status.ended is None)
    found.put('up', 'Whether the node runs, by a status that is fresh.', runs)
    found.put('status_age_seconds', 'How old the status is.', round(age, 1))
    found.put('exit_status', 'The status with which the node ended.', status.ended)
    found.put('validating', 'Whether it takes part in rounds.', int(status.validating))
    found.put('issues', 'Whether it issues validations: not once a save has failed.', int(status.failed is None))
    found.put('report_sequence', 'The sequence of the last ledger that it reported.', status.report and status.report[0])
    found.put('preferred_sequence', 'The sequence of the ledger that it prefers.', status.prefers and status.prefers[0])
    found.put('kept_sequence', 'The last sequence that it may have validated.', status.kept)
    found.put('ledgers', 'How many ledgers it knows.', status.ledgers)
    found.put('ledgers_limit', 'How many ledgers it may know.', status.limit)
    found.put('turns_limit', 'How many turns it may take.', status.turns)
    found.put('reports_lost_total', 'Reports for which it had no room.', status.lost, 'counter')
    found.put('quorum', 'How many members make a ledger final.', status.quorum)
    if status.quorum is not None:
        found.put('members', 'How many members its list has.', len(status.heard) + len(status.silent))
        found.put('members_heard', 'How many of them are heard.', len(status.heard))
    if status.rolls:
        found.put('rolls_taken', 'Whether no line of its file of rolls was refused.', int(status.rolls[0] == 'taken'))
    for member in sorted([*status.heard, *status.silent]):
        silent = 0 if member in status.heard else status.silent_for(member)
        found.put('member_silent_seconds', 'For how long a member is silent.', silent, member=member)
    return found
