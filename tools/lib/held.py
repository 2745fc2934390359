"""What a node holds, by the `held` lines of `xl tell`."""
from dataclasses import dataclass, field

from schedules import ROOT


@dataclass(frozen=True)
class Row:
    """A validation in a member's row, and the index of the event by which it came.

    `validated` is what its sender said that it reported last, or None in version 1."""

    sequence: int
    ledger: str
    signed: int
    full: bool
    validated: str
    event: int


@dataclass(frozen=True)
class Position:
    """For which set and close time a member stands, and when it said so."""

    previous: str
    set: str
    sequence: int
    close: int
    time: int


@dataclass
class State:
    """A node behind an event. Ledgers are ids; `on` is that of its round, and `report` a sequence and an id.

    The quorum and the members are those of its list in force; `relisted` says that this came after the last report."""

    time: int = 0
    quorum: int = 0
    members: list = ()
    kept: int = 0
    failed: int = None
    relisted: bool = False
    report: tuple = None
    prefers: tuple = None
    on: str = ROOT
    rows: dict = field(default_factory=dict)
    known: frozenset = frozenset([ROOT])
    phase: str = 'open'
    mode: str = 'proposing'
    pending: tuple = ()
    set: tuple = ()
    last_position: Position = None
    positions: dict = field(default_factory=dict)
    agreement: tuple = (0, 0)

    @property
    def position(self):
        """The node's own position, which it has once the round has closed."""
        return None if self.phase == 'open' else self.last_position

    def voters(self, sequence, ledger):
        """The members whose rows hold a full validation of the ledger."""
        return [
            member
            for member, row in sorted(self.rows.items())
            if row.full and (row.sequence, row.ledger) == (sequence, ledger)
        ]


class Held:
    """Takes `held` lines: each changes what the node is told to hold."""

    def __init__(self, names):
        self.names, self.parents, self.sequences = names, dict(names.parents), dict(names.sequences)

    def ids(self, token):
        return () if token == '-' else tuple(map(self.names.id_of, token.split(',')))

    def position(self, words):
        return Position(*map(self.names.id_of, words[:2]), *map(int, words[2:]))

    def ledger(self, words):
        """A sequence and an id, or None."""
        return None if words[0] == 'none' else (int(words[0]), self.names.id_of(words[1]))

    def take(self, state, word, words, event):
        getattr(self, 'take_' + word)(state, words, event)

    def take_time(self, state, words, _):
        state.time = int(words[0])

    def take_kept(self, state, words, _):
        state.kept = int(words[0])

    def take_issuing(self, state, words, _):
        state.failed = int(words[1]) if words[0] == 'off' else None

    def take_list(self, state, words, _):
        state.quorum, state.members = int(words[0]), list(map(int, words[1].split(',')))
        state.rows = {member: row for member, row in state.rows.items() if member in state.members}
        state.positions = {member: it for member, it in state.positions.items() if member in state.members}

    def take_row(self, state, words, event):
        member, *said = words
        state.rows = {it: row for it, row in state.rows.items() if it != int(member)}
        if said != ['none']:
            sequence, ledger, signed, how, *validated = said
            validated = self.names.id_of(validated[0]) if validated else None
            row = Row(int(sequence), self.names.id_of(ledger), int(signed), how == 'full', validated, event)
            state.rows[int(member)] = row

    def take_known(self, state, words, _):
        state.known = frozenset([ROOT])

    def take_ledger(self, state, words, _):
        (sequence, *_), (ledger, parent) = words, map(self.names.id_of, words[1:3])
        self.parents.setdefault(ledger, parent)
        self.sequences.setdefault(ledger, int(sequence))
        state.known |= {ledger}

    def take_report(self, state, words, _):
        state.report, state.relisted = self.ledger(words), words[-1] == 'relisted'

    def take_prefers(self, state, words, _):
        state.prefers = self.ledger(words)

    def take_round(self, state, words, _):
        state.phase, state.mode = words[:2]

    def take_position(self, state, words, _):
        state.last_position = self.position(words)

    def take_set(self, state, words, _):
        state.set = self.ids(words[0])

    def take_pending(self, state, words, _):
        state.pending = self.ids(words[0])

    def take_proposal(self, state, words, _):
        member, *said = words
        state.positions = {it: at for it, at in state.positions.items() if it != int(member)}
        if said != ['none']:
            state.positions[int(member)] = self.position(said)

    def take_agreement(self, state, words, _):
        state.agreement = tuple(map(int, words))
