"""A schedule as `xl tell` tells it: each event, what came of it, the frames that it sent, and what its node then holds.

All of that are the program's own words. Of the schedule itself no more is read than its comments, and what is declared."""
import copy
import gc
import subprocess
from dataclasses import dataclass, field

import command
import schedules
from held import Held, State
from schedules import ROOT

OWN = ('event', 'sent', 'held')
OPENS_ANEW = ('restart', 'cut')


@dataclass
class Frame:
    """A sent frame, and what it says. `nth` counts the frames of its event to the same receiver, from 0."""

    sender: int
    receiver: int
    event: int
    nth: int
    said: list

    @property
    def kind(self):
        return self.said[0]


@dataclass
class Event:
    """One event at one node, with what came of it. `frame` is the number of the delivered one."""

    index: int
    line: int
    tokens: list
    node: int
    moment: int
    frame: int = None
    outcomes: list = field(default_factory=list)
    sent: list = field(default_factory=list)

    @property
    def word(self):
        return self.tokens[0]

    def told(self, word):
        return [outcome for outcome in self.outcomes if outcome[0] == word]

    def is_refused(self, *codes):
        return any(outcome[3] in codes for outcome in self.told('refused'))


@dataclass
class Full:
    """A report, with the rows that made its quorum. `last` is the member whose word came with it, if one did."""

    event: Event
    node: int
    sequence: int
    ledger: str
    votes: dict
    quorum: int
    members: list

    @property
    def last(self):
        return next((member for member, row in self.votes.items() if row.event == self.event.index), None)


def tell(program, text):
    """What the program tells of the text: its status, and the lines of the text that it wrote."""
    words = dict(input=text.encode('latin-1'), stdout=subprocess.PIPE, stderr=subprocess.DEVNULL)
    try:
        ended = subprocess.run([program, 'tell'], **words)
    except OSError as error:
        command.stop('%s can\'t be run: %s' % (program, error.strerror))
    return ended.returncode, ended.stdout.decode('latin-1').splitlines()


def report_of(status, told):
    """The report among these lines."""
    own = tuple(word + ' ' for word in OWN)
    return schedules.Report(status, ''.join(line + '\n' for line in told if not line.startswith(own)))


class Story:
    """A schedule, its events with what each node holds behind them, and its report.

    `before` has what each node holds before the first event, and `behind` for each event what its node then holds,
    if it has one."""

    def __init__(self, program, text, asked=None):
        self.lines = schedules.read_lines(text)
        status, told = asked or tell(program, text)
        self.report = report_of(status, told)
        schedules.stop_on_problem(program, self.report)
        self.title = schedules.first_sentence(self.lines)
        self.declare(self.lines[: self.report.last_line])
        self.held = Held(self.names)
        self.events, self.frames, self.reports, self.behind, self.mark = [], [], [], [], 0
        self.before = {number: self.declared(node) for number, node in self.network.nodes.items()}
        self.now = dict(self.before)
        self.read(told)

    def declare(self, lines):
        self.network, self.names = schedules.Network(), schedules.Names()
        for tokens in map(str.split, lines):
            if not schedules.is_passed_over(tokens):
                self.network.declare(tokens)
                self.names.declare(tokens)

    @staticmethod
    def declared(node):
        """What is known of a node in a schedule without an event, of which nothing is told."""
        return State(quorum=node.quorum, members=node.members, mode='observing' if node.observes else 'proposing')

    def read(self, told):
        gc.disable()  # all that is made here stays, and to look for what doesn't would take half of the time
        try:
            for line in command.told_on_the_way(told, 'lines are read'):
                self.take(line.split())
            self.end_event()
        finally:
            gc.freeze()
            gc.enable()

    def take(self, tokens):
        """A line that is told."""
        if tokens[0] == 'event':
            self.end_event()
            self.begin_event(*tokens[1:3], tokens[3:])
        elif tokens[0] == 'sent':
            self.send(*map(int, tokens[2:4]), tokens[4:])
        elif tokens[0] == 'held':
            self.hold(tokens)
        elif tokens[0] not in (*schedules.ENDINGS, 'bad'):
            self.event.outcomes.append(tokens)

    def begin_event(self, line, moment, tokens):
        if tokens == ['drop']:
            first, self.mark = self.mark + 1, len(self.frames)
            tokens = ['drop', str(first), str(self.mark)]
        frame = int(tokens[1]) if tokens[0] == 'deliver' else None
        self.event = Event(len(self.events), int(line), tokens, self.node_of(tokens), int(moment), frame)
        self.state, self.nths = self.now.get(self.event.node), {}
        if not self.is_silent(self.event):
            self.events.append(self.event)
        if tokens[0] == 'list':
            self.network.relist(tokens)

    def is_silent(self, event):
        """Whether nothing comes of a part of the line: the end of `all`, or the timer of a liar's number."""
        if event.word == 'drop':
            return self.lines[event.line - 1].split() == ['all']
        return event.word == 'timer' and event.node not in self.network.nodes

    def node_of(self, tokens):
        if tokens[0] == 'drop':
            return None
        if tokens[0] == 'deliver':
            return self.frames[int(tokens[1]) - 1].receiver
        return int(tokens[2] if tokens[0] == 'lie' else schedules.inner_event(tokens)[1])

    def send(self, sender, receiver, said):
        self.nths[receiver] = self.nths.get(receiver, -1) + 1
        frame = Frame(sender, receiver, self.event.index, self.nths[receiver], said)
        self.event.sent.append(frame)
        self.frames.append(frame)

    def hold(self, tokens):
        number, word, *words = tokens[1:]
        if not self.events:
            state = self.before[int(number)]
        else:
            if self.state is self.now[int(number)]:
                self.state = copy.copy(self.state)
            state = self.state
        self.held.take(state, word, words, len(self.events) - 1)

    def end_event(self):
        """Behind all lines of an event, the state of its node is what it then holds."""
        if len(self.behind) == len(self.events):
            return
        event, state = self.event, self.state
        if state:
            state = self.moved(event, state)
            self.reports += self.reported(event, state)
            self.now[event.node] = state
        self.behind.append(state)

    def moved(self, event, state):
        """The state with the ledger that the node's round is on behind the event."""
        on = [self.names.id_of(it[3]) for it in event.outcomes if it[0] in ('switched', 'built')]
        on += [ROOT] * (event.word in OPENS_ANEW)
        if on:
            state = state if state is not self.now[event.node] else copy.copy(state)
            state.on = on[-1]
        return state

    def reported(self, event, state):
        """The reports of the event. What a node held that was opened anew behind them is what it held before."""
        held = self.now[event.node] if event.word in OPENS_ANEW else state
        for _, node, sequence, ledger in event.told('full'):
            which = int(sequence), self.names.id_of(ledger)
            votes = {member: held.rows[member] for member in held.voters(*which)}
            yield Full(event, int(node), *which, votes, held.quorum, held.members)

    def sender_of(self, event):
        """Who sent what reached the node in this event: a number, or None."""
        if event.frame:
            return self.frames[event.frame - 1].sender
        return int(event.tokens[1]) if event.word == 'lie' else None

    def chain(self, ledger):
        """From the root to the ledger, or None where a parent isn't known."""
        chain = [ledger]
        while chain[-1] in self.held.parents:
            chain.append(self.held.parents[chain[-1]])
        return chain[::-1] if chain[-1] == ROOT else None

    def sequences_said(self):
        """The sequences of each ledger by its id: what it has, and what is said of it."""
        found = {ledger: {sequence} for ledger, sequence in self.held.sequences.items()}
        said = []
        for event, state in zip(self.events, self.behind):
            inner = schedules.inner_event(event.tokens)
            said += [outcome[2:4] for outcome in event.outcomes if outcome[0] in ('built', 'full', 'switched')]
            said += [inner[2:4]] * (inner[0] == 'issue') + [inner[4:6]] * (inner[0] == 'lie' and inner[3] == 'validation')
            said += [(row.sequence, row.ledger) for row in (state.rows.values() if state and event.word == 'raw' else ())]
        for sequence, token in said:
            found.setdefault(self.names.id_of(token), set()).add(int(sequence))
        return found

    def two_branches(self):
        """Pairs of reports of different sequences, of which the later ledger doesn't follow the earlier one.

        One pair for each two ledgers, and of one node where a node reported both; these pairs come first."""
        told, found = {}, []
        for report in self.reports:
            told.setdefault((report.sequence, report.ledger), {}).setdefault(report.node, report)
        for high in sorted(told):
            chain = self.chain(high[1])
            for low in sorted(told) if chain else ():
                if low[0] < high[0] and chain[low[0] : low[0] + 1] != [low[1]]:
                    node = next((node for node in told[low] if node in told[high]), None)
                    pick = lambda which: told[which].get(node) or next(iter(told[which].values()))
                    found.append((pick(low), pick(high)))
        return sorted(found, key=lambda pair: (pair[0].node != pair[1].node, pair[0].sequence, pair[1].sequence))
