"""The lines of a schedule as items that may be left out: each has a number of its own, and a delivery follows its frame."""
from dataclasses import dataclass

import schedules
from beside import Beside

# Which tokens of a line are sequences, seconds and moments; they are made small together, wherever one stands.
NUMBERS = {
    ('issue',): {2: 'sequence'},
    ('lie', 'validation'): {4: 'sequence', 6: 'second'},
    ('lie', 'proposal'): {6: 'position', 7: 'close', 8: 'second'},
    ('ledger',): {3: 'close'},
    ('at',): {1: 'moment'},
}
# by how much two numbers of a kind are apart; of a second and a moment it is one second
STEPS = {'sequence': 1, 'close': 1, 'position': 1, 'second': 1, 'moment': 1000}


@dataclass(frozen=True)
class Delivery:
    """A delivered frame, told by the item that sent it, its ends, and which of the item's frames it is."""

    sent_by: int
    sender: int
    receiver: int
    nth: int


@dataclass(frozen=True)
class Item:
    """A line, or a delivery. The number is the item's own, and stays when others go."""

    number: int
    content: object

    @property
    def tokens(self):
        return () if isinstance(self.content, Delivery) else tuple(self.content.split())

    @property
    def word(self):
        return self.tokens[0] if self.tokens else 'deliver'


class Parts:
    """The deliveries and timers of each line of a schedule, one by one, as the program tells them."""

    def __init__(self, story):
        self.story, self.events, self.items = story, {}, {}
        for event in story.events:
            self.events.setdefault(event.line, []).append(event)

    def of(self, line):
        """What the line is, part by part; a refused line and what stands behind it is told by nobody."""
        last = self.story.report.last_line
        if last is not None and line > last:
            return [' '.join(self.story.lines[line - 1].split())]
        return [self.part(event) for event in self.events.get(line, ()) if event.word != 'drop']

    def part(self, event):
        if event.word != 'deliver':
            return ' '.join(event.tokens)
        frame = self.story.frames[event.frame - 1]
        return Delivery(self.items[frame.event], frame.sender, frame.receiver, frame.nth)

    def note(self, line, items):
        """The items of the line: one for all of its events, or one for each."""
        events = self.events.get(line, [])
        for event, item in zip(events, items if len(items) > 1 else items * len(events)):
            self.items[event.index] = item.number


class Asking(Beside):
    """Which frames the items send, each as its delivery: `xl tell` runs beside, and is handed line after line."""

    def __init__(self, program):
        super().__init__(program)
        self.items, self.nodes, self.numbers, self.nths, self.has_news = [], [], {}, {}, False

    def take(self, item):
        """The next item, which is no delivery."""
        if item.word == 'node':
            self.nodes.append(item.tokens[1])
        self.note(item.number, item.content)
        self.has_news = True

    def deliver(self, delivery):
        """Puts the delivery, if its frame is sent by then: the line, or None."""
        if delivery not in self.numbers and self.has_news and self.nodes:
            self.items.append(None)
            self.hear()
            self.has_news = False
        if delivery not in self.numbers:
            return None
        self.note(None, 'deliver %d' % self.numbers[delivery])
        return self.unsent[-1]

    def note(self, number, line):
        self.items.append(number)
        self.put(line)

    def hear(self):
        """Takes what is told by now."""
        for word, *more in self.ask(self.nodes[0]):
            if word == b'event':
                self.line = int(more[0])
            elif word == b'sent':
                ends = self.items[self.line - 1], int(more[1]), int(more[2])
                self.nths[ends] = self.nths.get(ends, -1) + 1
                self.numbers[Delivery(*ends, self.nths[ends])] = int(more[0])


def all_numbers(items, kind):
    return sorted({number for item in items for number in numbers_of(item, kind).values()})


def moved(item, away):
    """The item with its second or its moment so many seconds earlier."""
    for kind in ('second', 'moment'):
        for number in set(numbers_of(item, kind).values()):
            item = with_number(item, kind, number, number - away * STEPS[kind])
    return item


def numbers_of(item, kind):
    """The numbers of this kind in a line, by the places of their tokens."""
    tokens, inner = item.tokens, schedules.inner_event(item.tokens)
    if not inner:
        return {}
    places = NUMBERS.get((inner[0], *inner[3:4]) if inner[0] == 'lie' else (inner[0],), {})
    away = len(tokens) - len(inner)
    places = [place + away for place, it in places.items() if it == kind and place < len(inner)]
    return {place: int(tokens[place]) for place in places if tokens[place].isdecimal()}


def with_number(item, kind, number, smaller):
    """The item with another number wherever this one stands."""
    places = [place for place, it in numbers_of(item, kind).items() if it == number]
    if not places:
        return item
    tokens = list(item.tokens)
    for place in places:
        tokens[place] = str(smaller)
    return Item(item.number, ' '.join(tokens))


def members_of(item):
    """How many members a node's list has; none where the line has no list."""
    return len(item.tokens[3].split(',')) if len(item.tokens) > 3 else 0


def without_member(item, place):
    tokens = list(item.tokens)
    members = tokens[3].split(',')
    tokens[3] = ','.join(members[:place] + members[place + 1 :])
    return Item(item.number, ' '.join(tokens))


def happens_at(item, number):
    """Whether the item is an event of this number."""
    if isinstance(item.content, Delivery):
        return number in (str(item.content.receiver), str(item.content.sender))
    inner = schedules.inner_event(item.tokens)
    if item.word in schedules.DECLARATIONS or not inner:
        return False
    return number in (inner[1:3] if inner[0] in ('lie', 'greet') else inner[1:2] if inner[0] != 'deliver' else ())
