"""What `xl tell` told of a schedule, as a page of a window of its lines needs it.

Each event stays with what came of it, since a page also says how the run ended, and how much of it stands outside."""

OF_MEMBERS = 'row', 'proposal'
KIND = 5  # so many words of a `sent` line go up to the kind of its frame


class Window:
    """Takes the lines in their order. Of what a node holds before the window the last word on each matter stays."""

    def __init__(self, first, last):
        self.first, self.last, self.line = first, last, 0
        self.lines, self.places = [], {}

    def take(self, told):
        word, *words = told.split(' ')
        if word == 'event':
            self.line = int(words[0])
        is_inside = self.first <= self.line <= self.last
        if word == 'sent' and not is_inside:
            told = ' '.join(told.split(' ')[:KIND])
        if word == 'held' and not is_inside and not self.is_held_on(words):
            return
        self.lines.append(told)

    def is_held_on(self, words):
        """Whether the line stays, in place of an earlier one on the same matter. A list stays beside it, since a member
        that leaves takes its row along, and so does each ledger that a node has come to know."""
        if words[1] in ('list', 'ledger'):
            return True
        if self.line > self.last:
            return False
        matter = tuple(words[: 3 if words[1] in OF_MEMBERS else 2])
        earlier = self.places.get(matter)
        if earlier is not None:
            self.lines[earlier] = None
        self.places[matter] = len(self.lines)
        return True


def told_of(lines, first, last):
    window = Window(first or 0, last or float('inf'))
    for line in lines:
        window.take(line)
    return [line for line in window.lines if line is not None]
