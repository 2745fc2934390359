"""Where two runs part: the first report that differs and why, else the first event of which something else came."""
import difflib

import words
from told import Story

WINDOW = 400  # so many events behind the first that parts are matched with those of the other run


class Run:
    """A schedule's run: its events, each by what it is, whatever its line and the number of its frame."""

    def __init__(self, name, story):
        self.name, self.story = name, story
        self.words = words.Wording(story)
        self.reports = {}
        for report in story.reports:
            self.reports.setdefault((report.node, report.sequence, report.ledger), report)

    def what(self, event):
        """What the event is, with ids in place of names."""
        if event.word == 'deliver' and event.frame:
            frame = self.story.frames[event.frame - 1]
            return 'deliver', frame.sender, frame.receiver, frame.kind, frame.nth, self.what(self.story.events[frame.event])
        return (*(self.story.names.ids.get(it, it) for it in event.tokens), event.node)

    def outcomes(self, event):
        """What came of it, without the number of its line, which comments change."""
        told = [it[:1] + it[2:] if it[0] == 'refused' else it for it in event.outcomes]
        return tuple(tuple(self.story.names.ids.get(word, word) for word in it) for it in told)

    def at_node(self, node, last=None):
        """The events at a node, up to the last one."""
        return [it for it in self.story.events if it.node == node and (last is None or it.index <= last.index)]

    def most_votes(self, node, sequence, ledger):
        """The most members whose votes for the ledger the node ever held together."""
        states = [state for event, state in zip(self.story.events, self.story.behind) if state and event.node == node]
        return max((state.voters(sequence, ledger) for state in states), key=len, default=[])

    def lists(self, node):
        return self.story.network.lists.get(node, [])

    def ending(self):
        """The last line of the report, without which line was refused."""
        return self.story.report.text.splitlines()[-1]

    def told(self, event):
        """An event in words, behind the name of the run."""
        return '%s: line %d: %s\n' % (self.name, event.line, self.words.said(event)) if event else '%s: no such event\n' % self.name

    def told_with_outcomes(self, event):
        lines = ['    %s\n' % ' '.join(it) for it in event.outcomes] if event else []
        return self.told(event) + (''.join(lines) or '    nothing\n')


def first_that_parts(one, other, of_one, of_other):
    """The first places at which two lists part, by their longest common subsequence: pairs of items, either may be None."""
    ours, theirs = [of_one(it) for it in one], [of_other(it) for it in other]
    same = next((at for at, pair in enumerate(zip(ours, theirs)) if pair[0] != pair[1]), min(len(ours), len(theirs)))
    if same == len(ours) == len(theirs):
        return None
    window = slice(same, same + WINDOW)
    matcher = difflib.SequenceMatcher(None, ours[window], theirs[window], autojunk=False)
    _, a, b, c, d = next(it for it in matcher.get_opcodes() if it[0] != 'equal')
    return one[same + a] if a < b else None, other[same + c] if c < d else None


class Parting:
    """What parts two runs, in words."""

    def __init__(self, one, other):
        self.one, self.other = one, other

    def words(self):
        """All that is said, or None if nothing parts them."""
        return self.of_reports() or self.of_events() or self.of_ends()

    def of_reports(self):
        found = []
        for run, beside in ((self.one, self.other), (self.other, self.one)):
            only = (report for key, report in run.reports.items() if key not in beside.reports)
            found += [(report.event.index, run, report) for report in only][:1]
        if not found:
            return None
        _, run, report = min(found, key=lambda it: it[0])
        told = 'the first report that differs is that of node %d on sequence %d\n' % (report.node, report.sequence)
        for it in (self.one, self.other):
            told += self.reported(it, report.node, report.sequence)
        return told + self.why(run, report) + self.ends()

    @staticmethod
    def reported(run, node, sequence):
        found = [it for it in run.reports.values() if (it.node, it.sequence) == (node, sequence)]
        if not found:
            return '%s: node %d reports nothing of it\n' % (run.name, node)
        told = '%s: line %d: node %d reports %s, by the votes of %s\n'
        return ''.join(told % (run.name, it.event.line, node, run.story.names.short(it.ledger), words.ranges(it.votes)) for it in found)

    def why(self, run, report):
        """Its list, the votes that it held, and the first event at that node that parts, each if it differs."""
        beside, told = (self.other if run is self.one else self.one), ''
        if self.one.lists(report.node) != self.other.lists(report.node):
            told += ''.join('%s: its list: %s\n' % (it.name, self.lists(it.lists(report.node))) for it in (self.one, self.other))
        most = beside.most_votes(report.node, report.sequence, report.ledger)
        name = run.story.names.short(report.ledger)
        told += '%s: for %s node %d has at most the votes of %s\n' % (beside.name, name, report.node, words.ranges(most) or 'nobody')
        found = self.first_event(run, beside, report)
        if found:
            told += 'the first event at node %d that isn\'t in both:\n' % report.node
            told += self.one.told(found[0]) + self.other.told(found[1])
        return told

    def first_event(self, run, beside, report):
        """The first event at the node that isn't in both, before the report."""
        events, others = run.at_node(report.node, report.event), beside.at_node(report.node)
        if list(map(run.what, events)) == list(map(beside.what, others[: len(events)])):
            return None
        found = first_that_parts(events, others, run.what, beside.what)
        return found if run is self.one else found[::-1]

    @staticmethod
    def lists(lists):
        return ', then '.join('%d of %s' % (quorum, words.ranges(members)) for quorum, members in lists) or 'none, it isn\'t declared'

    def of_events(self):
        """The first event of which something else came, or that isn't in both. Those of which nothing came are left out."""
        events = [[it for it in run.story.events if it.outcomes] for run in (self.one, self.other)]
        keys = [lambda it, run=run: (run.what(it), run.outcomes(it)) for run in (self.one, self.other)]
        found = first_that_parts(*events, *keys)
        if not found:
            return None
        told = 'the reports are the same; the first event of which something else came:\n'
        return told + self.one.told_with_outcomes(found[0]) + self.other.told_with_outcomes(found[1]) + self.ends()

    def of_ends(self):
        if self.one.ending() == self.other.ending():
            return None
        return 'all that came is the same, and the ends are not\n' + self.ends()

    def ends(self):
        return ''.join('%s ends: %s\n' % (it.name, it.ending()) for it in (self.one, self.other))


def of_stories(names, stories):
    """The first parting of two schedules, in words, or None."""
    return Parting(*map(Run, names, stories)).words()


def of_lines(names, one, other):
    """The first line at which two reports part, in words, or None."""
    found = first_that_parts(one, other, str, str)
    if not found:
        return None
    return 'the reports part\n' + ''.join('%s: %s\n' % (name, line or 'no line more') for name, line in zip(names, found))


def story_of(program, text):
    return Story(program, text.encode('utf-8', 'surrogateescape').decode('latin-1'))
