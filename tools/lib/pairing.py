"""Two runs side by side: which event of one is which of the other, and where they part."""
import difflib

from partings import Run

MOST_MATCHED = 3000  # so many events of a run are matched by what they are; the rest goes by their order


class Pairing:
    """The steps of two runs. Each event of both is one step; one that is in both runs is one step together.

    A step has the number of events of each run behind it, and whether the runs part there: in the event, or in what came."""

    def __init__(self, one, other):
        self.runs = one, other
        self.steps = [[0, 0, 0]]
        ours, theirs = ([run.what(event) for event in run.story.events] for run in self.runs)
        for kind, begin, end, other_begin, other_end in self.matched(ours, theirs):
            if kind == 'equal':
                for at, beside in zip(range(begin, end), range(other_begin, other_end)):
                    self.steps.append([at + 1, beside + 1, int(self.parts(at, beside))])
            else:
                self.steps += [[at + 1, other_begin, 1] for at in range(begin, end)]
                self.steps += [[end, at + 1, 1] for at in range(other_begin, other_end)]

    @staticmethod
    def matched(ours, theirs):
        """The parts that are equal and those that aren't, as of difflib."""
        same = next((at for at, pair in enumerate(zip(ours, theirs)) if pair[0] != pair[1]), min(len(ours), len(theirs)))
        yield 'equal', 0, same, 0, same
        ours, theirs = ours[same:], theirs[same:]
        matcher = difflib.SequenceMatcher(None, ours[:MOST_MATCHED], theirs[:MOST_MATCHED], autojunk=False)
        for kind, *places in matcher.get_opcodes():
            yield (kind, *(same + place for place in places))
        rest = [same + min(len(it), MOST_MATCHED) for it in (ours, theirs)]
        ends = [same + len(it) for it in (ours, theirs)]
        yield 'replace', rest[0], ends[0], rest[1], ends[1]

    def parts(self, at, beside):
        one, other = self.runs
        return one.outcomes(one.story.events[at]) != other.outcomes(other.story.events[beside])

    def matters(self):
        """The step of the first report that one run has and the other hasn't, else of the first parting, else the last."""
        keys = [set(run.reports) for run in self.runs]
        only = [
            self.step_of(side, report.event.index + 1)
            for side, run in enumerate(self.runs)
            for key, report in run.reports.items()
            if key not in keys[1 - side]
        ]
        parting = next((place for place, step in enumerate(self.steps) if step[2]), len(self.steps) - 1)
        return min(only, default=parting)

    def step_of(self, side, count):
        """The step behind which one run has so many events."""
        return next(place for place, step in enumerate(self.steps) if step[side] >= count)


def of_stories(names, stories):
    return Pairing(*map(Run, names, stories))
