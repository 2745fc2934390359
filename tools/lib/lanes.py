"""What stands in the picture of a run: which lanes and events, and of each its colour and its words."""
import bisect

import schedules
import svg
from words import KINDS, Wording, seconds

MOST_SHOWN, FIRST_SHOWN, LAST_SHOWN = 100, 60, 40
MOST_ASKED, FIRST_ASKED, LAST_ASKED = 1000, 600, 400
FAR, MOST_PHRASE = 10**7, 32
BRIEF = ('built', 'full', 'switched', 'preferred', 'lie', 'restart', 'cut', 'fail', 'list')


class Shades:
    """A colour for each ledger: they go round, and no two of one sequence have the same, while there are other ones.

    From the eighth ledger of a sequence on its name and the pattern of its arrows tell: these are `shared`."""

    def __init__(self, sequences):
        self.sequences, self.found, self.taken, self.shared = sequences, {}, {}, set()

    def of(self, ledger):
        if ledger not in self.found:
            count, at = len(svg.LIGHT['ledgers']), self.sequences.get(ledger, ())
            taken = {it for sequence in at for it in self.taken.get(sequence, ())}
            round_about = [(len(self.found) + place) % count for place in range(count)]
            free = [it for it in round_about if it not in taken]
            self.shared.update([ledger] * (not free))
            self.found[ledger] = (free or round_about)[0]
            for sequence in at:
                self.taken.setdefault(sequence, set()).add(self.found[ledger])
        return self.found[ledger]


class Lanes:
    """What stands in the picture of a story."""

    def __init__(self, story, options, fallback):
        self.story, self.options, self.is_compact = story, options, getattr(options, 'compact', False)
        self.title = story.title or fallback
        self.words, self.shades = Wording(story), Shades(story.sequences_said())
        self.lanes = sorted([*story.network.nodes, *story.network.liars])
        self.fork = self.words.fork
        self.forked = {event.index: event for event, _ in self.fork or ()}
        self.arrived = {event.frame for event in story.events}
        self.shown = [event for event in story.events if self.is_shown(event)]
        self.shorten()
        self.without = self.leave_out_lanes() if self.is_compact and not options.bare else []
        self.fold()
        self.labels = {event.index: self.beside(event) for event in self.shown}

    def is_shown(self, event):
        first, last = self.options.first, self.options.last
        if event.index in self.forked:
            return True
        if first or last:
            return (first or 1) <= event.line <= (last or event.line) and self.tells(event)
        if self.options.brief:
            return self.tells(event)
        count = len(self.story.events)
        return count <= MOST_SHOWN or not FIRST_SHOWN <= event.index < count - LAST_SHOWN

    def shorten(self):
        """Leaves out the middle of what is asked for, if it is too long for a picture; `hidden` are those events."""
        middle = self.shown[FIRST_ASKED:-LAST_ASKED] if len(self.shown) > MOST_ASKED else []
        self.hidden = [event.index for event in middle if event.index not in self.forked]
        left_out = set(self.hidden)
        self.shown = [event for event in self.shown if event.index not in left_out]

    def leave_out_lanes(self):
        """Takes the lanes away at which nothing is shown, and to which no arrow leads: these numbers."""
        used = {event.node for event in self.shown}
        used.update(self.story.sender_of(event) for event in self.shown)
        without = [number for number in self.lanes if number not in used]
        if len(without) == len(self.lanes):
            return []
        self.lanes = [number for number in self.lanes if number in used]
        return without

    def hides(self, first, last):
        """Whether events are hidden from the first index on and before the last one."""
        return bisect.bisect_left(self.hidden, first) < bisect.bisect_left(self.hidden, last)

    def tells(self, event):
        """Whether the event stands in a brief picture; in another one each does."""
        if event.word == 'drop':
            first, last = map(int, event.tokens[1:])
            return not self.options.brief or first <= last and not self.arrived & set(range(first, last + 1))
        return not self.options.brief or event.word in BRIEF or any(event.told(word) for word in BRIEF)

    def colour(self, token):
        if token is None:
            return 'mute'
        return 'ledger%d' % self.shades.of(self.story.names.id_of(token))

    def is_shared(self, token):
        return token is not None and self.story.names.id_of(token) in self.shades.shared

    def subject(self, event):
        """The ledger that an event, or what it sends, is about."""
        inner = schedules.inner_event(event.tokens)
        if inner[0] == 'issue':
            return inner[3]
        if inner[0] == 'lie':
            return {'validation': inner[5:6], 'header': inner[4:5]}.get(inner[3], [None])[0]
        return next((outcome[3] for outcome in event.told('built')), None)

    def subject_of_frame(self, frame):
        event = self.story.events[frame.event]
        return self.subject(event) if frame.kind in ('validation', 'header') else None

    def beside(self, event):
        """What stands beside the event's mark: pairs of words and kind."""
        parts = []
        if self.is_compact and event.word == 'issue':
            pass  # the column of events has it
        elif event.word == 'issue' and not event.is_refused(*schedules.NEVER_SAVED):
            said = self.words.ledger(*event.tokens[2:5])
            parts = [('says ' + said, self.colour(event.tokens[3]))]
        elif event.word == 'cut':
            is_torn = not event.outcomes
            parts = [('cut; %s number kept' % event.tokens[1] if is_torn else 'opened anew', 'mute')]
        elif event.word == 'restart':
            parts = [('restarts', 'mute')]
        elif event.word == 'list' and not event.told('refused'):
            parts = [('trusts ' + self.words.quorum(event.tokens), 'ink')]
        for outcome in event.outcomes:
            if self.is_second_copy(event, outcome):
                continue
            kind = {'refused': 'mute', 'preferred': 'ink', 'heard': 'ink'}.get(outcome[0]) or self.colour(outcome[3])
            parts.append((self.words.outcome(outcome), 'bold ' * (outcome[0] == 'full') + kind))
        return parts

    def is_second_copy(self, event, outcome):
        """Whether a known header came once more, as each builder's does: the mark says enough."""
        return outcome[0] == 'refused' and outcome[3] == '16' and event.word == 'deliver'

    def is_idle(self, event):
        return event.word == 'timer' and not event.sent and not event.outcomes

    def fold(self):
        """By the index of its first, how many timers of one line say nothing, one after the other."""
        self.folded, first = {}, None
        for event in self.shown:
            if not self.is_idle(event):
                first = None
            elif first is not None and first.line == event.line:
                self.folded[first.index] += 1
                self.folded[event.index] = 0
            else:
                first = event
                self.folded[event.index] = 1

    def phrase(self, event):
        count = self.folded.get(event.index, 1)
        if count > 1:
            return '%d timers: all wait' % count
        if not self.is_compact:
            return self.words.phrase(event)[:44]
        words = self.short_phrase(event) or self.words.phrase(event)
        return words if len(words) <= MOST_PHRASE else words[: MOST_PHRASE - 1] + '…'

    def short_phrase(self, event):
        """What arrives in few words: from whom, to whom, and what it says."""
        if event.word == 'lie':
            return '%s ⇢ %s: %s' % (event.tokens[1], event.tokens[2], self.words.lie(event.tokens, ''))
        if event.word != 'deliver':
            return None
        frame = self.story.frames[event.frame - 1]
        sent = self.story.events[frame.event]
        said, what = schedules.inner_event(sent.tokens), KINDS.get(frame.kind, frame.kind)
        if frame.kind == 'validation' and said[0] == 'issue':
            what = self.words.ledger(*said[2:5])
        elif frame.kind in ('validation', 'header'):
            built = [(it[2], it[3], it[4]) for it in sent.told('built')]
            what = self.words.ledger(*built[0]) if built and frame.kind == 'validation' else what
        return '%d → %d: %s' % (frame.sender, frame.receiver, what)

    def when(self, moment):
        """The moment, or the time since the first event where the numbers are long."""
        first = self.story.events[0].moment
        if first < FAR or moment == first:
            return seconds(moment)
        return ('+' if moment > first else '−') + seconds(abs(moment - first))

    def longest(self, measure, least=0):
        return max([measure(event) for event in self.shown] + [least])
