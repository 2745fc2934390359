"""The picture of a run: a lane for each node and liar, and time goes down.

An arrow leads from where a frame was sent to where it arrives."""
import math

import svg
from lanes import Lanes
from words import ranges

ROW, MOST_WARNINGS = 26, 2
# a compact picture's words are 9 pixels high in a column of 830, and its lanes stand no nearer than this
WIDEST, NEAREST = 1100, 40
GAP, THIN = 42, 10
LEGEND = {
    'says': '○ a node says something',
    'built': '■ it builds a ledger',
    'full': '● it reports a ledger as final',
    'switched': '◇ it goes over to another ledger',
    'deliver': '→ a message arrives',
    'shared': '–·→ a message on a ledger whose colour another of its sequence has too',
    'lie': '⇢ a lie, told to one node',
    'raw': '⇢ raw bytes from outside',
    'lost': '× a message that never arrives',
    'refused': '– refused, with its code',
    'quiet': '• a node is asked, and says nothing',
    'opened': '// the node is opened anew',
    'list': '□ the node trusts another list',
}


class Timeline(Lanes):
    """The picture of a story."""

    def __init__(self, story, options, fallback):
        super().__init__(story, options, fallback)
        self.used, self.under, self.boxes, self.over, self.texts = set(), [], [], [], []

    def rooms(self):
        """What the labels need left of the first lane and right of the last one."""
        left, right, last = 46, 46, len(self.lanes) - 1
        for event in self.shown:
            if event.node not in self.lanes or not self.labels[event.index]:
                continue
            need, place = svg.width_of(self.labels[event.index]) + 22, self.lanes.index(event.node)
            if self.side(event) < 0:
                left = max(left, need - place * self.gap)
            else:
                right = max(right, need - (last - place) * self.gap)
        return left, right

    def narrow(self, left):
        """Lays the lanes nearer to each other, and labels over lanes, until the picture is as wide as a column."""
        while True:
            room, right = self.rooms()
            width = left + room + self.gap * (len(self.lanes) - 1) + right
            if width <= WIDEST or self.gap <= NEAREST:
                break
            self.gap -= 2
        self.x = {number: left + room + place * self.gap for place, number in enumerate(self.lanes)}
        self.width = max(width, 640)

    def lay_out(self):
        """Where the columns and lanes stand. Moment, line and event stand left of the lanes."""
        self.gap = self.longest(lambda event: svg.width_of(self.labels[event.index]) + 24, 104)
        self.time_x = 16 + self.longest(lambda event: len(self.when(event.moment)) * svg.NARROW)
        self.line_x = self.time_x + 8 + self.longest(lambda event: len(str(event.line)) * svg.STRONG, 24)
        phrase = self.longest(lambda event: len(self.phrase(event)) * 6.6, 40)
        left = self.line_x + 14 + phrase + 12
        if self.is_compact:
            return self.narrow(left)
        room = self.gap - 8 if any(self.needs_left_room(event) for event in self.shown) else 46
        self.x = {number: left + room + place * self.gap for place, number in enumerate(self.lanes)}
        self.width = max(max([*self.x.values(), left]) + self.gap, 640)

    def needs_left_room(self, event):
        return event.node == self.lanes[0] and self.labels[event.index] and self.side(event) < 0

    def side(self, event):
        """The label stands left of the lane where what arrives comes from the right."""
        sender = self.story.sender_of(event)
        return -1 if sender is not None and sender > event.node else 1

    def draw_head(self):
        parts, y = [], 26
        if not self.options.bare:
            parts, y = svg.block(20, 30, self.title, 'bold large ink', self.width - 40, svg.BOLD, 22)
            y += 14
        low = y
        for number in self.lanes:
            more, below = self.lane_head(number, y)
            parts += more
            low = max(low, below)
        parts += [svg.text(self.line_x, y, 'line', 'mute', 'end'), svg.text(self.line_x + 14, y, 'event', 'mute')]
        self.texts += parts
        return low + 16

    def lane_head(self, number, y):
        node = self.story.network.nodes.get(number)
        lines, letters = ['says anything'], int((self.gap - 12) / svg.NARROW)
        if self.is_compact:
            lines = svg.textwrap.wrap(lines[0], letters)
        if node:
            members = svg.textwrap.wrap(ranges(node.members), letters)
            quorum = 'quorum %d of %d:' % (node.quorum, len(node.members))
            if len(quorum) * svg.NARROW > self.gap - 12:
                quorum = ('%d of %d:' if self.is_compact else 'quorum %d/%d:') % (node.quorum, len(node.members))
            lines = [quorum, *members, *['observing'] * node.observes]
        name = ('Node %d' if node else 'Liar %d') % number
        parts = [svg.text(self.x[number], y, name, 'bold ink', 'middle')]
        parts += [svg.text(self.x[number], y + 16 * place, it, 'mute', 'middle') for place, it in enumerate(lines, 1)]
        return parts, y + 16 * len(lines)

    def place_rows(self, top):
        """The height of each event; those that are left out share that of the gap."""
        self.y, before, y = {}, -1, top
        for event in [*self.shown, None]:
            index = event.index if event else len(self.story.events)
            if index > before + 1:
                is_told = not self.options.brief or self.hides(before + 1, index)
                if is_told:
                    self.draw_gap(y + 34, index - before - 1)
                high = GAP if is_told else THIN
                self.y.update((left_out, y + high + 2) for left_out in range(before + 1, index))
                y += high
            before, y = index, y + ROW * (self.folded.get(index) != 0)
            self.y[index] = y
        return y - 4

    def draw_gap(self, y, count):
        self.under.append(svg.box(12, y - 12, self.width - 24, 24, 'soft'))
        words = '%s event%s left out' % (format(count, ','), '' if count == 1 else 's')
        self.over.append(svg.text(self.width / 2, y + 4, words, 'halo mute', 'middle'))

    def draw_lanes(self, top, end):
        for number in self.lanes:
            dash = ' stroke-dasharray="2 4"' if number in self.story.network.liars else ''
            self.under.insert(0, svg.line(self.x[number], top, self.x[number], end, 'lane-line', dash))

    def draw_rows(self):
        moment = None
        for event in self.shown:
            y = self.y[event.index]
            if event.moment != moment:
                moment = event.moment
                self.texts.append(svg.text(self.time_x, y + 4, self.when(moment), 'mute', 'end'))
            if self.folded.get(event.index) != 0:
                self.texts += [
                    svg.text(self.line_x, y + 4, str(event.line), 'mute', 'end'),
                    svg.text(self.line_x + 14, y + 4, self.phrase(event), 'ink'),
                ]
            if event.node is not None:
                self.draw_arrival(event)
                self.draw_mark(event)
                self.draw_label(event)

    def draw_arrival(self, event):
        x, y = self.x[event.node], self.y[event.index]
        room = 12 if event.index in self.forked else 7 if event.told('full') else 1
        if event.word == 'deliver':
            frame = self.story.frames[event.frame - 1]
            colour, dash = self.colour(self.subject_of_frame(frame)), ''
            if self.is_shared(self.subject_of_frame(frame)):
                dash = '11 3 2 3'
                self.used.add('shared')
            self.under.append(svg.arrow(self.x[frame.sender], self.y[frame.event], x, y, colour, dash, room))
        elif event.word == 'lie':
            sender = self.x[int(event.tokens[1])]
            self.under.append(svg.arrow(sender, y - 12, x, y, self.colour(self.subject(event)), '5 4', room))
            self.over.append(svg.dot(sender, y - 12, 2.5, 'mute'))
        elif event.word == 'raw':
            self.under.append(svg.arrow(x - 46, y - 9, x, y, 'mute', '1.5 3', room))
        if event.word in LEGEND:
            self.used.add(event.word)

    def draw_mark(self, event):
        x, y = self.x[event.node], self.y[event.index]
        says = event.word in ('issue', 'submit', 'timer', 'greet') and event.sent
        if event.word in ('restart', 'cut'):
            self.used.add('opened')
            self.over.append(svg.box(x - 7, y - 4, 14, 8, 'paper'))
            self.over += [svg.line(x - 7, y + down, x + 7, y + down - 4, 'mute-line') for down in (-2, 6)]
        elif says and not event.told('built'):
            self.used.add('says')
            self.over.append(svg.dot(x, y, 4.5, 'hole line %s-line' % self.colour(self.subject(event))))
        elif event.word == 'list':
            self.used.add('list')
            self.over.append(svg.box(x - 4.5, y - 4.5, 9, 9, 'hole line mute-line', radius=1))
        elif event.word in ('timer', 'greet', 'prefer', 'heard', 'submit', 'issue', 'fail'):
            self.over.append(svg.dot(x, y, 2.5, 'mute'))
            if not event.told('built') and not event.told('switched'):
                self.used.add('quiet')
        for outcome in event.outcomes:
            self.draw_outcome(event, outcome, x, y)

    def draw_outcome(self, event, outcome, x, y):
        if outcome[0] in LEGEND:
            self.used.add(outcome[0])
        if outcome[0] == 'built':
            self.over.append(svg.box(x - 5, y - 5, 10, 10, self.colour(outcome[3]), radius=1))
        elif outcome[0] == 'full':
            self.over.append(svg.dot(x, y, 7, self.colour(outcome[3])))
        elif outcome[0] == 'switched':
            self.over.append(svg.diamond(x, y, 6, 'hole line %s-line' % self.colour(outcome[3])))
        elif outcome[0] == 'refused' and event.word != 'cut':
            self.over.append(svg.line(x - 6, y, x + 6, y, 'mute-line wide'))

    def draw_label(self, event):
        if not self.labels[event.index]:
            return
        side, is_forked = self.side(event), event.index in self.forked
        x = self.x[event.node] + side * (17 if is_forked else 12)
        down = -5 if event.sent else 4
        for other in (it for index, it in self.forked.items() if is_forked and index != event.index):
            joins_here = (self.x[other.node] - self.x[event.node]) * side > 0
            if joins_here:
                down = -8 if self.y[other.index] > self.y[event.index] else 12
        y, width = self.y[event.index] + down, svg.width_of(self.labels[event.index]) - 8
        self.boxes.append(svg.box(x - width * (side < 0), y - 10, width, 13, 'paper'))
        self.texts.append(svg.spans(x, y, self.labels[event.index], 'end' if side < 0 else 'start'))

    def draw_lost(self):
        """Frames that never arrive, as short open lines: one for each, or one with their number where they are many."""
        lost = {}
        for number, frame in enumerate(self.story.frames, 1):
            if number not in self.arrived and frame.event in self.labels:
                side = 1 if frame.receiver > frame.sender else -1  # the lanes rise, and a compact picture lacks some
                lost.setdefault((frame.event, side), []).append(frame)
        for (index, side), frames in lost.items():
            self.used.add('lost')
            for place, frame in enumerate(frames if len(frames) <= 3 else frames[:1]):
                self.draw_stub(frame, side, place, len(frames) if len(frames) > 3 else 1)

    def draw_stub(self, frame, side, place, count):
        x, y, angle = self.x[frame.sender], self.y[frame.event], 0.4 + 0.35 * place
        end_x, end_y = x + side * 19 * math.cos(angle), y + 19 * math.sin(angle)
        self.under.append(
            svg.line(x, y, end_x, end_y, self.colour(self.subject_of_frame(frame)) + '-line', ' opacity=".7"')
        )
        self.under += [svg.line(end_x - 3, end_y - down, end_x + 3, end_y + down, 'mute-line') for down in (3, -3)]
        if count > 1:
            anchor = 'end' if side < 0 else 'start'
            if self.is_compact:
                width = 6 * svg.NARROW + 4
                self.boxes.append(svg.box(end_x + side * 4 - width * (side < 0), end_y - 6, width, 13, 'paper'))
            self.texts.append(svg.text(end_x + side * 6, end_y + 4, '%d lost' % count, 'halo mute', anchor))

    def draw_fork(self):
        (one, _), (other, _) = self.fork
        ax, ay, bx, by = self.x[one.node], self.y[one.index], self.x[other.node], self.y[other.index]
        part = 11 / (math.hypot(bx - ax, by - ay) or 1)
        self.under.append(
            svg.line(
                ax + part * (bx - ax),
                ay + part * (by - ay),
                bx - part * (bx - ax),
                by - part * (by - ay),
                'red-line wide',
                ' opacity=".75"',
            )
        )
        self.over += [svg.dot(ax, ay, 11, 'line red-line wide'), svg.dot(bx, by, 11, 'line red-line wide')]

    def draw_foot(self, y, verdict, notes):
        kind, parts = 'bold large ' + {'agree': 'ink', 'quiet': 'ink', 'branches': 'amber'}.get(self.words.kind(), 'red'), []
        if not self.options.bare:
            parts, y = svg.block(20, y, verdict, kind, self.width - 40, svg.BOLD, 21)
        legend = [LEGEND[word].replace(' ', '\u00a0') for word in LEGEND if word in self.used]
        for note in (notes + self.brevity()) * (not self.options.bare):
            more, y = svg.block(20, y, note, 'ink', self.width - 40, svg.PLAIN, 18)
            parts += more
        more, y = svg.block(
            20, y + 7, ' '.join(it + '\u00a0' * 5 for it in legend), 'mute', self.width - 40, svg.PLAIN, 18
        )
        self.texts += parts + more
        return y + 8

    def brevity(self):
        """What a brief picture says of what it leaves out."""
        left_out = len(self.story.events) - len(self.shown) - len(self.hidden)
        told = ['Left out: %s events without a build, a report or a switch.' % format(left_out, ',')]
        empty = ['Without a lane, since nothing is shown at them: %s.' % ranges(self.without)] * bool(self.without)
        return told * bool(self.options.brief and left_out) + empty

    def description(self, verdict, notes):
        """What a screen reader reads: the end, and each report."""
        network = self.story.network
        counts = '%d events at %d nodes and %d liars.' % (
            len(self.story.events),
            len(network.nodes),
            len(network.liars),
        )
        reports = [
            'Line %d: node %s %s.' % (event.line, outcome[1], self.words.outcome(outcome))
            for event in self.shown
            for outcome in event.told('full')
        ]
        return ' '.join([counts, verdict, *notes, *reports])

    def draw(self):
        self.lay_out()
        self.top = self.draw_head()
        end = self.place_rows(self.top)
        self.draw_lanes(self.top, end)
        self.draw_rows()
        self.draw_lost()
        if self.fork:
            self.draw_fork()
        verdict, notes = self.words.verdict(), self.words.warnings(MOST_WARNINGS) + self.words.notes()
        height = self.draw_foot(end + 32, verdict, notes)
        return svg.page(
            self.width,
            height,
            self.options.scheme,
            self.title,
            self.description(verdict, notes),
            self.under + self.boxes + self.over + self.texts,
        )
