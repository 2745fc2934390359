"""Lists, and tries over them: schedules made by chance in which two camps vote for different ledgers.

What is said may be lost, late or repeated, nodes restart, saves are cut, and liars tell each camp its own ledger."""
import collections

import command
import refusals
import schedules
from beside import Beside
from slack import slacks

READ = ('xl-schedule', 'node', 'liar', 'limit', 'at', 'name')
LAST_MOMENT, LAST_SECOND = 4 * 10**12, 2**32 - 1
TORN = (('cut', 'old'), ('cut', 'new'), ('fail', 'old'), ('fail', 'new'))


def declarations(text):
    """The declarations of nodes and liars, also of a whole schedule: the tokens of each line by its number.

    The second is how often each other word of a line stands there; any further word ends the tool."""
    found, left_out = {}, collections.Counter()
    for number, line in enumerate(schedules.read_lines(text), 1):
        tokens = line.split()
        if schedules.is_passed_over(tokens):
            continue
        if tokens[0] in READ:
            found[number] = tokens
        elif tokens[0] in refusals.WORDS:
            left_out[tokens[0]] += 1
        else:
            command.stop(refusals.told(text, (number, 36, refusals.printed(tokens[0]))))
    return found, left_out


def stop_where_refused(text, program):
    """Says which declaration the program refuses, by its number in the given text."""
    found, _ = declarations(text)
    lines = {number: ' '.join(tokens) for number, tokens in found.items() if tokens[0] != 'xl-schedule'}
    report = schedules.run_replay(program, '\n'.join(['xl-schedule 1', *lines.values()]) + '\n', command='lists')
    schedules.stop_on_problem(program, report)
    if report.bad:
        line, *cause = report.bad
        command.stop(refusals.told(text, (list(lines)[int(line) - 2], *cause), 'lists'))


class Lists:
    """The declarations, and which pairs are the tightest."""

    def __init__(self, text, program, as_declared=False):
        self.network, self.names, self.moment = schedules.Network(), [], 1000
        self.program, self.lines, self.numbers = program, [], []
        found, self.left_out = declarations(text)
        for number, tokens in found.items():
            self.take(number, tokens)
        for name, digit in (('x', '1'), ('y', '2')):
            if len(self.names) < 2 and name not in self.names:
                self.take(0, ['name', name, digit * 64])
        self.declared = [] if as_declared else self.declare_members()
        self.slack = {pair: slack for pair, slack in sorted(slacks(program, self.network).items()) if pair[0] <= pair[1]}
        if not self.slack:
            command.stop('there is no node in the lists')
        self.least = min(self.slack.values())
        self.tight = [pair for pair in self.slack if self.slack[pair] == self.least]
        self.short = [pair for pair in self.slack if self.slack[pair] <= 0]
        self.silent = self.undeclared()

    def undeclared(self):
        """The listed members that are neither nodes nor liars."""
        listed = {member for node in self.network.nodes.values() for member in node.members}
        return sorted(listed - {*self.network.nodes, *self.network.liars})

    def declare_members(self):
        """Declares each of them with the list of the first node that trusts it: pairs of the two."""
        given, told = list(self.network.nodes.items()), []
        for member in self.undeclared():
            number, node = next(pair for pair in given if member in pair[1].members)
            self.take(0, ['node', str(member), str(node.quorum), ','.join(map(str, node.members))])
            told.append((member, number))
        return told

    def mute(self):
        """The nodes that report nothing even if all say one ledger, and everybody hears it."""
        nodes, liars, name, second = sorted(self.network.nodes), self.network.liars, self.names[0], self.moment // 1000
        lines = ['xl-schedule 1', *self.lines, *('issue %d 1 %s full' % (it, name) for it in nodes), 'all']
        lines += ['lie %d %d validation 1 %s %d full' % (liar, node, name, second) for liar in liars for node in nodes]
        report = schedules.run_replay(self.program, '\n'.join([*lines, '']))
        schedules.stop_on_problem(self.program, report)
        told = {int(it[1]) for it in report.outcomes if it[0] == 'full'}
        return [it for it in nodes if it not in told]

    def take(self, number, tokens):
        self.network.declare(tokens)
        if tokens[0] == 'at':
            self.moment = int(tokens[1])
        elif tokens[0] == 'name':
            self.names.append(tokens[1])
        if tokens[0] != 'xl-schedule':
            self.lines.append(' '.join(tokens))
            self.numbers.append(number)


class Sent(Beside):
    """Whom each frame of a try was sent to, as `xl tell` says it: a try names frames by their numbers."""

    def __init__(self, lists):
        super().__init__(lists.program)
        self.program, self.node, self.taken = lists.program, min(lists.network.nodes), 0
        self.receivers, self.has_news = [], False

    def after(self, lines):
        """The receivers of all frames that these lines send. A refused line ends the try's own run too, which is said then."""
        if self.has_news:
            for line in lines[self.taken :]:
                self.put(line)
            self.receivers += [int(words[3]) for words in self.ask(self.node) if words[0] == b'sent']
            self.taken, self.has_news = len(lines), False
        return self.receivers

    def end(self):
        schedules.stop_on_problem(self.program, schedules.Report(self.close(), ''))


class Weather:
    """How likely it is, in one try, that things go wrong.

    Of ten tries four are calm, since a fork by one vote needs every message. Without restarts no node is opened anew,
    and no save is cut off or fails."""

    def __init__(self, dice, restarts=True):
        calm = dice.random() < 0.4
        some = lambda *chances: 0 if calm else dice.choice(chances)
        self.loss, self.repeat = some(0, 0, 0.03, 0.15), some(0, 0.1, 0.4)
        self.restart, self.torn = some(0, 0.1, 0.3), some(0, 0.15, 0.4)
        self.early, self.flip = some(0, 0.3), some(0, 0, 0.1)
        self.restarts = restarts
        if not restarts:
            self.restart = self.torn = 0


class Try:
    """One schedule. Which of its frames there are by a line is asked of the program."""

    def __init__(self, lists, dice, heading, restarts=True):
        self.lists, self.dice, self.weather = lists, dice, Weather(dice, restarts)
        self.lines, self.moment = ['xl-schedule 1', '# ' + heading, *lists.lines], lists.moment
        self.sent = Sent(lists)
        sequence = dice.choice((1, 1, 1, 5))
        for _ in range(dice.choice((1, 1, 2, 3))):
            self.hold_round(*self.choose_pair(), sequence)
            sequence += dice.choice((1, 1, 2))
            if self.happens(0.5):
                self.go_to(self.moment + dice.choice((1, 1000, 4000, 200000)))
        self.sent.end()

    @property
    def receivers(self):
        """Whom each frame was sent to by now."""
        return self.sent.after(self.lines)

    def text(self):
        return '\n'.join(self.lines) + '\n'

    def happens(self, chance):
        return chance > 0 and self.dice.random() < chance

    def choose_pair(self):
        if self.happens(0.6):
            return self.dice.choice(self.lists.tight)
        return self.dice.choice(self.lists.short if self.lists.short and self.happens(0.5) else list(self.lists.slack))

    def go_to(self, moment):
        self.moment = max(0, min(moment, LAST_MOMENT))
        self.lines.append('at %d' % self.moment)

    def restart(self, node):
        self.lines.append('restart %d' % node)

    def issue(self, node, sequence, name, flag='full', torn=()):
        self.lines.append(' '.join([*torn, 'issue %d %d %s %s' % (node, sequence, name, flag)]))
        self.sent.has_news = True

    def vote(self, node, sequence, ours, other):
        """One node's vote, and what may go wrong around it."""
        dice, weather = self.dice, self.weather
        if self.happens(weather.torn):
            torn = dice.choice(TORN)
            self.issue(node, sequence, dice.choice((ours, other)), torn=torn)
            if torn[0] == 'fail' and self.happens(0.7):
                self.restart(node)
        self.issue(node, sequence, ours, 'partial' if self.happens(weather.flip) else 'full')
        if self.happens(weather.restart):
            self.restart(node)
        if self.happens(weather.torn + weather.restart):  # a second word, which the node must refuse
            self.issue(node, sequence, other, torn=dice.choice(((), (), ('cut', 'old'), ('fail', 'old'))))

    def camps(self, one, other, names):
        """For whom each node votes: members of one list alone for its ledger, and the rest by chance."""
        nodes, dice = self.lists.network.nodes, self.dice
        ours, theirs = set(nodes[one].members), set(nodes[other].members)
        middle = [node for node in nodes if (node in ours) == (node in theirs)]
        dice.shuffle(middle)
        first_half = middle[: dice.randint(0, len(middle))]
        votes = {
            node: names[0] if node in first_half or (node in ours and node not in theirs) else names[1]
            for node in nodes
        }
        for node in nodes:
            if self.happens(self.weather.flip / 2):
                votes[node] = dice.choice(names)
        return votes

    def hold_round(self, one, other, sequence):
        names = self.dice.sample(self.lists.names, 2)
        against = dict(zip(names, names[::-1]))
        votes = self.camps(one, other, names)
        told = {**votes, other: names[1], one: names[0] if one != other else self.dice.choice(names)}
        first, order = len(self.receivers), list(votes)
        self.dice.shuffle(order)
        for node in order:
            self.vote(node, sequence, votes[node], against[votes[node]])
            if self.happens(self.weather.early) and len(self.receivers) > first:
                self.lines.append('deliver %d' % self.dice.randint(first + 1, len(self.receivers)))
        self.hear(first, sequence, told, against)
        again = [node for node in sorted(votes) if self.lives_again(node, one, other)]
        for node in again:
            self.restart(node)
        if again:  # in the new life the liars take the other side
            self.hear(first, sequence, {node: against[told[node]] for node in again}, against)

    def lives_again(self, node, one, other):
        if not self.weather.restarts:
            return False
        is_aimed_at = node in (one, other) and (one == other or self.happens(0.3))
        return is_aimed_at or self.happens(self.weather.restart)

    def hear(self, first, sequence, told, against):
        """The nodes in `told` hear what was said in the round, and from the liars what `told` says."""
        events = []
        for place, receiver in list(enumerate(self.receivers))[first:]:
            if receiver in told and not self.happens(self.weather.loss):
                events += ['deliver %d' % (place + 1)] * (2 if self.happens(self.weather.repeat) else 1)
        if first and self.happens(self.weather.repeat):
            events += ['deliver %d' % self.dice.randint(1, first) for _ in range(3)]
        for node, name in told.items():
            for liar in set(self.lists.network.liars) & set(self.lists.network.nodes[node].members):
                events += self.lies(liar, node, sequence, name, against[name])
        self.dice.shuffle(events)
        if self.happens(0.1):
            self.go_to(self.moment + self.dice.choice((-500, 500, 1000)))
        self.lines += events

    def lies(self, liar, node, sequence, name, other):
        if self.happens(self.weather.loss):
            return []
        away = self.dice.choice((-1, 0, 1, 170, -290, -400)) if self.happens(self.weather.flip) else 0
        signed = max(0, min(self.moment // 1000 + away, LAST_SECOND))
        names = [name, other] if self.happens(self.weather.repeat) else [name]
        return ['lie %d %d validation %d %s %d full' % (liar, node, sequence, it, signed) for it in names]
