"""What the tools say of codes, events, outcomes and ends, in words. docs/FORMATS.md says what they mean exactly."""
import refusals
import schedules

# why a node refuses: in two or three words for a picture, and as a sentence on the node; {0} is the first value
REFUSALS = {
    1: ('no frame', 'the bytes begin no frame: byte {0} is another than it must be'),
    2: ('version', 'the frame says version {0}, and only 1 and 2 are known'),
    3: ('kind', 'there is no frame of kind {0} in its version'),
    4: ('length', 'a frame of kind {0} in its version never has a body of {1} bytes'),
    5: ('flags', 'a validation says 1 for full or 0 for partial, and this one says {0}'),
    6: ('order', 'the ids of the set don\'t rise at place {0}'),
    7: ('count', 'the set says that it has {0} ids, and its length says otherwise'),
    8: ('not for me', 'the frame is for {0}'),
    9: ('stranger', 'the frame is from {0}, who is itself or not on its list'),
    10: ('bad tag', 'the tag isn\'t the one that sender and receiver share, so someone else sealed it'),
    16: ('known', 'it knows the ledger {0} already'),
    17: ('no parent', 'it doesn\'t know the ledger {0}, which this one follows'),
    18: ('wrong number', 'the ledger says sequence {1}, and its parent has {0}'),
    19: ('no room', 'it has room for {0} ledgers and no more'),
    20: ('stale', 'the validation was signed in second {1}, and it is second {0}'),
    21: ('repeat', 'it holds just this word already, on {0}'),
    22: ('conflict', 'it holds another word of this member on the same sequence, for {0}, and the first word stays'),
    23: ('old', 'it has taken a word of this member on sequence {0} before'),
    24: ('pending', 'the transaction {0} is pending there already'),
    25: ('pool full', '{0} transactions are pending there, and more may not be'),
    26: ('wrong ledger', 'the proposal builds on another ledger than its round, which is on {0}'),
    27: ('old position', 'it has a position of this member with propose sequence {0} already'),
    28: ('left', 'member {0} left this round'),
    29: ('stale', 'the proposal is 20 seconds old or older in second {0}'),
    30: ('not after {0}', 'it may speak only of what comes after sequence {0}, the number that it kept'),
    31: ('save of {0} failed', 'its save of {0} failed, so it says nothing until it is opened anew'),
    32: ('save failed', 'its save failed, so it doesn\'t know what it kept (fault {0} of its keeper)'),
    45: ('too short', 'the bytes end within the frame, and {0} lack'),
    46: ('too long', '{0} bytes follow the frame'),
    48: ('no key', 'it has no key for {0}, a member of the new list, so its list stays'),
}
# why a line of a schedule is refused; {0} is the token
REFUSED_LINES = {
    33: 'line 1 must be “xl-schedule 1”, and begins with “{0}”',
    34: 'the line has more than {0} bytes',
    35: 'there are more than {0} lines, names, or lists that change',
    36: '“{0}” is no word of a line',
    37: 'no line of this word has {0} words',
    38: '“{0}” is no number that may stand there',
    39: '“{0}” is no id, ledger or new name that may stand there',
    40: '“{0}” is none of the words that may stand there',
    41: '“{0}” was declared before',
    42: 'a “{0}” line must stand before the first event',
    43: 'the list or its quorum is wrong by {0} (11 is no member, 12 too many, 13 one twice, 14 no such quorum, '
    '15 no member\'s number)',
    44: '“{0}” isn\'t declared, or no such frame is sent yet',
}
MOST_PAIRS = 9  # so many are named one by one
NONE_SHORT = 'No pair of nodes is short: every two quorums share an honest member.'
NONE_SHORT_OF_BRANCHES = (
    'No pair of nodes is short, which keeps reports of one sequence alike; it keeps no two sequences on one branch.'
)
OF_ONE_SEQUENCE = 'This speaks of ledgers of one sequence, and of runs in which no message is forged.'
VERDICTS = {
    'branches': 'Two branches: no two reports of one sequence differ, but reports of two sequences contradict each other.',
    'quiet': 'Nothing is reported, so no two reports differ.',
    'agree': 'Agreed: no two reports of one sequence differ.',
}
WARNING = (
    'Warning, two branches: {0} reports {1} (line {2}) and {3} {4} (line {5}), which doesn\'t follow it. '
    'They are of different sequences, so this is no fork of the report, but both can\'t stand in one history.'
)
KINDS = {
    'validation': 'validation',
    'proposal': 'proposal',
    'header': 'ledger\'s header',
    'set': 'set of transactions',
    'tx': 'transaction',
}
BUILT = {'full': 'says so fully', 'partial': 'says so partially', 'none': 'says nothing of it'}
SAID = {'full': '', 'partial': ', partial', 'none': ', says nothing'}


def cause(code, values):
    """Why a node refuses, in two or three words."""
    return REFUSALS.get(int(code), ('', ''))[0].format(*values or ['?'])


def ranges(members):
    """Numbers in words: 1–5, 7, 9."""
    runs = []
    for member in sorted(members):
        if runs and runs[-1][1] == member - 1:
            runs[-1][1] = member
        else:
            runs.append([member, member])
    return ', '.join(str(a) if a == b else '%d%s%d' % (a, ', ' if b == a + 1 else '–', b) for a, b in runs)


def alike_in(pairs):
    """Groups of numbers, of which each two have the same pairs with all others, and with themselves."""
    numbers, there, groups = sorted({it for pair in pairs for it in pair}), {frozenset(pair) for pair in pairs}, []
    for one in numbers:
        for group in groups:
            other = group[0]
            is_alike = all(
                (frozenset((one, it)) in there) == (frozenset((other, it)) in there) for it in numbers if it not in (one, other)
            )
            if is_alike and (frozenset((one,)) in there) == (frozenset((other,)) in there):
                group.append(one)
                break
        else:
            groups.append([one])
    return groups


def pairs_in_words(pairs):
    """Pairs of numbers, one by one; if they are many, those of one group with those of another are named together."""
    if len(pairs) <= MOST_PAIRS:
        return ['%d and %d' % pair if pair[0] != pair[1] else '%d with itself' % pair[0] for pair in pairs]
    there, told, groups = set(pairs), [], alike_in(pairs)
    for place, ours in enumerate(groups):
        with_itself = (ours[0], ours[0]) in there
        if len(ours) > 1 and (ours[0], ours[1]) in there:
            told.append('each two of %s%s' % (ranges(ours), ', and each with itself' * with_itself))
        elif with_itself:
            told.append('%s %swith itself' % (ranges(ours), 'each ' * (len(ours) > 1)))
        for theirs in groups[place + 1 :]:
            if tuple(sorted((ours[0], theirs[0]))) in there:
                told.append('%s with %s' % (ranges(ours), ranges(theirs)))
    return told


def capital(said):
    return said[:1].upper() + said[1:]


def seconds(moment):
    return '{:,.12g} s'.format(moment / 1000)


def fork_of(story):
    """The two reports that the report's last line names as a fork: pairs of an event and its outcome, or None."""
    if not story.report.fork:
        return None
    sequence, one, its, other, theirs = story.report.fork
    told = [(event, outcome) for event in story.events for outcome in event.told('full')]
    of = lambda *words: next(it for it in told if (*it[1][1:3], story.names.id_of(it[1][3])) == words)
    return of(one, sequence, story.names.id_of(its)), of(other, sequence, story.names.id_of(theirs))


class Wording:
    """What is said of each event, in words."""

    def __init__(self, story):
        self.story, self.names = story, story.names
        self.fork = fork_of(story)
        self.branches = story.two_branches()

    def kind(self):
        """How the run ended: `bad`, `fork`, `branches`, `quiet` if nothing is reported, or `agree`."""
        if self.story.report.bad:
            return 'bad'
        if self.fork:
            return 'fork'
        is_quiet = not any(event.told('full') for event in self.story.events)
        return 'branches' if self.branches else 'quiet' if is_quiet else 'agree'

    def ledger(self, sequence, token, flag='full'):
        return '%s #%s%s' % (self.names.short(token), sequence, ', partial' * (flag == 'partial'))

    def phrase(self, event):
        """What happens, for the column of events."""
        tokens = event.tokens
        if event.word in ('cut', 'fail'):
            return self.torn(event, schedules.inner_event(tokens))
        if event.word == 'timer':
            return self.timer(event)
        if event.word == 'issue':
            verb = 'tries to say' if event.is_refused(*schedules.NEVER_SAVED) else 'says'
            return '%d %s %s' % (event.node, verb, self.ledger(*tokens[2:5]))
        if event.word == 'deliver':
            frame = self.story.frames[event.frame - 1]
            return 'frame %d, %d to %d: %s' % (event.frame, frame.sender, frame.receiver, frame.kind)
        if event.word == 'lie':
            return '%s to %s alone: %s' % (tokens[1], tokens[2], self.lie(tokens))
        if event.word == 'drop':
            return (
                'drops frames %s to %s' % tuple(tokens[1:]) if int(tokens[1]) <= int(tokens[2]) else 'nothing to drop'
            )
        words = {
            'restart': '%d restarts',
            'raw': 'raw bytes reach %d',
            'prefer': 'asks what %d prefers',
            'heard': 'asks what %d has heard',
            'list': '%d trusts ' + self.quorum(tokens),
            'submit': '%d gets a transaction',
            'greet': '%d greets ' + tokens[-1],
        }
        return words[event.word] % event.node

    @staticmethod
    def quorum(tokens):
        """The list of a `list` line."""
        if tokens[0] != 'list':
            return ''
        quorum, members = schedules.list_of(tokens)
        return '%d of %s' % (quorum, ranges(members))

    def torn(self, event, inner):
        if inner[0] == 'timer':
            return ('%d is cut off in a timer' if event.word == 'cut' else "%d's timer, its save fails") % event.node
        return ('%d is cut off saving %s' if event.word == 'cut' else "%d's save of %s fails") % (event.node, inner[2])

    def timer(self, event):
        kinds = [frame.kind for frame in event.sent]
        did = (
            'builds'
            if event.told('built')
            else 'switches'
            if event.told('switched')
            else ('proposes' if 'proposal' in kinds else 'waits')
        )
        return "%d's timer: %s" % (event.node, did)

    def lie(self, tokens, verb='says '):
        if tokens[3] == 'validation':
            more = ', reported ' + self.names.short(tokens[8]) if len(tokens) > 8 else ''
            return verb + self.ledger(tokens[4], tokens[5], tokens[7]) + more
        return 'header of ' + self.names.short(tokens[4]) if tokens[3] == 'header' else 'a ' + tokens[3]

    def outcome(self, outcome):
        """What came of it, for the label beside its mark."""
        word = outcome[0]
        if word == 'refused':
            return '%s %s' % (outcome[3], cause(outcome[3], outcome[4:]))
        if word == 'heard':
            return '%s: %s' % (outcome[2], self.names.short(outcome[3]))
        what = self.ledger(outcome[2], outcome[3]) if len(outcome) > 3 else 'none'
        if word == 'built':
            return 'builds ' + what + SAID[outcome[4]]
        return {'full': 'reports ', 'preferred': 'prefers ', 'switched': 'goes on with '}[word] + what

    def who(self, number):
        return ('node %s' if int(number) in self.story.network.nodes else 'liar %s') % number

    def said(self, event):
        """What happens, as a sentence without its full stop."""
        tokens, node = event.tokens, event.node
        if event.word in ('cut', 'fail'):
            return self.torn_in_words(event, schedules.inner_event(tokens))
        if event.word == 'timer':
            return self.timer_in_words(event)
        if event.word == 'issue':
            verb = 'tries to say' if event.is_refused(*schedules.NEVER_SAVED) else 'says'
            return 'node %d %s that %s is the ledger of sequence %s%s' % (
                node,
                verb,
                self.names.short(tokens[3]),
                tokens[2],
                ', partially' * (tokens[4] == 'partial'),
            )
        if event.word == 'deliver':
            frame = self.story.frames[event.frame - 1]
            return 'frame %d arrives: a %s from %s to %s' % (
                event.frame,
                KINDS[frame.kind],
                self.who(frame.sender),
                self.who(frame.receiver),
            )
        if event.word == 'lie':
            return 'liar %s tells %s alone: %s' % (tokens[1], self.who(tokens[2]), self.lie(tokens, ''))
        if event.word == 'drop':
            is_empty = int(tokens[1]) > int(tokens[2])
            left_out = 'frames %s to %s are left out' % tuple(tokens[1:])
            return 'nothing waits, so nothing is lost' if is_empty else left_out
        if event.word == 'greet':
            return 'node %d greets %s with the headers of its chain' % (node, self.who(tokens[2]))
        words = {
            'restart': 'node %d is opened anew, with the number that its keeper holds',
            'raw': 'bytes from outside reach node %d',
            'prefer': 'node %d is asked which ledger it prefers',
            'heard': 'node %d is asked what its members say that they have reported',
            'list': 'from here on node %d trusts ' + self.quorum(tokens),
            'submit': 'node %d is given the transaction ' + self.names.short(tokens[-1]),
        }
        return words[event.word] % node

    def torn_in_words(self, event, inner):
        node, what = event.node, 'the timer' if inner[0] == 'timer' else 'its save of %s' % inner[2]
        if event.word == 'fail':
            return '%s of node %d fails, and the keeper holds the %s number' % (
                'the save in the timer' if inner[0] == 'timer' else 'the save of %s' % inner[2],
                node,
                event.tokens[1],
            )
        if event.outcomes:
            return 'node %d was to be cut off, but asked no save: it is opened anew behind the event' % node
        return 'node %d is cut off in %s, and opened anew with the %s number' % (node, what, event.tokens[1])

    def timer_in_words(self, event):
        kinds = [frame.kind for frame in event.sent]
        if event.told('built'):
            did = 'its round is ready, and it builds the next ledger'
        elif event.told('switched'):
            did = 'it leaves its round for the ledger that the votes prefer'
        elif 'proposal' in kinds:
            did = 'it says its position%s' % (' and its set' * ('set' in kinds))
        else:
            did = 'it has nothing to say'
        return 'node %d has a timer: %s' % (event.node, did)

    def tell(self, outcome):
        """What came of an event, as a whole sentence."""
        word, node = outcome[0], outcome[1 + (outcome[0] == 'refused')]
        if word == 'refused':
            values = [self.names.short(value) for value in outcome[4:]]
            code = int(outcome[3])
            why = REFUSALS[code][1].format(*values) if code in REFUSALS else 'cause %d' % code
            return 'Node %s refuses: %s.' % (node, why)
        if word == 'heard':
            return 'Node %s %s.' % (node, self.heard(outcome[2], outcome[3]))
        what = self.ledger(outcome[2], outcome[3]) if len(outcome) > 3 else None
        if word == 'built':
            return 'Node %s builds %s and %s.' % (node, what, BUILT[outcome[4]])
        if word == 'full':
            return 'Node %s reports %s as final.' % (node, what)
        if word == 'switched':
            return 'Node %s goes on with %s, which its members\' votes prefer.' % (node, what)
        return 'Node %s prefers %s.' % (node, what or 'no ledger yet')

    def heard(self, member, token):
        if token == 'none':
            return 'holds no current word of %s that says what it has reported' % member
        if self.names.id_of(token) == '0' * 64:
            return 'holds a word of %s, who had reported nothing when it said that' % member
        return 'holds a word of %s, who had reported %s when it said that' % (member, self.names.short(token))

    def verdict(self):
        if self.story.report.bad:
            line, code, token = self.story.report.bad
            why = refusals.why(self.story.lines, line, code, token)
            return 'Line %s is refused (code %s), and the run ends there: %s%s' % (line, code, why, '.' * (why[-1] != '?'))
        if self.fork:
            (_, one), (_, other) = self.fork
            short = self.story.names.short
            return 'Fork at #%s: node %s reports %s, node %s reports %s.' % (
                one[2],
                one[1],
                short(one[3]),
                other[1],
                short(other[3]),
            )
        return VERDICTS[self.kind()]

    def warnings(self, most):
        """Of reports on two branches, one node's first; so many of them."""
        found = [self.warning(*pair) for pair in self.branches[:most]]
        more = len(self.branches) - len(found)
        return found + ['And %d more such pair%s.' % (more, '' if more == 1 else 's')] * bool(more)

    def warning(self, low, high):
        return WARNING.format(
            self.who(low.node),
            self.ledger(low.sequence, low.ledger),
            low.event.line,
            'itself' if low.node == high.node else self.who(high.node) + ' reports',
            self.ledger(high.sequence, high.ledger),
            high.event.line,
        )

    def notes(self):
        report, groups = self.story.report, {}
        if report.bad:
            return []
        for one, other, total, bound in report.short:
            groups.setdefault((total, bound), []).append((one, other))
        notes = [
            'Short: quorums together %d, must exceed %d: %s.' % (*sums, '; '.join(pairs_in_words(pairs)))
            for sums, pairs in groups.items()
        ]
        notes = notes or [NONE_SHORT_OF_BRANCHES if self.branches else NONE_SHORT]
        frames = '%d frame%s forged: nothing is promised.' % (report.forged, '' if report.forged == 1 else 's')
        return notes + [frames] * bool(report.forged)
