"""The page of a fork: who reported what, and the two frames of each member that said both. No script, and no request."""
from html import escape

import audit_page
import rolls
import words as plain

# How many forks, and how many members that said two ledgers without a fork, are shown with their frames.
MOST_SHOWN = 20
TAG = 32
# Where a validation's parts stand, by what each is; a frame of version 2 has the last one too.
PARTS = [
    ('version', 2, 3),
    ('sender', 6, 10),
    ('receiver', 10, 14),
    ('ledger', 14, 46),
    ('sequence', 46, 50),
    ('signed', 50, 54),
    ('vote', 54, 55),
    ('last reported', 55, 87),
]
STYLE = """
section{border-top:1px solid var(--lane);margin-top:30px}
.pair{display:grid;grid-template-columns:repeat(auto-fit,minmax(min(100%,420px),1fr));gap:12px 20px;margin:14px 0}
.card{border:1px solid var(--lane);border-radius:8px;padding:10px 14px;min-width:0}
.card h4{margin:0 0 6px;font-size:15px}.card.one{border-left:5px solid var(--one)}.card.other{border-left:5px solid var(--other)}
:root{--one:#1f5fbf;--other:#b05a00}@media (prefers-color-scheme:dark){:root{--one:#6ea8ff;--other:#f0a045}}
.id.one{color:var(--one)}.id.other{color:var(--other)}.id{font-weight:600;font-family:ui-monospace,"DejaVu Sans Mono",monospace}
dl{display:grid;grid-template-columns:max-content minmax(0,1fr);gap:3px 14px;margin:0}dt{color:var(--mute)}
dd{margin:0;overflow-wrap:anywhere;font-variant-numeric:tabular-nums}
.bytes{font:12.5px/1.5 ui-monospace,"DejaVu Sans Mono",monospace;overflow-wrap:anywhere;margin:8px 0 0}
mark{background:color-mix(in srgb,var(--red) 24%,var(--paper));color:inherit}h3{margin:24px 0 4px;font-size:16px}
@media print{.card,section h2{break-inside:avoid}}
"""
SAYS = """<p class="about">A name says: this member said both, or the owner of one of the two journals wrote a frame itself. Tags
are made with a key that both ends of a link have, so a name is no proof for somebody else. It is proved that a member that
keeps the rules is never named, unless a tag of its was forged. It is proved too that at least so many members of both lists are
named as both quorums exceed both sizes without the overlap. The tags' 32 bytes are left out here.</p>
"""


def moment_of(words):
    """When an entry came, in words: its moment is in milliseconds."""
    return rolls.day_of(int(words[1]) // 1000) + ' UTC'


class Page:
    """What `xl blame` said of journals, with their entries and the names of their files."""

    def __init__(self, blame, entries, names):
        self.blame, self.entries, self.names = blame, entries, names

    def name(self, journal):
        return self.names[journal - 1]

    def owner(self, report):
        return 'node %d' % self.blame.node(report.journal)

    def title(self):
        forks, twice = self.blame.forks, self.blame.twice
        if forks:
            one, other = forks[0].one, forks[0].other
            words = forks[0].sequence, self.owner(one), one.id[:8], self.owner(other), other.id[:8]
            return 'A fork at sequence %d: %s reports %s…, and %s %s…' % words
        if twice:
            return 'Member %d said two ledgers of sequence %d, and no two reports differ' % (twice[0].member, twice[0].sequence)
        return 'Nobody said two ledgers of one sequence'

    def verdict(self):
        members = sorted({it.member for it in self.blame.twice})
        if self.blame.mixed:
            return 'short', 'Two journals have two keys where there should be one, so nobody is named.'
        if members:
            return 'short', 'Both ledgers were said by %s.' % ('member ' if len(members) == 1 else 'members ') + plain.ranges(members)
        return 'ok', 'No member is named.'

    def journals(self):
        """The table of journals, and of which of their frames the senders' journals have."""
        rows = []
        for it in self.blame.journals:
            judged = 'all %d entries are right' % it.entries if it.is_right else 'entry %d isn\'t right' % it.entries
            rows.append(('%d' % it.journal, self.name(it.journal), 'node %d' % it.node, judged))
        parts = [audit_page.table('The journals', ['journal', 'file', 'of', 'the auditor says'], rows)]
        if self.blame.heard:
            told = '%d frames were heard with a right tag, and %d of them stand in a journal of their sender.' % self.blame.heard
            parts.append('<p class="about">%s</p>' % told)
        return parts

    def parts(self):
        kind, told = self.verdict()
        parts = ['<p class="verdict %s">%s</p>' % (kind, escape(told)), SAYS, *self.journals()]
        shown = set()
        for fork in self.blame.forks[:MOST_SHOWN]:
            parts.append(self.fork(fork))
            shown |= {(it.sequence, it.member) for it in self.blame.named(fork)}
        if len(self.blame.forks) > MOST_SHOWN:
            parts.append('<p>And %d forks more, which xl blame lists.</p>' % (len(self.blame.forks) - MOST_SHOWN))
        others = [it for it in self.blame.twice if (it.sequence, it.member) not in shown]
        if others:
            parts.append('<section><h2>Who else said two ledgers</h2>')
            parts += [self.member(it, None) for it in others[:MOST_SHOWN]]
            if len(others) > MOST_SHOWN:
                parts.append('<p>And %d times more, which xl blame lists.</p>' % (len(others) - MOST_SHOWN))
            parts.append('</section>')
        return parts

    def fork(self, fork):
        """Two reports that differ, and who said both ledgers."""
        both = set(fork.one.members) & set(fork.other.members)
        head = '<section><h2>Sequence %d: two reports differ</h2>' % fork.sequence
        pair = self.report(fork.one, 'one', both) + self.report(fork.other, 'other', both)
        told = 'Both lists have %s. At least %d of them must have said both ledgers, and %d are shown.'
        words = ('nobody in common' if not both else 'member%s %s' % ('s' * (len(both) > 1), plain.ranges(both)), fork.least, fork.shown)
        named = ''.join(self.member(it, fork) for it in self.blame.named(fork))
        return '%s<div class="pair">%s</div><p>%s</p>%s</section>' % (head, pair, told % words, named)

    def report(self, report, kind, both):
        alone = sorted(set(report.members) - both)
        facts = [
            ('ledger', '<span class="id %s">%s</span>' % (kind, report.id)),
            ('quorum', '%d of %d' % (report.quorum, len(report.members))),
            ('on this list alone', plain.ranges(alone) or 'nobody'),
            ('on both', plain.ranges(both) or 'nobody'),
            ('where', 'entry %d of %s' % (report.entry, escape(self.name(report.journal)))),
            ('when', moment_of(self.entries.words(report.journal, report.entry))),
        ]
        return card(kind, '%s reports' % self.owner(report).capitalize(), facts, '')

    def member(self, twice, fork):
        """The two words of a member. In a fork each has the colour of the report that has its ledger."""
        kinds = ['one', 'other']
        if fork and twice.one.id == fork.other.id:
            kinds.reverse()
        frames = [self.frame(it) for it in (twice.one, twice.other)]
        cards = ''.join(
            self.word(twice, word, kind, frame, other)
            for word, kind, frame, other in zip((twice.one, twice.other), kinds, frames, reversed(frames))
        )
        return '<h3>Member %d said both, of sequence %d</h3><div class="pair">%s</div>' % (twice.member, twice.sequence, cards)

    def frame(self, word):
        """The frame of a word, without its tag; None if the journal's own node said it."""
        words = self.entries.words(word.journal, word.entry)
        return bytes.fromhex(words[2])[:-TAG] if words[0] == 'frame' else None

    def word(self, twice, word, kind, frame, other):
        node, name = self.blame.node(word.journal), self.name(word.journal)
        facts = [('ledger', '<span class="id %s">%s</span>' % (kind, word.id))]
        facts += frame_facts(frame) if frame else []
        facts.append(('where', 'entry %d of %s' % (word.entry, escape(name))))
        facts.append(('when', moment_of(self.entries.words(word.journal, word.entry))))
        facts += self.own(self.blame.answer(twice, word)) if frame else []
        head = 'To node %d' % node if frame else 'Node %d says it itself' % node
        return card(kind, head, facts, '<p class="bytes">%s</p>' % marked(frame, other) if frame else '')

    def own(self, answer):
        """What the member's own journal says of its frame, if it was read."""
        if not answer:
            return []
        name = escape(self.name(answer.journal))
        told = 'entry %d of %s gave this frame' % (answer.entry, name) if answer.entry else '%s has no such frame' % name
        return [('its own journal', told)]

    def text(self):
        return audit_page.page(self.title(), self.parts(), STYLE)


def card(kind, head, facts, more):
    told = ''.join('<dt>%s</dt><dd>%s</dd>' % fact for fact in facts)
    return '<div class="card %s"><h4>%s</h4><dl>%s</dl>%s</div>' % (kind, escape(head), told, more)


def frame_facts(frame):
    """What a validation says, except its ledger."""
    of = {name: frame[first:last] for name, first, last in PARTS}
    number = {name: int.from_bytes(part, 'big') for name, part in of.items()}
    facts = [
        ('sequence', '%d' % number['sequence']),
        ('vote', 'full' if number['vote'] else 'partial'),
        ('signed', rolls.day_of(number['signed']) + ' UTC'),
    ]
    if number['version'] == 2:
        facts.append(('last reported', '<span class="id">%s</span>' % of['last reported'].hex()))
    return facts


def marked(frame, other):
    """The bytes of a frame. What stands otherwise in the other one is marked."""
    parts, last = [], False
    for place, byte in enumerate(frame):
        is_other = bool(other) and other[place : place + 1] != frame[place : place + 1]
        if is_other != last:
            parts.append('<mark>' if is_other else '</mark>')
            last = is_other
        parts.append('%02x' % byte)
    return ''.join(parts) + '</mark>' * last
