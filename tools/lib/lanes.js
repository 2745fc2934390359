// What stands in the picture of a run: which lanes and events, and of each its colour and its words, as of
// tools/lib/lanes.py.
'use strict'
const MOST_SHOWN = 100, FIRST_SHOWN = 60, LAST_SHOWN = 40
const MOST_ASKED = 1000, FIRST_ASKED = 600, LAST_ASKED = 400
const FAR = 1e7, MOST_PHRASE = 32
const BRIEF = known.drawing.brief

// A colour for each ledger: they go round, and no two of one sequence have the same, while there are other ones. From the
// eighth ledger of a sequence on its name and the pattern of its arrows tell: these are `shared`.
class Shades {
  constructor(sequences) {
    Object.assign(this, {sequences, found: new Map(), taken: new Map(), shared: new Set()})
  }

  of(ledger) {
    if (!this.found.has(ledger)) this.choose(ledger)
    return this.found.get(ledger)
  }

  choose(ledger) {
    const count = LIGHT.ledgers.length, at = [...this.sequences.get(ledger) ?? []]
    const taken = new Set(at.flatMap(it => this.taken.get(it) ?? []))
    const roundAbout = LIGHT.ledgers.map((_, place) => (this.found.size + place) % count)
    const free = roundAbout.filter(it => !taken.has(it)), chosen = (free.length ? free : roundAbout)[0]
    if (!free.length) this.shared.add(ledger)
    this.found.set(ledger, chosen)
    for (const sequence of at) this.taken.set(sequence, [...this.taken.get(sequence) ?? [], chosen])
  }
}

class Lanes {
  constructor(story, options, fallback) {
    this.story = story
    this.options = options
    this.isCompact = options.compact
    this.title = story.title || fallback
    this.words = new Wording(story)
    this.shades = new Shades(story.sequencesSaid())
    this.lanes = sorted([...story.network.nodes.keys(), ...story.network.liars])
    this.fork = this.words.fork
    this.forked = new Map((this.fork || []).map(([event]) => [event.index, event]))
    this.arrived = new Set(story.events.map(it => it.frame))
    this.shown = story.events.filter(it => this.isShown(it))
    this.shorten()
    this.without = this.isCompact && !options.bare ? this.leaveOutLanes() : []
    this.fold()
    this.labels = new Map(this.shown.map(it => [it.index, this.beside(it)]))
  }

  isShown(event) {
    const {first, last, brief} = this.options, count = this.story.events.length
    if (this.forked.has(event.index)) return true
    if (first || last) return (first || 1) <= event.line && event.line <= (last || event.line) && this.tells(event)
    if (brief) return this.tells(event)
    return count <= MOST_SHOWN || event.index < FIRST_SHOWN || event.index >= count - LAST_SHOWN
  }

  // Leaves out the middle of what is asked for, if it is too long for a picture; `hidden` are those events.
  shorten() {
    const middle = this.shown.length > MOST_ASKED ? this.shown.slice(FIRST_ASKED, -LAST_ASKED) : []
    this.hidden = middle.filter(it => !this.forked.has(it.index)).map(it => it.index)
    const leftOut = new Set(this.hidden)
    this.shown = this.shown.filter(it => !leftOut.has(it.index))
  }

  // Takes the lanes away at which nothing is shown, and to which no arrow leads: these numbers.
  leaveOutLanes() {
    const used = new Set(this.shown.flatMap(it => [it.node, this.story.senderOf(it)]))
    const without = this.lanes.filter(it => !used.has(it))
    if (without.length === this.lanes.length) return []
    this.lanes = this.lanes.filter(it => used.has(it))
    return without
  }

  // Whether events are hidden from the first index on and before the last one.
  hides(first, last) {
    return this.hidden.some(it => first <= it && it < last)
  }

  // Whether the event stands in a brief picture; in another one each does.
  tells(event) {
    if (!this.options.brief) return true
    if (event.word !== 'drop') return BRIEF.includes(event.word) || BRIEF.some(it => event.told(it).length > 0)
    const [first, last] = event.tokens.slice(1).map(Number)
    return first <= last && ![...this.arrived].some(it => first <= it && it <= last)
  }

  colour(token) {
    return token === null ? 'mute' : 'ledger' + this.shades.of(this.story.names.idOf(token))
  }

  isShared(token) {
    return token !== null && this.shades.shared.has(this.story.names.idOf(token))
  }

  // The ledger that an event, or what it sends, is about.
  subject(event) {
    const inner = innerEvent(event.tokens)
    if (inner[0] === 'issue') return inner[3]
    if (inner[0] === 'lie') return {validation: inner[5], header: inner[4]}[inner[3]] ?? null
    const built = event.told('built')
    return built.length ? built[0][3] : null
  }

  subjectOfFrame(frame) {
    return frame.kind === 'validation' || frame.kind === 'header' ? this.subject(this.story.events[frame.event]) : null
  }

  // What stands beside the event's mark: pairs of words and kind.
  beside(event) {
    const of = it => {
      const kind = {refused: 'mute', preferred: 'ink', heard: 'ink'}[it[0]] || this.colour(it[3])
      return [this.words.outcome(it), (it[0] === 'full' ? 'bold ' : '') + kind]
    }
    const begin = this.besideItself(event)
    return [...begin, ...event.outcomes.filter(it => !this.isSecondCopy(event, it)).map(of)]
  }

  besideItself(event) {
    const {word, tokens} = event
    if (word === 'issue' && !this.isCompact && !event.isRefused(...NEVER_SAVED)) {
      return [['says ' + this.words.ledger(...tokens.slice(2, 5)), this.colour(tokens[3])]]
    }
    if (word === 'cut') return [[event.outcomes.length ? 'opened anew' : `cut; ${tokens[1]} number kept`, 'mute']]
    if (word === 'restart') return [['restarts', 'mute']]
    if (word === 'list' && !event.told('refused').length) return [['trusts ' + this.words.quorum(tokens), 'ink']]
    return []
  }

  // Whether a known header came once more, as each builder's does: the mark says enough.
  isSecondCopy(event, outcome) {
    return outcome[0] === 'refused' && outcome[3] === '16' && event.word === 'deliver'
  }

  isIdle(event) {
    return event.word === 'timer' && !event.sent.length && !event.outcomes.length
  }

  // By the index of its first, how many timers of one line say nothing, one after the other.
  fold() {
    this.folded = new Map()
    let first = null
    for (const event of this.shown) {
      if (!this.isIdle(event)) first = null
      else if (first && first.line === event.line) {
        this.folded.set(first.index, this.folded.get(first.index) + 1)
        this.folded.set(event.index, 0)
      } else {
        first = event
        this.folded.set(event.index, 1)
      }
    }
  }

  phrase(event) {
    const count = this.folded.get(event.index) ?? 1
    if (count > 1) return `${count} timers: all wait`
    if (!this.isCompact) return cutTo(this.words.phrase(event), 44)
    const words = this.shortPhrase(event) || this.words.phrase(event)
    return letters(words) <= MOST_PHRASE ? words : cutTo(words, MOST_PHRASE - 1) + '…'
  }

  // What arrives in few words: from whom, to whom, and what it says.
  shortPhrase(event) {
    if (event.word === 'lie') return `${event.tokens[1]} ⇢ ${event.tokens[2]}: ${this.words.lie(event.tokens, '')}`
    if (event.word !== 'deliver') return null
    const frame = this.story.frames[event.frame - 1], sent = this.story.events[frame.event], said = innerEvent(sent.tokens)
    const built = sent.told('built')
    let what = KINDS[frame.kind]
    if (frame.kind === 'validation' && said[0] === 'issue') what = this.words.ledger(...said.slice(2, 5))
    else if (frame.kind === 'validation' && built.length) what = this.words.ledger(...built[0].slice(2, 5))
    return `${frame.sender} → ${frame.receiver}: ${what}`
  }

  // The moment, or the time since the first event where the numbers are long.
  when(moment) {
    const first = this.story.events[0].moment
    if (first < FAR || moment === first) return seconds(moment)
    return (moment > first ? '+' : '−') + seconds(Math.abs(moment - first))
  }

  longest(measure, least = 0) {
    return this.shown.reduce((most, it) => Math.max(most, measure(it)), least)
  }
}
