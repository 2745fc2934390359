// The steps of one story, or of a window of its lines: each event of it, and what its node then holds.
'use strict'
const MOST_DRAWN = 1000, MOST_TOLD = 10
const ofMap = (map, made) => Object.fromEntries(sorted(map.keys()).map(it => [it, made(map.get(it))]))
const isSame = (one, other) => JSON.stringify(one) === JSON.stringify(other)

class Steps {
  // The window is the first and the last line that are shown, or null for either.
  constructor(story, name, window) {
    const [first, last] = window || [null, null], isAsked = first || last || story.events.length <= MOST_DRAWN
    const drawn = {first: isAsked ? first || 1 : null, last, scheme: 'auto', bare: true, brief: false, compact: true}
    this.story = story
    this.name = name + (first ? `, from line ${first}` : '') + (last ? `, to line ${last}` : '')
    this.timeline = new Timeline(story, drawn, name)
    this.words = new Sentences(story)
    this.hasRounds = hasRounds(story.lines)
    this.events = story.events.filter(it => (first || 1) <= it.line && it.line <= (last || it.line))
    this.start = story.events.filter(it => it.line < (first || 1)).length
    Object.assign(this, {places: new Map(), ledgers: [], setPlaces: new Map(), sets: []})
    this.picture = this.timeline.draw()
    this.arrived = new Set(story.events.map(it => it.frame))
  }

  // The number of the ledger in the page's table.
  ledger(token) {
    const {names} = this.story, {shades} = this.timeline, found = names.idOf(token)
    if (!this.places.has(found)) {
      this.places.set(found, this.ledgers.length)
      this.ledgers.push([names.short(found), inWords(found), this.timeline.colour(found), Number(shades.shared.has(found))])
    }
    return this.places.get(found)
  }

  pair(which) {
    return which && [which[0], this.ledger(which[1])]
  }

  // The number of the set of transactions in the page's table. Its ids are known once a node stood for it.
  set(found, ids = null) {
    if (!this.setPlaces.has(found)) {
      this.setPlaces.set(found, this.sets.length)
      this.sets.push([found.slice(0, 8) + '…', found, null])
    }
    if (ids) {
      const shorts = ids.map(it => this.story.names.short(it)), label = shorts.length <= 2 ? shorts.join(', ') : `${shorts.length} ids`
      this.sets[this.setPlaces.get(found)] = [label || 'empty', found, shorts]
    }
    return this.setPlaces.get(found)
  }

  // A round: phase, mode, how many ids are pending, our position, those of members with whose set is ours, and how many
  // of them agree.
  round(state) {
    const position = state.phase === 'open' ? null : state.position
    const ours = position && [this.set(position.set, state.set), position.sequence, position.close]
    const positions = ofMap(state.positions, it => [this.set(it.set), it.sequence, it.close, Number(position !== null && it.set === position.set)])
    return [state.phase, state.mode, state.pending.length, ours, positions, state.agreement]
  }

  // A row, with the line by which it came, and the event: below 0 if it came before the window.
  row({sequence, ledger, full, signed, event, validated}) {
    const {line} = this.story.events[event], place = this.ledger(ledger)
    return [sequence, place, Number(full), signed, event - this.start, line, validated === null ? null : this.ledger(validated)]
  }

  state(state) {
    const {time, quorum, members, kept, failed} = state, rows = ofMap(state.rows, it => this.row(it))
    const found = {time, list: [quorum, members], kept, failed, report: this.pair(state.report), prefers: this.pair(state.prefers), on: this.ledger(state.on), rows}
    return this.hasRounds ? {...found, round: this.round(state)} : found
  }

  // One event; the frames that it sent are pairs of receiver and kind by their numbers.
  step(event, state) {
    const found = {line: event.line, moment: event.moment, says: this.words.sentence(event), y: rounded(this.timeline.y.get(event.index))}
    if (event.node !== null) found.node = event.node
    if (event.outcomes.length) found.told = event.outcomes.map(it => [it[0], this.words.tell(it), it.join(' ')])
    if (event.sent.length) found.sent = event.sent.map(it => [it.number, it.receiver, it.kind, Number(this.arrived.has(it.number))])
    if (event.frame) found.frame = event.frame
    if (event.word === 'drop' && Number(event.tokens[1]) <= Number(event.tokens[2])) found.dropped = event.tokens.slice(1, 3).map(Number)
    if (state) found.state = this.state(state)
    return found
  }

  // What each node holds before the window.
  before() {
    const found = new Map(this.story.before)
    for (const {node, index} of this.story.events.slice(0, this.start)) if (found.has(node)) found.set(node, this.story.behind[index])
    return ofMap(found, it => this.state(it))
  }

  // The frames that arrive in the window and were sent before it: sender, receiver, kind, line and height.
  earlier() {
    const frames = this.events.filter(it => it.frame).map(it => this.story.frames[it.frame - 1]).filter(it => it.event < this.start)
    return Object.fromEntries(frames.map(it => [it.number, [it.sender, it.receiver, it.kind, this.story.events[it.event].line, rounded(this.timeline.y.get(it.event))]]))
  }

  // The places of two events in the window, if both are there.
  both(events) {
    const places = events.map(it => it.index - this.start)
    return places.every(it => 0 <= it && it < this.events.length) ? places : []
  }

  data() {
    const {network, behind} = this.story, before = this.before(), last = {...before}
    const steps = this.events.map(it => this.step(it, behind[it.index]))
    for (const step of steps.filter(it => it.state)) {
      const now = step.state
      step.state = changesOf(last[step.node], now)
      last[step.node] = now
    }
    const found = {
      nodes: ofMap(network.nodes, it => it.observes), members: network.members(), liars: sorted(network.liars), before, steps,
      earlier: this.earlier(), part: this.events.length < this.story.events.length,
      top: rounded(this.timeline.top), x: ofMap(this.timeline.x, rounded),
      fork: this.both((this.words.fork || []).map(([event]) => event)),
      branches: this.both(this.words.branches.slice(0, 1).flat().map(it => it.event)), ledgers: this.ledgers,
    }
    return this.hasRounds ? {...found, sets: this.sets} : found
  }

  // What is said below the report.
  notes() {
    const {bad, forged} = this.story.report
    return [...this.words.warnings(MOST_TOLD), ...this.words.notes(), ...(bad || forged ? [] : ['No frame is forged.'])]
  }
}

// The digits of an id, or how its ledger is declared.
function inWords(found) {
  const [parent, close] = found.split(' ')
  return close === undefined ? found : `declared: it follows ${parent}, and closes at ${close}`
}

// The parts of a state that are other ones now, and of its rows those, with null for each that went.
function changesOf(before, now) {
  const changed = (one, other) => Object.fromEntries(Object.entries(other).filter(([key, value]) => !isSame(value, one[key])))
  const found = changed(before, now)
  if (!found.rows) return found
  const gone = Object.keys(before.rows).filter(it => !Object.hasOwn(now.rows, it)).map(it => [it, null])
  return {...found, rows: {...Object.fromEntries(gone), ...changed(before.rows, now.rows)}}
}
