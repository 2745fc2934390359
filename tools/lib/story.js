// The story of a schedule: its events with what each node holds behind them, and its report.
'use strict'
const OWN_LINES = /^(?:event|sent|held) /
const linesIn = text => text.replace(/\n$/, '').split('\n').map(it => it.replace(/\r+$/, ''))

class Story {
  // Of the text and of what `tell` wrote each byte is one character. If it is known, `why` the last line is refused.
  constructor(text, status, told, why = null) {
    const lines = told.split('\n').slice(0, -1)
    this.lines = linesIn(text)
    this.report = new Report(status, lines.filter(it => !OWN_LINES.test(it)))
    this.title = firstSentence(this.lines)
    this.why = why
    this.network = new Network()
    this.names = new Names()
    for (const tokens of this.lines.slice(0, this.report.lastLine).map(tokensOf)) this.declare(tokens)
    this.held = new Held(this.names)
    Object.assign(this, {events: [], frames: [], reports: [], behind: [], mark: 0, event: null, state: null})
    // without an event nothing is told of the nodes, and no more is known of them than what is declared
    const declared = ({quorum, members, observes}) => ({...OPENED, quorum, members, mode: observes ? 'observing' : 'proposing'})
    this.before = new Map([...this.network.nodes].map(([number, it]) => [number, declared(it)]))
    this.now = new Map(this.before)
    for (const line of lines) this.take(line.split(' '))
    this.endEvent()
  }

  declare(tokens) {
    if (isPassedOver(tokens)) return
    this.network.declare(tokens)
    this.names.declare(tokens)
  }

  take(tokens) {
    if (tokens[0] === 'event') {
      this.endEvent()
      this.beginEvent(Number(tokens[1]), Number(tokens[2]), tokens.slice(3))
    } else if (tokens[0] === 'sent') this.send(Number(tokens[2]), Number(tokens[3]), tokens.slice(4))
    else if (tokens[0] === 'held') this.hold(Number(tokens[1]), tokens[2], tokens.slice(3))
    else if (tokens[0] !== 'bad' && !ENDINGS.includes(tokens[0])) this.event.outcomes.push(tokens)
  }

  beginEvent(line, moment, words) {
    let tokens = words
    if (words[0] === 'drop') {
      tokens = ['drop', String(this.mark + 1), String(this.frames.length)]
      this.mark = this.frames.length
    }
    const frame = tokens[0] === 'deliver' ? Number(tokens[1]) : null
    this.event = new Happening(this.events.length, line, tokens, this.nodeOf(tokens), moment, frame)
    this.state = this.now.get(this.event.node)
    if (!this.isSilent(this.event)) this.events.push(this.event)
    if (tokens[0] === 'list') this.network.lists.get(Number(tokens[1])).push(listOf(tokens))
  }

  // Whether nothing comes of a part of the line: the end of `all`, or the timer of a liar's number.
  isSilent(event) {
    if (event.word === 'drop') return tokensOf(this.lines[event.line - 1])[0] === 'all'
    return event.word === 'timer' && !this.network.nodes.has(event.node)
  }

  nodeOf(tokens) {
    if (tokens[0] === 'drop') return null
    if (tokens[0] === 'deliver') return this.frames[tokens[1] - 1].receiver
    return Number(tokens[0] === 'lie' ? tokens[2] : innerEvent(tokens)[1])
  }

  send(sender, receiver, said) {
    const frame = {number: this.frames.length + 1, sender, receiver, event: this.event.index, kind: said[0]}
    this.event.sent.push(frame)
    this.frames.push(frame)
  }

  hold(number, word, words) {
    const before = this.events.length ? this.state : this.before.get(number)
    const state = {...before, ...this.held.changes(before, word, words, this.events.length - 1)}
    if (this.events.length) this.state = state
    else {
      this.before.set(number, state)
      this.now.set(number, state)
    }
  }

  // Behind all lines of an event, the state of its node is what it then holds.
  endEvent() {
    if (this.behind.length === this.events.length) return
    const event = this.event
    if (this.state) {
      this.move(event)
      this.reports.push(...this.reported(event))
      this.now.set(event.node, this.state)
    }
    this.behind.push(this.state ?? null)
  }

  // The ledger that the node's round is on behind the event.
  move(event) {
    const on = event.outcomes.filter(it => it[0] === 'switched' || it[0] === 'built').map(it => this.names.idOf(it[3]))
    if (OPENS_ANEW.includes(event.word)) on.push(ROOT)
    if (on.length) this.state = {...this.state, on: on.at(-1)}
  }

  reported(event) {
    return event.told('full').map(it => ({event, node: Number(it[1]), sequence: Number(it[2]), ledger: this.names.idOf(it[3])}))
  }

  senderOf(event) {
    if (event.frame) return this.frames[event.frame - 1].sender
    return event.word === 'lie' ? Number(event.tokens[1]) : null
  }

  // From the root to the ledger, or null where a parent isn't known.
  chain(ledger) {
    const chain = [ledger]
    while (this.held.parents.has(chain.at(-1))) chain.push(this.held.parents.get(chain.at(-1)))
    return chain.at(-1) === ROOT ? chain.reverse() : null
  }

  // The sequences of each ledger by its id: what it has, and what is said of it.
  sequencesSaid() {
    const found = new Map([...this.held.sequences].map(([ledger, sequence]) => [ledger, new Set([sequence])]))
    for (const [sequence, token] of this.events.flatMap(it => this.saidIn(it))) {
      const id = this.names.idOf(token)
      if (!found.has(id)) found.set(id, new Set())
      found.get(id).add(Number(sequence))
    }
    return found
  }

  saidIn(event) {
    const inner = innerEvent(event.tokens), state = this.behind[event.index]
    const said = event.outcomes.filter(it => ['built', 'full', 'switched'].includes(it[0])).map(it => it.slice(2, 4))
    if (inner[0] === 'issue') said.push(inner.slice(2, 4))
    if (inner[0] === 'lie' && inner[3] === 'validation') said.push(inner.slice(4, 6))
    if (event.word === 'raw' && state) said.push(...[...state.rows.values()].map(it => [it.sequence, it.ledger]))
    return said
  }

  // Pairs of reports of different sequences, of which the later ledger doesn't follow the earlier one: one pair for each
  // two ledgers, and of one node where a node reported both; these pairs come first.
  twoBranches() {
    const told = new Map()
    for (const it of this.reports) {
      const key = it.sequence + ' ' + it.ledger
      if (!told.has(key)) told.set(key, new Map())
      if (!told.get(key).has(it.node)) told.get(key).set(it.node, it)
    }
    const groups = [...told.values()].map(it => [...it.values()]).sort(([one], [other]) => one.sequence - other.sequence || compared(one.ledger, other.ledger))
    const found = groups.flatMap(high => this.besides(high, groups))
    const isApart = ([low, high]) => Number(low.node !== high.node)
    return found.sort((one, other) => isApart(one) - isApart(other) || one[0].sequence - other[0].sequence || one[1].sequence - other[1].sequence)
  }

  // The pairs of a later ledger with earlier ones that it doesn't follow.
  besides(high, groups) {
    const chain = this.chain(high[0].ledger)
    if (!chain) return []
    return groups.filter(([low]) => low.sequence < high[0].sequence && chain[low.sequence] !== low.ledger).map(low => {
      const one = low.find(it => high.some(other => other.node === it.node))
      return one ? [one, high.find(it => it.node === one.node)] : [low[0], high[0]]
    })
  }
}

const compared = (one, other) => one < other ? -1 : Number(one > other)
