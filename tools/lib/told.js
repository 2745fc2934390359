// A schedule as `xl tell` tells it, as tools/lib/told.py reads it. Of the schedule itself no more is read than its comments,
// and what is declared.
'use strict'
const ROOT = '0'.repeat(64)
const ENDINGS = ['short', 'forged', 'agree', 'fork']
const DECLARATIONS = ['xl-schedule', 'node', 'liar', 'limit', 'speak', 'at', 'name', 'ledger']
const ROUND_WORDS = ['timer', 'timers', 'submit', 'greet']
const NEVER_SAVED = ['30', '31', '32']
const OPENS_ANEW = ['restart', 'cut']
const tokensOf = line => line.split(/[\t-\r\x1c-\x20\x85\xa0]+/).filter(it => it)
const isPassedOver = tokens => !tokens.length || tokens[0].startsWith('#')
const innerEvent = tokens => tokens[0] === 'cut' || tokens[0] === 'fail' ? tokens.slice(2) : tokens
const listOf = tokens => [Number(tokens[2]), tokens[3].split(',').map(Number)]
const hasRounds = lines => lines.some(line => ROUND_WORDS.includes(innerEvent(tokensOf(line))[0]))
const inUtf8 = words => new TextDecoder('utf-8', {ignoreBOM: true}).decode(Uint8Array.from(words, it => it.charCodeAt(0)))

// The paragraphs of the first comment that stands before any event.
function firstComment(lines) {
  const paragraphs = []
  let isOpen = false
  for (const tokens of lines.map(tokensOf)) {
    if (tokens.length && tokens[0].startsWith('#')) {
      const said = inUtf8(tokens.join(' ').replace(/^#+/, '').trim())
      if (said && isOpen) paragraphs[paragraphs.length - 1] += ' ' + said
      else if (said) paragraphs.push(said)
      isOpen = said !== ''
    } else if (paragraphs.length || (tokens.length && !DECLARATIONS.includes(tokens[0]))) break
  }
  return paragraphs
}

function firstSentence(lines) {
  const paragraphs = firstComment(lines)
  return paragraphs.length ? paragraphs[0].match(/^.*?(?:[.!?](?= |$)|$)/)[0] : null
}

// What the program wrote, without its own lines of `tell`.
class Report {
  constructor(status, lines) {
    const words = lines.map(it => it.split(' '))
    this.bad = status === 3 ? words.pop().slice(1) : null
    this.short = words.filter(it => it[0] === 'short').map(it => it.slice(1).map(Number))
    this.forged = words.filter(it => it[0] === 'forged').reduce((sum, it) => sum + Number(it[1]), 0)
    this.fork = words.find(it => it[0] === 'fork')?.slice(1)
    this.lastLine = this.bad ? Number(this.bad[0]) - 1 : Infinity
  }
}

class Network {
  constructor() {
    this.nodes = new Map()
    this.liars = []
    this.lists = new Map()
  }

  declare(tokens) {
    if (tokens[0] === 'liar') this.liars.push(Number(tokens[1]))
    if (tokens[0] !== 'node') return
    const [quorum, members] = listOf(tokens)
    this.nodes.set(Number(tokens[1]), {quorum, members, observes: tokens.length > 4})
    this.lists.set(Number(tokens[1]), [[quorum, members]])
  }

  members() {
    return sorted(new Set([...this.lists.values()].flat().flatMap(it => it[1])))
  }
}

// Which name is printed for an id: the first one that stands for it. Of a declared ledger the program prints the name
// alone, so its parent's name and its close time take its id's place.
class Names {
  constructor() {
    this.ids = new Map()
    this.first = new Map()
    this.parents = new Map()
    this.sequences = new Map([[ROOT, 0]])
    this.put('root', ROOT)
  }

  declare(tokens) {
    if (tokens[0] === 'name') this.put(tokens[1], this.idOf(tokens[2]))
    if (tokens[0] !== 'ledger') return
    const parent = this.ids.get(tokens[2]), ledger = `${this.first.get(parent)} ${tokens[3]}`
    this.put(tokens[1], ledger)
    this.parents.set(ledger, parent)
    this.sequences.set(ledger, this.sequences.get(parent) + 1)
  }

  put(name, ledger) {
    this.ids.set(name, ledger)
    if (!this.first.has(ledger)) this.first.set(ledger, name)
  }

  idOf(token) {
    return this.ids.get(token) ?? token.toLowerCase()
  }

  short(token) {
    const found = this.first.get(this.idOf(token)) ?? token
    return found.length <= 16 ? found : found.slice(0, 8) + '…'
  }
}

// One event at one node, with what came of it. `frame` is the number of the delivered one.
class Happening {
  constructor(index, line, tokens, node, moment, frame) {
    Object.assign(this, {index, line, tokens, node, moment, frame, outcomes: [], sent: []})
  }

  get word() {
    return this.tokens[0]
  }

  told(word) {
    return this.outcomes.filter(it => it[0] === word)
  }

  isRefused(...codes) {
    return this.told('refused').some(it => codes.includes(it[3]))
  }
}

const OPENED = {
  time: 0, quorum: 0, members: [], kept: 0, failed: null, relisted: false, report: null, prefers: null, on: ROOT, rows: new Map(),
  phase: 'open', mode: 'proposing', pending: [], set: [], position: null, positions: new Map(), agreement: [0, 0],
}

function withEntry(map, key, value) {
  const found = new Map(map)
  if (value === null) found.delete(key)
  else found.set(key, value)
  return found
}

// What a `held` line says of a node: the parts of its state that change. Ledgers are ids.
class Held {
  constructor(names) {
    this.names = names
    this.parents = new Map(names.parents)
    this.sequences = new Map(names.sequences)
  }

  ids(token) {
    return token === '-' ? [] : token.split(',').map(it => this.names.idOf(it))
  }

  position([previous, set, sequence, close, time]) {
    return {previous: this.names.idOf(previous), set: this.names.idOf(set), sequence: Number(sequence), close: Number(close), time: Number(time)}
  }

  pair(words) {
    return words[0] === 'none' ? null : [Number(words[0]), this.names.idOf(words[1])]
  }

  row([sequence, ledger, signed, how, validated], event) {
    const heard = validated === undefined ? null : this.names.idOf(validated)
    return {sequence: Number(sequence), ledger: this.names.idOf(ledger), signed: Number(signed), full: how === 'full', validated: heard, event}
  }

  // A ledger that a node has come to know.
  learn([sequence, ledger, parent]) {
    const id = this.names.idOf(ledger)
    if (!this.parents.has(id)) this.parents.set(id, this.names.idOf(parent))
    if (!this.sequences.has(id)) this.sequences.set(id, Number(sequence))
    return {}
  }

  // With a number that leaves the list its row and its position are gone.
  list({rows, positions}, quorum, members) {
    const listed = map => new Map([...map].filter(([member]) => members.includes(member)))
    return {quorum, members, rows: listed(rows), positions: listed(positions)}
  }

  member(map, [member, ...said], read) {
    return withEntry(map, Number(member), said[0] === 'none' ? null : read(said))
  }

  changes(state, word, words, event) {
    switch (word) {
      case 'time': case 'kept': return {[word]: Number(words[0])}
      case 'issuing': return {failed: words[0] === 'off' ? Number(words[1]) : null}
      case 'list': return this.list(state, Number(words[0]), words[1].split(',').map(Number))
      case 'row': return {rows: this.member(state.rows, words, it => this.row(it, event))}
      case 'ledger': return this.learn(words)
      case 'report': return {report: this.pair(words), relisted: words.at(-1) === 'relisted'}
      case 'prefers': return {prefers: this.pair(words)}
      case 'round': return {phase: words[0], mode: words[1]}
      case 'position': return {position: this.position(words)}
      case 'set': case 'pending': return {[word]: this.ids(words[0])}
      case 'proposal': return {positions: this.member(state.positions, words, it => this.position(it))}
      case 'agreement': return {agreement: words.map(Number)}
    }
    return {}
  }
}
