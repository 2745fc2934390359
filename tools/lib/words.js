// What is said of events, outcomes and ends in words, as tools/lib/words.py says it.
'use strict'
const {refusals: REFUSALS, lines: REFUSED_LINES, said: OF} = known
const KINDS = OF.kinds
const causeOfRefusal = (code, values) => fill((REFUSALS[code] || ['', ''])[0], values.length ? values : ['?'])

// The two reports that the report's last line names as a fork: pairs of an event and its outcome, or null.
function forkOf({events, names, report}) {
  if (!report.fork) return null
  const [sequence, one, its, other, theirs] = report.fork, told = events.flatMap(event => event.told('full').map(it => [event, it]))
  const of = (node, ledger) => told.find(([, it]) => it[1] === node && it[2] === sequence && names.idOf(it[3]) === names.idOf(ledger))
  return [of(one, its), of(other, theirs)]
}

// Groups of numbers, of which each two have the same pairs with all others, and with themselves.
function alikeIn(pairs) {
  const numbers = sorted(new Set(pairs.flat())), there = new Set(pairs.flatMap(([a, b]) => [a + ' ' + b, b + ' ' + a])), groups = []
  const have = (one, other) => there.has(one + ' ' + other)
  for (const one of numbers) {
    const isAlike = other => have(one, one) === have(other, other) && numbers.every(it => it === one || it === other || have(one, it) === have(other, it))
    const group = groups.find(it => isAlike(it[0]))
    if (group) group.push(one)
    else groups.push([one])
  }
  return groups
}

const pairInWords = ([one, other]) => one !== other ? `${one} and ${other}` : `${one} with itself`

// Pairs of numbers, one by one; if they are many, those of one group with those of another are named together.
function pairsInWords(pairs) {
  if (pairs.length <= OF.mostPairs) return pairs.map(pairInWords)
  const there = new Set(pairs.map(it => it.join(' '))), groups = alikeIn(pairs)
  return groups.flatMap((ours, place) => {
    const isWithItself = there.has(ours[0] + ' ' + ours[0]), told = []
    if (ours.length > 1 && there.has(ours[0] + ' ' + ours[1])) told.push(`each two of ${ranges(ours)}${isWithItself ? ', and each with itself' : ''}`)
    else if (isWithItself) told.push(`${ranges(ours)} ${ours.length > 1 ? 'each ' : ''}with itself`)
    const others = groups.slice(place + 1).filter(it => there.has(sorted([ours[0], it[0]]).join(' ')))
    return [...told, ...others.map(it => `${ranges(ours)} with ${ranges(it)}`)]
  })
}

class Wording {
  constructor(story) {
    this.story = story
    this.names = story.names
    this.fork = forkOf(story)
    this.branches = story.twoBranches()
  }

  // How the run ended: `bad`, `fork`, `branches`, `quiet` if nothing is reported, or `agree`.
  kind() {
    if (this.story.report.bad) return 'bad'
    if (this.fork) return 'fork'
    const isQuiet = !this.story.events.some(it => it.told('full').length)
    return this.branches.length ? 'branches' : isQuiet ? 'quiet' : 'agree'
  }

  ledger(sequence, token, flag = 'full') {
    return `${this.names.short(token)} #${sequence}${flag === 'partial' ? ', partial' : ''}`
  }

  // What happens, for the column of events.
  phrase(event) {
    const {tokens, node} = event
    switch (event.word) {
      case 'cut': case 'fail': return this.torn(event, innerEvent(tokens))
      case 'timer': return this.timer(event)
      case 'issue': return `${node} ${event.isRefused(...NEVER_SAVED) ? 'tries to say' : 'says'} ${this.ledger(...tokens.slice(2, 5))}`
      case 'deliver': {
        const frame = this.story.frames[event.frame - 1]
        return `frame ${event.frame}, ${frame.sender} to ${frame.receiver}: ${frame.kind}`
      }
      case 'lie': return `${tokens[1]} to ${tokens[2]} alone: ${this.lie(tokens)}`
      case 'drop': return Number(tokens[1]) <= Number(tokens[2]) ? `drops frames ${tokens[1]} to ${tokens[2]}` : 'nothing to drop'
      case 'restart': return `${node} restarts`
      case 'raw': return `raw bytes reach ${node}`
      case 'prefer': return `asks what ${node} prefers`
      case 'heard': return `asks what ${node} has heard`
      case 'list': return `${node} trusts ${this.quorum(tokens)}`
      case 'submit': return `${node} gets a transaction`
    }
    return `${node} greets ${tokens.at(-1)}`
  }

  quorum(tokens) {
    const [quorum, members] = listOf(tokens)
    return `${quorum} of ${ranges(members)}`
  }

  torn(event, inner) {
    const isCut = event.word === 'cut'
    if (inner[0] === 'timer') return isCut ? `${event.node} is cut off in a timer` : `${event.node}'s timer, its save fails`
    return isCut ? `${event.node} is cut off saving ${inner[2]}` : `${event.node}'s save of ${inner[2]} fails`
  }

  timer(event) {
    const isProposing = event.sent.some(it => it.kind === 'proposal')
    const did = event.told('built').length ? 'builds' : event.told('switched').length ? 'switches' : isProposing ? 'proposes' : 'waits'
    return `${event.node}'s timer: ${did}`
  }

  lie(tokens, verb = 'says ') {
    const more = tokens.length > 8 ? ', reported ' + this.names.short(tokens[8]) : ''
    if (tokens[3] === 'validation') return verb + this.ledger(tokens[4], tokens[5], tokens[7]) + more
    return tokens[3] === 'header' ? 'header of ' + this.names.short(tokens[4]) : 'a ' + tokens[3]
  }

  // What came of it, for the label beside its mark.
  outcome(outcome) {
    const word = outcome[0]
    if (word === 'refused') return `${outcome[3]} ${causeOfRefusal(outcome[3], outcome.slice(4))}`
    if (word === 'heard') return `${outcome[2]}: ${this.names.short(outcome[3])}`
    const what = outcome.length > 3 ? this.ledger(outcome[2], outcome[3]) : 'none'
    if (word === 'built') return 'builds ' + what + OF.aside[outcome[4]]
    return {full: 'reports ', preferred: 'prefers ', switched: 'goes on with '}[word] + what
  }

  who(number) {
    return (this.story.network.nodes.has(Number(number)) ? 'node ' : 'liar ') + number
  }

  verdict() {
    const {bad} = this.story.report
    if (bad) {
      const why = this.story.why || fill(REFUSED_LINES[bad[1]] || 'code ' + bad[1], bad.slice(2))
      return `Line ${bad[0]} is refused (code ${bad[1]}), and the run ends there: ${why}${why.endsWith('?') ? '' : '.'}`
    }
    if (this.fork) {
      const [[, one], [, other]] = this.fork, short = it => this.names.short(it)
      return `Fork at #${one[2]}: node ${one[1]} reports ${short(one[3])}, node ${other[1]} reports ${short(other[3])}.`
    }
    return OF.verdicts[this.kind()]
  }

  // Of reports on two branches, one node's first; so many of them.
  warnings(most) {
    const found = this.branches.slice(0, most).map(it => this.warning(...it)), more = this.branches.length - found.length
    return more ? [...found, `And ${more} more such pair${more === 1 ? '' : 's'}.`] : found
  }

  warning(low, high) {
    const who = low.node === high.node ? 'itself' : this.who(high.node) + ' reports'
    return fill(OF.warning, [
      this.who(low.node), this.ledger(low.sequence, low.ledger), low.event.line, who, this.ledger(high.sequence, high.ledger), high.event.line,
    ])
  }

  notes() {
    const {bad, short, forged} = this.story.report, groups = new Map()
    if (bad) return []
    for (const [one, other, total, bound] of short) {
      const key = total + ' ' + bound
      if (!groups.has(key)) groups.set(key, [])
      groups.get(key).push([one, other])
    }
    const notes = [...groups].map(([sums, pairs]) => `Short: quorums together ${sums.replace(' ', ', must exceed ')}: ${pairsInWords(pairs).join('; ')}.`)
    if (!notes.length) notes.push(OF.noneShort[Number(this.branches.length > 0)])
    return forged ? [...notes, `${forged} frame${forged === 1 ? '' : 's'} forged: nothing is promised.`] : notes
  }
}
