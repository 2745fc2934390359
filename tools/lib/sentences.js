// What is said of each event and of what came of it in whole sentences, as tools/lib/words.py says it.
'use strict'
class Sentences extends Wording {
  sentence(event) {
    return capital(this.said(event)) + '.'
  }

  said(event) {
    const {tokens, node} = event, short = it => this.names.short(it)
    switch (event.word) {
      case 'cut': case 'fail': return this.tornInWords(event, innerEvent(tokens))
      case 'timer': return this.timerInWords(event)
      case 'issue': {
        const verb = event.isRefused(...NEVER_SAVED) ? 'tries to say' : 'says', how = tokens[4] === 'partial' ? ', partially' : ''
        return `node ${node} ${verb} that ${short(tokens[3])} is the ledger of sequence ${tokens[2]}${how}`
      }
      case 'deliver': {
        const frame = this.story.frames[event.frame - 1]
        return `frame ${event.frame} arrives: a ${KINDS[frame.kind]} from ${this.who(frame.sender)} to ${this.who(frame.receiver)}`
      }
      case 'lie': return `liar ${tokens[1]} tells ${this.who(tokens[2])} alone: ${this.lie(tokens, '')}`
      case 'drop': return Number(tokens[1]) > Number(tokens[2]) ? 'nothing waits, so nothing is lost' : `frames ${tokens[1]} to ${tokens[2]} are left out`
      case 'greet': return `node ${node} greets ${this.who(tokens[2])} with the headers of its chain`
      case 'restart': return `node ${node} is opened anew, with the number that its keeper holds`
      case 'raw': return `bytes from outside reach node ${node}`
      case 'prefer': return `node ${node} is asked which ledger it prefers`
      case 'heard': return `node ${node} is asked what its members say that they have reported`
      case 'list': return `from here on node ${node} trusts ${this.quorum(tokens)}`
    }
    return `node ${node} is given the transaction ${short(tokens.at(-1))}`
  }

  tornInWords(event, inner) {
    const {node} = event, isTimer = inner[0] === 'timer'
    if (event.word === 'fail') return `${isTimer ? 'the save in the timer' : `the save of ${inner[2]}`} of node ${node} fails, and the keeper holds the ${event.tokens[1]} number`
    if (event.outcomes.length) return `node ${node} was to be cut off, but asked no save: it is opened anew behind the event`
    return `node ${node} is cut off in ${isTimer ? 'the timer' : `its save of ${inner[2]}`}, and opened anew with the ${event.tokens[1]} number`
  }

  timerInWords(event) {
    return `node ${event.node} has a timer: ${this.didAtTimer(event)}`
  }

  didAtTimer(event) {
    const kinds = event.sent.map(it => it.kind)
    if (event.told('built').length) return 'its round is ready, and it builds the next ledger'
    if (event.told('switched').length) return 'it leaves its round for the ledger that the votes prefer'
    if (kinds.includes('proposal')) return 'it says its position' + (kinds.includes('set') ? ' and its set' : '')
    return 'it has nothing to say'
  }

  // What came of an event.
  tell(outcome) {
    const word = outcome[0], node = outcome[word === 'refused' ? 2 : 1], what = outcome.length > 3 ? this.ledger(outcome[2], outcome[3]) : null
    switch (word) {
      case 'refused': return `Node ${node} refuses: ${this.why(outcome[3], outcome.slice(4))}.`
      case 'heard': return `Node ${node} ${this.heard(outcome[2], outcome[3])}.`
      case 'built': return `Node ${node} builds ${what} and ${OF.built[outcome[4]]}.`
      case 'full': return `Node ${node} reports ${what} as final.`
      case 'switched': return `Node ${node} goes on with ${what}, which its members' votes prefer.`
    }
    return `Node ${node} prefers ${what || 'no ledger yet'}.`
  }

  why(code, values) {
    return REFUSALS[code] ? fill(REFUSALS[code][1], values.map(it => this.names.short(it))) : 'cause ' + code
  }

  heard(member, token) {
    if (token === 'none') return `holds no current word of ${member} that says what it has reported`
    if (this.names.idOf(token) === ROOT) return `holds a word of ${member}, who had reported nothing when it said that`
    return `holds a word of ${member}, who had reported ${this.names.short(token)} when it said that`
  }
}
