'use strict'
const byId = id => document.getElementById(id)
const given = JSON.parse(byId('run').textContent)
// what `tell` told of the run, drawn and in words
const shown = new Steps(new Story(given.text, given.status, given.told, given.why), given.name, given.window)
const run = shown.data()
const steps = run.steps, numbers = Object.keys(run.nodes).map(Number)
const members = run.members
const first = steps.length ? steps[0].moment : 0
const frames = steps.flatMap((step, from) => (step.sent || []).map(it => ({number: it[0], to: it[1], kind: it[2], arrives: it[3], from: step.node, step: from})))
const frame = {}
for (const it of frames) frame[it.number] = it
for (const number in run.earlier) {
  const [from, to, kind, line, y] = run.earlier[number]
  frame[number] = {number, from, to, kind, arrives: 1, line, y}
}
const lineOf = it => it.line === undefined ? steps[it.step].line : it.line
const heightOf = it => it.y === undefined ? steps[it.step].y : it.y

function changed(before, now) {
  const rows = {...before.rows, ...now.rows}
  for (const member in rows) if (!rows[member]) delete rows[member]
  return {...before, ...now, rows}
}

// states[k]: what each node holds behind k events
const states = [run.before]
for (const step of steps) {
  const last = states[states.length - 1]
  states.push(step.state ? {...last, [step.node]: changed(last[step.node], step.state)} : last)
}

// many members: a cell has the sequence alone, and its colour says the ledger, unless another of its sequence has it too
const isNarrow = members.length > 8
let at = 0
const make = (tag, words, kind) => {
  const found = document.createElement(tag)
  if (words !== undefined) found.textContent = words
  if (kind) found.className = kind
  return found
}
// the head of a column or of a row
const head = (words, scope, kind) => {
  const found = make('th', words, kind)
  found.scope = scope
  return found
}
const colour = ledger => run.ledgers[ledger][2] === 'mute' ? 'var(--mute)' : `var(--${run.ledgers[ledger][2]})`
const nameOf = number => (run.liars.includes(number) ? 'liar ' : '') + number
const count = (n, what) => `${n} ${what}${n === 1 ? '' : 's'}`

function drawHead() {
  document.title = document.querySelector('h1').textContent = shown.timeline.title
  byId('verdict').textContent = shown.words.verdict()
  byId('verdict').classList.add(shown.words.kind())
  byId('file').textContent = shown.name
  byId('picture').insertAdjacentHTML('beforeend', shown.picture)
  byId('notes').append(...shown.notes().map(it => make('p', it)), make('p', OF.ofOneSequence, 'keys'))
  byId('about').append(...firstComment(shown.story.lines).map(it => make('p', it)))
}
drawHead()

function ledgerWords(pair, none) {
  if (!pair) return make('span', none, 'none')
  const found = make('span', `${run.ledgers[pair[1]][0]} #${pair[0]}`, 'ledger')
  found.style.setProperty('--c', colour(pair[1]))
  found.title = run.ledgers[pair[1]][1]
  return found
}

// The ledger that most full words in the row name, and how many: a count of what stands there, which decides nothing.
function best(state) {
  const votes = {}
  let found = null
  for (const row of Object.values(state.rows)) {
    if (!row[2]) continue
    const key = row[0] + ' ' + row[1]
    votes[key] = (votes[key] || 0) + 1
    if (!found || votes[key] > found.votes || (votes[key] === found.votes && row[0] > found.row[0])) found = {votes: votes[key], row}
  }
  return found
}

function cell(node, member, state) {
  const box = make('td')
  if (!state.list[1].includes(member)) return box
  const row = state.rows[member]
  const it = make('span', row ? (isNarrow && !run.ledgers[row[1]][3] ? '' : run.ledgers[row[1]][0] + ' ') + '#' + row[0] : '·', 'cell ' + (row ? 'word' : 'empty'))
  if (row) {
    it.style.setProperty('--c', colour(row[1]))
    if (!row[2]) it.classList.add('partial')
    if (row[4] === at - 1 && steps[at - 1].node === node) it.classList.add('new')
    it.title = `${run.ledgers[row[1]][0]} #${row[0]}, ${row[2] ? 'full' : 'partial'}, signed in second ${row[3]}, came by line ${row[5]}${row[6] === null ? '' : `, its sender had reported ${run.ledgers[row[6]][0]}`}\n${run.ledgers[row[1]][1]}`
  } else it.title = `node ${node} holds no word of ${nameOf(member)}`
  it.dataset.cell = `${node} ${member}`
  box.append(it)
  return box
}

function drawNodes() {
  const table = byId('nodes'), line = make('tr')
  table.createTHead().replaceChildren(line)
  line.append(head('from', 'col'))
  for (const member of members) line.append(head(nameOf(member), 'col', 'member'))
  for (const words of ['votes', 'kept', 'last report', 'prefers', 'round on']) line.append(head(words, 'col'))
  const body = table.tBodies[0] || table.createTBody()
  body.replaceChildren(...numbers.map(node => {
    const observes = run.nodes[node], state = states[at][node], [quorum, list] = state.list, row = make('tr')
    row.dataset.node = node
    if (at && steps[at - 1].node === node) row.className = 'here'
    const name = head('Node ' + node, 'row')
    name.append(make('small', `${quorum} of ${list.length}${observes ? ', observing' : ''}`))
    row.append(name, ...members.map(member => cell(node, member, state)))
    const top = best(state), votes = make('td', undefined, 'fact'), pips = make('span', undefined, 'pips')
    if (top) votes.style.setProperty('--c', colour(top.row[1]))
    for (let k = 0; k < (quorum > 6 ? 0 : quorum); k++) pips.append(make('i', undefined, top && k < top.votes ? 'on' : ''))
    votes.append(pips, `${top ? top.votes : 0}/${quorum}`)
    const kept = make('td', '#' + state.kept, 'fact')
    if (state.failed !== null) kept.append(make('span', ` save of ${state.failed} failed`, 'lost'))
    row.append(votes, kept)
    for (const it of [ledgerWords(state.report, 'none'), ledgerWords(state.prefers, 'none'), make('span', run.ledgers[state.on][0])]) {
      const fact = make('td', undefined, 'fact')
      fact.append(it)
      row.append(fact)
    }
    return row
  }))
}

function positionCell(node, member, round, list) {
  const box = make('td')
  if (!list[1].includes(member) || member === node) return box
  const [, , , ours, positions] = round, held = positions[member]
  const it = make('span', held ? run.sets[held[0]][0] : '·', 'cell ' + (held ? 'word' : 'empty'))
  if (held) {
    it.style.setProperty('--c', held[3] ? 'var(--good)' : 'var(--mute)')
    it.title = `node ${node} holds this position of ${nameOf(member)}: ${setWords(held)}${ours ? held[3] ? '; it agrees on the set' : '; it stands for another set' : ''}`
  } else it.title = `node ${node} holds no position of ${nameOf(member)}`
  it.dataset.position = `${node} ${member}`
  box.append(it)
  return box
}

function setWords([set, pseq, close]) {
  const [, id, ids] = run.sets[set]
  return `${ids === null ? 'a set that it needn\'t know' : ids.length ? ids.slice(0, 12).join(', ') + (ids.length > 12 ? ' …' : '') : 'the empty set'} (${id.slice(0, 8)}…), propose sequence ${pseq}, close time ${close.toLocaleString('en-US')}`
}

function drawRounds() {
  byId('rounding').hidden = !run.sets
  if (!run.sets) return
  const table = byId('rounds'), line = make('tr')
  table.createTHead().replaceChildren(line)
  for (const words of ['round of', 'phase', 'pending', 'stands for', 'agree']) line.append(head(words, 'col'))
  for (const member of members) line.append(head(nameOf(member), 'col', 'member'))
  const body = table.tBodies[0] || table.createTBody()
  body.replaceChildren(...numbers.map(node => {
    const state = states[at][node], round = state.round, row = make('tr')
    if (at && steps[at - 1].node === node) row.className = 'here'
    row.append(head('Node ' + node, 'row'))
    const [phase, mode, pending, ours, , agreement] = round
    const name = make('td', phase, 'fact')
    if (mode !== 'proposing') name.append(make('span', ', ' + mode, 'none'))
    const stand = make('td', undefined, 'fact'), set = make('span', ours ? run.sets[ours[0]][0] : '–')
    if (ours) set.title = setWords(ours)
    stand.append(set)
    row.append(name, make('td', pending, 'fact'), stand)
    row.append(make('td', ours ? agreement.join('/') : '–', 'fact'))
    row.append(...members.map(member => positionCell(node, member, round, state.list)))
    return row
  }))
}

function drawNow() {
  const now = byId('now'), step = steps[at - 1]
  now.replaceChildren(make('b', step ? step.says : steps.length ? 'Before the first event.' : 'No event came to pass.'))
  if (!step || !step.told) return
  const list = make('ul')
  for (const it of step.told) list.append(make('li', it[1], it[0]))
  now.append(list)
}

const listed = (some, words) => some.length ? some.slice(0, 24).map(words).join(', ') + (some.length > 24 ? ` and ${some.length - 24} more` : '') : 'none'

function drawFrames() {
  const step = steps[at - 1] || {}, list = make('dl')
  const line = (name, words, kind) => list.append(make('dt', name), make('dd', words, kind))
  const sent = (step.sent || []).map(it => frame[it[0]])
  line('sent now', listed(sent, it => `${it.number} to ${nameOf(it.to)} (${it.kind})`))
  const came = step.frame && frame[step.frame]
  line('delivered now', came ? `${came.number} from ${nameOf(came.from)} to ${nameOf(came.to)} (${came.kind}), sent by line ${lineOf(came)}` : 'none')
  const lost = sent.filter(it => !it.arrives)
  line('never arrive', step.dropped ? `left out now: ${step.dropped[0] === step.dropped[1] ? step.dropped[0] : step.dropped.join(' to ')}` : lost.length ? 'of those sent now: ' + listed(lost, it => it.number) : 'none', lost.length || step.dropped ? 'lost' : '')
  const all = frames.filter(it => it.step < at), arrived = new Set(steps.slice(0, at).map(it => it.frame).filter(Boolean))
  line(run.part ? 'so far here' : 'so far', `${all.length} sent, ${arrived.size} delivered, ${all.filter(it => !it.arrives).length} never arrive`)
  byId('frames').replaceChildren(list)
}

const told = steps.flatMap((step, index) => (step.told || []).map(it => ({index, line: step.line, words: it})))
byId('report').replaceChildren(...told.map(it => {
  const item = make('li'), button = make('button')
  button.append(make('span', it.line), make('span', it.words[1]))
  item.append(button)
  item.title = it.words[2]
  button.onclick = () => ask(it.index + 1)
  return item
}))
if (!told.length) byId('report').append(make('li', 'Nothing is reported.'))
