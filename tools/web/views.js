// What is shown of a text that the program writes.
'use strict'
const MOST_COLOURED = 5000
const MOST_EVENTS = 400
const linesOf = text => text.split('\n').slice(0, -1)
const lastWords = text => (linesOf(text).at(-1) || '').split(' ')

// The cause of a refusal in words, if this page knows the code.
function causeOf(code, values) {
  const why = known.lines[code] || (known.refusals[code] || [])[1]
  return why ? fill(why, values) : 'code ' + code
}

function element(kind, name, ...parts) {
  const made = document.createElement(kind)
  if (name) made.className = name
  made.append(...parts)
  return made
}

// A line in colours, with what it says behind it. A refusal of a line of the input leads there.
function drawnLine(line, command) {
  const [word, ...values] = line.split(' '), isCounted = word === 'refused' && command === 'gen'
  if (command === 'show' || command === 'negative' && word !== 'bad') return coloured(line)
  const isRefusal = !isCounted && (word === 'refused' || word === 'bad')
  const says = known.words[`${command} ${word}`] ?? known.words[word]
  const drawn = element(isRefusal ? 'button' : 'span', isRefusal ? 'line goes' : 'line', ...coloured(line))
  if (isRefusal) {
    const of = word === 'bad' || command === 'merge' ? 1 : 2
    drawn.dataset.says = causeOf(values[of], values.slice(of + 1))
    drawn.onclick = () => goTo(Number(values[0]))
  } else if (says) drawn.dataset.says = fill(says, values)
  return [drawn]
}

function drawnText(text, command) {
  const pre = document.createElement('pre'), lines = linesOf(text)
  if (lines.length > MOST_COLOURED) pre.textContent = text
  else pre.append(...lines.flatMap(it => [...drawnLine(it, command), '\n']))
  return pre
}

// Each pair of `lists` as a cell: both quorums together, and what they must exceed.
function matrixOf(text) {
  const pairs = linesOf(text).map(it => it.split(' ')).filter(it => it[0] === 'pair')
  const numbers = [...new Set(pairs.flatMap(it => [it[1], it[2]]))].sort((a, b) => a - b)
  const cells = new Map(pairs.map(it => [it[1] + ' ' + it[2], it]))
  const head = element('tr', '', document.createElement('td'), ...numbers.map(it => headOf(it, 'col')))
  const rows = numbers.map(one => element('tr', '', headOf(one, 'row'), ...numbers.map(other => cellOf(cells.get(one + ' ' + other)))))
  const caption = element('caption', '', 'Both quorums together, and what they must exceed so that no two reports of one sequence differ. A red pair is short.')
  return element('table', '', caption, head, ...rows)
}

const headOf = (words, scope) => Object.assign(element('th', '', words), {scope})

function cellOf(pair) {
  if (!pair) return document.createElement('td')
  const [, one, other, overlap, liars, sum, bound, answer] = pair
  const cell = element('td', answer, `${sum} > ${bound}`)
  if (answer === 'short') cell.textContent = `${sum} ≤ ${bound}`
  cell.title = `${one} and ${other}: ${overlap} on both lists, of them ${liars} liars`
  return cell
}

const ENDS = {fork: 'wrong', branches: 'warned', quiet: '', agree: 'good'}
const OF_REPORTS = ['replay', 'tell', 'picture', 'steps', 'gen']

// What is said of a run in one sentence, and whether it is good.
function verdictOf(command, told, text, story) {
  if (told.fault) return [`The program ended: ${told.fault}`, 'wrong']
  if (told.status === 6) return ['Memory ran out.', 'wrong']
  if (told.status === 3) return [refusalOf(command, lastWords(text)), 'wrong']
  if (command === 'lists') return verdictOfLists(text)
  if (!OF_REPORTS.includes(command)) return ['All is written.', 'good']
  if (story) return endOf(new Wording(story))
  const [, sequence, one, its, other, theirs] = lastWords(text)
  if (told.status === 1) return [`Fork at sequence ${sequence}: node ${one} reports ${its}, and node ${other} reports ${theirs}.`, 'wrong']
  // a line for each report, or of `gen` their number
  return /^full [1-9]/m.test(text) ? [OF.verdicts.agree, 'good'] : [OF.verdicts.quiet, '']
}

const endOf = words => [words.verdict(), ENDS[words.kind()]]

// A picture is drawn where its style reaches nothing else: as wide as the pane, if its words are still read then.
function drawnPicture(text) {
  const host = element('div', 'picture'), drawn = new DOMParser().parseFromString(text, 'image/svg+xml').documentElement
  const style = element('style', '', 'svg{display:block;max-width:max(100%,830px);height:auto}')
  host.attachShadow({mode: 'open'}).append(style, document.importNode(drawn, true))
  return host
}

const VIEWS = {
  picture({story, run}) {
    const brief = story.events.length > MOST_EVENTS
    return drawnPicture(new Timeline(story, {first: null, last: null, brief, bare: false, scheme: 'auto', compact: true}, run.name).draw())
  },

  steps({run}) {
    const frame = element('iframe', 'steps')
    frame.title = 'The run, step by step'
    frame.srcdoc = pageOf(run)
    return frame
  },
}

const inert = what => JSON.stringify(what).replace(/</g, '\\u003c')

// The page of a run, as tools/page writes it.
function pageOf(run) {
  const {template, refusals, lines, said, drawing} = known
  const values = {NAME: escaped(run.name), RUN: inert(run), KNOWN: inert({refusals, lines, said, drawing}), DRAWING: byId('drawing').textContent}
  return template.split('@@').map((it, place) => place % 2 ? values[it] : it).join('')
}

function verdictOfLists(text) {
  const pairs = linesOf(text).filter(it => it.startsWith('pair ')), short = pairs.filter(it => it.endsWith(' short')).length
  if (!pairs.length) return ['No node is declared.', '']
  return short ? [`${short} of ${pairs.length} pairs are short.`, 'wrong'] : ['No pair is short.', 'good']
}

function refusalOf(command, [, place, code, ...values]) {
  const where = command === 'show' ? `What begins at byte ${place}` : `Line ${place}`
  return `${where} is refused (${code}): ${causeOf(code, values)}.`
}
