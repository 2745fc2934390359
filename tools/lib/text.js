// Numbers and texts as the tools write them, so that both draw the same picture.
'use strict'
const fill = (text, values) => text.replace(/\{(\d)\}/g, (_, place) => values[place] ?? '?')
const letters = words => [...words].length
const cutTo = (words, length) => [...words].slice(0, length).join('')
const grouped = n => String(n).replace(/\B(?=(\d{3})+$)/g, ',')
const escaped = words => words.replace(/&/g, '&amp;').replace(/</g, '&lt;').replace(/>/g, '&gt;').replace(/"/g, '&quot;').replace(/'/g, '&#x27;')
const capital = said => said.slice(0, 1).toUpperCase() + said.slice(1)
const sorted = some => [...some].map(Number).sort((one, other) => one - other)

// One digit behind the point; of two that are as near the even one.
function fixed(x) {
  const isBetween = Number.isInteger(x * 4) && !Number.isInteger(x * 2)
  if (!isBetween) return x.toFixed(1)
  const low = Math.floor(x * 10)
  return ((low % 2 === 0 ? low : low + 1) / 10).toFixed(1)
}

// The nearest whole number; of two that are as near the even one.
function rounded(x) {
  const low = Math.floor(x)
  return x - low === 0.5 ? low + low % 2 : Math.round(x)
}

// A moment in seconds, with up to 12 digits.
function seconds(moment) {
  const [whole, part] = Number((moment / 1000).toPrecision(12)).toString().split('.')
  return grouped(whole) + (part ? '.' + part : '') + ' s'
}

// Numbers in words: 1–5, 7, 9.
function ranges(members) {
  const runs = []
  for (const member of sorted(members)) {
    if (runs.length && runs.at(-1)[1] === member - 1) runs.at(-1)[1] = member
    else runs.push([member, member])
  }
  return runs.map(([a, b]) => a === b ? String(a) : a + (b === a + 1 ? ', ' : '–') + b).join(', ')
}

const WORD_ENDS = new RegExp([
  '[\\t\\n\\x0b\\x0c\\r ]+',
  '(?<=[\\p{L}\\p{N}_!"\'&.,?])-{2,}(?=[\\p{L}\\p{N}_])',
  '[^\\t\\n\\x0b\\x0c\\r ]+?(?:-(?:(?<=[\\p{L}_]{2}-)|(?<=[\\p{L}_]-[\\p{L}\\p{N}_!"\'&.,?]-))(?=[\\p{L}_]-?[\\p{L}_])|(?=[\\t\\n\\x0b\\x0c\\r ]|$)|(?<=[\\p{L}\\p{N}_!"\'&.,?])(?=-{2,}[\\p{L}\\p{N}_]))',
].join('|'), 'gu')
const isSpace = chunk => /^ *$/.test(chunk)

// A chunk that is longer than a line: what stands in the line, and the rest. It is parted behind a hyphen, if it has one.
function parted(chunk, room) {
  const all = [...chunk], hyphen = all.length > room ? all.slice(0, room).lastIndexOf('-') : -1
  const end = hyphen > 0 && all.slice(0, hyphen).some(it => it !== '-') ? hyphen + 1 : room
  return [all.slice(0, end).join(''), all.slice(end).join('')]
}

// The words that fit in the next line are taken off the chunks, which stand in reverse.
function nextLine(chunks, width) {
  const line = []
  let length = 0
  while (chunks.length && length + letters(chunks.at(-1)) <= width) {
    length += letters(chunks.at(-1))
    line.push(chunks.pop())
  }
  if (chunks.length && letters(chunks.at(-1)) > width) {
    const [begin, rest] = parted(chunks.pop(), width - length)
    line.push(begin)
    if (rest) chunks.push(rest)
  }
  if (line.length && isSpace(line.at(-1))) line.pop()
  return line.join('')
}

// The words in lines of at most so many letters, as Python's textwrap parts them.
function wrapped(text, width) {
  const chunks = (text.replace(/[\t\n\x0b\x0c\r]/g, ' ').match(WORD_ENDS) || []).reverse(), lines = []
  while (chunks.length) {
    if (isSpace(chunks.at(-1)) && lines.length) chunks.pop()
    const line = chunks.length ? nextLine(chunks, width) : ''
    if (line) lines.push(line)
  }
  return lines
}
