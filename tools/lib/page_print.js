// printed: the drawing in pieces, each with the heads of the lanes, and cut between two rows
const NS = 'http://www.w3.org/2000/svg', high = drawing.viewBox.baseVal.height, PAGE = 1.15 * asked, MOST_FIGURES = 24
const whole = document.createElementNS(NS, 'g')
whole.id = 'whole'
whole.append(...[...drawing.children].filter(it => !['title', 'desc', 'style'].includes(it.tagName)))
drawing.append(whole)
function part(y, from, height) {
  const piece = document.createElementNS(NS, 'svg'), use = document.createElementNS(NS, 'use')
  for (const [name, value] of Object.entries({x: 0, y, width: asked, height, viewBox: `0 ${from} ${asked} ${height}`})) piece.setAttribute(name, value)
  use.setAttribute('href', '#whole')
  piece.append(use)
  return piece
}
function figure(caption, small, from, to) {
  const found = make('figure'), words = make('figcaption', caption), svg = document.createElementNS(NS, 'svg')
  if (small) words.append(make('small', small))
  const head = from > run.top ? run.top : 0
  svg.setAttribute('viewBox', `0 0 ${asked} ${head + to - from}`)
  if (head) svg.append(part(0, 0, head))
  svg.append(part(head, from, to - from))
  found.append(...(caption ? [words] : []), svg)
  return found
}
// the reports of one line and one ledger stand in one figure, which begins with the first word that counted
function reportFigures() {
  const groups = []
  for (const it of told.filter(it => it.words[0] === 'full')) {
    const state = states[it.index + 1][steps[it.index].node], [sequence, ledger] = state.report, last = groups[groups.length - 1]
    const votes = Object.entries(state.rows).filter(([, row]) => row[2] && row[0] === sequence && row[1] === ledger)
    const begin = Math.max(0, Math.min(it.index, ...votes.map(([, row]) => row[4])))
    const by = `node ${steps[it.index].node} by ${votes.map(([member]) => nameOf(Number(member))).join(', ')}`
    if (last && last.line === it.line && last.ledger === ledger) Object.assign(last, {end: it.index, begin: Math.min(last.begin, begin), by: [...last.by, by], words: [...last.words, it.words[1]]})
    else groups.push({line: it.line, ledger, begin, end: it.index, by: [by], words: [it.words[1]]})
  }
  return groups.slice(0, MOST_FIGURES).map(it => {
    const low = steps[it.end].y + 20, top = Math.max(run.top, steps[it.begin].y - 22, low - PAGE)
    const words = it.words.length === 1 ? it.words[0] : `${it.words.length} nodes report ${run.ledgers[it.ledger][0]} #${states[it.end + 1][steps[it.end].node].report[0]} as final.`
    return figure(`Line ${it.line}: ${words}`, `The quorum of ${it.by.join('; of ')}.`, top, low)
  }).concat(groups.length > MOST_FIGURES ? [make('p', `And ${groups.length - MOST_FIGURES} more; --from and --to of tools/page name a window.`)] : [])
}
function slices() {
  const found = [], rows = [...new Set(steps.map(it => it.y + 15)), high].sort((a, b) => a - b)
  let from = 0
  while (from < high) {
    const room = PAGE - (from ? run.top : 0)
    const to = rows.filter(it => it > from && it <= from + room).pop() || Math.min(high, from + room)
    found.push(figure(from ? '' : 'The whole picture', '', from, to))
    from = to
  }
  return found
}
function makeHandout() {
  const figures = reportFigures(), isTall = high > 1.2 * asked
  document.body.classList.toggle('sliced', isTall)
  if (figures.length) byId('handout').append(make('h2', 'A picture for each report'), ...figures)
  if (isTall) byId('handout').append(...slices())
}
makeHandout()
layOut()
const [matters, why] = opening(), isNamed = isPlace()
go(isNamed ? Number(location.hash.slice(1)) : matters)
if (!isNamed && steps.length) byId('opened').textContent = `The page opens at ${why}; Home goes to the beginning.`
drawMarks()
