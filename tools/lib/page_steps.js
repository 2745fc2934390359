const drawing = document.querySelector('#picture svg'), band = document.createElementNS('http://www.w3.org/2000/svg', 'rect')
band.id = 'band'
band.setAttribute('x', 6)
band.setAttribute('rx', 5)
band.setAttribute('width', drawing.viewBox.baseVal.width - 12)
band.setAttribute('height', 24)
const asked = drawing.viewBox.baseVal.width, pane = byId('picture'), LEAST = 380, SIDE = 400, READABLE = 0.72, LARGE = 1.2
const scale = () => drawing.getBoundingClientRect().width / asked
const isStacked = matchMedia('(max-width:900px)')
let left = 0, isFit = !isStacked.matches

// the pane is as wide as the picture asks, or as its reader wants it; a narrow screen shows a part in readable words
function layOut() {
  const room = document.querySelector('main').clientWidth, most = Math.max(LEAST, room - SIDE)
  const width = Math.max(LEAST, Math.min(left || asked + 18, most))
  document.querySelector('main').style.setProperty('--left', width + 'px')
  for (const [name, now] of [['min', LEAST], ['max', most], ['now', width]]) byId('splitter').setAttribute('aria-value' + name, Math.round(now))
  const large = isStacked.matches ? READABLE : LARGE
  drawing.style.width = (isFit ? Math.min(pane.clientWidth, asked * LARGE) : asked * large) + 'px'
  byId('fit').setAttribute('aria-pressed', isFit)
  byId('large').setAttribute('aria-pressed', !isFit)
  drawLanes()
}

function drawLanes() {
  const places = Object.entries(run.x).map(([number, x]) => [number, x * scale()]).sort((a, b) => a[1] - b[1])
  const isTight = places.some((it, place) => place && it[1] - places[place - 1][1] < 56)
  byId('lanes').style.width = asked * scale() + 'px'
  byId('lanes').replaceChildren(...places.map(([number, x]) => {
    const name = make('span', isTight ? number : (run.nodes[number] === undefined ? 'Liar ' : 'Node ') + number)
    name.style.left = x + 'px'
    return name
  }))
  showLanes()
}

const showLanes = () => byId('lanes').classList.toggle('unseen', pane.scrollTop < 34 * scale())
drawing.insertBefore(band, drawing.querySelector('rect').nextSibling)
const trace = document.createElementNS('http://www.w3.org/2000/svg', 'line')
trace.id = 'trace'
drawing.append(trace)

// the way of the frame that is delivered now
function drawTrace(step) {
  const came = step && step.frame && frame[step.frame]
  trace.style.display = came ? '' : 'none'
  if (!came) return
  const ends = {x1: run.x[came.from], y1: heightOf(came), x2: run.x[came.to], y2: step.y}
  for (const end in ends) trace.setAttribute(end, ends[end])
}

function drawBand() {
  const step = steps[at - 1]
  drawTrace(step)
  band.style.display = step ? '' : 'none'
  if (!step) return pane.scrollTo(0, 0)
  band.setAttribute('y', step.y - 12)
  const pair = run.fork.includes(at - 1) ? run.fork.map(it => steps[it].y) : [step.y]
  const fits = (pair[pair.length - 1] - pair[0]) * scale() < pane.clientHeight - 120
  const [low, high] = fits ? [pair[0], pair[pair.length - 1]] : [step.y, step.y]
  if (low * scale() - pane.scrollTop < 60 || high * scale() - pane.scrollTop > pane.clientHeight - 60)
    pane.scrollTop = (low + high) / 2 * scale() - pane.clientHeight / 2
  if (step.node === undefined || run.x[step.node] === undefined) return
  const x = run.x[step.node] * scale()
  if (x - pane.scrollLeft < 90 || x - pane.scrollLeft > pane.clientWidth - 90) pane.scrollLeft = x - pane.clientWidth / 2
}

function drawMarks() {
  const canvas = byId('marks'), width = canvas.clientWidth * devicePixelRatio, height = 12 * devicePixelRatio
  canvas.width = width
  canvas.height = height
  const brush = canvas.getContext('2d'), style = getComputedStyle(document.documentElement)
  const room = 8 * devicePixelRatio
  told.forEach(it => {
    if (it.words[0] !== 'full') return
    const x = room + (width - 2 * room) * (it.index + 1) / Math.max(1, steps.length)
    brush.fillStyle = style.getPropertyValue(run.fork.includes(it.index) ? '--red' : run.branches.includes(it.index) ? '--amber' : '--good')
    brush.beginPath()
    brush.arc(x, height / 2, 3 * devicePixelRatio, 0, 7)
    brush.fill()
  })
}

function go(to) {
  byId('opened').textContent = ''
  at = Math.max(0, Math.min(steps.length, to))
  byId('slider').value = at
  byId('back').disabled = at === 0
  byId('on').disabled = at === steps.length
  const step = steps[at - 1]
  byId('where').textContent = step ? `event ${at} of ${steps.length}, line ${step.line}, ` + (first >= 1e7 ? '+' + seconds(step.moment - first) : seconds(step.moment)) : count(steps.length, 'event')
  byId('slider').setAttribute('aria-valuetext', byId('where').textContent + (step ? ': ' + step.says : ''))
  byId('next').disabled = nextReport() === at
  const had = focused()
  drawNow()
  drawNodes()
  drawRounds()
  makeReachable(had)
  drawFrames()
  drawBand()
  told.forEach((it, place) => {
    const item = byId('report').children[place], isHere = it.index === at - 1
    item.className = it.words[0] + (isHere ? ' here' : it.index >= at ? ' later' : '')
    if (isHere) item.firstChild.setAttribute('aria-current', 'step')
    else item.firstChild.removeAttribute('aria-current')
  })
  document.body.dataset.at = at
  if (location.protocol !== 'about:') history.replaceState(null, '', '#' + at)
}

// a page beside another has no slider of its own: it asks for an event, and hands on the keys that move both
let ask = go, handsOn = () => false
function besideAnother(asked, pressed) {
  document.body.classList.add('beside')
  ask = to => asked(Math.max(0, Math.min(steps.length, to)))
  handsOn = pressed
  layOut()
}

function nextReport() {
  const next = told.find(it => it.words[0] === 'full' && it.index >= at)
  return next ? next.index + 1 : at
}

function lineOn(way) {
  let to = at
  const line = at ? steps[at - 1].line : 0
  if (way > 0) {
    while (to < steps.length && (to === at || steps[to].line === steps[to - 1].line)) to++
    return to
  }
  while (to > 0 && steps[to - 1].line === line) to--
  return to
}

const keys = {
  ArrowLeft: () => at - 1,
  ArrowRight: () => at + 1,
  ArrowUp: () => lineOn(-1),
  ArrowDown: () => lineOn(1),
  Home: () => 0,
  End: () => steps.length,
  r: nextReport,
}
const scrolls = ['ArrowUp', 'ArrowDown', 'Home', 'End']
addEventListener('keydown', event => {
  if (event.ctrlKey || event.metaKey || event.altKey || event.shiftKey) return
  if (!keys[event.key]) return handsOn(event.key)
  if (event.key === 'r' && !byId('letters').checked) return
  // a pane that has the focus is scrolled, as everywhere
  if (scrolls.includes(event.key) && document.activeElement.closest('#picture, #side')) return
  event.preventDefault()
  if (!handsOn(event.key)) ask(keys[event.key]())
})
byId('slider').max = steps.length
byId('slider').oninput = event => ask(Number(event.target.value))
byId('back').onclick = () => ask(at - 1)
byId('on').onclick = () => ask(at + 1)
byId('next').onclick = () => ask(nextReport())
// what a cell means stands in its title, which neither a finger nor a key shows: so a click says it, and the focus
const cellAt = event => event.target.closest('table [title]')
const tell = event => { if (cellAt(event)) byId('means').textContent = cellAt(event).title }
byId('side').addEventListener('click', tell)
byId('side').addEventListener('focusin', tell)
const cellsIn = row => [...row.querySelectorAll('[title]')]
const rowsOf = cell => [...cell.closest('table').tBodies[0].rows].filter(row => cellsIn(row).length)
const placeOf = cell => {
  const rows = rowsOf(cell), row = rows.indexOf(cell.closest('tr'))
  return [rows, row, cellsIn(rows[row]).indexOf(cell)]
}
function cellBy(key, cell) {
  const [rows, row, place] = placeOf(cell), inRow = cellsIn(rows[row])
  if (key === 'ArrowLeft' || key === 'ArrowRight') return inRow[place + (key === 'ArrowLeft' ? -1 : 1)]
  if (key === 'Home' || key === 'End') return inRow[key === 'Home' ? 0 : inRow.length - 1]
  const other = rows[row + (key === 'ArrowUp' ? -1 : 1)]
  if (!other) return undefined
  const column = cell.closest('td').cellIndex
  return cellsIn(other).reduce((best, it) => Math.abs(it.closest('td').cellIndex - column) < Math.abs(best.closest('td').cellIndex - column) ? it : best)
}
function reach(cell) {
  for (const it of cell.closest('table').querySelectorAll('[title]')) it.tabIndex = it === cell ? 0 : -1
  cell.focus()
}
byId('side').addEventListener('keydown', event => {
  const cell = cellAt(event)
  if (!cell || event.ctrlKey || event.metaKey || event.altKey || event.shiftKey) return
  if (event.key === 'Escape') return byId('side').focus()
  if (!['ArrowLeft', 'ArrowRight', 'ArrowUp', 'ArrowDown', 'Home', 'End'].includes(event.key)) return
  event.preventDefault()
  event.stopPropagation()
  const next = cellBy(event.key, cell)
  if (next) reach(next)
})
// one cell of each table is reached by tab: the one that had the focus, else the first
function makeReachable(had) {
  for (const table of [byId('nodes'), byId('rounds')]) {
    const cells = [...table.querySelectorAll('tbody [title]')]
    for (const it of cells) {
      it.tabIndex = -1
      it.setAttribute('role', 'button')
      it.setAttribute('aria-label', it.title)
    }
    if (!cells.length) continue
    const again = had && had.table === table && rowsOf(cells[0])[had.row] && cellsIn(rowsOf(cells[0])[had.row])[had.place]
    if (again) reach(again)
    else cells[0].tabIndex = 0
  }
}
function focused() {
  const cell = document.activeElement && document.activeElement.closest('table [title]')
  if (!cell) return null
  const [, row, place] = placeOf(cell)
  return {table: cell.closest('table'), row, place}
}
addEventListener('hashchange', () => { if (isPlace()) go(Number(location.hash.slice(1))) })
byId('picture').onclick = event => {
  const y = (event.clientY - drawing.getBoundingClientRect().top) / scale()
  let near = 0
  steps.forEach((step, index) => { if (Math.abs(step.y - y) < Math.abs(steps[near].y - y)) near = index })
  if (steps.length) ask(near + 1)
}
if (isNarrow) {
  byId('nodes').className = byId('rounds').className = 'narrow'
  byId('colours').hidden = false
  const named = new Set(Object.values(run.before).concat(steps.map(step => step.state || {})).flatMap(it => Object.values(it.rows || {}).filter(Boolean).map(row => row[1])))
  for (const ledger of [...named].slice(0, 12)) {
    const it = make('span', '■ ' + run.ledgers[ledger][0] + (run.ledgers[ledger][3] ? ', named in its cells' : ''))
    it.style.color = colour(ledger)
    byId('colours').append(it)
  }
}
function size(fits) {
  isFit = fits
  layOut()
  drawBand()
}
byId('fit').onclick = () => size(true)
byId('large').onclick = () => size(false)
function split(width) {
  left = width
  layOut()
}
byId('splitter').onpointerdown = event => event.target.setPointerCapture(event.pointerId)
byId('splitter').onpointermove = event => { if (event.buttons) split(event.clientX) }
byId('splitter').onkeydown = event => {
  const way = {ArrowLeft: -32, ArrowRight: 32}[event.key]
  if (!way) return
  event.preventDefault()
  event.stopPropagation()
  split(pane.offsetWidth + way)
}
pane.addEventListener('scroll', showLanes)
isStacked.onchange = () => size(!isStacked.matches)
addEventListener('resize', () => { layOut(); drawMarks() })
matchMedia('(prefers-color-scheme:dark)').onchange = drawMarks

const isPlace = () => /^#[0-9]+$/.test(location.hash)

// the event that matters: the second report of the fork or of two branches, else the first report, else the end
function opening() {
  const report = told.find(it => it.words[0] === 'full')
  if (run.fork.length) return [Math.max(...run.fork) + 1, 'the second report of the fork']
  if (run.branches.length) return [Math.max(...run.branches) + 1, 'the second of two reports on two branches']
  return report ? [report.index + 1, 'the first report'] : [steps.length, 'the end, since nothing is reported']
}
