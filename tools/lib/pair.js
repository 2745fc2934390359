'use strict'
// steps: how many events of each run are behind it, and whether the runs part there
const {steps, matters} = JSON.parse(document.getElementById('data').textContent)
const byId = id => document.getElementById(id)
const panes = [...document.querySelectorAll('iframe')]
let at = 0

function go(to) {
  at = Math.max(0, Math.min(steps.length - 1, to))
  byId('slider').value = at
  byId('back').disabled = at === 0
  byId('on').disabled = at === steps.length - 1
  byId('next').disabled = nextDifference() === at
  byId('where').textContent = `step ${at} of ${steps.length - 1}` + (steps[at][2] ? ', they part here' : '')
  byId('slider').setAttribute('aria-valuetext', byId('where').textContent)
  panes.forEach((pane, side) => pane.contentWindow.go && pane.contentWindow.go(steps[at][side]))
  document.body.dataset.at = at
  history.replaceState(null, '', '#' + at)
}

function nextDifference() {
  const next = steps.findIndex((step, place) => place > at && step[2])
  return next < 0 ? at : next
}

// what is asked for in one run moves both: to the first step behind which that run has so many events
const moved = side => to => {
  const first = steps.findIndex(step => step[side] >= to)
  go(first < 0 ? steps.length - 1 : first)
}

const keys = {ArrowLeft: () => at - 1, ArrowRight: () => at + 1, Home: () => 0, End: () => steps.length - 1, d: nextDifference}
// whether the key moves both runs
function press(key) {
  if (!keys[key]) return false
  go(keys[key]())
  return true
}
addEventListener('keydown', event => {
  if (event.ctrlKey || event.metaKey || event.altKey || event.shiftKey) return
  if (press(event.key)) event.preventDefault()
})
byId('slider').max = steps.length - 1
byId('slider').oninput = event => go(Number(event.target.value))
byId('back').onclick = () => go(at - 1)
byId('on').onclick = () => go(at + 1)
byId('next').onclick = () => go(nextDifference())

function drawMarks() {
  const canvas = byId('marks'), width = canvas.clientWidth * devicePixelRatio, height = 12 * devicePixelRatio
  canvas.width = width
  canvas.height = height
  const brush = canvas.getContext('2d'), room = 8 * devicePixelRatio
  brush.fillStyle = getComputedStyle(document.documentElement).getPropertyValue('--amber')
  steps.forEach((step, place) => {
    if (!step[2]) return
    brush.fillRect(room + (width - 2 * room) * place / Math.max(1, steps.length - 1) - devicePixelRatio, 0, 2 * devicePixelRatio, height)
  })
}

const isPlace = () => /^#[0-9]+$/.test(location.hash)
addEventListener('resize', drawMarks)
matchMedia('(prefers-color-scheme:dark)').onchange = drawMarks
addEventListener('hashchange', () => { if (isPlace()) go(Number(location.hash.slice(1))) })
addEventListener('load', () => {
  panes.forEach((pane, side) => pane.contentWindow.besideAnother(moved(side), press))
  drawMarks()
  go(isPlace() ? Number(location.hash.slice(1)) : matters)
})
