// The page: what is run, links, files and inputs.
'use strict'
const SAYS = {
  replay: 'what every node refuses, reports and prefers, and whether two have forked',
  picture: 'the run as a picture: a lane for each node, and time goes down',
  steps: 'the run event by event, with what each node then holds; the arrow keys step',
  tell: 'event by event what happens, what comes of it, which frames are sent, and what a node then holds',
  lists: 'what the trusted lists of each pair have in common',
  flags: 'what the votes on amendments and the fee change at each flag ledger',
  negative: 'the schedule again, with the lists that leave out members who are silent',
  merge: 'which list is in force, from the rolls of several publishers',
  show: 'what each frame of a stream says; the stream stands here as hexadecimal digits',
  gen: 'the summary of a schedule of so many rounds among seven nodes, which the program makes itself',
}
const TITLES = {steps: 'step by step'}
const MOST_ROUNDS = 1000
const WAIT = 350
const OF_SCHEDULES = ['lists', 'tell', 'picture', 'steps']
const inputs = JSON.parse(byId('inputs').textContent)
const state = {command: 'replay', name: 'schedule.xl', rounds: 20, told: null, ran: 0}
let timer = null

// ---- runs

const isHex = text => /^\s*(?:[0-9a-f]{2}\s*)*$/i.test(text)

// What the command reads: the bytes of the text, and of a stream of frames those that its digits stand for.
function inputOf(command) {
  const text = editor.getValue()
  if (command !== 'show' || !isHex(text)) return new TextEncoder().encode(text)
  return Uint8Array.from(text.match(/[0-9a-f]{2}/gi) || [], it => parseInt(it, 16))
}

// `lists` reads some words of a schedule alone: lines that begin with others are left empty, so that each has its number.
async function runLists() {
  const left = new Set()
  for (;;) {
    const text = editor.getValue().split('\n').map(it => left.has(it.trim().split(/\s+/)[0]) ? '' : it).join('\n')
    const told = await engine.run('lists', new TextEncoder().encode(text))
    const bad = told.status === 3 && /^bad (\d+) 36 (\S+)\n$/.exec(latin(told.text))
    if (!bad || bad[1] === '1' || left.has(bad[2])) return {...told, left: [...left]}
    left.add(bad[2])
  }
}

// What is drawn of a run is what `tell` writes.
const programOf = view => Object.hasOwn(VIEWS, view) ? 'tell' : view
const runOf = command => command === 'lists' ? runLists() : engine.run(programOf(command), inputOf(command), state.rounds)

// Runs the command that is shown. A run that goes on ends, and nothing more is said of it.
async function run() {
  clearTimeout(timer)
  const command = state.command
  if (command === 'about') return
  say('runs', '')
  const told = await runOf(command)
  if (told.stopped) return
  state.told = {command, ...told, words: told.text ? new TextDecoder().decode(told.text) : ''}
  draw()
  state.ran += 1
  document.body.dataset.ran = state.ran
}

function draw() {
  const {command, words, left} = state.told, refused = command !== 'show' && command !== 'gen' && state.told.status === 3
  mark.clear()
  if (refused) mark.put(Number(lastWords(words)[1]), causeOf(lastWords(words)[2], lastWords(words).slice(3)))
  const drawn = drawnRun(command)
  say(...verdictOf(command, state.told, words, drawn && drawn.story))
  byId('took').textContent = state.told.fault ? '' : `status ${state.told.status}, ${state.told.ms.toFixed(1)} ms, ${(state.told.memory / 1048576).toFixed(1)} MB`
  const begin = Object.hasOwn(VIEWS, command) ? '' : `xl ${command}${command === 'gen' ? ' ' + state.rounds : ''}: `
  const parts = [element('p', 'says', `${begin}${SAYS[command]}.`)]
  if (command === 'gen') parts.push(roundsField())
  if (left && left.length) parts.push(element('p', 'says', `Left out, since lists reads no such lines: ${left.join(', ')}.`))
  if (command === 'lists' && state.told.status === 0) parts.push(matrixOf(words))
  byId('told').replaceChildren(...parts, drawn ? VIEWS[command](drawn) : drawnText(words, command))
}

// A run that came to its end, if it is to be drawn.
function drawnRun(command) {
  const {status, text} = state.told
  if (!Object.hasOwn(VIEWS, command) || ![0, 1, 3].includes(status)) return null
  const run = {name: state.name, text: latin(inputOf('tell')), status, told: latin(text)}
  return {run, story: new Story(run.text, run.status, run.told)}
}

function roundsField() {
  const field = document.createElement('input')
  Object.assign(field, {type: 'number', min: 1, max: MOST_ROUNDS, value: state.rounds, id: 'rounds'})
  field.onchange = () => {
    state.rounds = Math.min(MOST_ROUNDS, Math.max(1, Math.trunc(Number(field.value)) || 1))
    run()
  }
  return element('p', '', element('label', '', 'Rounds ', field))
}

function say(words, kind) {
  byId('verdict').textContent = words
  byId('verdict').className = kind
}

// ---- commands

function show(command) {
  state.command = command
  for (const tab of document.querySelectorAll('[role=tab]')) {
    const isShown = tab.id === 'tab-' + command
    tab.setAttribute('aria-selected', String(isShown))
    tab.tabIndex = isShown ? 0 : -1
  }
  byId('about').hidden = command !== 'about'
  byId('told').hidden = command === 'about'
  byId('told').setAttribute('aria-labelledby', 'tab-' + command)
}

function addTabs() {
  const bar = document.querySelector('[role=tablist]'), names = [...Object.keys(SAYS).filter(it => known.commands.includes(programOf(it))), 'about']
  for (const name of names) {
    const tab = element('button', '', TITLES[name] || name)
    tab.id = 'tab-' + name
    tab.setAttribute('role', 'tab')
    tab.setAttribute('aria-controls', name === 'about' ? 'about' : 'told')
    tab.onclick = () => {
      show(name)
      run()
    }
    bar.append(tab)
  }
  bar.onkeydown = event => {
    const at = names.indexOf(state.command)
    const next = {ArrowRight: at + 1, ArrowLeft: at - 1, Home: 0, End: names.length - 1}[event.key]
    if (next === undefined) return
    event.preventDefault()
    show(names.at(next % names.length))
    byId('tab-' + state.command).focus()
    run()
  }
}

// ---- links, files and inputs

const toLink = bytes => btoa(latin(bytes)).replace(/\+/g, '-').replace(/\//g, '_').replace(/=+$/, '')
const fromLink = text => fromBase64(text.replace(/-/g, '+').replace(/_/g, '/'))

// The fragment of a link that holds the command and the input.
async function linkOf() {
  const packed = await through(new TextEncoder().encode(editor.getValue()), new CompressionStream('deflate-raw'))
  return `#c=${state.command}&s=${toLink(packed)}`
}

async function readLink() {
  const found = new URLSearchParams(location.hash.slice(1)), command = found.get('c')
  if (command && byId('tab-' + command)) show(command)
  if (found.has('e')) return load(found.get('e'))
  if (!found.has('s')) return false
  try {
    put('schedule.xl', new TextDecoder().decode(await through(fromLink(found.get('s')), new DecompressionStream('deflate-raw'))))
  } catch (error) {
    say('The link holds no input that can be read.', 'wrong')
    return false
  }
  return true
}

function put(name, text) {
  editor.setValue(text)
  state.name = name
}

function load(name) {
  const found = inputs.find(it => it.name === name)
  if (!found) return false
  put(found.name.split('/').at(-1), found.text)
  if (found.command !== state.command && !(found.command === 'replay' && OF_SCHEDULES.includes(state.command))) show(found.command)
  byId('examples').value = name
  return true
}

function addExamples() {
  const groups = new Map()
  for (const {name, title, group} of inputs) {
    if (!groups.has(group)) groups.set(group, element('optgroup'))
    groups.get(group).label = group
    groups.get(group).append(new Option(title, name))
  }
  byId('examples').append(...groups.values())
  byId('examples').onchange = event => {
    load(event.target.value)
    run()
  }
}

// The text of a file. Bytes that are no text stand in the editor as hexadecimal digits.
function textOf(bytes) {
  try {
    const text = new TextDecoder('utf-8', {fatal: true}).decode(bytes)
    if (!/[\0-\x08]/.test(text)) return text
  } catch (error) {
    // it is no text
  }
  return [...bytes].map((it, at) => it.toString(16).padStart(2, '0') + (at % 32 === 31 ? '\n' : '')).join('')
}

async function openFile(file) {
  if (!file) return
  put(file.name, textOf(new Uint8Array(await file.arrayBuffer())))
  run()
}

function saveFile() {
  const link = document.createElement('a')
  link.href = URL.createObjectURL(new Blob([editor.getValue()], {type: 'text/plain'}))
  link.download = state.name
  link.click()
  setTimeout(() => URL.revokeObjectURL(link.href), 1000)
}

async function share() {
  history.replaceState(null, '', await linkOf())
  const button = byId('share')
  try {
    await navigator.clipboard.writeText(location.href)
    button.textContent = 'Copied'
  } catch (error) {
    button.textContent = 'In the address'
  }
  setTimeout(() => button.textContent = 'Link', 1500)
}

// ---- the beginning

function listen() {
  byId('file').onchange = event => openFile(event.target.files[0])
  byId('save').onclick = saveFile
  byId('share').onclick = share
  byId('run').onclick = run
  editor.on('change', (_, change) => {
    clearTimeout(timer)
    if (change.origin !== 'setValue') timer = setTimeout(run, WAIT)
  })
  document.addEventListener('dragover', event => event.preventDefault())
  document.addEventListener('drop', event => {
    event.preventDefault()
    openFile(event.dataTransfer.files[0])
  })
  addEventListener('hashchange', async () => {
    if (await readLink()) run()
  })
}

async function begin() {
  const began = performance.now()
  addTabs()
  addExamples()
  listen()
  show('replay')
  try {
    await engine.open()
  } catch (error) {
    return say('This browser can\'t run the program: ' + error.message, 'wrong')
  }
  if (!await readLink()) put(inputs[0].name, inputs[0].text)
  await run()
  document.body.dataset.opened = String(Math.round(performance.now() - began))
}
begin()
