// The picture of a run: a lane for each node and liar, and time goes down, as tools/lib/timeline.py draws it.
'use strict'
const ROW = 26, MOST_WARNINGS = 2, WIDEST = 1100, NEAREST = 40, GAP = 42, THIN = 10
const LEGEND = known.drawing.legend

class Timeline extends Lanes {
  constructor(story, options, fallback) {
    super(story, options, fallback)
    Object.assign(this, {used: new Set(), under: [], boxes: [], over: [], texts: []})
  }

  // What the labels need left of the first lane and right of the last one.
  rooms() {
    let left = 46, right = 46
    for (const event of this.shown.filter(it => this.lanes.includes(it.node) && this.labels.get(it.index).length)) {
      const need = svg.widthOf(this.labels.get(event.index)) + 22, place = this.lanes.indexOf(event.node)
      if (this.side(event) < 0) left = Math.max(left, need - place * this.gap)
      else right = Math.max(right, need - (this.lanes.length - 1 - place) * this.gap)
    }
    return [left, right]
  }

  // Lays the lanes nearer to each other, and labels over lanes, until the picture is as wide as a column.
  narrow(left) {
    let room, right, width
    for (;;) {
      [room, right] = this.rooms()
      width = left + room + this.gap * (this.lanes.length - 1) + right
      if (width <= WIDEST || this.gap <= NEAREST) break
      this.gap -= 2
    }
    this.placeLanes(left + room)
    this.width = Math.max(width, 640)
  }

  placeLanes(from) {
    this.x = new Map(this.lanes.map((number, place) => [number, from + place * this.gap]))
  }

  // Where the columns and lanes stand. Moment, line and event stand left of the lanes.
  layOut() {
    this.gap = this.longest(it => svg.widthOf(this.labels.get(it.index)) + 24, 104)
    this.timeX = 16 + this.longest(it => letters(this.when(it.moment)) * NARROW)
    this.lineX = this.timeX + 8 + this.longest(it => String(it.line).length * STRONG, 24)
    const left = this.lineX + 14 + this.longest(it => letters(this.phrase(it)) * 6.6, 40) + 12
    if (this.isCompact) return this.narrow(left)
    this.placeLanes(left + (this.shown.some(it => this.needsLeftRoom(it)) ? this.gap - 8 : 46))
    this.width = Math.max(Math.max(...this.x.values(), left) + this.gap, 640)
  }

  needsLeftRoom(event) {
    return event.node === this.lanes[0] && this.labels.get(event.index).length > 0 && this.side(event) < 0
  }

  // The label stands left of the lane where what arrives comes from the right.
  side(event) {
    const sender = this.story.senderOf(event)
    return sender !== null && sender > event.node ? -1 : 1
  }

  drawHead() {
    let parts = [], y = 26
    if (!this.options.bare) {
      [parts, y] = svg.block(20, 30, this.title, 'bold large ink', this.width - 40, BOLD, 22)
      y += 14
    }
    const heads = this.lanes.map(it => this.laneHead(it, y))
    const columns = [svg.text(this.lineX, y, 'line', 'mute', 'end'), svg.text(this.lineX + 14, y, 'event', 'mute')]
    this.texts.push(...parts, ...heads.flatMap(it => it[0]), ...columns)
    return Math.max(y, ...heads.map(it => it[1])) + 16
  }

  laneHead(number, y) {
    const node = this.story.network.nodes.get(number), room = Math.trunc((this.gap - 12) / NARROW), x = this.x.get(number)
    let lines = ['says anything']
    if (node) lines = [this.quorumOf(node), ...wrapped(ranges(node.members), room), ...(node.observes ? ['observing'] : [])]
    else if (this.isCompact) lines = wrapped(lines[0], room)
    const parts = [svg.text(x, y, `${node ? 'Node' : 'Liar'} ${number}`, 'bold ink', 'middle')]
    return [[...parts, ...lines.map((it, place) => svg.text(x, y + 16 * (place + 1), it, 'mute', 'middle'))], y + 16 * lines.length]
  }

  quorumOf({quorum, members}) {
    const whole = `quorum ${quorum} of ${members.length}:`
    if (whole.length * NARROW <= this.gap - 12) return whole
    return this.isCompact ? `${quorum} of ${members.length}:` : `quorum ${quorum}/${members.length}:`
  }

  // The height of each event; those that are left out share that of the gap.
  placeRows(top) {
    this.y = new Map()
    let before = -1, y = top
    for (const index of [...this.shown.map(it => it.index), this.story.events.length]) {
      if (index > before + 1) y += this.placeLeftOut(before, index, y)
      before = index
      y += this.folded.get(index) !== 0 ? ROW : 0
      this.y.set(index, y)
    }
    return y - 4
  }

  placeLeftOut(before, index, y) {
    const isTold = !this.options.brief || this.hides(before + 1, index), high = isTold ? GAP : THIN
    if (isTold) this.drawGap(y + 34, index - before - 1)
    for (let leftOut = before + 1; leftOut < index; leftOut++) this.y.set(leftOut, y + high + 2)
    return high
  }

  drawGap(y, count) {
    this.under.push(svg.box(12, y - 12, this.width - 24, 24, 'soft'))
    this.over.push(svg.text(this.width / 2, y + 4, `${grouped(count)} event${count === 1 ? '' : 's'} left out`, 'halo mute', 'middle'))
  }

  drawLanes(top, end) {
    for (const number of this.lanes) {
      const dash = this.story.network.liars.includes(number) ? ' stroke-dasharray="2 4"' : ''
      this.under.unshift(svg.line(this.x.get(number), top, this.x.get(number), end, 'lane-line', dash))
    }
  }

  drawRows() {
    let moment = null
    for (const event of this.shown) {
      const y = this.y.get(event.index)
      if (event.moment !== moment) this.texts.push(svg.text(this.timeX, y + 4, this.when(event.moment), 'mute', 'end'))
      moment = event.moment
      if (this.folded.get(event.index) !== 0) {
        this.texts.push(svg.text(this.lineX, y + 4, String(event.line), 'mute', 'end'), svg.text(this.lineX + 14, y + 4, this.phrase(event), 'ink'))
      }
      if (event.node !== null) this.drawEvent(event)
    }
  }

  drawEvent(event) {
    this.drawArrival(event)
    this.drawMark(event)
    this.drawLabel(event)
  }

  drawArrival(event) {
    const x = this.x.get(event.node), y = this.y.get(event.index)
    const room = this.forked.has(event.index) ? 12 : event.told('full').length ? 7 : 1
    if (event.word === 'deliver') this.drawDelivery(event, x, y, room)
    else if (event.word === 'lie') {
      const sender = this.x.get(Number(event.tokens[1]))
      this.under.push(svg.arrow(sender, y - 12, x, y, this.colour(this.subject(event)), '5 4', room))
      this.over.push(svg.dot(sender, y - 12, 2.5, 'mute'))
    } else if (event.word === 'raw') this.under.push(svg.arrow(x - 46, y - 9, x, y, 'mute', '1.5 3', room))
    if (Object.hasOwn(LEGEND, event.word)) this.used.add(event.word)
  }

  drawDelivery(event, x, y, room) {
    const frame = this.story.frames[event.frame - 1], colour = this.colour(this.subjectOfFrame(frame))
    const isShared = this.isShared(this.subjectOfFrame(frame))
    if (isShared) this.used.add('shared')
    this.under.push(svg.arrow(this.x.get(frame.sender), this.y.get(frame.event), x, y, colour, isShared ? '11 3 2 3' : '', room))
  }

  drawMark(event) {
    const x = this.x.get(event.node), y = this.y.get(event.index), isBuilt = event.told('built').length > 0
    const says = ['issue', 'submit', 'timer', 'greet'].includes(event.word) && event.sent.length > 0
    if (OPENS_ANEW.includes(event.word)) {
      this.used.add('opened')
      this.over.push(svg.box(x - 7, y - 4, 14, 8, 'paper'))
      this.over.push(...[-2, 6].map(down => svg.line(x - 7, y + down, x + 7, y + down - 4, 'mute-line')))
    } else if (says && !isBuilt) {
      this.used.add('says')
      this.over.push(svg.dot(x, y, 4.5, `hole line ${this.colour(this.subject(event))}-line`))
    } else if (event.word === 'list') {
      this.used.add('list')
      this.over.push(svg.box(x - 4.5, y - 4.5, 9, 9, 'hole line mute-line', '', 1))
    } else if (['timer', 'greet', 'prefer', 'heard', 'submit', 'issue', 'fail'].includes(event.word)) {
      this.over.push(svg.dot(x, y, 2.5, 'mute'))
      if (!isBuilt && !event.told('switched').length) this.used.add('quiet')
    }
    for (const outcome of event.outcomes) this.drawOutcome(event, outcome, x, y)
  }

  drawOutcome(event, [word, ...values], x, y) {
    if (Object.hasOwn(LEGEND, word)) this.used.add(word)
    if (word === 'built') this.over.push(svg.box(x - 5, y - 5, 10, 10, this.colour(values[2]), '', 1))
    else if (word === 'full') this.over.push(svg.dot(x, y, 7, this.colour(values[2])))
    else if (word === 'switched') this.over.push(svg.diamond(x, y, 6, `hole line ${this.colour(values[2])}-line`))
    else if (word === 'refused' && event.word !== 'cut') this.over.push(svg.line(x - 6, y, x + 6, y, 'mute-line wide'))
  }

  drawLabel(event) {
    const label = this.labels.get(event.index)
    if (!label.length) return
    const side = this.side(event), isForked = this.forked.has(event.index), x = this.x.get(event.node) + side * (isForked ? 17 : 12)
    const y = this.y.get(event.index) + this.downOf(event, side), width = svg.widthOf(label) - 8
    this.boxes.push(svg.box(x - (side < 0 ? width : 0), y - 10, width, 13, 'paper'))
    this.texts.push(svg.spans(x, y, label, side < 0 ? 'end' : 'start'))
  }

  // How far down the label stands; of a fork's report away from the line that joins the two, if that is on its side.
  downOf(event, side) {
    const other = this.forked.has(event.index) && [...this.forked.values()].find(it => it !== event)
    const joinsHere = other && (this.x.get(other.node) - this.x.get(event.node)) * side > 0
    if (!joinsHere) return event.sent.length ? -5 : 4
    return this.y.get(other.index) > this.y.get(event.index) ? -8 : 12
  }

  // Frames that never arrive, as short open lines: one for each, or one with their number where they are many.
  drawLost() {
    const lost = new Map()
    for (const [place, frame] of this.story.frames.entries()) {
      if (this.arrived.has(place + 1) || !this.labels.has(frame.event)) continue
      const side = frame.receiver > frame.sender ? 1 : -1, key = frame.event + ' ' + side
      if (!lost.has(key)) lost.set(key, {side, frames: []})
      lost.get(key).frames.push(frame)
    }
    for (const {side, frames} of lost.values()) this.drawStubs(side, frames)
  }

  drawStubs(side, frames) {
    const isMany = frames.length > 3
    this.used.add('lost')
    for (const [place, frame] of (isMany ? frames.slice(0, 1) : frames).entries()) this.drawStub(frame, side, place, isMany ? frames.length : 1)
  }

  drawStub(frame, side, place, count) {
    const x = this.x.get(frame.sender), y = this.y.get(frame.event), angle = 0.4 + 0.35 * place
    const endX = x + side * 19 * Math.cos(angle), endY = y + 19 * Math.sin(angle)
    this.under.push(svg.line(x, y, endX, endY, this.colour(this.subjectOfFrame(frame)) + '-line', ' opacity=".7"'))
    this.under.push(...[3, -3].map(down => svg.line(endX - 3, endY - down, endX + 3, endY + down, 'mute-line')))
    if (count === 1) return
    const width = 6 * NARROW + 4
    if (this.isCompact) this.boxes.push(svg.box(endX + side * 4 - (side < 0 ? width : 0), endY - 6, width, 13, 'paper'))
    this.texts.push(svg.text(endX + side * 6, endY + 4, `${count} lost`, 'halo mute', side < 0 ? 'end' : 'start'))
  }

  drawFork() {
    const [[one], [other]] = this.fork
    const ax = this.x.get(one.node), ay = this.y.get(one.index), bx = this.x.get(other.node), by = this.y.get(other.index)
    const part = 11 / (Math.hypot(bx - ax, by - ay) || 1), right = part * (bx - ax), down = part * (by - ay)
    this.under.push(svg.line(ax + right, ay + down, bx - right, by - down, 'red-line wide', ' opacity=".75"'))
    this.over.push(svg.dot(ax, ay, 11, 'line red-line wide'), svg.dot(bx, by, 11, 'line red-line wide'))
  }

  drawFoot(y, verdict, notes) {
    const kind = 'bold large ' + ({agree: 'ink', quiet: 'ink', branches: 'amber'}[this.words.kind()] || 'red'), {bare} = this.options
    const legend = Object.keys(LEGEND).filter(it => this.used.has(it)).map(it => LEGEND[it].replace(/ /g, '\u00a0') + '\u00a0'.repeat(5))
    const blocks = bare ? [] : [[verdict, kind, BOLD, 21], ...[...notes, ...this.brevity()].map(it => [it, 'ink', PLAIN, 18])]
    for (const [words, ...how] of blocks) y = this.drawBlock(y, words, ...how)
    return this.drawBlock(y + 7, legend.join(' '), 'mute', PLAIN, 18) + 8
  }

  drawBlock(y, words, kind, letter, step) {
    const [parts, below] = svg.block(20, y, words, kind, this.width - 40, letter, step)
    this.texts.push(...parts)
    return below
  }

  // What a brief picture says of what it leaves out.
  brevity() {
    const leftOut = this.story.events.length - this.shown.length - this.hidden.length, told = []
    if (this.options.brief && leftOut) told.push(`Left out: ${grouped(leftOut)} events without a build, a report or a switch.`)
    if (this.without.length) told.push(`Without a lane, since nothing is shown at them: ${ranges(this.without)}.`)
    return told
  }

  // What a screen reader reads: the end, and each report.
  description(verdict, notes) {
    const {network, events} = this.story
    const reports = this.shown.flatMap(event => event.told('full').map(it => `Line ${event.line}: node ${it[1]} ${this.words.outcome(it)}.`))
    return [`${events.length} events at ${network.nodes.size} nodes and ${network.liars.length} liars.`, verdict, ...notes, ...reports].join(' ')
  }

  draw() {
    this.layOut()
    this.top = this.drawHead()
    const end = this.placeRows(this.top)
    this.drawLanes(this.top, end)
    this.drawRows()
    this.drawLost()
    if (this.fork) this.drawFork()
    const verdict = this.words.verdict(), notes = [...this.words.warnings(MOST_WARNINGS), ...this.words.notes()]
    const height = this.drawFoot(end + 32, verdict, notes), parts = [this.under, this.boxes, this.over, this.texts].flat()
    return svg.page(this.width, height, this.options.scheme, this.title, this.description(verdict, notes), parts)
  }
}
