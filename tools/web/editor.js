// The editor: the colours of the grammar, and the line that is refused.
'use strict'
const PATTERNS = known.grammar.map(({name, match}) => [new RegExp(match, 'y'), 'xl-' + name.split('.').at(-2)])

// The length and the style of what stands at a place of a line.
function styleAt(line, at) {
  for (const [pattern, style] of PATTERNS) {
    pattern.lastIndex = at
    const found = pattern.exec(line)
    if (found && found[0]) return [found[0].length, style]
  }
  return [1, null]
}

CodeMirror.defineMode('xl', () => ({
  token(stream) {
    const [length, style] = styleAt(stream.string, stream.pos)
    stream.pos += length
    return style
  },
}))

// A line of a text in the grammar's colours.
function coloured(line) {
  const parts = []
  let plain = ''
  for (let at = 0; at < line.length;) {
    const [length, style] = styleAt(line, at)
    if (style) {
      const it = document.createElement('span')
      it.className = style
      it.textContent = line.slice(at, at + length)
      parts.push(plain, it)
      plain = ''
    } else plain += line.slice(at, at + length)
    at += length
  }
  return [...parts, plain]
}

const editor = CodeMirror(byId('editor'), {
  lineNumbers: true, lineWrapping: true, mode: 'xl', inputStyle: 'contenteditable',
  extraKeys: {'Ctrl-Enter': () => run(), 'Cmd-Enter': () => run(), Tab: false, 'Shift-Tab': false},
})
editor.getInputField().setAttribute('aria-label', 'The input')

const mark = {
  line: null, note: null,

  clear() {
    if (this.line) editor.removeLineClass(this.line, 'wrap', 'bad')
    if (this.note) this.note.clear()
    this.line = this.note = null
  },

  // Marks a refused line, counted from 1, and says why below it.
  put(line, why) {
    if (line < 1 || line > editor.lineCount()) return
    const note = document.createElement('div')
    note.className = 'note'
    note.textContent = why
    this.line = editor.addLineClass(line - 1, 'wrap', 'bad')
    this.note = editor.addLineWidget(line - 1, note)
  },
}

function goTo(line) {
  editor.setCursor({line: line - 1, ch: 0})
  editor.scrollIntoView(null, 80)
  editor.focus()
}
