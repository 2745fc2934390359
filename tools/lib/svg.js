// Pieces of SVG in two colour schemes, as tools/lib/svg.py writes them.
'use strict'
const {light: LIGHT, dark: DARK, font: FONT} = known.drawing
const NARROW = 6.3, STRONG = 7.6, PLAIN = 6.8, BOLD = 10.2

const rulesOf = it => `.paper,.hole{fill:${it.paper}}.ink{fill:${it.ink}}.mute{fill:${it.mute}}.red{fill:${it.red}}.amber{fill:${it.amber}}.soft{fill:${it.soft}}` +
  `.halo{stroke:${it.paper}}.lane-line{stroke:${it.lane}}.mute-line{stroke:${it.mute}}.red-line{stroke:${it.red}}` +
  it.ledgers.map((colour, number) => `.ledger${number}{fill:${colour}}.ledger${number}-line{stroke:${colour}}`).join('')

const svg = {
  style(scheme) {
    if (scheme !== 'auto') return FONT + rulesOf(scheme === 'dark' ? DARK : LIGHT)
    return `${FONT}${rulesOf(LIGHT)}@media (prefers-color-scheme:dark){${rulesOf(DARK)}}`
  },

  // A whole picture, which a screen reader finds as one image with a title and a description.
  page(width, height, scheme, title, description, parts) {
    const w = Math.trunc(width), h = Math.trunc(height)
    return `<svg xmlns="http://www.w3.org/2000/svg" width="${w}" height="${h}" viewBox="0 0 ${w} ${h}" role="img" ` +
      `aria-labelledby="title description">\n<title id="title">${escaped(title)}</title>\n<desc id="description">${escaped(description)}</desc>\n` +
      `<style>${svg.style(scheme)}</style>\n<rect class="paper" width="100%" height="100%"/>\n${parts.join('\n')}\n</svg>\n`
  },

  text: (x, y, words, kind = 'ink', anchor = 'start') =>
    `<text x="${fixed(x)}" y="${fixed(y)}" class="${kind}" text-anchor="${anchor}">${escaped(words)}</text>`,

  // The estimated width of a line of pairs of words and kind.
  widthOf: parts => parts.reduce((sum, [words, kind]) => sum + (letters(words) + 2) * (kind.includes('bold') ? STRONG : NARROW), 0),

  // One line of pairs of words and kind, parted by commas, with a halo.
  spans: (x, y, parts, anchor) => `<text class="halo" x="${fixed(x)}" y="${fixed(y)}" text-anchor="${anchor}">` +
    parts.map(([words, kind], place) => `<tspan class="${kind}">${place ? ', ' : ''}${escaped(words)}</tspan>`).join('') + '</text>',

  line: (x1, y1, x2, y2, kind, more = '') =>
    `<line x1="${fixed(x1)}" y1="${fixed(y1)}" x2="${fixed(x2)}" y2="${fixed(y2)}" class="line ${kind}"${more}/>`,

  dot: (x, y, radius, kind) => `<circle class="${kind}" cx="${fixed(x)}" cy="${fixed(y)}" r="${radius}"/>`,

  diamond: (x, y, radius, kind) =>
    `<path class="${kind}" d="M${fixed(x)} ${fixed(y - radius)}L${fixed(x + radius)} ${fixed(y)}L${fixed(x)} ${fixed(y + radius)}L${fixed(x - radius)} ${fixed(y)}Z"/>`,

  box: (x, y, width, height, kind, more = '', radius = 4) =>
    `<rect class="${kind}" x="${fixed(x)}" y="${fixed(y)}" width="${fixed(width)}" height="${fixed(height)}" rx="${radius}"${more}/>`,

  // Words wrapped to the width, and the place below them.
  block(x, y, words, kind, width, letter, step) {
    const lines = wrapped(words, Math.max(1, Math.trunc(width / letter)))
    return [lines.map((it, place) => svg.text(x, y + place * step, it, kind)), y + lines.length * step]
  },

  // An arrow whose point stays `room` away from its end.
  arrow(x1, y1, x2, y2, colour, dash = '', room = 1) {
    const length = Math.hypot(x2 - x1, y2 - y1) || 1, right = (x2 - x1) / length, down = (y2 - y1) / length
    const x = x2 - room * right, y = y2 - room * down, neckX = x - 8 * right, neckY = y - 8 * down
    const corners = `M${fixed(x)} ${fixed(y)}L${fixed(neckX - 4 * down)} ${fixed(neckY + 4 * right)}L${fixed(neckX + 4 * down)} ${fixed(neckY - 4 * right)}Z`
    return svg.line(x1, y1, neckX, neckY, colour + '-line', dash ? ` stroke-dasharray="${dash}"` : '') + `<path class="${colour}" d="${corners}"/>`
  },
}
