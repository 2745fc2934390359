"""Pieces of SVG in two colour schemes, for the tools that draw."""
import math
import textwrap
from html import escape

LIGHT = dict(
    paper='#ffffff',
    ink='#1d2530',
    mute='#5d6773',
    lane='#c2cad3',
    red='#c81e2b',
    amber='#8a5a00',
    soft='#eef1f4',
    ledgers=['#1f5fbf', '#b05a00', '#17805a', '#7447b8', '#0a7a8a', '#99407a', '#66700f'],
)
DARK = dict(
    paper='#14181e',
    ink='#e6eaf0',
    mute='#9da8b5',
    lane='#4a5461',
    red='#ff6b70',
    amber='#e3b341',
    soft='#212831',
    ledgers=['#6ea8ff', '#f0a045', '#4fc998', '#b794f6', '#45c6d6', '#e58bc4', '#bccb52'],
)
FONT = (
    'text{font:12px system-ui,"Segoe UI",Roboto,"Helvetica Neue",Arial,"DejaVu Sans",sans-serif}'
    '.bold{font-weight:600}.large{font-size:16px}'
    '.halo{paint-order:stroke;stroke-width:4px;stroke-linejoin:round}'
    '.line{fill:none;stroke-width:1.5}.wide{stroke-width:2.5}'
)
# estimated widths of a letter: in plain labels, in bold ones, in plain lines, and in large bold lines
NARROW, STRONG, PLAIN, BOLD = 6.3, 7.6, 6.8, 10.2


def rules(colours):
    """The style of one scheme: `ink` and the like fill, `ink-line` and the like are strokes."""
    plain = (
        '.paper,.hole{fill:%(paper)s}.ink{fill:%(ink)s}.mute{fill:%(mute)s}.red{fill:%(red)s}.amber{fill:%(amber)s}.soft{fill:%(soft)s}'
        '.halo{stroke:%(paper)s}.lane-line{stroke:%(lane)s}.mute-line{stroke:%(mute)s}.red-line{stroke:%(red)s}'
    )
    ledgers = ''.join(
        '.ledger%d{fill:%s}.ledger%d-line{stroke:%s}' % (number, colour, number, colour)
        for number, colour in enumerate(colours['ledgers'])
    )
    return plain % colours + ledgers


def variables(colours):
    """The scheme as variables of a page's style."""
    named = ''.join('--%s:%s;' % pair for pair in colours.items() if pair[0] != 'ledgers')
    return named + ''.join('--ledger%d:%s;' % pair for pair in enumerate(colours['ledgers']))


def style(scheme):
    if scheme != 'auto':
        return FONT + rules(DARK if scheme == 'dark' else LIGHT)
    return '%s%s@media (prefers-color-scheme:dark){%s}' % (FONT, rules(LIGHT), rules(DARK))


def page(width, height, scheme, title, description, parts):
    """A whole picture, which a screen reader finds as one image with a title and a description."""
    return (
        '<svg xmlns="http://www.w3.org/2000/svg" width="%d" height="%d" viewBox="0 0 %d %d" role="img" '
        'aria-labelledby="title description">\n<title id="title">%s</title>\n<desc id="description">%s</desc>\n'
        '<style>%s</style>\n<rect class="paper" width="100%%" height="100%%"/>\n%s\n</svg>\n'
    ) % (width, height, width, height, escape(title), escape(description), style(scheme), '\n'.join(parts))


def text(x, y, words, kind='ink', anchor='start'):
    return '<text x="%.1f" y="%.1f" class="%s" text-anchor="%s">%s</text>' % (x, y, kind, anchor, escape(words))


def width_of(parts):
    """The estimated width of a line of pairs of words and kind."""
    return sum((len(words) + 2) * (STRONG if 'bold' in kind else NARROW) for words, kind in parts)


def spans(x, y, parts, anchor):
    """One line of pairs of words and kind, parted by commas, with a halo."""
    inner = ''.join(
        '<tspan class="%s">%s%s</tspan>' % (kind, ', ' if place else '', escape(words))
        for place, (words, kind) in enumerate(parts)
    )
    return '<text class="halo" x="%.1f" y="%.1f" text-anchor="%s">%s</text>' % (x, y, anchor, inner)


def line(x1, y1, x2, y2, kind, more=''):
    return '<line x1="%.1f" y1="%.1f" x2="%.1f" y2="%.1f" class="line %s"%s/>' % (x1, y1, x2, y2, kind, more)


def dot(x, y, radius, kind):
    return '<circle class="%s" cx="%.1f" cy="%.1f" r="%s"/>' % (kind, x, y, radius)


def diamond(x, y, radius, kind):
    corners = (x, y - radius, x + radius, y, x, y + radius, x - radius, y)
    return '<path class="%s" d="M%.1f %.1fL%.1f %.1fL%.1f %.1fL%.1f %.1fZ"/>' % (kind, *corners)


def box(x, y, width, height, kind, more='', radius=4):
    return '<rect class="%s" x="%.1f" y="%.1f" width="%.1f" height="%.1f" rx="%d"%s/>' % (
        kind,
        x,
        y,
        width,
        height,
        radius,
        more,
    )


def block(x, y, words, kind, width, letter, step):
    """Words wrapped to the width, and the place below them."""
    lines = textwrap.wrap(words, max(1, int(width / letter)))
    return [text(x, y + place * step, it, kind) for place, it in enumerate(lines)], y + len(lines) * step


def arrow(x1, y1, x2, y2, colour, dash='', room=1):
    """An arrow whose point stays `room` away from its end."""
    length = math.hypot(x2 - x1, y2 - y1) or 1
    right, down = (x2 - x1) / length, (y2 - y1) / length
    x, y = x2 - room * right, y2 - room * down
    neck_x, neck_y = x - 8 * right, y - 8 * down
    point = '<path class="%s" d="M%.1f %.1fL%.1f %.1fL%.1f %.1fZ"/>' % (
        colour,
        x,
        y,
        neck_x - 4 * down,
        neck_y + 4 * right,
        neck_x + 4 * down,
        neck_y - 4 * right,
    )
    return line(x1, y1, neck_x, neck_y, colour + '-line', ' stroke-dasharray="%s"' % dash if dash else '') + point
