"""Drawings as SVG, for tools/pictures: boxes, lines and texts, whose colours are those of a light or a dark page."""
import html
import re

# The widths of letters in tenths of their size, in DejaVu Sans. Most fonts are narrower, so what fits by these fits by any.
WIDTHS = {it: tenths for tenths, letters in (
    (3, " ',./:;IJ\\ijl|"), (4, '!()-[]frt'), (5, '"*?_sz'), (6, '$0123456789EFLPSTYabcdeghknopquvxy{}'), (7, 'ABCKNRUVXZ'),
    (8, '#&+<=>DGHOQ^w~'), (9, 'M'), (10, '%@Wm')) for it in letters}
MARGIN = 16  # between the edge of a drawing and what is in it
LINE = 1.35  # the height of a line of text, of its size
ARROW = ('<marker id="arrow" viewBox="0 0 8 8" refX="7" refY="4" markerWidth="8" markerHeight="8" orient="auto" '
         'markerUnits="userSpaceOnUse"><path class="head" d="M0,0 L8,4 L0,8 z"/></marker>')
STYLE = '''text { font-family: "Segoe UI", Helvetica, Arial, "DejaVu Sans", sans-serif; fill: %(ink)s; }
.bold { font-weight: 600; }
.faint { fill: %(faint)s; }
.code { font-family: ui-monospace, Menlo, Consolas, "DejaVu Sans Mono", monospace; }
.card { fill: %(card)s; stroke: %(edge)s; }
.gap { fill: %(card)s; }
.box { fill: %(box)s; stroke: %(line)s; }
.line { fill: none; stroke: %(line)s; stroke-width: 1.4; }
.thin { fill: none; stroke: %(edge)s; stroke-width: 1.2; }
.dashed { fill: none; stroke: %(line)s; stroke-width: 1.2; stroke-dasharray: 4 4; }
.head { fill: %(line)s; }
.blue { fill: %(blue)s; stroke: %(line)s; }
.yellow { fill: %(yellow)s; stroke: %(line)s; }
.red { fill: %(red)s; stroke: %(line)s; }
.green { fill: %(green)s; stroke: %(line)s; }
.grey { fill: %(grey)s; stroke: %(line)s; }'''
LIGHT = dict(ink='#1f2328', faint='#57606a', card='#ffffff', edge='#d0d7de', box='#f3f6f9', line='#57606a', grey='#d8dee4',
             blue='#b6dcff', yellow='#ffe08a', red='#ffb9b3', green='#a6e9b2')
DARK = dict(ink='#e6edf3', faint='#9ea7b3', card='#0d1117', edge='#3d444d', box='#1b222c', line='#9ea7b3', grey='#3a434e',
            blue='#1f5b96', yellow='#7d5c00', red='#96342c', green='#1e6b33')


def shown(number):
    """A coordinate, in as few digits as a hundredth needs."""
    return ('%.2f' % number).rstrip('0').rstrip('.')


def pieces(text):
    """The pieces of a text, each with whether it is code, which is in `backticks`."""
    return [(it, at % 2 == 1) for at, it in enumerate(text.split('`')) if it]


def width_of(text, size):
    """How wide a text is at most. Letters of code are all as wide."""
    return sum(6.1 * len(it) if is_code else sum(WIDTHS.get(c, 8) for c in it) for it, is_code in pieces(text)) / 10 * size


def wrapped(text, width, size):
    """A text as lines of at most this width, of which one word may be wider. No line ends within code."""
    lines = []
    for word in re.findall(r'(?:`[^`]*`|[^`\s])+', text):
        if lines and width_of(lines[-1] + ' ' + word, size) <= width:
            lines[-1] += ' ' + word
        else:
            lines.append(word)
    return lines


def balanced(text, width, size):
    """A text as the fewest lines of at most this width, and these as narrow as that number of lines can be."""
    lines = wrapped(text, width, size)
    while len(lines) > 1:
        width = max(width_of(it, size) for it in lines) - 1
        narrower = wrapped(text, width, size)
        if len(narrower) > len(lines) or max(width_of(it, size) for it in narrower) > width:
            return lines
        lines = narrower
    return lines


class Drawing:
    """What is drawn, in the order in which it is painted."""

    def __init__(self):
        self.parts = []

    def put(self, tag, style, **attributes):
        shapes = ' '.join('%s="%s"' % (name, it if isinstance(it, str) else shown(it)) for name, it in attributes.items())
        self.parts.append('<%s class="%s" %s/>' % (tag, style, shapes))

    def box(self, x, y, width, height, style='box', round_by=6):
        self.put('rect', style, x=x, y=y, width=width, height=height, rx=round_by)

    def dot(self, x, y, radius, style):
        self.put('circle', style, cx=x, cy=y, r=radius)

    def line(self, points, style='line', arrow=False):
        """Straight lines from point to point."""
        self.path('M' + ' L'.join('%s,%s' % (shown(x), shown(y)) for x, y in points), style, arrow)

    def curve(self, points, style='line', arrow=False):
        """A curve through these points, downward at each."""
        points = list(dict.fromkeys(points))
        x, y = points[0]
        steps = 'M%s,%s' % (shown(x), shown(y))
        for right, below in points[1:]:
            middle = (y + below) / 2
            steps += ' C' + ' '.join('%s,%s' % (shown(a), shown(b)) for a, b in ((x, middle), (right, middle), (right, below)))
            x, y = right, below
        self.path(steps, style, arrow)

    def path(self, steps, style, arrow):
        self.put('path', style, d=steps, **({'marker-end': 'url(#arrow)'} if arrow else {}))

    def text(self, x, y, text, size=12, style='', anchor='start'):
        """A line of text, whose letters stand on y."""
        spans = ''.join('<tspan class="code">%s</tspan>' % html.escape(it) if is_code else html.escape(it) for it, is_code in pieces(text))
        given = ' class="%s"' % style if style else ''
        self.parts.append('<text%s x="%s" y="%s" font-size="%s" text-anchor="%s">%s</text>'
                          % (given, shown(x), shown(y), shown(size), anchor, spans))

    def lines(self, x, y, lines, size=12, style='', anchor='start'):
        """Lines of text, the first of which is below y; the end of the last."""
        for number, line in enumerate(lines):
            self.text(x, y + size * (LINE * number + 1), line, size, style, anchor)
        return y + size * LINE * len(lines)

    def label(self, x, y, lines, size=12, anchor='middle'):
        """Lines of text that end above y, with the colour of the card behind them."""
        width, height = max(width_of(it, size) for it in lines) + 6, size * LINE * len(lines)
        left = {'middle': x - width / 2, 'start': x - 3, 'end': x - width + 3}[anchor]
        self.box(left, y - height, width, height, 'gap', 0)
        self.lines(x, y - height, lines, size, anchor=anchor)

    def svg(self, width, height, title):
        """The whole as a file."""
        card = '<rect class="card" x="0.5" y="0.5" width="%s" height="%s" rx="8"/>' % (shown(width - 1), shown(height - 1))
        size = 'viewBox="0 0 %s %s" width="%s" height="%s"' % ((shown(width), shown(height)) * 2)
        style = '<style>\n%s\n@media (prefers-color-scheme: dark) {\n%s\n}\n</style>' % (STYLE % LIGHT, STYLE % DARK)
        head = '<svg xmlns="http://www.w3.org/2000/svg" %s role="img">' % size
        named = '<title>%s</title>' % html.escape(title)
        return '\n'.join([head, named, style, '<defs>%s</defs>' % ARROW, card, *self.parts, '</svg>', ''])
