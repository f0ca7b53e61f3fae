"""A picture of the layers of crates, by the headings of crates.txt, and of which layer uses which; for tools/pictures."""
import collections

from drawing import LINE, MARGIN, Drawing, width_of

MOST_NAMES = 12  # a layer of more crates shows their number alone
HEADING, NAME, ROW_GAP, LEAST_GAP, LEAST_WIDTH = 13, 11, 44, 20, 760

# Layers by their headings, the lowest first: the crates of each, and the layers that it uses, without those that follow from others.
Layers = collections.namedtuple('Layers', 'crates uses')
# What a row of the picture has: a layer, or where a line goes by on its way down from a layer to another one.
Layer = collections.namedtuple('Layer', 'heading')
Passing = collections.namedtuple('Passing', 'above below')


def read(layers, rows):
    """The layers, from pairs of a heading and its crates, and from the lines of crates.txt by their crates."""
    of = {crate: heading for heading, crates in layers for crate in crates}
    uses = {heading: {of[it] for crate in crates for it in rows[crate].partition(':')[2].split() if it in of} - {heading}
            for heading, crates in layers}
    below = {heading: all_below(heading, uses) for heading in uses}
    own = {heading: [it for it in uses if it in used and not any(it in below[other] for other in used)] for heading, used in uses.items()}
    return Layers(dict(layers), own)


def all_below(heading, uses):
    """The layers that a layer builds on, itself left out."""
    return set().union(*({it} | all_below(it, uses) for it in uses[heading])) if uses[heading] else set()


def as_text(layers):
    """The lines of the text form, the highest layer first."""
    width = max(map(len, layers.crates))
    rows = [('layer', 'crates', 'builds on')]
    rows += [(it, len(layers.crates[it]), '; '.join(layers.uses[it])) for it in reversed(list(layers.crates))]
    return ['%-*s  %6s  %s' % (width, *row) for row in rows]


def rows_of(layers):
    """The rows of the picture, the highest first: each layer is above all that it uses, and a line of two rows or more passes others."""
    rank = {}
    for it in layers.crates:
        rank[it] = max((rank[other] + 1 for other in layers.uses[it]), default=0)
    rows = [[] for _ in range(max(rank.values()) + 1)]
    for it in layers.crates:
        rows[rank[it]].append(Layer(it))
        for other in layers.uses[it]:
            for between in range(rank[other] + 1, rank[it]):
                rows[between].append(Passing(it, other))
    return in_order(rows[::-1], layers)


def ends_of(it, layers):
    """What is above an item of a row and what is below it, as (from, to) of each line that begins, ends or passes there."""
    if isinstance(it, Passing):
        return [it]
    return [Passing(above, it.heading) for above in layers.uses if it.heading in layers.uses[above]] + \
           [Passing(it.heading, below) for below in layers.uses[it.heading]]


def in_order(rows, layers):
    """Rows in each of which an item is near the middle of those of the row above or below that a line leads to, so that few lines cross."""
    lines = {it: set(ends_of(it, layers)) for row in rows for it in row}

    def middle(it, row, other):
        near = [at for at, one in enumerate(other) if lines[one] & lines[it]]
        return (sum(near) / len(near) + 0.5) / len(other) if near else (row.index(it) + 0.5) / len(row)
    for turn in range(8):
        steps = range(1, len(rows)) if turn % 2 == 0 else range(len(rows) - 2, -1, -1)
        for at in steps:
            row, other = rows[at], rows[at - 1 if turn % 2 == 0 else at + 1]
            rows[at] = sorted(row, key=lambda it: middle(it, row, other))
    return rows


class Box:
    """Where an item of a row is drawn."""

    def __init__(self, it, layers):
        self.item, self.x, self.y, self.top, self.end, self.lines = it, 0, 0, 0, 0, []
        names = layers.crates[it.heading] if isinstance(it, Layer) else []
        if len(names) > MOST_NAMES:
            names, self.lines = [], [['%d crates' % len(names)]]
        columns = 1 if len(names) < 5 else 2 if len(names) < 7 else 3
        self.lines += [names[at:at + columns] for at in range(0, len(names), columns)]
        self.column = max(width_of(self.shown(name), NAME) for line in self.lines + [['']] for name in line) + 14
        heading = width_of(it.heading, HEADING) * 1.1 + 24 if isinstance(it, Layer) else 8
        self.width = max(heading, self.column * max(map(len, self.lines), default=0) + 14)
        self.height = HEADING * LINE + NAME * LINE * len(self.lines) + 18 if isinstance(it, Layer) else 0

    def draw(self, drawing):
        if isinstance(self.item, Passing):
            return
        drawing.box(self.x, self.y, self.width, self.height)
        y = drawing.lines(self.x + 14, self.y + 6, [self.item.heading], HEADING, 'bold')
        for number, line in enumerate(self.lines):
            for column, name in enumerate(line):
                drawing.text(self.x + 14 + column * self.column, y + NAME * (LINE * number + 1), self.shown(name), NAME, 'faint')

    @staticmethod
    def shown(name):
        """The name of a crate as code, or a number of crates."""
        return name if ' ' in name else '`%s`' % name


def placed(rows, layers):
    """The boxes of the rows, each in its place, and the width and height of the picture."""
    boxes = [[Box(it, layers) for it in row] for row in rows]
    width = max([LEAST_WIDTH] + [sum(it.width for it in row) + LEAST_GAP * (len(row) - 1) + 2 * MARGIN for row in boxes])
    y = MARGIN
    for row in boxes:
        gap = (width - 2 * MARGIN - sum(it.width for it in row)) / (len(row) + 1)
        height, x = max(it.height for it in row), MARGIN + gap
        for it in row:
            it.x, it.y, it.top, it.end = x, y + (height - it.height) / 2, y, y + height
            x += it.width + gap
        y += height + ROW_GAP
    return boxes, width, y - ROW_GAP + MARGIN


def draw_lines(drawing, boxes, layers):
    """Draws the lines between the rows, each from the lower edge of a layer to the upper one of another."""
    at = {it.item: it for row in boxes for it in row}
    paths = {}
    for above, uses in layers.uses.items():
        for below in uses:
            passing = [it for row in boxes for it in row if it.item == Passing(above, below)]
            paths[above, below] = [at[Layer(above)], *passing, at[Layer(below)]]

    def center(it):
        return it.x + it.width / 2

    def port(box, others, other):
        """Where a line leaves a box that leads to one of these others."""
        others = sorted(others, key=center)
        step = min(40, box.width / (len(others) + 1))
        return center(box) + step * (others.index(other) - (len(others) - 1) / 2)
    for (above, below), path in paths.items():
        first, *passing, last = path
        out = [it[1] for ends, it in paths.items() if ends[0] == above]
        into = [it[-2] for ends, it in paths.items() if ends[1] == below]
        begin, end = port(first, out, path[1]), port(last, into, path[-2])
        points = [(begin, first.y + first.height), (begin, first.end)]
        points += [(center(it), y) for it in passing for y in (it.top, it.end)]
        drawing.curve(points + [(end, last.top - 1), (end, last.y - 1)], arrow=True)


def picture(layers, title):
    """The picture as a file."""
    boxes, width, height = placed(rows_of(layers), layers)
    drawing = Drawing()
    draw_lines(drawing, boxes, layers)
    for row in boxes:
        for it in row:
            it.draw(drawing)
    return drawing.svg(width, height, title)
