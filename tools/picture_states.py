"""A picture of states, one below the other, and of what leads from one to another; for tools/pictures.

Its description has, below its settings, a line `state NAME: HEADING: TEXT` for each state, from top to bottom, and then a line
`NAME -> NAME: TEXT` for each thing that leads from a state to the one above it or below it, or leaves it as it is."""
import collections
import re
import textwrap

from drawing import LINE, MARGIN, Drawing, balanced, shown, wrapped

SIZE, WIDTH, BOX, PAD, APART, LOOP, LETTERS = 12, 860, 300, 10, 14, 34, 98
STATE = re.compile(r'state (\w+): ([^:]*): (.*)')
ARROW = re.compile(r'(\w+) -> (\w+): (.*)')

States = collections.namedtuple('States', 'states arrows')
State = collections.namedtuple('State', 'heading text')
Arrow = collections.namedtuple('Arrow', 'here there text')


def read(lines):
    """The states that these lines describe. ValueError if one is no such line."""
    states, arrows = {}, []
    for line in lines:
        state, arrow = STATE.fullmatch(line), ARROW.fullmatch(line)
        if state:
            states[state.group(1)] = State(*state.groups()[1:])
        elif arrow and {arrow.group(1), arrow.group(2)} <= set(states):
            arrows.append(Arrow(*arrow.groups()))
        else:
            raise ValueError('neither a state, nor what leads from one to another: %s' % line)
    names = list(states)
    for it in arrows:
        if abs(names.index(it.here) - names.index(it.there)) > 1:
            raise ValueError('%s and %s are not next to each other' % (it.here, it.there))
    return States(states, arrows)


def as_text(found):
    """The lines of the text form: each state, and below it what leads where."""
    def indented(text, indent):
        text = text.replace('`', '')
        return textwrap.wrap(text, LETTERS, initial_indent=indent, subsequent_indent=indent + '    ', break_on_hyphens=False)
    lines = []
    for name, state in found.states.items():
        lines += [''] * bool(lines) + indented('%s: %s' % state, '')
        for it in [it for it in found.arrows if it.here == name]:
            to = 'stays' if it.there == name else '-> ' + found.states[it.there].heading
            lines += indented('%s: %s' % (to, it.text), '  ')
    return lines


def draw_state(drawing, state, y):
    """Draws a state below y: the end of it."""
    lines = wrapped(state.text, BOX - 2 * PAD, SIZE)
    end = y + SIZE * LINE * (len(lines) + 1) + 2 * PAD
    drawing.box((WIDTH - BOX) / 2, y, BOX, end - y)
    below = drawing.lines(WIDTH / 2, y + PAD - 2, [state.heading], SIZE + 1, 'bold', 'middle')
    drawing.lines(WIDTH / 2, below, lines, SIZE, anchor='middle')
    return end


def draw_loop(drawing, text, y, end):
    """Draws, beside a state from y to end, what leaves it as it is."""
    x, middle = (WIDTH + BOX) / 2, (y + end) / 2
    points = x, middle + 12, x + LOOP, middle + 20, x + LOOP, middle - 20, x + 1, middle - 12
    drawing.path('M%s,%s C%s,%s %s,%s %s,%s' % tuple(map(shown, points)), 'line', True)
    lines = wrapped(text, WIDTH - MARGIN - x - LOOP - 6, SIZE)
    drawing.lines(x + LOOP + 6, middle - SIZE * LINE * len(lines) / 2, lines, SIZE)


def draw_between(drawing, down, up, y):
    """Draws, between the state that ends at y and the one below it, what leads down and what leads up: where the lower one begins."""
    room = WIDTH / 2 - MARGIN - APART - 30
    sides = [balanced(' '.join(texts), room, SIZE) if texts else [] for texts in (down, up)]
    end = y + SIZE * LINE * max(map(len, sides)) + 24
    for lines, x, anchor, tip, begin in zip(sides, (-APART, APART), ('end', 'start'), (end - 1, y + 1), (y, end)):
        if lines:
            drawing.line([(WIDTH / 2 + x, begin), (WIDTH / 2 + x, tip)], arrow=True)
            beside = WIDTH / 2 + x + (10 if x > 0 else -10)
            drawing.lines(beside, (y + end - SIZE * LINE * len(lines)) / 2, lines, SIZE, anchor=anchor)
    return end


def picture(found, title):
    """The picture as a file."""
    drawing, y, names = Drawing(), MARGIN, list(found.states)

    def texts(here, there):
        return [it.text for it in found.arrows if (it.here, it.there) == (here, there)]
    for name, below in zip(names, names[1:] + [None]):
        end = draw_state(drawing, found.states[name], y)
        for text in texts(name, name):
            draw_loop(drawing, text, y, end)
        y = draw_between(drawing, texts(name, below), texts(below, name), end) if below else end
    return drawing.svg(WIDTH, y + MARGIN, title)
