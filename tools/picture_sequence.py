"""A picture of messages between actors, in the order in which they are sent; for tools/pictures.

Its description has, below its settings, a line `actor NAME: TEXT` for each actor, from left to right, and then in order a line
`NAME -> NAME: TEXT` for each message and `NAME: TEXT` for each thing that an actor does."""
import collections
import re

from drawing import LINE, MARGIN, Drawing, balanced, width_of

SIZE, WIDTH, HEAD, GAP, STEP = 12, 860, 30, 16, 14
ACTOR = re.compile(r'actor (\w+): (.*)')
TOLD = re.compile(r'(\w+)(?: -> (\w+))?: (.*)')

# Actors by their names, and what happens: who does it or sends it, to whom if it is a message, and what it is.
Sequence = collections.namedtuple('Sequence', 'actors steps')
Step = collections.namedtuple('Step', 'by to text')


def read(lines):
    """The sequence that these lines describe. ValueError if one is no such line."""
    actors, steps = {}, []
    for line in lines:
        actor, told = ACTOR.fullmatch(line), TOLD.fullmatch(line)
        if actor:
            actors[actor.group(1)] = actor.group(2)
        elif told and {told.group(1), told.group(2) or told.group(1)} <= set(actors):
            steps.append(Step(*told.groups()))
        else:
            raise ValueError('neither an actor, nor what one of them does: %s' % line)
    return Sequence(actors, steps)


def as_text(sequence):
    """The lines of the text form, a step each."""
    width = max(map(len, sequence.actors))
    ends = ['%-*s -> %-*s' % (width, it.by, width, it.to) if it.to else it.by for it in sequence.steps]
    steps = enumerate(zip(ends, sequence.steps), 1)
    return ['%2d  %-*s  %s' % (number, 2 * width + 4, end, it.text.replace('`', '')) for number, (end, it) in steps]


def places(sequence):
    """The middle of each actor's column."""
    column = (WIDTH - 2 * MARGIN) / len(sequence.actors)
    return {name: MARGIN + column * (at + 0.5) for at, name in enumerate(sequence.actors)}, column


def draw_step(drawing, step, at, column, y):
    """Draws a step below y: the end of it."""
    lines = balanced(step.text, column - 24, SIZE)
    height = SIZE * LINE * len(lines)
    if not step.to:
        width = max(width_of(it, SIZE) for it in lines) + 20
        drawing.box(at[step.by] - width / 2, y, width, height + 12, 'blue')
        drawing.lines(at[step.by], y + 5, lines, SIZE, anchor='middle')
        return y + height + 12 + STEP
    here, there = at[step.by], at[step.to]
    # a line that passes another actor has its text between the first two
    middle = here + (there - here) / 2 if abs(there - here) < 1.5 * column else here + (column / 2 if there > here else -column / 2)
    drawing.label(middle, y + height, lines, SIZE)
    drawing.line([(here, y + height + 6), (there - (1 if there > here else -1), y + height + 6)], arrow=True)
    return y + height + 6 + STEP


def picture(sequence, title):
    """The picture as a file."""
    drawing, steps = Drawing(), Drawing()
    at, column = places(sequence)
    y = MARGIN + HEAD + GAP
    for it in sequence.steps:
        y = draw_step(steps, it, at, column, y)
    for name, text in sequence.actors.items():
        drawing.line([(at[name], MARGIN + HEAD), (at[name], y)], 'dashed')
        width = width_of(text, SIZE + 1) * 1.1 + 28
        drawing.box(at[name] - width / 2, MARGIN, width, HEAD)
        drawing.text(at[name], MARGIN + HEAD / 2 + 5, text, SIZE + 1, 'bold', 'middle')
    drawing.parts += steps.parts
    return drawing.svg(WIDTH, y + MARGIN, title)
