"""A picture of the polls of a device: when each request is sent, and how long the poll sleeps after it; for tools/pictures.

Its description has the settings `interval`, `cap` and `timeout`, in seconds, and below them a line `TITLE: ANSWER ..` for each poll. An
answer is `pending`, `slow_down`, `failed` (no reply) or `token`. The times follow from these by the definitions of `oauth2_poll`."""
import collections

from drawing import LINE, MARGIN, Drawing, balanced

SIZE, SMALL, WIDTH, LANE, RADIUS, BAR = 12, 10, 860, 104, 9, 14
SLOW_DOWN = 5  # what one adds to the interval, in seconds (`slow_down` of Step.antt)
COLOURS = {'pending': 'blue', 'slow_down': 'yellow', 'failed': 'red', 'token': 'green'}
NAMES = {'pending': 'authorization_pending', 'slow_down': 'slow_down', 'failed': 'no reply', 'token': 'the token'}

Settings = collections.namedtuple('Settings', 'interval cap timeout')
# A request: the second at which it is sent, its answer, how long the poll sleeps after it, or None after the last one, and why so long.
Round = collections.namedtuple('Round', 'at answer sleep why')
# A poll: its title, its requests, and when its clock is past the deadline, or None if it ends before.
Poll = collections.namedtuple('Poll', 'title rounds late')


def next_interval(cap, interval, answer):
    """The interval after an answer that lets the poll go on (`next_interval` of Step.antt)."""
    return {'pending': interval, 'slow_down': interval + SLOW_DOWN, 'failed': max(interval, min(2 * interval, cap))}[answer]


def reason(cap, before, interval, answer):
    """Why the interval is what it is."""
    if answer == 'failed' and interval == before:
        return 'the cap was reached before'
    if answer == 'failed':
        return 'doubled' if interval == 2 * before else 'doubled, but at most the cap'
    return '%d seconds more' % SLOW_DOWN if answer == 'slow_down' else 'the interval, as before'


def polled(settings, title, answers):
    """The poll with these answers, if its requests take no time and each sleep takes exactly as long as it says."""
    at, interval, rounds = 0, settings.interval, []
    for answer in answers:
        if at > settings.timeout:
            raise ValueError('%s: the deadline is before the answer %s' % (title, answer))
        if answer == 'token':
            return Poll(title, rounds + [Round(at, answer, None, 'the end')], None)
        before, interval = interval, next_interval(settings.cap, interval, answer)
        rounds.append(Round(at, answer, interval, reason(settings.cap, before, interval, answer)))
        at += interval
    if at <= settings.timeout:
        raise ValueError('%s: the poll goes on' % title)
    return Poll(title, rounds, at)


def read(given, lines):
    """The settings and polls that these settings and lines describe. ValueError if they describe none."""
    try:
        settings = Settings(*(int(given[name]) for name in Settings._fields))
        polls = [polled(settings, title, answers.split()) for title, _, answers in (line.partition(':') for line in lines)]
    except KeyError as error:
        raise ValueError('no setting, or no answer: %s' % error) from None
    return settings, polls


def as_text(settings, polls):
    """The lines of the text form, a table for each poll."""
    found = []
    for poll in polls:
        found += [''] * bool(found) + ['%s:' % poll.title, '    at  answer                 then the poll sleeps']
        for it in poll.rounds:
            then = 'nothing more: the poll ends' if it.sleep is None else '%2d s, %s' % (it.sleep, it.why)
            found.append('  %2d s  %-21s  %s' % (it.at, NAMES[it.answer], then))
        if poll.late is not None:
            found.append('  %2d s  no request             the deadline, %d s, is past: the poll ends with `expired_token`'
                         % (poll.late, settings.timeout))
    return [it.replace('`', '') for it in found]


def legend_of(settings):
    """What each colour means."""
    return [('pending', '`authorization_pending`: the interval stays'), ('slow_down', '`slow_down`: %d seconds more' % SLOW_DOWN),
            ('failed', 'no reply: the interval doubles, up to the cap of %d s' % settings.cap), ('token', 'the token: the end')]


def draw_legend(drawing, settings, y):
    """Draws what the colours mean, below y: the end of it."""
    for number, (answer, text) in enumerate(legend_of(settings)):
        x, line = MARGIN + 8 + (number % 2) * (WIDTH / 2 - MARGIN), y + (number // 2) * 24
        drawing.dot(x + RADIUS, line + RADIUS, RADIUS, COLOURS[answer])
        drawing.text(x + 2 * RADIUS + 8, line + RADIUS + 4, text, SIZE)
    return y + 2 * 24


def draw_rounds(drawing, poll, x_of, y):
    """Draws the requests of a poll and the sleeps between them, on a line at y."""
    for it in poll.rounds:
        if it.sleep is not None:
            drawing.box(x_of(it.at), y - BAR / 2, x_of(it.at + it.sleep) - x_of(it.at), BAR, 'grey', 0)
    for it in poll.rounds:
        if it.sleep is not None:
            middle = (x_of(it.at) + x_of(it.at + it.sleep)) / 2
            drawing.text(middle, y - RADIUS - 6, '%d' % it.sleep + (' s' if it.sleep > 4 else ''), SMALL, 'faint', 'middle')
        drawing.dot(x_of(it.at), y, RADIUS, COLOURS[it.answer])
        drawing.text(x_of(it.at), y + RADIUS + 15, '%d' % it.at, SMALL + 1, '', 'middle')


def draw_poll(drawing, settings, poll, x_of, y):
    """Draws a poll below y: the end of it."""
    drawing.text(MARGIN + 8, y + 14, poll.title, SIZE + 1, 'bold')
    line, deadline = y + 62, x_of(settings.timeout)
    drawing.line([(x_of(0), line), (WIDTH - MARGIN - 8, line)], 'thin')
    draw_rounds(drawing, poll, x_of, line)
    drawing.line([(deadline, line - 32), (deadline, line + 28)], 'dashed')
    drawing.text(deadline, line - 38, 'deadline: %d s' % settings.timeout, SMALL + 1, 'faint', 'middle')
    if poll.late is not None:
        x = x_of(poll.late)
        drawing.line([(x - 6, line - 6), (x + 6, line + 6)])
        drawing.line([(x - 6, line + 6), (x + 6, line - 6)])
        drawing.text(x, line + RADIUS + 15, '%d' % poll.late, SMALL + 1, '', 'middle')
        drawing.lines(x, line + RADIUS + 18, ['no request,', '`expired_token`'], SMALL, 'faint', 'middle')
    return y + LANE + 28 * (poll.late is not None)


def picture(settings, polls, title):
    """The picture as a file."""
    drawing, longest = Drawing(), max(settings.timeout, *(it.late or it.rounds[-1].at for it in polls))
    room = WIDTH - 2 * MARGIN - 8 - 2 * RADIUS - 60

    def x_of(second):
        return MARGIN + 8 + RADIUS + room * second / longest
    about = 'A server with `"interval": %d` and `"expires_in": %d`. Seconds since the start are below the requests, and how long ' \
            'the poll sleeps is above the bars between them.' % (settings.interval, settings.timeout)
    y = drawing.lines(MARGIN + 8, MARGIN, balanced(about, WIDTH - 2 * MARGIN - 16, SIZE), SIZE) + 12
    y = draw_legend(drawing, settings, y) + 12
    for it in polls:
        y = draw_poll(drawing, settings, it, x_of, y)
    return drawing.svg(WIDTH, y + MARGIN - 8, title)
