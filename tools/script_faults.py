"""Why a script is bad, and which of its members are ignored, as far as its JSON and its names show that; for tools/run.

The names are those of the two tables of docs/SCRIPT.md that list members. What a value may be is judged by the program alone.
"""
import collections
import difflib
import functools
import json
import os
import re

import repository
import sources

PAGE = os.path.join(repository.ROOT, 'docs', 'SCRIPT.md')
# How the two tables begin: the members of each object but `params`, and those of `params` by the command.
OBJECTS, COMMANDS = '| Object |', '| Command |'
ELSE = 'why does not show in its JSON or its names: see "What makes a script bad" in docs/SCRIPT.md'

# The members that an object needs, and all that it may have.
Names = collections.namedtuple('Names', 'needed all')


def rows(page, head):
    """The names in the second column of a table, by the last word of the first; those in brackets, or behind one, are not needed. A row
    without a first cell goes on with the row above."""
    table = re.search(r'^%s.*\n\|-.*\n((?:\|.*\n)+)' % re.escape(head), page, re.M).group(1)
    cells = {}
    for first, second in (row.split('|')[1:3] for row in table.splitlines()):
        called = re.findall(r'\w+', first)[-1] if first.strip() else called
        cells[called] = cells.get(called, '') + second
    return {called: Names(names_in(cell.partition('[')[0]), names_in(cell)) for called, cell in cells.items()}


def names_in(cell):
    return re.findall(r'`(\w+)`', cell)


@functools.lru_cache(maxsize=None)
def tables():
    """The names of each object, and those of `params` by the command."""
    page = sources.read(PAGE)
    return rows(page, OBJECTS), rows(page, COMMANDS)


def value_of(given):
    """The JSON value that the bytes are; ValueError if they are none."""
    def refuse(word):
        raise ValueError('%s is no number of JSON' % word)
    text = given.decode()
    if not text.strip():
        raise ValueError('it is empty')
    return json.loads(text, parse_constant=refuse)


def objects(script, known, commands):
    """The objects of a script that the tables list: how each is called, its value and its names."""
    yield 'the script', script, known['script']
    if not isinstance(script, dict):
        return
    if 'client' in script:
        yield '"client"', script['client'], known['client']
    if script.get('command') in [*commands]:
        yield '"params" of "%s"' % script['command'], script.get('params', {}), commands[script['command']]
        params = script.get('params')
        if script['command'] == 'redirect' and isinstance(params, dict) and 'login' in params:
            yield '"login"', params['login'], known['login']
    replies = script.get('replies')
    for number, reply in enumerate(replies if isinstance(replies, list) else [], 1):
        names, given = known['replies'], reply if isinstance(reply, dict) else {}
        if 'fail' in given:
            names = names._replace(needed=[])
        elif 'body_base64' not in given:
            names = names._replace(needed=[*names.needed, 'body'])
        yield 'reply %d' % number, reply, names


def near(name, names):
    """A hint at the name that is most like this one, if one is."""
    found = difflib.get_close_matches(name.lower(), names, 1)
    return '; is it "%s"?' % found[0] if found else ''


def told_of(given, is_bad):
    """What is to be said of a script, a line each: why it is bad, if it is, and what of it is ignored."""
    try:
        script = value_of(given)
    except (ValueError, RecursionError) as error:
        return ['the script is no JSON: %s' % error] * is_bad
    known, commands = tables()
    faults, ignored = [], []
    for called, value, names in objects(script, known, commands):
        if isinstance(value, dict):
            faults += ['%s has no "%s"' % (called, name) for name in names.needed if name not in value]
            ignored += ['%s: "%s" is ignored%s' % (called, name, near(name, names.all)) for name in value if name not in names.all]
        else:
            faults.append('%s is no object' % called)
    command = script.get('command', '') if isinstance(script, dict) else ''
    if isinstance(command, str) and command and command not in commands:
        faults.append('there is no command "%s"%s' % (command, near(command, commands)))
    return faults * is_bad + ignored + [ELSE] * (is_bad and not faults)
