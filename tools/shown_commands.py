"""The commands of this repository that the pages show, and whether their tools take them so; for tools/crate-pages."""
import ast
import functools
import os
import re
import shlex
import sys

import repository
import sources

sys.path.append(repository.PYTHON)
from lifecrib_command import endings, flags

TOOLS = os.path.join(repository.ROOT, 'tools')
COMMENT = re.compile(r'<!--.*?-->', re.S)
FENCED = re.compile(r'^```.*?^```\n', re.M | re.S)
CODE = re.compile(r'(?:^ {4}.*\n)+', re.M)  # an indented block
SPAN = re.compile(r'`([^`]+)`')
TOOL = re.compile(r'(?<![\w.-])tools/([a-z][\w-]*)(?![\w./-])([^\n]*)')
END = re.compile(r'''\s[|<>#]|&&|;|\s\.\.|[)'"](?:\s|$)''')  # what ends the words of a command
FLAG = re.compile(r'(?<![\w-])--[a-z][a-z-]*')
PATH = re.compile(r'(?:\.\./)*((?:crates|docs|tools|c|\.ci)/[\w./-]+)')
OTHERS = ('--help', '--oidc-issuer-url')  # flags of all tools, and of other programs
BESIDE = '## Compared with other tools'  # where a page shows flags of other programs alone


def blocks_of(page):
    """The indented blocks of a page, without those in fences, whose lines that end with a backslash are joined."""
    return [re.sub(r'\s*\\\n\s*', ' ', it) for it in CODE.findall(FENCED.sub('', COMMENT.sub('', page)))]


def spans_of(page):
    """What a page has in backticks."""
    return [' '.join(it.split()) for it in SPAN.findall(FENCED.sub('', COMMENT.sub('', page)))]


def commands_in(text):
    """The tools that a text runs, each with the words that follow it."""
    return [(name, END.split(rest + ' ')[0].strip()) for name, rest in TOOL.findall(text)]


@functools.cache
def oauth2():
    """The parser of tools/oauth2, and those of its commands."""
    return flags.parser_of('')


def flags_in(path):
    """The flags that a file in Python adds to a parser."""
    calls = [it for it in ast.walk(ast.parse(sources.read(path))) if isinstance(it, ast.Call) and isinstance(it.func, ast.Attribute)]
    return {arg.value for it in calls if it.func.attr == 'add_argument' for arg in it.args if isinstance(arg, ast.Constant)}


def modules_of(path):
    """The modules of tools/ that a file in Python imports."""
    imports = [it for it in ast.walk(ast.parse(sources.read(path))) if isinstance(it, (ast.Import, ast.ImportFrom))]
    names = [os.path.join(getattr(it, 'module', None) or '', name.name) for it in imports for name in it.names]
    return [it for it in (os.path.join(TOOLS, name + '.py') for name in names) if os.path.exists(it)]


@functools.cache
def flags_of(name):
    """The flags of a tool, by its parsers or its text; None where there is no such tool."""
    path = os.path.join(TOOLS, name)
    if name == 'oauth2':
        parser, commands = oauth2()
        return {it for one in (parser, *commands.values()) for action in one._actions for it in action.option_strings}
    if not os.path.isfile(path):
        return set() if os.path.isdir(path) else None
    return flags_in(path).union(*map(flags_in, modules_of(path)))


def fault_of_flags(name, words):
    """What is wrong with a command, by the names of its flags."""
    known = flags_of(name)
    if known is None:
        return 'no tools/%s' % name
    strange = [it for it in FLAG.findall(words) if it not in known and it not in OTHERS]
    return 'tools/%s has no flag %s' % (name, strange[0]) if strange else None


def fault_of_command(name, words):
    """What is wrong with a command as a user would type it: what tools/oauth2 says of it, or one of its flags."""
    if name != 'oauth2' or re.search(r'--(?:help|version)\b|\bCOMMAND\b', words) or not words:
        return fault_of_flags(name, words)
    try:
        given, unknown = oauth2()[0].parse_known_args(shlex.split(words) + ['get'] * words.startswith('git-credential'))
    except (endings.Stop, ValueError) as stop:
        return 'tools/oauth2 %s: %s' % (words, stop)
    return 'tools/oauth2 %s has no %s' % (given.command, unknown[0]) if unknown else None


def faults_alone(page, names):
    """The flags that stand alone on a page and that none of these tools has."""
    known = set(OTHERS).union(*(flags_of(it) or () for it in names))
    alone = [FLAG.match(it) for it in spans_of(page.partition(BESIDE)[0])]
    return ['no tool of the page has the flag %s' % it.group() for it in alone if it and it.group() not in known]


def faults_of(page):
    """What is wrong with the commands on a page, with the flags that stand alone there, and with the paths."""
    typed = [it for block in blocks_of(page) for it in commands_in(block)]
    named = [it for span in spans_of(page) for it in commands_in(span)]
    found = [fault_of_command(*it) for it in typed] + [fault_of_flags(*it) for it in named]
    found += faults_alone(page, {name for name, _ in typed + named})
    paths = [PATH.fullmatch(word.strip('[](),')) for span in spans_of(page) for word in span.split() if 'NAME' not in word]
    found += ['no %s' % it.group(1) for it in paths if it and not os.path.exists(os.path.join(repository.ROOT, it.group(1)))]
    return [it for it in dict.fromkeys(found) if it]
