"""The man page and the completion of tools/oauth2, from the flags that its help lists; for tools/package."""
from __future__ import annotations

import argparse
import re

from lifecrib_command import grants

Parsers = dict[str, argparse.ArgumentParser]
FILES = ('FILE',)  # what a flag's value is called that is the name of a file
WORDS = {'TYPE': grants.TYPES}  # what may follow a flag whose value is called so, beside others


def actions_of(parser: argparse.ArgumentParser) -> list[argparse.Action]:
    """The flags of a parser, without its commands."""
    return [it for it in parser._actions if it.option_strings]


def told(parser: argparse.ArgumentParser, action: argparse.Action) -> str:
    """The help of a flag."""
    return parser._get_formatter()._expand_help(action)


# The man page


def escaped(text: str) -> str:
    """A text as troff takes it."""
    text = text.replace('\\', '\\e').replace('-', '\\-').replace("'", '\\(aq')
    return re.sub(r'(?m)^([.])', r'\\&\1', text)


def block(text: str) -> list[str]:
    """Lines of the help: what is indented stays as it is, the rest is filled."""
    lines = []
    for part in re.split(r'\n{2,}', text.strip('\n')):
        is_table = any(it.startswith('    ') for it in part.split('\n')[1:] or [part])
        body = escaped(part).split('\n')
        lines += ['.PP', *(['.nf', *body, '.fi'] if is_table else body)]
    return lines


def flags_of(parser: argparse.ArgumentParser) -> list[str]:
    lines = []
    for it in actions_of(parser):
        value = '' if it.nargs == 0 else ' ' + str(it.metavar or '|'.join(it.choices or [it.dest.upper()]))
        lines += ['.TP', '.B ' + escaped(', '.join(it.option_strings) + value), escaped(told(parser, it))]
    return lines


def man_page(name: str, version: str, doc: str, parser: argparse.ArgumentParser, commands: Parsers) -> str:
    """The man page of the tool under a name; doc is the help of the whole."""
    about, _, more = doc.partition('\n\n')
    lines = ['.TH %s 1 "" "%s %s"' % (name.upper(), name, version), '.SH NAME',
             escaped('%s - %s' % (name, about.partition(': ')[2].rstrip('.'))), '.SH SYNOPSIS',
             '.B %s' % name, '.I COMMAND', '[flags]', '.SH DESCRIPTION', *block(more), '.SH FLAGS',
             *flags_of(parser)]
    for command, it in commands.items():
        lines += ['.SH "COMMAND %s"' % escaped(command), escaped(it.description or ''),
                  *block(it.epilog or ''), *flags_of(it)]
    return '\n'.join(lines) + '\n'


# Completion


def values_of(action: argparse.Action) -> str:
    """What may follow a flag: words, a file, or nothing that is known."""
    if action.choices:
        return ' '.join(map(str, action.choices))
    return 'FILE' if action.metavar in FILES else ' '.join(WORDS.get(str(action.metavar), ()))


def bash(name: str, parser: argparse.ArgumentParser, commands: Parsers) -> str:
    """The completion of bash."""
    values: dict[tuple[str, str], list[str]] = {}  # the commands by a flag and what may follow it there
    flags = []
    for command, it in commands.items():
        found = actions_of(it)
        flags.append('        %s) words="%s" ;;' % (command, ' '.join(at.option_strings[-1] for at in found)))
        for at in found:
            values.setdefault((at.option_strings[-1], values_of(at)), []).append(command)
    alike = {flag for flag, _ in values if sum(it == flag for it, _ in values) == 1}
    lines = []
    for (flag, known), those in values.items():
        places = '|'.join('%s\\ %s' % (it, flag) for it in (['*'] if flag in alike else those))
        made = '-f' if known == 'FILE' else '-W "%s"' % known
        lines += ['        %s) COMPREPLY=($(compgen %s -- "$word")); return ;;' % (places, made)] * bool(known)
    top = ' '.join([*commands, *(it.option_strings[-1] for it in actions_of(parser))])
    return '\n'.join([
        '# Completion of %s for bash.' % name, '_%s() {' % name,
        '    local word=${COMP_WORDS[COMP_CWORD]} before=${COMP_WORDS[COMP_CWORD-1]} words',
        '    case "${COMP_WORDS[1]} $before" in', *lines, '    esac',
        '    case ${COMP_WORDS[1]} in', *flags, '        *) words="%s" ;;' % top, '    esac',
        '    if [ "$COMP_CWORD" = 1 ]; then words="%s"; fi' % top,
        '    COMPREPLY=($(compgen -W "$words" -- "$word"))', '}',
        'complete -o filenames -F _%s %s' % (name, name), ''])


def zsh(name: str, parser: argparse.ArgumentParser, commands: Parsers) -> str:
    """The completion of zsh."""
    lines = ['#compdef %s' % name, 'local -a commands', 'commands=(']
    lines += ["    %s" % quoted('%s:%s' % (command, (it.description or '').rstrip('.')))
              for command, it in commands.items()]
    lines += [')', 'if (( CURRENT == 2 )); then', '    _describe command commands', '    return',
              'fi', 'local command=$words[2]', 'shift words', '(( CURRENT-- ))', 'case $command in']
    for command, it in commands.items():
        lines += ['    %s) _arguments \\' % command]
        lines += ['        %s \\' % spec_of(it, at) for at in actions_of(it)]
        lines += ['        ;;']
    return '\n'.join([*lines, 'esac', ''])


def spec_of(parser: argparse.ArgumentParser, action: argparse.Action) -> str:
    """A flag as _arguments of zsh takes it."""
    spec = '*%s[%s]' % (action.option_strings[-1], re.sub(r'([][\\:])', r'\\\1', told(parser, action)))
    if action.nargs != 0:
        value = values_of(action)
        spec += ':value:' + ('_files' if value == 'FILE' else '(%s)' % value if value else '')
    return quoted(spec)


def quoted(text: str) -> str:
    """A text in the quotes of a shell."""
    return "'%s'" % text.replace("'", "'\\''")
