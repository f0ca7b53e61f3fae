"""The programs that are built in this checkout, proved or not, for the tools that run them; a tool says which it runs."""
import os
import subprocess
import sys

import repository

sys.path.append(repository.PYTHON)
import c_library
import carried
import program
import version
from lifecrib_command import endings, programs, signals
from lifecrib_command.endings import Stop

program.undone = signals.undone  # a signal may end a tool at any moment
program.tell_seconds = lambda seconds: endings.note('it is still compiled, for %d seconds by now' % seconds)


def path_of(name=program.NAME, by=None):
    """The program: the one that OAUTH2_PROGRAM names, or OAUTH2_KEEPER, else the proved one, else one that is not proved. Where that is
    compiled, there is a line by the tool of this name."""
    path = programs.named(name)
    if not path and program.is_proved(name):
        path = program.path_of(name)
        if not os.access(path, os.X_OK):
            raise Stop('%s can not be run: chmod +x %s' % (path, path))
    return os.path.abspath(path) if path else unproved_path(name, by)


def has_library():
    """Whether the package lifecrib of this checkout has the library, proved of the sources that are here."""
    return c_library.is_proved()


def take(archive, by):
    """Takes the program from an archive, if it is one of these sources. A line by the tool of this name says if it is not proved."""
    try:
        if not carried.take(archive):
            endings.note('the program is taken from %s; it is not proved, tools/prove does that' % archive, by)
    except (OSError, ValueError) as error:
        raise Stop('%s is not taken: %s' % (archive, error)) from None


def unproved_path(name, by):
    """The program without proofs, which is compiled where there is none yet. That it is not proved is said then, once for a checkout, and
    by --version."""
    called = programs.CALLED[name]
    prove = 'tools/prove' if name == program.NAME else 'tools/prove ' + name

    def note():
        if not repository.has_kit():
            is_carried = os.path.exists(program.kept_of(name))
            why = ('the proved build here does not fit this checkout (docs/TOOL.md)' if is_carried else 'there is no %s here' % called)
            raise Stop('%s, and no kit to compile it: README.md names the kit; or %s names a program' % (why, programs.variable_of(name)))
        endings.note('the %s is compiled now, once for this checkout, in %s; it is not proved, %s does that'
                     % (called, program.MINUTES, prove), by)
    try:
        path = program.unproved(note, name, lambda: endings.note('another run compiles the %s now; this one waits for it' % called, by))
    except (OSError, RuntimeError) as error:
        raise Stop('the %s can not be compiled: %s' % (called, error))
    return path


def about():
    """What --version says of this checkout."""
    # also in a checkout of another user, whose code runs here anyway
    words = ['git', '-c', 'safe.directory=' + repository.ROOT, '-C', repository.ROOT, 'rev-parse', '--short', 'HEAD']
    try:
        revision = subprocess.run(words, stdin=subprocess.DEVNULL, capture_output=True, text=True).stdout.strip()
    except OSError:
        revision = ''
    return '%s, revision %s' % (version.VERSION, revision or 'unknown')
