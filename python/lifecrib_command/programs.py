"""What runs the scripts: the library of the package, in this process, or else a program; and the keeper of shared
tokens, a program."""
from __future__ import annotations

import functools
import hashlib
import importlib
import os
import sys
from typing import Any, Optional

import lifecrib_command
from lifecrib import _library
from lifecrib._library import Library

from . import endings
from .endings import BAD_SETTING, Stop

NAME, KEEPER = 'oauth2_run', 'oauth2_shared_tests'
CALLED = {NAME: 'program', KEEPER: 'keeper'}  # what a line calls each
# The folder that has the programs of a package, with the record of each proved one.
PACKAGE = os.path.dirname(os.path.abspath(__file__))


def variable_of(name: str) -> str:
    """The variable of the environment that names another program."""
    return 'OAUTH2_' + CALLED[name].upper()


def named(name: str) -> Optional[str]:
    """The program that the environment names in the place of this one."""
    variable = variable_of(name)
    path = os.environ.get(variable)
    if path and not os.access(path, os.X_OK):
        raise Stop('%s names %s, which is no program' % (variable, path), BAD_SETTING)
    return path and os.path.abspath(path)


def is_proved(path: str) -> bool:
    """Whether a file of the package is the one that was proved, by the record beside it."""
    try:
        with open(path + '.proved', encoding='utf-8') as record, open(path, 'rb') as f:
            return record.read().partition(' ')[2] == hashlib.sha256(f.read()).hexdigest()
    except OSError:
        return False


def of_checkout() -> Any:
    """The module that knows the programs of the checkout."""
    tools = lifecrib_command.tools
    if tools and tools not in sys.path:
        sys.path.append(tools)
    return importlib.import_module('built_programs')


@functools.lru_cache(maxsize=None)
def library() -> Library:
    """What runs scripts: the program of OAUTH2_PROGRAM, else what the package lifecrib has, else the program of the
    checkout. A line says if it is not proved."""
    path = named(NAME)
    if path:
        return by_program(path)
    found = of_package()
    if not found:
        return by_program(path_of(NAME))
    if not is_proved(found.path):
        endings.note('the %s that runs here is not proved' % called(found.path))
    return found


def of_package() -> Optional[Library]:
    """What the package lifecrib runs scripts by, if there is anything; in a checkout not a library of other sources."""
    try:
        found = _library.library()
    except ImportError:
        return None
    except OSError as error:
        raise Stop('the library can not be loaded: %s' % error) from None
    is_other = lifecrib_command.tools and found.path == _library.LIBRARY and not of_checkout().has_library()
    return None if is_other else found


def by_program(path: str) -> Library:
    return Library(path, _library.by_program(path))


def called(path: str) -> str:
    """What a line calls a file that runs scripts."""
    return 'library' if '.so' in os.path.basename(path) else 'program'


def path_of(name: str) -> str:
    """The program: the one that the environment names, else that of the package or of the checkout. A line says if it
    is not proved."""
    path = named(name)
    if path:
        return path
    if lifecrib_command.tools:
        return str(of_checkout().path_of(name))
    path = os.path.join(PACKAGE, name)
    if not os.path.exists(path):
        raise Stop('this package has no %s%s'
                   % (CALLED[name], ', which --cache redis:// needs' if name == KEEPER else ''))
    if not is_proved(path):
        endings.note('the %s that runs here is not proved' % CALLED[name])
    return path


def version(number: str) -> str:
    """What --version says behind the name of the command."""
    number = str(of_checkout().about()) if lifecrib_command.tools else number
    path = os.environ.get(variable_of(NAME))
    return '%s, %s' % (number, 'program %s' % path if path else about_library())


def about_library() -> str:
    """Which library or program runs scripts, where the environment names none for the command alone."""
    try:
        found = of_package()
    except Stop as stop:
        return str(stop)
    if found:
        return 'proved ' + called(found.path) if is_proved(found.path) else called(found.path) + ' without proofs'
    is_one = bool(lifecrib_command.tools and of_checkout().program.is_proved())
    return 'proved program' if is_one else 'program without proofs'
