"""The file of profiles, as it is read: which keys it may have, and what is wrong with one."""
from __future__ import annotations

import os
import re
import stat
from typing import Any, Optional

from . import toml_subset
from .caches import is_shared
from .endings import BAD_SETTING, Stop, status_at, tell
from .profiles import SIGNS_IN
from .settings import FILES, TEXTS

NAME = re.compile('[A-Za-z0-9][A-Za-z0-9_-]{0,99}')
PATHS = ('client_secret_file', *FILES)
# What each member of a profile has to be.
KINDS: dict[str, type] = {**dict.fromkeys((*TEXTS, 'client_secret', *PATHS, 'sign_in'), str),
                          'cache': str, 'scopes': list, 'openid': bool, 'push': bool, 'listen': int}
SAID = {str: 'a text', list: 'a list of texts', bool: 'true or false', int: 'a whole number'}


def profiles_in(path: str) -> tuple[Optional[str], dict[str, dict[str, Any]]]:
    """The name of the default profile in a file, and the members of each profile."""
    text, mode = text_of(path)
    try:
        top, *tables = toml_subset.read(text)
        default = default_in(top)
        found = {name_of(it): members_of(it, os.path.dirname(path)) for it in tables}
    except toml_subset.Fault as fault:
        raise Stop('%s, line %d: %s' % (path, fault.line, fault.why), BAD_SETTING)
    if any('client_secret' in it or '@' in it.get('cache', '')
           for it in found.values()) and mode & (stat.S_IRGRP | stat.S_IROTH):
        tell('%s holds a secret, and others can read it: chmod 600 %s' % (path, path))
    return default, found


def text_of(path: str) -> tuple[str, int]:
    """The text of a file of profiles, and its mode."""
    try:
        with open(path, encoding='utf-8', newline='') as f:
            return f.read(), os.fstat(f.fileno()).st_mode
    except FileNotFoundError:
        raise Stop('the file of profiles %s does not exist' % path, BAD_SETTING)
    except OSError as error:
        raise Stop('the file of profiles %s can not be read: %s' % (path, error.strerror),
                   status_at(error))
    except ValueError:
        raise Stop('the file of profiles %s is not UTF-8' % path, BAD_SETTING)


def default_in(top: toml_subset.Table) -> Optional[str]:
    """The default profile, by the keys above all tables."""
    for name, it in top.keys.items():
        if name != 'default_profile':
            raise toml_subset.Fault(it.line, '"%s" is no setting here: above the first [profile.NAME] '
                                             'there is default_profile alone' % name)
        if not isinstance(it.value, str):
            raise toml_subset.Fault(it.line, '"default_profile" is no text')
    return str(top.keys['default_profile'].value) if top.keys else None


def name_of(table: toml_subset.Table) -> str:
    """The name of the profile that a table is."""
    first, *rest = table.name
    if first != 'profile' or len(rest) != 1:
        raise toml_subset.Fault(table.line, 'a table has to be [profile.NAME]')
    if not NAME.fullmatch(rest[0]):
        raise toml_subset.Fault(table.line, 'the name of a profile begins with a letter or a digit, '
                                            'and has 100 letters at most')
    return rest[0]


def members_of(table: toml_subset.Table, folder: str) -> dict[str, Any]:
    """The members of a profile. A path in it is one from the folder of the file."""
    found: dict[str, Any] = {}
    for name, (value, line) in table.keys.items():
        if name not in KINDS:
            raise toml_subset.Fault(line, '"%s" is no setting: there are %s' % (name, ', '.join(KINDS)))
        if type(value) is not KINDS[name]:
            raise toml_subset.Fault(line, '"%s" is not %s' % (name, SAID[KINDS[name]]))
        if '\0' in ''.join(value if isinstance(value, (str, list)) else ''):
            raise toml_subset.Fault(line, '"%s" has the character U+0000, which no setting can have' % name)
        if name == 'sign_in' and value not in SIGNS_IN:
            raise toml_subset.Fault(line, '"sign_in" is none of ' + ', '.join(SIGNS_IN))
        if name == 'listen' and value not in range(65536):
            raise toml_subset.Fault(line, '"listen" is no port: it is 0 to 65535')
        found[name] = value
        if name == 'cache' and not is_shared(str(value)):
            raise toml_subset.Fault(line,
                                    '"cache" is no shared place: it has to be redis://HOST[:PORT][/DB][?name=NAME] '
                                          'or file:///FOLDER[?name=NAME]')
        if name in PATHS:
            found[name] = os.path.join(folder, os.path.expanduser(str(value)))
    return found
