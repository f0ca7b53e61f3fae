"""The places of shared tokens that --cache takes: on Redis, as redis://[USER:PASSWORD@]HOST[:PORT][/DB][?name=NAME], or
in a folder, as file:///FOLDER[?name=NAME].

rediss:// is the same over TLS. The password may be in OAUTH2_REDIS_PASSWORD instead.
"""
from __future__ import annotations

import os
import re
import urllib.parse
from typing import Any, NamedTuple, NoReturn, Optional, Union

from .endings import BAD_SETTING, Stop

FOLDER = 'file'
NAME = re.compile('[A-Za-z0-9][A-Za-z0-9_-]{0,99}')
VARIABLE = 'OAUTH2_REDIS_PASSWORD'


class Place(NamedTuple):
    """A Redis, and the name of a token there, if the place says one."""

    scheme: str
    host: str
    port: int
    db: int
    username: Optional[str]
    password: Optional[str]
    name: Optional[str]

    def shown(self, name: str) -> str:
        """The place with this name of a token, without user and password."""
        host = '[%s]' % self.host if ':' in self.host else self.host
        return '%s://%s:%d/%d?name=%s' % (self.scheme, host, self.port, self.db, name)

    def settings(self) -> dict[str, Any]:
        """What the module redis is given."""
        found: dict[str, Any] = {'host': self.host, 'port': self.port, 'db': self.db, 'username': self.username,
                                 'password': self.password or os.environ.get(VARIABLE) or None}
        if self.scheme == 'rediss':
            found.update(ssl=True, ssl_cert_reqs='required', ssl_check_hostname=True)
        return found


class Folder(NamedTuple):
    """A folder with a file for each token, and the name of a token there, if the place says one."""

    path: str
    name: Optional[str]
    password: None = None

    def shown(self, name: str) -> str:
        """The place with this name of a token."""
        return 'file://%s?name=%s' % (urllib.parse.quote(self.path), name)


def place_in(text: str, label: str = '--cache') -> Union[Place, Folder]:
    """The place that a text names. What is wrong with one is not shown, since it may have a password."""
    try:
        url = urllib.parse.urlsplit(text)
        pairs = urllib.parse.parse_qsl(url.query, keep_blank_values=True, strict_parsing=bool(url.query))
        port, db = url.port, url.path.strip('/')
    except ValueError:
        refuse(label)
    names = [value for name, value in pairs if name == 'name']
    is_more = bool(url.fragment) or len(names) != len(pairs) or len(names) > 1
    if url.scheme == FOLDER:
        if url.netloc or not url.path.startswith('/') or is_more:
            raise Stop('%s is no folder that this tool can use: it has to be file:///FOLDER[?name=NAME]' % label,
                       BAD_SETTING)
        check_name(names, label)
        return Folder(urllib.parse.unquote(url.path), names[0] if names else None)
    if not url.hostname or port == 0 or is_more or not re.fullmatch('[0-9]{0,6}', db):
        refuse(label)
    check_name(names, label)
    login = [None if it is None else urllib.parse.unquote(it) for it in (url.username, url.password)]
    return Place(url.scheme, url.hostname, port or 6379, int(db or 0), login[0] or None, login[1],
                 names[0] if names else None)


def check_name(names: list[str], label: str) -> None:
    if names and not NAME.fullmatch(names[0]):
        raise Stop('the name of %s begins with a letter or a digit, and has 100 letters, digits, "_" and "-" at most'
                   % label, BAD_SETTING)


def refuse(label: str) -> NoReturn:
    raise Stop('%s is no place on Redis that this tool can use: it has to be redis://HOST[:PORT][/DB][?name=NAME]'
               % label, BAD_SETTING)
