"""URLs as they are shown: never with a password."""
from __future__ import annotations

import re
import urllib.parse


def shown(url: str) -> str:
    """A URL without its user and password; of a text that is none, what is behind its last "@"."""
    try:
        urllib.parse.urlsplit(url).port
        login = r'\A([^/?#]*//)[^/?#]*@'
    except ValueError:
        login = r'\A([^/?#]*//)?.*@'
    return re.sub(login, lambda it: (it.group(1) or '') + '***@', url, flags=re.S)


def has_login(url: str) -> bool:
    """Whether a URL has a user or a password in it (RFC 9110, 4.2.4)."""
    return shown(url) != url
