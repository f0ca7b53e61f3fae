"""What the command says on standard error, and with which status it ends; tools of the checkout say theirs so too."""
from __future__ import annotations

import contextlib
import errno
import os
import sys

TYPE_CHECKING = False
if TYPE_CHECKING:  # typing takes a while to load
    from typing import Optional

NO_ANSWER, FAULT, BAD_SETTING, NO_MEMORY, NOT_KEPT = 125, 1, 2, 3, 4
SIGN_IN, NOT_DISCOVERED, REFUSED_TOKEN, NO_ID_TOKEN, TRY_AGAIN = 5, 6, 7, 8, 9
# The status of each error code that a standard names: RFC 6749, 5.2 and 4.1.2.1; RFC 8628, 3.5; RFC 7009, 2.2.1; RFC
# 8693, 2.2.2 and RFC 8707, 2.
OF_CODE = {'invalid_request': 10, 'invalid_client': 11, 'invalid_grant': 12, 'unauthorized_client': 13,
           'unsupported_grant_type': 14,
           'invalid_scope': 15, 'access_denied': 16, 'unsupported_response_type': 17, 'server_error': 18,
           'temporarily_unavailable': 19,
           'expired_token': 20, 'unsupported_token_type': 21, 'authorization_pending': 22, 'slow_down': 23,
           'invalid_target': 24}
NOT_REVOKED = 25
DISK = (errno.ENOSPC, errno.EDQUOT, errno.EIO)
command = 'lifecrib'  # by which it is run; tools/oauth2 sets another name
quiet = False  # --quiet: no notes
columns = 0  # of a line on the terminal that the next one is written over


class Stop(Exception):
    """Why there is no answer; with another status than 125 where one says more."""

    def __init__(self, why: str, status: int = NO_ANSWER) -> None:
        super().__init__(why)
        self.status = status


def say(text: str) -> None:
    """Writes a line to standard error, if that can be written. What a server wrote can't steer the terminal."""
    put(printable(text) + '\n')


def printable(text: str) -> str:
    return ''.join(it if it.isprintable() else '?' for it in text)


def put(text: str) -> None:
    """Writes a text to standard error, if that can be written, over a line that is there to be written over."""
    global columns
    over, columns = '\r%s\r' % (' ' * columns) if columns else '', 0
    with contextlib.suppress(OSError):
        os.write(2, (over + text).encode(getattr(sys.stderr, 'encoding', None) or 'utf-8', 'backslashreplace'))


def say_for_now(text: str) -> None:
    """Writes a line to a terminal that the next one is written over."""
    global columns
    text = printable(text)[:(os.get_terminal_size(2).columns or 80) - 1]
    put(text)
    columns = len(text)


def tell(text: str, by: Optional[str] = None) -> None:
    """Says an error or a warning."""
    say('%s: %s' % (by or command, text))


def note(text: str, by: Optional[str] = None) -> None:
    """Says what is good to know, and what --quiet leaves out."""
    if not quiet:
        tell(text, by)


def status_at(error: OSError) -> int:
    """The status of a file that can't be used: that of a setting, unless it is the disk's fault."""
    return NO_ANSWER if error.errno in DISK else BAD_SETTING


def status_of(code: Optional[str]) -> int:
    """The status of an error code; that of a fault for one that no standard names, and where there is none."""
    return OF_CODE.get(code or '', FAULT)
