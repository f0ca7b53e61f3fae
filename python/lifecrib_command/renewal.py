"""The exchange of a refresh token, of which nothing is lost.

A server may take each refresh token once, and answer a new one. So from when one is sent until the
answer is kept, signals wait; and an answer that can't be kept is put where the user finds it.
"""
from __future__ import annotations

import contextlib
import os

from . import signals
from .endings import NOT_KEPT, Stop, say, tell

TYPE_CHECKING = False
if TYPE_CHECKING:  # typing takes a while to load
    from types import TracebackType
    from typing import Optional

AT_LEAST = 60.0  # seconds for the reply, whatever --timeout says
HAS_TOKEN = (b'access_token', b'refresh_token')  # what an answer has that may not be lost


class Renewal:
    """A run that may exchange a refresh token, as a context; path is that of its cache.

    back says how a token that is put aside comes into the cache, where that is no file.
    """

    def __init__(self, path: Optional[str], back: Optional[str] = None) -> None:
        self.path, self.back, self.is_kept, self.is_rescued = path, back, False, False
        self.limit: Optional[float] = None
        self.body = b''

    def marks(self, has_marked: bool) -> None:
        """Whether the token is marked now, so that no other run renews it."""
        if not has_marked:
            signals.hold.end()
            return
        signals.hold.begin('this run has marked the token as one that it renews, and first tells '
                           'the other runs what became of it')

    def is_sent(self) -> bool:
        """Whether a refresh token was sent, or may have been."""
        return self.limit is not None

    def sending(self, limit: float) -> float:
        """A refresh token is sent now: how many seconds there are for the reply."""
        self.limit = max(limit, AT_LEAST)
        signals.hold.begin('the reply may have the only refresh token that is good, so it is '
                           'awaited for up to %g seconds' % self.limit)
        return self.limit

    def received(self, status: int, body: bytes) -> None:
        """What the server answers."""
        if 200 <= status < 300 and any(it in body for it in HAS_TOKEN):
            self.body = body

    def kept(self) -> None:
        """The answer is where it has to be."""
        self.is_kept = True
        signals.hold.end()

    def failed(self) -> None:
        """There is no answer that could be kept."""
        self.rescue()
        signals.hold.end()

    def rescue(self, text: Optional[bytes] = None) -> bool:
        """Puts an answer that is not kept where the user finds it; whether there is one.

        The text is what the file of the cache should have; else it is what the server sent.
        """
        if self.is_kept or not (text or self.body):
            return False
        if not self.is_rescued:
            self.is_rescued = True
            put_aside(self.path, text or self.body, text is not None, self.back)
        return True

    def __enter__(self) -> 'Renewal':
        return self

    def __exit__(self, _kind: Optional[type], error: Optional[BaseException],
                 _where: Optional[TracebackType]) -> None:
        if self.rescue() and isinstance(error, Stop):
            error.status = NOT_KEPT
        if signals.hold.waiting and isinstance(error, Stop):
            tell(str(error))
        signals.hold.end()


def put_aside(path: Optional[str], text: bytes, is_file: bool, back: Optional[str]) -> None:
    """Writes a text to a file beside the one of this path, or else to standard error."""
    beside = path and file_beside(path, text)
    if beside:
        then = 'look into it'
        if is_file:
            then = back or 'mv %s %s puts it there' % (beside, path)
        tell('the new token is in %s: %s' % (beside, then))
        return
    tell('the new token is kept nowhere else than in the line that follows:')
    say(text.decode('utf-8', 'backslashreplace'))


def file_beside(path: str, text: bytes) -> Optional[str]:
    """The path of a new file that has a text; None if there can be none."""
    import tempfile
    folder, name = os.path.split(os.path.realpath(path))
    found = None
    try:
        number, found = tempfile.mkstemp(prefix=name + '.rescued-', dir=folder)
        with os.fdopen(number, 'wb') as f:
            f.write(text)
            f.flush()
            os.fsync(f.fileno())
        return found
    except OSError:
        if found:
            with contextlib.suppress(OSError):
                os.unlink(found)
        return None
