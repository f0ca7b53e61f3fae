"""The caches: where a token is kept, and how runs that share it renew it once.

A FileCache is for runs on one machine, and a SharedCache (shared_cache.py) for runs on many.
"""
from __future__ import annotations

from . import answers, token_cache
from .endings import NOT_KEPT, Stop, status_at

TYPE_CHECKING = False
if TYPE_CHECKING:  # typing takes a while to load
    from typing import Callable, ContextManager, Optional, Protocol

    from .token_cache import Entry

    class Mark(Protocol):
        """The renewal of another run that is under way."""

        def since(self) -> str:
            """When it began."""

    class Opened(Protocol):
        """What a cache keeps, for a run that drops it."""

        entry: Optional[Entry]

        def remove(self) -> Optional[Entry]:
            """Drops it: what that was, if it may be another token."""

    class Cache(Protocol):
        """Where a token is kept. name is what messages call it, kind the word for that in a status, other what to do
        where it has something else, and removed and it_is_removed what is said once it is dropped."""

        name: str
        kind: str
        other: str
        removed: str
        it_is_removed: str

        @property
        def mark(self) -> Optional[Mark]:
            """The renewal of another run that .read() has seen to be under way."""

        def is_over(self) -> bool:
            """Whether that renewal did not finish, so that a user has to sign in."""

        def read(self) -> Optional[Entry]:
            """What is kept now, without waiting for other runs; None where there is nothing."""

        def check(self) -> None:
            """Stops where no token could be put there."""

        def renewed(self, asking: Asking) -> Held:
            """What is kept, renewed by asking where that has to be."""

        def put(self, entry: Entry, fits: Optional[Callable[[Entry], None]]) -> None:
            """Puts the token of a new login there; fits stops at the one that is there, where given."""

        def opened(self) -> ContextManager[Opened]:
            """A context with what is kept."""

        def end(self, token: str) -> None:
            """Has the next run renew this access token."""

        def rescue_path(self) -> str:
            """Beside which path a token goes that can't be kept."""

    class Asking(Protocol):
        """How a run gets a token for a cache."""

        anew: bool  # whatever is kept
        margin: Optional[int]  # so many seconds a good token is good; None: it is always renewed
        kept: Optional[Entry]  # what was there before

        @property
        def outcome(self) -> object:
            """What the server said last; None where it was not asked."""

        def prepare(self) -> None:
            """Looks for all that a request needs, and asks the user for it."""

        def fits(self, kept: Entry) -> None:
            """Stops where another token is kept than the one that is asked for."""

        def is_good(self, kept: Entry) -> bool:
            """Whether it is handed out as it is."""

        def token(self, kept: Optional[Entry]) -> Optional[Entry]:
            """The token that the server gives in the place of this one; None where it gives none."""

        def fault(self) -> str:
            """Why it gave none."""

        def marks(self, has_marked: bool) -> None:
            """Whether others wait from now on for what becomes of this run."""

        def may_ask_again(self) -> bool:
            """Whether the refresh token is as good as before, since the server said no or was not asked."""

        def in_place_of(self, kept: Entry, is_over: bool) -> Optional[Entry]:
            """The token that the client itself gets in the place of one that another run did not renew; None where a
            user has to sign in."""


SHARED = ('redis', 'rediss', 'file')  # the schemes of places that runs of many machines, or of one, share
DEFAULT_NAME = 'default'  # of a shared token, where nothing says another one


def is_shared(text: Optional[str]) -> bool:
    """Whether a cache is a shared place, and not a file."""
    scheme, is_url, _ = (text or '').partition('://')
    return bool(is_url) and scheme.lower() in SHARED


class Held:
    """What came of a renewal: the token that there is, None where there is none."""

    def __init__(self, entry: Optional[Entry], *, is_good: bool = False, is_new: bool = False,
                 not_kept: Optional[str] = None,
                 stop: Optional[Stop] = None, is_over: bool = False, is_harmless: bool = False) -> None:
        self.entry = entry
        self.is_good = is_good  # it needs no renewal
        self.is_new = is_new  # this run got it
        self.not_kept = not_kept  # why a new one is not kept
        self.stop = stop  # why there is no new one, where the server did not say
        self.is_over = is_over  # there will be none without a new login
        self.is_harmless = is_harmless  # another run gets one now


class NotKept(Stop):
    """Why a token is not kept."""

    def __init__(self, why: str) -> None:
        super().__init__(why, NOT_KEPT)


class FileCache:
    """A file, for the runs of one user on one machine: each has it alone while it renews the token."""

    kind, other, mark = 'file', 'name another file by --cache', None
    removed, it_is_removed = 'the file %s is removed', 'the file is removed'

    def __init__(self, path: str, limit: float) -> None:
        self.name, self.limit = path, limit

    def is_over(self) -> bool:
        return False

    def read(self) -> Optional[Entry]:
        return token_cache.read(self.name)

    def opened(self) -> token_cache.File:
        return token_cache.File(self.name, self.limit)

    def check(self) -> None:
        with self.opened():
            pass

    def renewed(self, asking: Asking) -> Held:
        asking.prepare()
        with self.opened() as file:
            kept = None if asking.anew else file.entry
            if kept:
                asking.fits(kept)
                if asking.is_good(kept):
                    return Held(kept, is_good=True)
                if kept['refresh_token']:
                    file.make_room()
            new = asking.token(kept)
            if not new:
                return Held(kept)
            try:
                self.write(file, new)
            except NotKept as stop:
                return Held(new, is_new=True, not_kept=str(stop))
            return Held(new, is_new=True)

    def put(self, entry: Entry, fits: Optional[Callable[[Entry], None]]) -> None:
        with self.opened() as file:
            if file.entry and fits:  # another run may have put it there meanwhile
                fits(file.entry)
            self.write(file, entry)

    @staticmethod
    def write(file: token_cache.File, entry: Entry) -> None:
        try:
            file.write(entry)
        except OSError as error:
            raise NotKept('%s could not be written (%s)' % (file.path, error.strerror))

    def end(self, token: str) -> None:
        if not self.read():
            return
        try:
            with self.opened() as file:
                if file.entry and answers.access_token_in(file.entry['answer']) == token:
                    file.write(token_cache.ended(file.entry))
        except OSError as error:
            raise Stop('%s could not be written: %s' % (self.name, error.strerror), status_at(error))

    def rescue_path(self) -> str:
        return self.name
