"""The file in which a token is kept, and how it is replaced."""
from __future__ import annotations

import contextlib
import json
import os
import stat

from . import answers, signals
from .endings import BAD_SETTING, TRY_AGAIN, Stop, note, status_at

TYPE_CHECKING = False
if TYPE_CHECKING:  # typing takes a while to load
    from types import TracebackType
    from typing import IO, Any, Iterator, Mapping, Optional
    Entry = dict[str, Any]

SPARE = 1 << 14  # bytes that a new file may have beyond twice those of the old one
FORMAT = 'cache of tools/oauth2, 1'
NO_TEXT = type(None)
# What the file has: of which request the token came, when, until when it is good, the reply, the refresh token that is
# newest, and who signed in by an ID token that was checked.
TYPES: Mapping[str, Any] = {
    'command': str, 'client_id': str, 'server': (str, NO_TEXT), 'issuer': (str, NO_TEXT), 'token_url': str,
    'auth': (str, NO_TEXT),
    'username': (str, NO_TEXT), 'scopes': list, 'extra': list, 'resource': list, 'obtained_at': int, 'expires_at': int,
    'answer': str,
    'refresh_token': (str, NO_TEXT), 'user': (dict, NO_TEXT)}

# What the files of earlier versions do not have.
OF_EARLIER: Entry = {'server': None, 'issuer': None, 'user': None, 'resource': []}


def entry_in(text: str, path: str) -> Optional[Entry]:
    """What the text of a cache keeps; None where it is empty. Stops at a text that no cache has."""
    if not text:
        return None
    try:
        found: Entry = {**OF_EARLIER, **json.loads(text)}
        is_ours = found.pop('format') == FORMAT and is_entry(found)
    except (ValueError, KeyError, TypeError, AttributeError, RecursionError):
        is_ours = False
    if not is_ours:
        raise Stop('%s is no cache of this tool, so it is left as it is: name another file by --cache' % path,
                   BAD_SETTING)
    return found


def is_entry(found: Entry) -> bool:
    """Whether each member of an entry is what it has to be."""
    if found.keys() != TYPES.keys() or not all(isinstance(found[it], TYPES[it]) for it in TYPES):
        return False
    texts = [*found['scopes'], *found['resource'], *(it for pair in found['extra'] for it in pair)]
    texts.append(answers.member(found['answer'], 'access_token'))
    if found['user'] is not None:
        texts += [found['user'][name] for name in ('iss', 'sub')]
    return all(isinstance(it, str) for it in texts)


class NotAsked(Stop):
    """Why no token is asked for, though one was to be."""


def opened(path: str, flags: int) -> tuple[IO[str], os.stat_result]:
    """The file at a path, and its status. Stops where it is not one that this user alone can read and write."""
    file = os.fdopen(os.open(path, flags | os.O_NONBLOCK | os.O_NOCTTY, 0o600), 'r', encoding='utf-8')
    found, said = os.fstat(file.fileno()), None
    if not stat.S_ISREG(found.st_mode) or found.st_uid != os.geteuid():
        said = '%s is no file of this user, so it is left as it is: name another by --cache' % path
    elif found.st_mode & 0o077:
        said = 'others can read or write %s, so it is left as it is: chmod 600 %s makes it usable' % (path, path)
    if said:
        file.close()
        raise Stop(said, BAD_SETTING)
    return file, found


@contextlib.contextmanager
def told(path: str, kind: type[Stop] = Stop) -> Iterator[None]:
    """Stops, by this kind, where a file can't be opened; or where it is no text."""
    try:
        yield
    except UnicodeDecodeError:
        raise Stop('%s is no cache of this tool, so it is left as it is: name another file by --cache' % path,
                   BAD_SETTING)
    except OSError as error:
        raise kind('%s can not be used as a cache: %s' % (path, error.strerror), status_at(error))


def read(path: str) -> Optional[Entry]:
    """What a cache keeps now, without waiting for other runs, which put a new file in its place; None where there is no
    file yet."""
    with told(path):
        path = os.path.realpath(path)  # which fails where the folder of the run is gone
        try:
            file, _ = opened(path, os.O_RDONLY)
        except FileNotFoundError:
            return None
        with file:
            return entry_in(file.read(), path)


class File:
    """The file while this process alone has it, as a context. What is kept is .entry, or None. limit is how many
    seconds it may be waited for."""

    def __init__(self, path: str, limit: float) -> None:
        self.path, self.limit = os.path.realpath(path), limit
        self.file: Optional[IO[str]] = None
        self.entry: Optional[Entry] = None
        self.new: Optional[str] = None  # the path of the file that will take the place of this one
        self.room: Optional[IO[bytes]] = None  # that file

    def __enter__(self) -> File:
        import time
        end = time.monotonic() + self.limit
        try:
            with told(self.path, NotAsked):  # a token that is good yet needs no file that can be written
                while not self.file:
                    self.file = self.locked(end)
                self.entry = entry_in(self.file.read(), self.path)
        except Stop:
            self.close()
            raise
        return self

    def locked(self, end: float) -> Optional[IO[str]]:
        """The file, which is opened and locked; None where another run has put a new one in its place meanwhile."""
        file, found = opened(self.path, os.O_RDWR | os.O_CREAT)
        with contextlib.ExitStack() as stack:
            stack.callback(file.close)
            if not os.access(os.path.dirname(self.path), os.W_OK):
                raise NotAsked('the folder of %s can not be written' % self.path, BAD_SETTING)
            self.lock(file, end)
            if os.path.exists(self.path) and os.path.samestat(os.stat(self.path), found):
                stack.pop_all()
                return file
        return None

    def lock(self, file: IO[str], end: float) -> None:
        """Waits until no other run has the file."""
        import time

        from . import locks
        is_said = False
        while not locks.takes(file):
            if not is_said:
                note('waiting for %s, which uses %s' % (locks.holder(file), self.path))
                is_said = True
            if time.monotonic() >= end:
                raise NotAsked('%s has used %s for more than %g seconds (--timeout), so nothing was sent'
                               % (locks.holder(file), self.path, self.limit), TRY_AGAIN)
            time.sleep(0.05)

    def __exit__(self, _kind: Optional[type], _error: Optional[BaseException], _where: Optional[TracebackType]) -> None:
        self.close()

    def close(self) -> None:
        self.drop()
        if self.file:
            self.file.close()
            self.file = None

    def remove(self) -> Optional[Entry]:
        """Removes the file, which has what this run has read."""
        try:
            os.unlink(self.path)
        except OSError as error:
            raise Stop('%s could not be removed: %s' % (self.path, error.strerror))
        return None

    def make_room(self) -> None:
        """Makes the file that will take the place of this one. Stops where that can't be."""
        try:
            self.reserve()
        except OSError as error:
            raise NotAsked('there is no room for a new token beside %s (%s), so nothing was sent'
                           % (self.path, error.strerror),
                           status_at(error))

    def reserve(self) -> IO[bytes]:
        """A new file, of its full size. OSError if there can be none."""
        import tempfile
        assert self.file
        folder, name = os.path.split(self.path)
        with signals.uncut(self.drop):
            number, self.new = tempfile.mkstemp(prefix='.%s.' % name, dir=folder)
        self.room = os.fdopen(number, 'wb')
        os.posix_fallocate(number, 0, 2 * os.fstat(self.file.fileno()).st_size + SPARE)
        return self.room

    def drop(self) -> None:
        """Removes the file that was made, where it has not taken the place of the old one."""
        new, room, self.new, self.room = self.new, self.room, None, None
        with contextlib.suppress(OSError):
            if new:
                os.unlink(new)
            if room:
                room.close()
        signals.is_done(self.drop)

    def write(self, entry: Entry) -> None:
        """Puts a new file in the place of the old one, whole or not at all. OSError if it can't be written."""
        text = text_of(entry)
        try:
            room = self.room or self.reserve()
            assert self.new
            room.write(text)
            room.truncate()
            os.fsync(room.fileno())
            with signals.lock:
                os.replace(self.new, self.path)
                self.new = None
        finally:
            self.drop()
        self.entry = entry
        # So that the new file is the one that a sudden end of the machine leaves, where that can be.
        with contextlib.suppress(OSError):
            at = os.open(os.path.dirname(self.path), os.O_RDONLY)
            try:
                os.fsync(at)
            finally:
                os.close(at)


def text_of(entry: Entry) -> bytes:
    """The bytes of a file that keeps this."""
    return json.dumps({'format': FORMAT, **entry}).encode()


def is_good(entry: Entry, now: int, margin: int) -> bool:
    """Whether a token is good for more than the margin's seconds; not where the clock was put back since it came."""
    return bool(entry['obtained_at'] <= now < entry['expires_at'] - margin)


def entry_of(text: str, asked_at: int, life: int, before: Optional[Entry], how: Mapping[str, Any]) -> Entry:
    """What is kept of an answer: its token ends life seconds after its request, where it doesn't say. A refresh token
    of before stays, if it has no other."""
    seconds, refresh = answers.member(text, 'expires_in'), answers.member(text, 'refresh_token')
    if before and not refresh:
        refresh = before['refresh_token']
    ends = asked_at + (seconds if isinstance(seconds, int) else life)
    return {**how, 'obtained_at': asked_at, 'expires_at': ends, 'answer': text, 'refresh_token': refresh}


def has_end(entry: Entry) -> bool:
    """Whether the server said when the token ends."""
    return answers.member(entry['answer'], 'expires_in') is not None


def end_of(entry: Entry) -> Optional[int]:
    """When the token ends; None where the server didn't say."""
    return entry['expires_at'] if has_end(entry) else None


def ended(entry: Entry) -> Entry:
    """The entry as it is once its token has ended."""
    return dict(entry, expires_at=entry['obtained_at'])


def how_long(entry: Entry, now: int) -> str:
    """What is said of a token that has not ended."""
    what = 'is good' if has_end(entry) else 'came without a lifetime and is taken as good'
    return '%s for %d more seconds' % (what, entry['expires_at'] - now)


def how_ended(entry: Entry) -> str:
    """What is said of a token that is no longer handed out."""
    seconds = entry['expires_at'] - entry['obtained_at']
    return 'has ended' if has_end(entry) else 'came without a lifetime, is older than %d seconds (--life),' % seconds


def answer_of(entry: Entry, now: int) -> str:
    """A kept answer, with the seconds that are left of its token."""
    left = str(max(0, entry['expires_at'] - now))
    members = answers.members_in(entry['answer'])
    return answers.object_of([(name, left if name == 'expires_in' else value) for name, value in members])
