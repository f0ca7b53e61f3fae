"""Stores for tokens that many processes share, each as `oauth2_shared_keeper` wants one: a value under a name, with a
version, which is replaced only over the version that is stored, in one step; for --cache and tools/try-shared-keepers.

A value is a version and a text without line ends; a name that has none is version 0 and the text 'none'. `load` returns
both, and `replace` whether it did what it was asked; None is silence, where it is not known, and .fault says why. Both
stores can keep a history of all values of a name.

What a store rests on: a version names one value for ever. A RedisStore keeps that where the server runs with
`appendonly yes` and `appendfsync always`, with `maxmemory-policy noeviction`, and without replicas that can be
promoted. With `appendfsync everysec`, or with snapshots alone, a server that dies loses what it said to have done, and
gives the versions of it a second time; so does a replica that is promoted, also in a cluster, since replication is
asynchronous. After that, log in anew under another name. No key may have a time to live. A FileStore keeps it on a
local file system: it writes another file, syncs it, renames it, and syncs the folder. Over a network file system it is
only as good as that one's locks and renames.
"""
from __future__ import annotations

import contextlib
import os
import stat
import tempfile
import time
from typing import IO, Any, Callable, Iterator, Optional, TypeVar

from . import locks, time_limits

NOTHING = (0, 'none')
LAST = 2 ** 64 - 1  # the last version
# The settings of a Redis on which a store rests.
RESTS_ON = {'appendonly': 'yes', 'appendfsync': 'always', 'maxmemory-policy': 'noeviction'}
T = TypeVar('T')

# KEYS: the value and, if there is one, its history; ARGV: the version that has to be stored, what takes its place
REPLACE = '''
local stored = redis.call('GET', KEYS[1])
local version = stored and string.match(stored, '^%d+') or '0'
if version ~= ARGV[1] then return 0 end
redis.call('SET', KEYS[1], ARGV[2])
if KEYS[2] then redis.call('RPUSH', KEYS[2], ARGV[2]) end
return 1
'''


def read_value(line: str) -> tuple[int, str]:
    """The version and the text of a stored line."""
    version, _, text = line.partition(' ')
    return int(version), text


def line_of(version: int, text: str) -> str:
    """What is stored in the place of this version."""
    if '\n' in text or version >= LAST:
        raise ValueError('not a value to store: %r over version %d' % (text, version))
    return '%d %s' % (version + 1, text)


class RedisStore:
    """A store on Redis, by the module redis (Debian's python3-redis), which is loaded here. Nothing is sent twice by
    itself.

    seconds is how long a call may take, with the look-up of the server's name. The settings are those of the module:
    host, port, db, username, password, ssl.
    """

    def __init__(self, seconds: float = 5, history: bool = False, prefix: str = 'lifecrib:', **settings: Any) -> None:
        import redis
        import redis.backoff
        import redis.retry
        self.faults, self.prefix, self.history, self.seconds = redis.RedisError, prefix, history, seconds
        # what a server answers, and not one that is not there, begins or is cut off
        self.answers = (redis.ResponseError, redis.AuthenticationError)
        self.fault: Optional[Exception] = None
        never = redis.retry.Retry(redis.backoff.NoBackoff(), 0)
        self.client: Any = redis.Redis(socket_timeout=seconds, socket_connect_timeout=seconds, retry_on_timeout=False,
                                       retry=never,
                                  decode_responses=True, **settings)

    def is_refused(self) -> bool:
        """Whether the last call is silent because the server says no."""
        return isinstance(self.fault, self.answers)

    def done(self, work: Callable[[], T], seconds: Optional[float]) -> Optional[T]:
        """What comes of a call; None is silence."""
        self.fault = None
        try:
            return time_limits.in_time(work, self.seconds if seconds is None else seconds)
        except (self.faults, OSError, ValueError) as error:
            self.fault = error
            return None

    def load(self, name: str, seconds: Optional[float] = None) -> Optional[tuple[int, str]]:
        """The value of a name; .fault is a ValueError where it has something else."""
        def value() -> tuple[int, str]:
            line = self.client.get(self.prefix + name)
            return read_value(line) if line else NOTHING
        return self.done(value, seconds)

    def replace(self, name: str, version: int, text: str) -> Optional[bool]:
        keys, line = [self.prefix + name], line_of(version, text)
        if self.history:
            keys.append(self.prefix + 'history:' + name)
        return self.done(lambda: bool(self.client.eval(REPLACE, len(keys), *keys, str(version), line)), None)

    def other_settings(self) -> list[str]:
        """The settings of the server that are not those on which a store rests, as far as it tells them."""
        def told() -> dict[str, str]:
            return {name: self.client.config_get(name).get(name, RESTS_ON[name]) for name in RESTS_ON}
        found = self.done(told, None) or {}
        return ['%s %s' % it for it in found.items() if it[1] != RESTS_ON[it[0]]]

    def values(self, name: str) -> list[tuple[int, str]]:
        """All values that a name ever had, if it has a history."""
        return [read_value(line) for line in self.client.lrange(self.prefix + 'history:' + name, 0, -1)]


class Locked(OSError):
    """Why a value can't be replaced: another process has the lock of its file."""


class NoFile(OSError):
    """Why a value can't be read or replaced: something else has the name of its file."""


def opened(path: str, flags: int) -> IO[str]:
    """A file of a store; a new one has mode 600. NoFile where it is a pipe or the like, at which a run would wait."""
    file = os.fdopen(os.open(path, flags | os.O_NONBLOCK | os.O_NOCTTY, 0o600), 'r', encoding='utf-8')
    if not stat.S_ISREG(os.fstat(file.fileno()).st_mode):
        file.close()
        raise NoFile('%s is no regular file' % path)
    return file


class FileStore:
    """A store in a folder, a file for each name. A name has to be good as the name of a file.

    seconds is how long a lock is waited for. Once it was not to be had for so long, each further call tries only once,
    until one gets it.
    """

    def __init__(self, folder: str, history: bool = False, seconds: float = 5) -> None:
        self.folder, self.history, self.seconds = folder, history, seconds
        self.fault: Optional[Exception] = None
        self.end: Optional[float] = None  # until when a lock is waited for
        os.makedirs(folder, mode=0o700, exist_ok=True)

    def is_refused(self) -> bool:
        """Whether the last call is silent because of what is in the folder, so that no other try helps."""
        return isinstance(self.fault, (PermissionError, NoFile))

    def other_settings(self) -> list[str]:
        """None: a folder has no settings."""
        return []

    def path(self, name: str, ending: str = '') -> str:
        if not name or name.startswith('.') or '/' in name:
            raise ValueError('not the name of a file: %r' % name)
        return os.path.join(self.folder, name + ending)

    def load(self, name: str, _seconds: Optional[float] = None) -> Optional[tuple[int, str]]:
        path, self.fault = self.path(name), None
        try:
            with opened(path, os.O_RDONLY) as f:
                return read_value(f.read())
        except FileNotFoundError:
            return NOTHING
        except (OSError, ValueError) as error:
            self.fault = error
            return None

    @contextlib.contextmanager
    def locked(self, name: str) -> Iterator[None]:
        """A context in which no other run replaces the value. Locked where another process has the lock too long."""
        path = self.path(name, '.lock')
        with opened(path, os.O_RDWR | os.O_CREAT | os.O_NOFOLLOW) as f:
            # Earlier versions made it with mode 644, and any user who can open it can hold the lock.
            with contextlib.suppress(PermissionError):
                os.fchmod(f.fileno(), 0o600)
            self.end = self.end or time.monotonic() + self.seconds
            while not locks.takes(f):
                if time.monotonic() >= self.end:
                    raise Locked('%s has had the lock of %s for more than %g seconds (--timeout)'
                                 % (locks.holder(f), path, self.seconds))
                time.sleep(0.05)
            self.end = None
            yield

    def replace(self, name: str, version: int, text: str) -> Optional[bool]:
        try:
            with self.locked(name):
                stored = self.load(name)
                if stored is None or stored[0] != version:
                    return None if stored is None else False
                self.put(name, line_of(version, text))
                return True
        except OSError as error:
            self.fault = error
            return None

    def put(self, name: str, line: str) -> None:
        """Puts a line in the place of a file; after an end at any moment the file is the old or the new one."""
        if self.history:  # written first: a value that is there, and not in the file, is the last one that was tried
            with open(self.path(name, '.history'), 'a') as f:
                f.write(line + '\n')
                f.flush()
                os.fsync(f.fileno())
        handle, new = tempfile.mkstemp(dir=self.folder)
        with os.fdopen(handle, 'w') as f:
            f.write(line)
            f.flush()
            os.fsync(f.fileno())
        os.rename(new, self.path(name))
        folder = os.open(self.folder, os.O_RDONLY)
        try:
            os.fsync(folder)
        finally:
            os.close(folder)

    def values(self, name: str) -> list[tuple[int, str]]:
        with open(self.path(name, '.history')) as f:
            lines = [read_value(line.rstrip('\n')) for line in f if line.endswith('\n')]
        # of two lines with one version the first was written by a process that was killed before it put its file there
        return [it for it, after in zip(lines, [*lines[1:], (None, '')]) if it[0] != after[0]]
