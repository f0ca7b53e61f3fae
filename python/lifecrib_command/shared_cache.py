"""A cache that many machines share: a token in a store of values with versions, which the proved keeper renews.

Before a refresh token is sent, the token is marked in the store, so that no other run sends it. What becomes of the
mark:

- The new token takes its place.
- If the server said no, or nothing was sent, the old token takes its place again.
- If no answer came, or the run was killed, nobody knows whether the refresh token was used. The mark stays. The old
  token is handed out while it is good, and then a user signs in anew.
"""
from __future__ import annotations

import base64
import binascii
import contextlib
import functools
import os
import secrets
import sys
import time
from types import TracebackType
from typing import TYPE_CHECKING, Any, Callable, NamedTuple, NoReturn, Optional, Union

from . import answers, profiles, programs, renewal, shared_keeper, shared_places, shared_stores, token_cache, wire_log
from .caches import Held, NotKept
from .endings import BAD_SETTING, SIGN_IN, TRY_AGAIN, Stop, note, tell
from .moments import moment

if TYPE_CHECKING:
    from .caches import Asking
    from .token_cache import Entry

WAIT = 0.25  # seconds between two looks at what another run does
LAST_LOOK = 1.0  # seconds for a look when the time is over
PAUSE = 0.5  # seconds after a call of the store of which nothing is known
FOR_EVER = 1 << 60  # milliseconds: no token is good for so long
LAST_SECOND = 253402300799  # of the year 9999
RANDOM = 80  # bits of a renewal's name; those above them are the millisecond in which it was drawn


class Value(NamedTuple):
    """What the store has: a version, a token, and the renewal that has marked it."""

    version: int
    entry: Optional[Entry]
    renewal: Optional[int] = None


class Mark(NamedTuple):
    """A renewal that has begun, and its version in the store."""

    renewal: int
    version: int

    def begun(self) -> float:
        """When it began, by the clock of its machine."""
        return (self.renewal >> RANDOM) / 1000

    def since(self) -> str:
        return 'an unknown time' if self.begun() > time.time() + 86400 else moment(int(self.begun()))


def token_of(entry: Entry) -> str:
    """A token as the keeper has it: until when it is good, and what a file would have."""
    text = base64.urlsafe_b64encode(token_cache.text_of(entry)).decode().rstrip('=')
    return '%d:%s' % (1000 * max(0, min(entry['expires_at'], LAST_SECOND)), text)


def entry_of(token: str, name: str) -> Entry:
    """What a token of the keeper is. Stops at one that is none of this tool."""
    text = token.partition(':')[2]
    with contextlib.suppress(binascii.Error, UnicodeError, Stop):
        entry: Optional[Entry] = token_cache.entry_in(base64.b64decode(text + '=' * (-len(text) % 4), b'-_',
                                                                       True).decode(), name)
        if entry:
            return entry
    stop_at_other(name)


def stop_at_other(name: str) -> NoReturn:
    raise Stop('%s has something that is no token of this tool, so it is left as it is: %s' % (name, SharedCache.other),
               BAD_SETTING)


def value_of(version: int, text: str, name: str) -> Value:
    """What a value of the store means."""
    words = text.split(' ')
    if words == ['none']:
        return Value(version, None)
    if words[0] == 'rest' and len(words) == 2:
        return Value(version, entry_of(words[1], name))
    if words[0] == 'mark' and len(words) == 3 and words[1].isdigit():
        return Value(version, entry_of(words[2], name), int(words[1]))
    stop_at_other(name)


class NotRenewable(Exception):
    """A token that nothing renews: nothing is marked then."""

    def __init__(self, entry: Entry) -> None:
        super().__init__()
        self.entry = entry


class Renewing(shared_keeper.Keeper):
    """The keeper of a run: it ends in time, and gets ready before it marks the token."""

    def __init__(self, path: str, cache: 'SharedCache', settings: shared_keeper.Settings,
                 asking: Optional[Asking] = None) -> None:
        super().__init__(path, cache.store, settings, is_alone=True)
        self.path, self.cache, self.asking = path, cache, asking
        self.end = time.monotonic() + cache.limit
        self.has_marked = self.is_waiting = self.is_silent = False
        self.new: Optional[str] = None  # the token that this run has got
        self.stop: Optional[Stop] = None  # why it got none, where the server did not say so
        self.not_marked = ''  # why the store did not say whether it took the mark

    def __enter__(self) -> 'Renewing':
        return self

    def told(self, line: str) -> list[str]:
        """What is told of a call. Stops where the program is another one."""
        why = 'it does not take a line of this tool'
        try:
            found = self.call(line)
        except OSError as error:
            found, why = [], str(error)
        if not found or found[0] == '?':
            raise Stop('%s is not the keeper of oauth2_shared_tests, it seems: %s' % (self.path, why))
        return found

    def left(self) -> float:
        return self.end - time.monotonic()

    def load(self, name: str) -> Optional[tuple[int, str]]:
        seconds = max(self.left(), 0 if self.is_silent else LAST_LOOK)
        found: Optional[tuple[int, str]] = self.cache.store.load(name, seconds) if seconds > 0 else None
        self.is_silent = found is None
        if found is None:
            self.pause(PAUSE)
        elif self.asking and not self.has_marked:
            kept = value_of(found[0], found[1], self.cache.name).entry
            if kept:
                self.asking.fits(kept)
        return found

    def replace(self, name: str, version: int, text: str) -> Optional[bool]:
        if self.asking and text.startswith('mark '):
            entry = entry_of(text.split(' ')[-1], self.cache.name)
            if not (entry['refresh_token'] or entry['command'] == 'token'):
                raise NotRenewable(entry)
            self.asking.prepare()
            self.cache.make_folder()
            self.marks(True)
        done = self.store.replace(name, version, text)
        self.end = time.monotonic() + self.cache.limit
        if done is None:
            if text.startswith('mark '):
                self.not_marked = self.cache.why()
            self.pause(PAUSE)
        return done

    def marks(self, has_marked: bool) -> None:
        """Whether the mark of this run may stand."""
        if self.asking and has_marked != self.has_marked:
            self.has_marked = has_marked
            self.asking.marks(has_marked)

    def refreshed(self, token: str) -> Optional[str]:
        assert self.asking
        entry = None
        try:
            entry = self.asking.token(entry_of(token, self.cache.name))
        except Stop as stop:  # told once the mark is off
            self.stop = stop
        self.new = token_of(entry) if entry else None
        self.end = time.monotonic() + self.cache.limit
        return self.new

    def sleep(self, seconds: float) -> None:
        self.marks(False)  # it looks again only where it has none
        if not self.is_silent and not self.is_waiting:
            self.is_waiting = True
            note('waiting for another run, which renews the token of %s' % self.cache.name)
        self.pause(seconds)

    def pause(self, seconds: float) -> None:
        time.sleep(max(0, min(seconds, self.left())))

    def drawn(self) -> int:
        return int(time.time() * 1000) << RANDOM | secrets.randbits(RANDOM)


class SharedCache:
    """A token of this name in a store."""

    kind, other = 'cache', 'name another token by ?name='
    removed, it_is_removed = '%s keeps no token any more', 'it is kept no more'

    def __init__(self, store: Any, key: str, name: str, limit: float) -> None:
        self.store, self.key, self.name, self.limit = store, key, name, limit
        self.mark: Optional[Mark] = None  # what the last .read() has seen

    # What is kept

    def value(self) -> Value:
        """What the store has. Stops where it does not say."""
        found = self.store.load(self.key)
        if isinstance(self.store.fault, ValueError):
            stop_at_other(self.name)
        if found is None:
            raise Stop('%s can not be read: %s' % (self.name, self.why()),
                       BAD_SETTING if self.store.is_refused() else TRY_AGAIN)
        value = value_of(found[0], found[1], self.name)
        self.mark = None if value.renewal is None else Mark(value.renewal, value.version)
        return value

    def why(self) -> str:
        """Why the store is silent."""
        fault = self.store.fault
        if type(fault).__name__ in ('TimeoutError', 'timeout'):
            return 'no answer within %g seconds (--timeout)' % self.limit
        return wire_log.secrets.masked(' '.join(str(fault or 'no answer').split()))

    def read(self) -> Optional[Entry]:
        return self.value().entry

    def check(self) -> None:
        self.value()
        assert self.program
        others = self.store.other_settings()
        if others:
            tell('%s runs with %s: if it dies, it may forget the newest token and bring back an old one (docs/TOOL.md)'
                 % (self.name, ', '.join(others)))

    @functools.cached_property
    def program(self) -> str:
        """The path of the keeper."""
        return programs.path_of(programs.KEEPER)

    # Renewals

    def keeper(self, asking: Optional[Asking] = None) -> Renewing:
        often = max(4, int(self.limit / PAUSE))
        margin = asking.margin if asking else 0
        margins = (FOR_EVER, FOR_EVER) if margin is None else (1000 * margin, 0)
        rounds = 1 if self.mark and self.is_old(self.mark) else int(self.limit / WAIT) + 2
        settings = shared_keeper.Settings(*margins, int(1000 * WAIT), rounds, often, often)
        return Renewing(self.program, self, settings, asking)

    def renewed(self, asking: Asking) -> Held:
        if asking.anew:
            return self.begun(asking)
        with self.keeper(asking) as keeper:
            try:
                told, *words = keeper.told('token ' + self.key)
            except NotRenewable as found:
                return Held(found.entry, is_over=True)
            held: Held = getattr(self, 'if_' + told)(asking, keeper, *words)
        return held

    def begun(self, asking: Asking) -> Held:
        """Asks for a token where none is kept."""
        new = asking.token(None)
        return self.kept(new, None if asking.anew else asking.fits) if new else Held(None)

    def kept(self, new: Entry, fits: Optional[Callable[[Entry], None]]) -> Held:
        """Puts a token there that this run got by a new login of the client."""
        try:
            self.put(new, fits)
        except NotKept as stop:
            return Held(new, is_new=True, not_kept=str(stop))
        return Held(new, is_new=True)

    def if_good(self, _: Asking, keeper: Renewing, token: str) -> Held:
        is_new = token == keeper.new
        return Held(entry_of(token, self.name), is_good=not is_new, is_new=is_new)

    def if_old(self, _: Asking, _keeper: Renewing, number: str, version: str, token: str) -> Held:
        mark = Mark(int(number), int(version))
        is_old = self.is_old(mark)
        return Held(entry_of(token, self.name), stop=self.stop_at(mark), is_over=is_old, is_harmless=not is_old)

    def if_logged_out(self, asking: Asking, _: Renewing) -> Held:
        return self.begun(asking)

    def if_unkept(self, _: Asking, _keeper: Renewing, _number: str, _version: str, token: str) -> Held:
        entry, why = entry_of(token,
                              self.name), self.why() if self.store.fault else 'a user has signed in or out meanwhile'
        with contextlib.suppress(Stop):
            if self.read() == entry:
                return Held(entry, is_new=True)
        return Held(entry, is_new=True, not_kept='%s did not say that it keeps the new token: %s' % (self.name, why))

    def if_unanswered(self, asking: Asking, keeper: Renewing, number: str, version: str, token: str) -> Held:
        """The mark of this run stands. It is taken off where the refresh token is as good as before."""
        mark, entry, stop = Mark(int(number), int(version)), entry_of(token, self.name), keeper.stop
        said = str(stop) if stop else asking.fault()
        if not asking.may_ask_again():
            new = asking.in_place_of(entry, True)
            if new:
                return self.kept(new, asking.fits)
            is_over = entry['command'] != 'token'
            why = '%s; so nobody knows whether the refresh token was used, and no run sends it again' % said
            return Held(entry, stop=Stop(why, SIGN_IN if is_over else TRY_AGAIN), is_over=is_over)
        told = keeper.told('answer %s %d %s' % (self.key, mark.version, token))[0]
        if told not in ('done', 'refused'):  # refused: a user has signed in or out meanwhile
            return Held(entry,
                        stop=Stop('%s; and the mark of this run may stand: %s' % (said, self.not_done(told)),
                                  TRY_AGAIN))
        if stop:
            raise stop
        return Held(entry)

    def if_unclear(self, _: Asking, keeper: Renewing, number: str, version: str, token: str) -> Held:
        """This run sent nothing, so its mark is taken off, where it shows by now. That of another run at this version
        stays."""
        why = ('it is not known whether %s took the mark of this run (%s), so nothing was sent'
               % (self.name, keeper.not_marked or self.why()))
        with contextlib.suppress(Stop):
            if self.value().renewal == int(number):
                keeper.told('answer %s %s %s' % (self.key, version, token))
        return Held(entry_of(token, self.name), stop=Stop(why, TRY_AGAIN))

    def if_unfinished(self, asking: Asking, _: Renewing, number: str, version: str, token: str) -> Held:
        mark, entry = Mark(int(number), int(version)), entry_of(token, self.name)
        new = asking.in_place_of(entry, self.is_old(mark))
        if new:
            return self.kept(new, asking.fits)
        if asking.outcome:
            return Held(entry)
        return Held(entry, stop=self.stop_at(mark), is_over=self.is_old(mark))

    def if_in_use(self, _: Asking, _keeper: Renewing, _number: str, token: str) -> Held:
        return Held(entry_of(token, self.name), stop=self.stop_at_others())

    def if_lost(self, asking: Asking, _: Renewing) -> Held:
        return Held(asking.kept, stop=self.stop_at_others())

    def if_unread(self, asking: Asking, _: Renewing) -> Held:
        return Held(asking.kept, stop=Stop('%s can not be read: %s' % (self.name, self.why()), TRY_AGAIN))

    def if_no_next_version(self, _: Asking, _keeper: Renewing, token: str) -> Held:
        return Held(entry_of(token, self.name), stop=self.stop_at_end())

    # What is told

    def longest(self) -> float:
        """How many seconds a renewal may take, as far as this run knows the flags of others."""
        return 4 * self.limit + max(self.limit, renewal.AT_LEAST)

    def is_over(self) -> bool:
        return self.mark is not None and self.is_old(self.mark)

    def is_old(self, mark: Mark) -> bool:
        return abs(time.time() - mark.begun()) > self.longest()  # one from afar has a name of another kind

    def stop_at(self, mark: Mark) -> Stop:
        """What is said of the mark of another run."""
        if self.is_old(mark):
            return Stop('another run began to renew it at %s and did not finish, so nobody knows whether the refresh '
                        'token was used'
                        % mark.since(), SIGN_IN)
        return Stop('another run renews it since %s' % mark.since(), TRY_AGAIN)

    def stop_at_others(self) -> Stop:
        return Stop('other runs renew it, and this one had no turn within %g seconds (--timeout)' % self.limit,
                    TRY_AGAIN)

    def stop_at_end(self) -> Stop:
        return Stop('%s has had as many values as it can have: %s' % (self.name, self.other), BAD_SETTING)

    # Logins and logouts

    def put(self, entry: Entry, fits: Optional[Callable[[Entry], None]]) -> None:
        token = token_of(entry)
        self.make_folder()
        with self.keeper() as keeper:
            try:
                value = self.value()
            except Stop as stop:
                raise NotKept(str(stop))
            if value.entry and fits:
                fits(value.entry)
            told = ['refused']
            if self.mark:
                told = keeper.told('answer %s %d %s' % (self.key, self.mark.version, token))
            if told[0] == 'refused':
                told = keeper.told('log_in %s %s' % (self.key, token))
        if told[0] != 'done':
            raise NotKept(self.not_done(told[0]))

    def not_done(self, told: str) -> str:
        """Why a login or a logout is not done."""
        if told == 'refused':
            return 'other runs were first each time to change %s' % self.name
        if told == 'no_next_version':
            return str(self.stop_at_end())
        return '%s did not say whether it did what it was asked: %s' % (self.name, self.why())

    def opened(self) -> 'Opened':
        return Opened(self)

    def drop(self) -> Optional[Entry]:
        """Drops what is there: what that was."""
        with self.keeper() as keeper:
            told, *words = keeper.told('log_out ' + self.key)
        if told != 'done':
            raise Stop('%s may still keep its token: %s' % (self.name, self.not_done(told)), TRY_AGAIN)
        return value_of(0, ' '.join(words), self.name).entry

    def end(self, token: str) -> None:
        value = self.value()
        if not value.entry or self.mark or answers.access_token_in(value.entry['answer']) != token:
            return
        with self.keeper() as keeper:
            told = keeper.told('answer %s %d %s' % (self.key, value.version, token_of(token_cache.ended(value.entry))))
        if told[0] not in ('done', 'refused'):  # refused: another run has changed it
            raise Stop(self.not_done(told[0]), TRY_AGAIN)

    # What can't be kept

    def rescue_path(self) -> str:
        """Beside which path a token goes that can't be kept."""
        return os.path.join(profiles.place('XDG_STATE_HOME', '.local/state'), self.key + '.token')

    def make_folder(self) -> None:
        with contextlib.suppress(OSError):
            os.makedirs(os.path.dirname(self.rescue_path()), mode=0o700, exist_ok=True)


class Opened:
    """What a shared cache keeps, as a context."""

    def __init__(self, cache: SharedCache) -> None:
        self.cache = cache
        self.entry: Optional[Entry] = None

    def __enter__(self) -> 'Opened':
        self.entry = self.cache.read()
        return self

    def __exit__(self, _kind: Optional[type], _error: Optional[BaseException], _where: Optional[TracebackType]) -> None:
        """Nothing is locked."""

    def remove(self) -> Optional[Entry]:
        return self.cache.drop()



def at(place: Union[shared_places.Place, shared_places.Folder], key: str, limit: float) -> SharedCache:
    """The cache at a place. Stops where it can't be used."""
    if isinstance(place, shared_places.Place):
        return on_redis(place, key, limit)
    try:
        store = shared_stores.FileStore(place.path, seconds=limit)
    except OSError as error:
        raise Stop('--cache %s: %s' % (place.shown(key), error.strerror), BAD_SETTING)
    return SharedCache(store, key, place.shown(key), limit)


def on_redis(place: shared_places.Place, key: str, limit: float) -> SharedCache:
    """The cache at a place on Redis. Stops where the module redis is missing."""
    name, settings = place.shown(key), place.settings()
    wire_log.secrets.add(settings['password'])
    try:
        store = shared_stores.RedisStore(limit, **settings)
    except ImportError:
        raise Stop('--cache redis:// needs the module redis, which %s does not have: install python3-redis and run '
                   'the tool by '
                   '/usr/bin/python3, or pip install redis' % sys.executable)
    return SharedCache(store, key, name, limit)
