"""What a command does with --cache: it hands out the kept token, renews it, or keeps a new one."""
from __future__ import annotations

import functools
import time

from . import caches, endings, token_cache
from .endings import BAD_SETTING, NOT_KEPT, SIGN_IN, Stop, note, tell
from .flags import EXTRA_GOES
from .profiles import SIGNS_IN, signs_in
from .settings import check_complete, flag_of, issuer_of
from .writing import show, whole, write

TYPE_CHECKING = False
if TYPE_CHECKING:  # typing takes a while to load
    import argparse
    from typing import Any, Iterable, Mapping, Optional

    from .caches import Held
    from .conversation import Outcome
    from .session import Params, Session
    from .token_cache import Entry

SIGNS_IN_BY_USER = tuple(it for it in SIGNS_IN if it != 'token')  # the commands by which a user signs in


def cached(session: Session, params: Params) -> int:
    """Runs a command with --cache: its exit status. Where no user has to sign in, one run asks, and the others wait for
    its token."""
    given, cache = session.given, session.cache
    kept = None if given.anew else cache.read()
    if kept:
        done = handed_out(session, kept)
        if done is not None:
            return done
    else:
        check_may_ask(given)
        check_complete(given, session.settings, cache.name)
    if given.command == 'token' or kept and kept['refresh_token']:
        done = renewed(session, params, kept)
        if done is not None:
            return done
        check_complete(given, session.settings)
    cache.check()  # so that it shows before the user signs in where it can't be used
    from .commands import COMMANDS
    return keep(session, COMMANDS[given.command](session, params))


def handed_out(session: Session, kept: Entry) -> Optional[int]:
    """Writes a kept token that is good: the exit status; None where it has to be renewed. Stops where it is that of
    something else."""
    check_fits(session, kept)
    return write_good(session, kept) if is_good(session, kept) else None


def check_may_ask(given: argparse.Namespace) -> None:
    """Stops where the client would ask for a token of its own, and the profile says that a user has to sign in for
    one."""
    sign_in = given.keeps_for.members.get('sign_in') if given.keeps_for else None
    if given.command == 'token' and sign_in not in (None, 'token'):
        raise Stop('the profile "%s" has no token yet: sign in by %s' % (given.keeps_for.name, signs_in(given)),
                   SIGN_IN)


def used(session: Session, params: Params) -> int:
    """Gets the kept token, renewed where it has to be, for a command that uses it itself: the exit status."""
    kept, name = session.cache.read(), session.cache.name
    if not kept:
        raise Stop('there is no token in %s: sign in first, by %s' % (name, signs_in(session.given)), SIGN_IN)
    done = handed_out(session, kept)
    if done is None:
        done = renewed(session, params, kept)
    if done is None:
        raise Stop('%s is empty by now: another run has signed out' % name, SIGN_IN)
    return done


def resource_of(params: Params) -> Params:
    """The parameter that each request of a command has that sends several (RFC 8707, 2.2)."""
    return {name: value for name, value in params.items() if name == 'resource'}


def params_of(kept: Entry) -> Params:
    """The parameters with which a kept token was asked for."""
    return {name: kept[name] for name in ('scopes', 'extra', 'resource') if kept[name]}


class Asking:
    """How a run asks for a token in the place of a kept one (caches.Asking)."""

    def __init__(self, session: Session, params: Params, kept: Optional[Entry]) -> None:
        self.session, self.params, self.kept = session, params, kept
        self.anew: bool = session.given.anew
        self.margin: Optional[int] = None if session.given.command == 'refresh' else session.given.margin
        self.outcome: Optional[Outcome] = None  # what came of it
        self.is_over = False  # whether what is kept can be renewed no more
        self.is_used = False  # whether a refresh token may be used

    def prepare(self) -> None:
        """Whatever the user has to be asked for is asked before others have to wait."""
        if not self.kept or self.kept['refresh_token'] or self.kept['command'] == 'token':
            self.session.prepare('refresh' if self.kept else None)

    def fits(self, kept: Entry) -> None:
        check_fits(self.session, kept)

    def is_good(self, kept: Entry) -> bool:
        return is_good(self.session, kept)

    def of_client(self, params: Params, kept: Optional[Entry] = None) -> Optional[Entry]:
        """The token that the client gets for itself; or anew, by the request of a kept one."""
        # Later runs have to ask as the first one did, so all that is kept of its request stays; but not the refresh
        # token, which is no longer good.
        before: Optional[Entry] = {**kept, 'refresh_token': None} if kept else None
        return self.entry(self.session.asks('client_credentials', params), before)

    def token(self, kept: Optional[Entry]) -> Optional[Entry]:
        command = self.session.given.command
        if not kept:
            return self.of_client(self.params) if command == 'token' else None
        params = params_of(kept)
        self.is_over = True
        if kept['refresh_token']:
            outcome = self.exchanged(kept, params)
            new = self.entry(outcome, kept)
            if new:
                return new
            self.is_over = self.session.fault_of(outcome)[1] == endings.OF_CODE['invalid_grant']
        if not self.is_over or kept['command'] != 'token' or command == 'refresh':
            return None
        self.is_over = False
        return self.of_client(params, kept)

    def exchanged(self, kept: Entry, params: Params) -> Outcome:
        """What comes of the refresh token of a kept token."""
        from . import faults, wire_log
        session, outcome = self.session, None
        extra = {} if kept['command'] in EXTRA_GOES else {name: params[name] for name in params if name == 'extra'}
        wire_log.secrets.add(kept['refresh_token'])
        try:
            outcome = session.asks('refresh', {'refresh_token': kept['refresh_token'], **extra, **resource_of(params)})
        finally:
            self.is_used = session.renewal.is_sent() and not (outcome and faults.is_refusal(outcome))
        return outcome

    def entry(self, outcome: Outcome, before: Optional[Entry] = None) -> Optional[Entry]:
        self.outcome = outcome
        return None if outcome.fault else entry_of(self.session, outcome, before)

    def fault(self) -> str:
        assert self.outcome
        return self.session.fault_of(self.outcome)[0]

    def marks(self, has_marked: bool) -> None:
        self.session.renewal.marks(has_marked)

    def may_ask_again(self) -> bool:
        return not self.is_used

    def in_place_of(self, kept: Entry, is_over: bool) -> Optional[Entry]:
        is_renewed = self.session.given.command == 'refresh' or kept['refresh_token'] and not is_over
        if kept['command'] != 'token' or is_renewed:
            return None
        return self.of_client(params_of(kept), kept)


def renewed(session: Session, params: Params, kept: Optional[Entry]) -> Optional[int]:
    """Writes the token of the cache, renewed where it has to be: the exit status. None where the command itself has to
    ask for one. kept is what was there before."""
    given, asking = session.given, Asking(session, params, kept)
    try:
        held = session.cache.renewed(asking)
    except token_cache.NotAsked as stop:
        if not kept or given.command == 'refresh' or time.time() >= kept['expires_at']:
            raise
        return write_old(session, kept, str(stop))
    if held.is_new and held.entry:
        return write_new(session, held.entry, held.not_kept)
    session.renewal.failed()
    if not held.entry:
        if held.stop:
            raise held.stop
        return show(session, asking.outcome) if asking.outcome else None
    return write_good(session, held.entry) if held.is_good else not_renewed(session, held, held.entry, asking)


def not_renewed(session: Session, held: Held, kept: Entry, asking: Asking) -> Optional[int]:
    """Writes what there is where a kept token is not renewed: the exit status. None where a user can sign in anew
    now."""
    command, outcome, is_over = session.given.command, asking.outcome, asking.is_over or held.is_over
    why = 'it has no refresh token'
    if held.stop:
        why = str(held.stop)
    elif outcome:
        why = session.fault_of(outcome)[0]
    if is_over and command in SIGNS_IN_BY_USER:
        return None
    now, name = int(time.time()), session.cache.name
    then = 'sign in anew by %s %s %s' % (endings.command, kept['command'], session.given.place)
    if now < kept['expires_at'] and command != 'refresh':
        return write_old(session, kept, '%s; %s' % (why, then) if held.is_over else why,
                         is_warning=not held.is_harmless)
    how = token_cache.how_long(kept, now) if now < kept['expires_at'] else token_cache.how_ended(kept)
    if is_over and (held.stop or command != 'refresh'):
        raise Stop('the token of %s %s and can not be renewed (%s): %s' % (name, how, why, then), SIGN_IN)
    if held.stop:
        more = '; --anew signs in anew' if command in SIGNS_IN_BY_USER else ''
        raise Stop('the token of %s %s and is not renewed: %s%s' % (name, how, why, more), held.stop.status)
    return show(session, outcome) if outcome else None


# What is kept, and whether it is what was asked for


def is_good(session: Session, kept: Entry) -> bool:
    """Whether a kept token is handed out as it is."""
    given, now = session.given, int(time.time())
    return not session.cache.mark and given.command != 'refresh' and token_cache.is_good(kept, now, given.margin)


def check_fits(session: Session, kept: Entry) -> None:
    """Stops where the cache keeps the token of another client, user or request than the one that is asked for."""
    given, settings = session.given, session.settings
    if settings['issuer'] and not kept['issuer'] and not settings['token_url']:
        session.find(['token_url'])  # so that it can be compared
    if given.openid and (kept['user'] or {}).get('iss') != issuer_of(settings)[0]:
        raise Stop('%s does not keep the token of a login with --openid at this issuer: %s, or sign in by --anew'
                   % (session.cache.name, session.cache.other), BAD_SETTING)
    raise_differing(session, kept, differing(given, settings, kept), ', or replace it by --anew')


def differing(given: argparse.Namespace, settings: Mapping[str, Any], kept: Entry) -> list[str]:
    """The settings and flags by which another token is asked for than the kept one."""
    found = [name for name in ('client_id', 'token_url', 'username') if settings[name] and settings[name] != kept[name]]
    if settings['issuer'] and kept['issuer'] and settings['issuer'] != kept['issuer']:
        found.insert(0, 'issuer')
    if settings['scopes'] and scopes_asked(settings, kept) != set(kept['scopes']):
        found.append('scopes')
    found += [name for name in ('extra', 'resource') if getattr(given, name) and getattr(given, name) != kept[name]]
    if given.command in SIGNS_IN_BY_USER and given.command != kept['command']:
        found.append('command')
    return found


def scopes_asked(settings: Mapping[str, Any], kept: Entry) -> set[str]:
    """The scopes that are asked for, with the one that --openid has added at the login."""
    return {*settings['scopes'], *(['openid'] if kept['user'] else [])}


def raise_differing(session: Session, kept: Entry, names: Iterable[str], more: str = '') -> None:
    """Stops where the cache keeps the token of something else by one of these names."""
    for name in names:
        raise Stop('%s keeps a token %s: %s%s' % (session.cache.name, other(kept, name), session.cache.other, more),
                   BAD_SETTING)


def other(kept: Entry, name: str) -> str:
    """What is said of a kept token that is that of something else by this name."""
    if name == 'scopes':
        return 'for other scopes (%s)' % (' '.join(kept['scopes']) or 'none')
    if name == 'extra':
        return 'with other --extra (%s)' % (' '.join(it[0] for it in kept['extra']) or 'none')
    if name == 'resource':
        return 'with another --resource (%s)' % (' '.join(kept['resource']) or 'none')
    if name == 'command':
        return 'of another command (%s)' % kept['command']
    value = kept[name]
    return 'of another %s (%s)' % (flag_of(name), 'none' if value is None else '"%s"' % value)


def entry_of(session: Session, outcome: Outcome, before: Optional[Entry] = None) -> Entry:
    """What a cache keeps of an answer. before is what is renewed, if anything is."""
    given, settings = session.given, session.settings
    how = {name: settings[name]
           for name in ('client_id', 'server', 'issuer', 'token_url', 'auth', 'username', 'scopes')}
    how.update(command=given.command, extra=given.extra or [], resource=given.resource or [], user=session.user)
    if before:
        session.user = before['user']
        how = {name: before[name] for name in how} | {'issuer': before['issuer'] or settings['issuer']}
    return token_cache.entry_of(whole(outcome), outcome.asked_at, given.life, before, how)


# What is written


def write_good(session: Session, kept: Entry) -> int:
    now = int(time.time())
    if session.given.command in SIGNS_IN_BY_USER:
        note('%s keeps a token that %s; --anew signs in anew' % (session.cache.name, token_cache.how_long(kept, now)))
    return write_kept(session, kept, now)


def write_old(session: Session, kept: Entry, why: str, is_warning: bool = True) -> int:
    """Writes a token that has not ended, and says why it is not renewed."""
    now = int(time.time())
    said = 'the token of %s %s, but not renewed: %s' % (session.cache.name, token_cache.how_long(kept, now), why)
    if is_warning:
        tell(said)
    else:
        note(said)
    return write_kept(session, kept, now)


def write_kept(session: Session, kept: Entry, now: int) -> int:
    session.user = kept['user']
    write(session, token_cache.answer_of(kept, now), token_cache.end_of(kept))
    return 0


def keep(session: Session, outcome: Outcome) -> int:
    """Puts the answer of a login into the cache and writes it, or writes a fault: the exit status."""
    if outcome.fault:
        return show(session, outcome)
    entry, fits, not_kept = entry_of(session, outcome), functools.partial(check_fits, session), None
    try:
        session.cache.put(entry, None if session.given.anew else fits)
    except caches.NotKept as stop:
        not_kept = str(stop)
    except Stop as stop:
        tell(str(stop))
        return show(session, outcome) or NOT_KEPT
    return write_new(session, entry, not_kept)


def write_new(session: Session, entry: Entry, not_kept: Optional[str]) -> int:
    """Writes a new token, which is kept unless a text says why not: the exit status."""
    if not_kept:
        tell('%s, so this answer is not kept there' % not_kept)
        session.renewal.rescue(token_cache.text_of(entry) if entry.get('refresh_token') else None)
    else:
        session.renewal.kept()
    write(session, entry['answer'], token_cache.end_of(entry))
    return NOT_KEPT if not_kept else 0
