"""How a kept token is revoked, and what a cache keeps is dropped: `revoke --cache` and `logout`."""
from __future__ import annotations

from typing import TYPE_CHECKING, Optional

from . import answers
from .commands import revoked
from .endings import BAD_SETTING, NOT_REVOKED, Stop, note, tell
from .kept_tokens import raise_differing
from .settings import check_complete, make_usable
from .writing import show

if TYPE_CHECKING:
    from .caches import Opened
    from .session import Params, Session
    from .token_cache import Entry


def revoke_kept(session: Session, params: Params) -> int:
    """Revokes the token of --cache, and removes the file once the server has said yes: the exit status."""
    name = session.cache.name
    kept_by(session, session.cache.read())
    check_complete(session.given, session.settings)
    session.prepare()
    with session.cache.opened() as cache:
        kept = kept_by(session, cache.entry)
        kind = kind_of(kept)
        outcome = revoked(session, params, token_of(kept), kind)
        if outcome.fault:
            status = show(session, outcome)
            tell('%s stays, since its token is not revoked' % name)
            return status
        remove(session, params, cache)
        note('the %s token of %s is revoked, and %s' % (kind, name, session.cache.it_is_removed))
    return show(session, outcome)


def remove(session: Session, params: Params, cache: Opened) -> None:
    """Drops what a cache keeps. If another run has put a token there meanwhile, that one is revoked too."""
    dropped = cache.remove()
    if dropped and (not cache.entry or token_of(dropped) != token_of(cache.entry)):
        outcome = revoked(session, params, token_of(dropped), kind_of(dropped))
        if outcome.fault:
            raise Stop('another run had put a new token into %s, which is dropped and not revoked: %s'
                       % (session.cache.name, session.fault_of(outcome)[0]), NOT_REVOKED)


def kind_of(kept: Entry) -> str:
    """Which token of a cache is revoked."""
    return 'refresh' if kept['refresh_token'] else 'access'


def token_of(kept: Entry) -> str:
    """That token."""
    return str(kept['refresh_token'] or answers.access_token_in(kept['answer']))


def kept_by(session: Session, kept: Optional[Entry]) -> Entry:
    """What the cache keeps. Stops where it has no token, or that of another client."""
    if not kept:
        raise Stop('%s keeps no token, so there is nothing to revoke' % session.cache.name, BAD_SETTING)
    settings = session.settings
    raise_differing(session, kept,
                    [it for it in ('client_id', 'issuer') if settings[it] and kept[it] not in (None, settings[it])])
    return kept


def logout(session: Session, params: Params) -> int:
    """Revokes the kept token and removes the file, or does the one of both that can be done: the exit status. The file
    is removed whatever keeps the token from being revoked, be it a setting, the network or the server."""
    name = session.cache.name
    kept_by(session, session.cache.read())
    not_ready = why_not_ready(session)
    with session.cache.opened() as cache:
        kept = kept_by(session, cache.entry)
        not_revoked = not_ready or why_not_revoked(session, params, kept)
        not_removed = why_not_removed(session, params, cache)
    what = 'the %s token of %s is ' % (kind_of(kept), name)
    if not_revoked:
        tell('%snot revoked: %s' % (what, not_revoked))
        tell(str(not_removed) if not_removed else session.cache.removed % name)
    elif not_removed:
        tell(what + 'revoked')
        tell(str(not_removed))
    else:
        note(what + 'revoked')
        note(session.cache.removed % name)
    if not_removed:
        return not_removed.status
    return NOT_REVOKED if not_revoked else 0


def why_not_ready(session: Session) -> Optional[Stop]:
    """Why no token can be revoked; None where the library, the endpoint, the secret and the certificates are there."""
    try:
        make_usable(session.given, session.settings)
        session.take_certificates()
        check_complete(session.given, session.settings)
        session.prepare()
        return None
    except Stop as stop:
        return stop


def why_not_revoked(session: Session, params: Params, kept: Entry) -> Optional[Stop]:
    """Why a kept token is not revoked; None where it is."""
    outcome = revoked(session, params, token_of(kept), kind_of(kept))
    return session.stop_of(outcome) if outcome.fault else None


def why_not_removed(session: Session, params: Params, cache: Opened) -> Optional[Stop]:
    """Why what a cache keeps is not dropped; None where it is."""
    try:
        remove(session, params, cache)
        return None
    except Stop as stop:
        return stop
