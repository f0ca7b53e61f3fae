"""Runs a command: what it is given, which module does it, and how it ends."""
from __future__ import annotations

import os
import sys

from . import answers, caches, endings, flags, help_texts, kept_tokens, renewal, signals, wire_log
from .endings import NOT_KEPT, Stop, note, tell
from .profiles import make_folder
from .session import Session
from .settings import check_complete, settings_of

TYPE_CHECKING = False
if TYPE_CHECKING:  # typing takes a while to load
    import argparse
    from typing import Optional

    from .caches import Cache
    from .session import Params


def cache_of(given: argparse.Namespace) -> Optional[Cache]:
    """The cache of a run; None without one."""
    if not given.cache:
        return None
    if not caches.is_shared(given.cache):
        return caches.FileCache(given.cache, given.timeout)
    from . import shared_cache, shared_places  # with what they need, only where they are used
    place = shared_places.place_in(given.cache)
    return shared_cache.at(place, place.name or given.cache_name, given.timeout)


def renewal_of(given: argparse.Namespace, cache: Optional[Cache]) -> renewal.Renewal:
    """The renewal of a run, with where a token goes that can't be kept."""
    beside = cache.rescue_path() if cache else None
    if not cache or cache.kind == 'file':
        return renewal.Renewal(beside)
    name = endings.command
    back = 'unless %s status shows it by then, give its refresh token to %s refresh --anew %s'
    return renewal.Renewal(beside, back % (name, name, given.place))


def answer(given: argparse.Namespace) -> int:
    """Runs a command: its exit status, once its answer is written."""
    if given.command == 'demo':
        from . import demo
        return demo.run()
    cache = cache_of(given)
    if given.command == 'status' and cache:
        from . import uses
        return uses.show_status(given, cache)
    kept = cache.read() if cache else None
    if given.keeps_for and cache and cache.kind == 'file':
        make_folder(given.cache)
    with renewal_of(given, cache) as renews:
        session = Session(given, settings_of(given, kept or {}), cache, renews)
        begin(session)
        if kept:
            wire_log.secrets.add(kept['refresh_token'])
            wire_log.learn_reply(kept['answer'])
        status = ran(session, params_of(session))
        return NOT_KEPT if renews.rescue() else status


def begin(session: Session) -> None:
    """Takes the certificates of the settings, and shows requests if that is wanted."""
    if session.given.command != 'logout':  # as in settings_of
        session.take_certificates()
    if session.given.verbose:
        wire_log.begin(session.given.extra)


def params_of(session: Session) -> Params:
    """The parameters that flags and settings give to each command."""
    given, found = session.given, {}
    if session.settings['scopes'] and given.command not in flags.GIVES_NO_TOKEN:
        found['scopes'] = session.settings['scopes']
    found.update({name: getattr(given, name) for name in ('extra', 'resource') if getattr(given, name)})
    return found


def ran(session: Session, params: Params) -> int:
    """Runs a command by the module that has it: its exit status."""
    given = session.given
    if given.command in ('revoke', 'logout') and given.cache:
        from . import signing_out
        return (signing_out.logout if given.command == 'logout' else signing_out.revoke_kept)(session, params)
    if given.command in ('whoami', 'git-credential'):
        from . import uses
        return (uses.whoami if given.command == 'whoami' else uses.git_credential_of)(session, params)
    if given.cache:
        return kept_tokens.cached(session, params)
    if given.command == 'verify-token':
        from . import access_tokens
        return access_tokens.verify(session)
    check_complete(given, session.settings)
    from . import commands, writing
    return writing.show(session, commands.COMMANDS[given.command](session, params))


def fill_streams() -> None:
    """Puts the null device where a standard stream is closed, so that no other file gets its number. Stops without
    standard output."""
    for number in range(3):
        try:
            os.fstat(number)
        except OSError:
            os.set_inheritable(os.open(os.devnull, os.O_RDWR), True)
    sys.stdin, sys.stderr = sys.stdin or os.fdopen(0), sys.stderr or os.fdopen(2, 'w')
    answers.need_output()


def main() -> int:
    said: Optional[str] = None
    given: Optional[argparse.Namespace] = None
    try:
        fill_streams()
        signals.watch()
        given = flags.arguments(sys.argv[1:], help_texts.__doc__ or '')
        status = answer(given)
    except Stop as stop:
        said, status = str(stop), stop.status
    signals.let_end()
    if said is not None:
        tell(said)
    if status and given and given.of_profile and given.of_profile.is_default:
        note('the profile "%s" took part, as default_profile of %s; --no-profile leaves it out'
             % (given.of_profile.name, given.of_profile.path))
    return status
