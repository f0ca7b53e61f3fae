"""What comes of each command that asks a server: by the library, with what the user gives."""
from __future__ import annotations

from typing import TYPE_CHECKING, Any, Callable, Mapping

from . import conversation, countdown, endings, faults, grants, logins
from .conversation import Outcome
from .endings import FAULT, Stop, say
from .kept_tokens import resource_of
from .settings import asked

if TYPE_CHECKING:
    from .session import Params, Session


def token(session: Session, params: Params) -> Outcome:
    return session.asks('client_credentials', params)


def password(session: Session, params: Params) -> Outcome:
    session.prepare()
    secret = asked('OAUTH2_PASSWORD', "The user's password")
    return session.asks('password', {**params, 'username': session.settings['username'], 'password': secret})


def refresh(session: Session, params: Params) -> Outcome:
    session.prepare()
    return session.asks('refresh', {**params, 'refresh_token': asked('OAUTH2_REFRESH_TOKEN', 'The refresh token')})


def exchange(session: Session, params: Params) -> Outcome:
    session.prepare()
    outcome = session.asks('exchange_token', {**params, **grants.of_exchange(session.given)})
    if not outcome.fault:
        grants.check_issued(session.given, outcome.answer['issued_token_type'])
    return outcome


def assertion(session: Session, params: Params) -> Outcome:
    session.prepare()
    return session.asks('assertion', {**params, **grants.of_assertion(session.given)})


def introspect(session: Session, params: Params) -> Outcome:
    session.prepare()
    hint = {'hint': session.given.hint} if session.given.hint else {}
    return session.asks('introspect', {**params, 'token': asked('OAUTH2_TOKEN', 'The token'), **hint})


def revoke(session: Session, params: Params) -> Outcome:
    session.prepare()
    return revoked(session, params, asked('OAUTH2_TOKEN', 'The token'), session.given.kind or 'access')


def revoked(session: Session, params: Params, token: str, kind: str) -> Outcome:
    return session.asks('revoke', {**params, 'token': token, 'kind': kind})


def device(session: Session, params: Params) -> Outcome:
    outcome, given = session.asks('device_authorization', params), session.given
    if outcome.fault:
        return outcome
    found = outcome.answer
    say('On any device, open this address and enter the code %s' % found['user_code'])
    say(found['verification_uri'])
    if found.get('verification_uri_complete'):
        say('or this one, which has the code in it:')
        say(found['verification_uri_complete'])
    limits = {'max_polls': given.max_polls, 'timeout': given.give_up, 'cap': given.cap}
    limits = {name: value for name, value in limits.items() if value is not None}
    seconds = found['expires_in'] if given.give_up is None else min(given.give_up, found['expires_in'])
    sleep = countdown.sleep_of(found['user_code'], seconds)
    outcome = session.asks('device_poll', {'device': found, **limits, **resource_of(params)}, sleep)
    check_given_up(given, outcome)
    return outcome


def check_given_up(given: Any, outcome: Outcome) -> None:
    """Stops where a poll ended by a limit, and not by what the server says."""
    if outcome.fault and outcome.is_undecided():
        raise Stop('gave up after %d request%s (--max-polls)' % (given.max_polls, 's' if given.max_polls > 1 else ''),
                   FAULT)
    expired = 'expired_token'
    if outcome.fault and conversation.code_of(outcome.fault) == expired and faults.error_in(outcome) != expired:
        limit = 'gave up: no answer within %s seconds (--give-up)' % given.give_up
        raise Stop('the device code has expired: begin anew' if given.give_up is None else limit,
                   endings.OF_CODE[expired])


# What runs each command that makes one request of the library, or a login.
COMMANDS: Mapping[str, Callable[[Session, Params], Outcome]] = {
    'login': logins.login, 'token': token, 'password': password, 'refresh': refresh, 'exchange': exchange,
    'assertion': assertion,
    'device': device, 'introspect': introspect, 'revoke': revoke}
