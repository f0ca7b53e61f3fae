"""How `login` sends a user to the authorization URL, and takes the code that comes back (RFC 6749, 4.1)."""
from __future__ import annotations

import secrets
import urllib.parse
from typing import TYPE_CHECKING

from . import conversation, discovery, loopback, openid, wire_log
from .conversation import Outcome, Refused, fault_in, status_of_fault
from .endings import BAD_SETTING, FAULT, Stop, note, say
from .kept_tokens import resource_of
from .settings import NEEDED, asked, pushes

if TYPE_CHECKING:
    from .session import Params, Session

# Why a redirect gives no code, and what is to be done.
NO_URL = 'that is no URL: paste the whole address that the browser was sent to'
NO_STATE = ('the redirect URL has no state, so it is not the whole address: paste all that the browser shows, and '
            'begin anew')
OTHER_STATE = 'the redirect URL has not the state of this login: do not use it, and begin anew'
OTHER_ISSUER = 'the redirect URL does not name the issuer (--issuer) once: do not use it, and begin anew'
NO_ISSUER = OTHER_ISSUER + ('; or, if this server never sends "iss", leave --issuer out (with --openid: give '
                            '--id-token-issuer)')
OTHER_URI = 'the redirect URL is not at the redirect URI of this login, %s: do not use it, and begin anew'
NO_CODE = 'the redirect URL has no code, or several: paste the whole address that the browser was sent to'


def sent_to(session: Session, params: Params) -> str:
    """The URL to which the user is sent. Stops where there is none."""
    session.find(NEEDED['login'])
    if pushes(session.given, session.settings) or discovery.must_push(session.metadata):
        return pushed(session, params)
    outcome = Outcome(session.ran('authorize', params))
    if outcome.fault:
        raise session.stop_of(outcome)
    return outcome.user_url


def pushed(session: Session, params: Params) -> str:
    """The URL to which the user is sent once the parameters are with the server: it names them (RFC 9126)."""
    outcome = session.asks('push', params)
    if outcome.fault:
        said, status = session.fault_of(outcome)
        raise Stop(said, status if outcome.url else BAD_SETTING)
    note('the parameters are pushed; the address is good for %d seconds' % outcome.answer['expires_in'])
    return outcome.user_url


def values_in(redirect: str, name: str) -> list[str]:
    """The values that a parameter has in the query of a redirect, so that an error can say what is wrong with it."""
    query = redirect.partition('#')[0].partition('?')[2]
    return [value for it, value in urllib.parse.parse_qsl(query) if it == name]


class Back:
    """How a user comes back from a login: to its redirect URI, with its state, and from its issuer where one is set
    (RFC 9700, 2.1; RFC 9207)."""

    def __init__(self, session: Session, state: str) -> None:
        self.session, self.state = session, state
        found = session.client('login')
        self.login = {'client_id': found['id'], 'token_url': found['token_url'], 'redirect_uri': found['redirect']}

    def is_ours(self, redirect: str) -> bool:
        """Whether a redirect is of this login, or of another one, for which a listener does not end."""
        found = values_in(redirect, 'state')
        return len(found) == 1 and secrets.compare_digest(found[0].encode('utf-8', 'replace'), self.state.encode())

    def params(self, redirect: str) -> Params:
        issuer = self.session.settings['issuer']
        params = {'state': self.state, 'redirect': redirect, 'login': self.login}
        if not issuer:
            return params
        needs = 'issuer' if discovery.must_name_issuer(self.session.metadata) else 'issuer_compared'
        return {**params, needs: issuer}

    def code(self, redirect: str) -> str:
        """The code that a redirect brings, as the library reads it. Stops where it does not take the redirect."""
        try:
            run = self.session.ran('redirect', self.params(redirect))
        except Refused as bad:
            if bad.member == 'params.redirect':
                raise Stop(NO_URL, BAD_SETTING) from None
            raise
        fault = fault_in(run)
        if fault:
            raise self.stop_of(fault, redirect)
        code = str(run.last['answer'])
        wire_log.secrets.add(code)
        return code

    def stop_of(self, fault: conversation.Fault, redirect: str) -> Stop:
        """Why a redirect that the library has refused brings no code."""
        if fault['error']:
            return Stop('the server answers: ' + fault['text'], status_of_fault(fault))
        if fault['kind'] == 'other_redirect_uri':
            return Stop(OTHER_URI % self.login['redirect_uri'], FAULT)
        if fault['kind'] != 'refused_redirect':
            return Stop(fault['text'], status_of_fault(fault))
        if not self.is_ours(redirect):
            return Stop(OTHER_STATE if values_in(redirect, 'state') else NO_STATE, FAULT)
        named, params = values_in(redirect, 'iss'), self.params(redirect)
        is_needed = 'issuer' in params
        if is_needed and not named and not self.session.metadata:
            return Stop(NO_ISSUER, FAULT)
        wanted = params.get('issuer') or params.get('issuer_compared')
        if wanted and named != [wanted] and (named or is_needed):
            return Stop(OTHER_ISSUER, FAULT)
        return Stop(NO_CODE, FAULT)


def login(session: Session, params: Params) -> Outcome:
    given, state, verifier = session.given, secrets.token_urlsafe(16), secrets.token_urlsafe(32)
    wire_log.secrets.add(verifier)
    listener = None
    if given.listen is not None:
        listener = loopback.Listener(session.settings['redirect'], given.listen)
        session.settings['redirect'] = listener.redirect
    nonce = secrets.token_urlsafe(16)
    asked_for = openid.request(given, params, nonce) if given.openid else {}
    url = sent_to(session, {**params, 'state': state, 'verifier': verifier, **asked_for})
    then = '' if listener else ', and then give the whole address that the browser is sent back to'
    say('Open this address%s:' % then)
    say(url)
    back = Back(session, state)
    redirect = received(session, listener, url, back) if listener else asked(None, 'The address')
    wire_log.redirect(redirect)
    outcome = session.asks('code', {'code': back.code(redirect), 'verifier': verifier, **resource_of(params)})
    if given.openid and not outcome.fault:
        session.user = openid.user_of(session, outcome, nonce)
    return outcome


def received(session: Session, listener: loopback.Listener, url: str, back: Back) -> str:
    """The redirect by which a browser on this machine comes back."""
    if not session.given.no_browser:
        loopback.open_browser(url)
    note('waiting for the browser at %s' % listener.redirect)
    return listener.received(session.given.wait, back.is_ours)
