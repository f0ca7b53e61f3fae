"""Logins: a user is sent to a URL, and comes back with a code that is exchanged for a token."""
from __future__ import annotations

import dataclasses
import secrets
from typing import Any, Generic, Mapping, Optional, TypeVar

from . import _calls, _json
from ._calls import Call, Pairs, Settings, Texts
from ._data import Token, without_none
from ._errors import BadToken, MissingEndpoint, OtherError, UnboundLogin

S = TypeVar('S', bound=Settings)
NEEDED = ('state', 'verifier')
BOUND = ('client_id', 'token_url', 'redirect_uri')  # what the library compares before a code is sent
ISSUERS = ('issuer', 'issuer_compared')


class LoginState(Generic[S]):
    """What is kept of a login until the user comes back. url is where the user is sent; one that was read from a text
    has none. It belongs to one session of one user, and to one redirect. It can be finished by a client with the same
    id and token endpoint alone, and only by a redirect to its redirect URI."""

    def __init__(self, client: Optional[S], url: str, kept: Mapping[str, Any]) -> None:
        self.client, self.url, self._kept = client, url, dict(kept)

    def __repr__(self) -> str:
        return '%s()' % type(self).__name__

    @property
    def state(self) -> str:
        """The state, which the redirect has to repeat: a key under which a login may be kept."""
        return str(self._kept['state'])

    def to_json(self) -> str:
        """The login as a text, with its secrets, without the client."""
        return _json.text_of(self._kept)

    def __getstate__(self) -> str:
        return self.to_json()

    def __setstate__(self, text: str) -> None:
        self.client, self.url, self._kept = None, '', read(text)

    @property
    def _settings(self) -> S:
        if self.client is None:
            raise ValueError('a login that was kept needs its client: set client')
        return self.client


def read(text: str) -> dict[str, Any]:
    """What the text of a login says. ValueError if it is none, which is an UnboundLogin if it says not where the login
    began."""
    try:
        found = _json.value_of(text)
        is_login = all(isinstance(found[it], str) for it in NEEDED)
    except (LookupError, TypeError, RecursionError):
        is_login = False
    if not is_login:
        raise ValueError('this is no text of a login')
    if not all(isinstance(found.get(it), str) for it in BOUND):
        raise UnboundLogin('this login does not say at which client, token endpoint and redirect URI it began')
    return dict(found)


def start(self: Settings, scopes: Texts = (), *, redirect: Optional[str] = None, openid: Optional[bool] = None,
          max_age: Optional[int] = None, push: bool = False, extra: Pairs = (), resource: Texts = (),
          client_assertion: Optional[str] = None) -> 'Call[tuple[str, dict[str, Any]]]':
    """The URL of a new login, and what is kept of it. MissingEndpoint if the client has no token endpoint."""
    bound = bound_to(self, redirect)
    wanted, extras = _calls.texts(scopes), _calls.pairs(extra)
    if openid is None:
        openid = 'openid' in wanted
    if openid and 'openid' not in wanted:
        wanted.insert(0, 'openid')
    if max_age is not None:
        extras.append(['max_age', str(max_age)])
    kept = {'state': secrets.token_urlsafe(16), 'verifier': secrets.token_urlsafe(32),
            'nonce': secrets.token_urlsafe(16) if openid else None, 'max_age': max_age,
            'resource': _calls.texts(resource) or None, **bound}
    params = {'state': kept['state'], 'verifier': kept['verifier'], 'redirect': redirect, 'scopes': wanted or None,
              'nonce': kept['nonce'], 'extra': extras or None, 'resource': kept['resource']}
    if push:
        run = yield from _calls.exchange(self, 'push', {**params, 'client_assertion': client_assertion})
    else:
        run = self.run('authorize', params)
    run.answer()
    return run.events[-2]['url'], without_none(kept)


def finish(self: LoginState[Any], redirect_url: str, *, issuer: Optional[str] = None,
           keys: Optional[Mapping[str, Any]] = None, algorithm: Optional[str] = None, leeway: int = _calls.LEEWAY,
           other_audiences: Texts = (), authorized_parties: Texts = (), signature: bool = True, extra: Pairs = (),
           client_assertion: Optional[str] = None) -> Call[Token]:
    """The token of this login, whose user came back to a URL: the whole one, as the browser called it. No code is sent
    if that is not at the login's redirect URI, or has another state or issuer, or if the client or its token endpoint
    is not the login's. The arguments from issuer to signature are for a login with OpenID Connect: see check_id_token
    of a Client."""
    client, kept = self._settings, self._kept
    is_openid = 'nonce' in kept
    if is_openid:  # before the code is used up
        _calls.needs_of_id_token(client, issuer, keys, signature)
    params = {'state': kept['state'], 'redirect': redirect_url, 'login': {it: kept[it] for it in BOUND},
              **{it: kept[it] for it in ISSUERS if it in kept}}
    code = client.run('redirect', params).answer()
    if is_openid and signature and keys is None and _calls.kept_keys(client) is None:  # before the code is used up
        yield from _calls.fetch_keys(client)
    got = yield from _calls.exchange_code(client, code, verifier=kept['verifier'],
                                          redirect=kept['redirect_uri'], extra=extra,
                                          resource=kept.get('resource', ()), client_assertion=client_assertion)
    if not is_openid:
        return got
    if got.token_type != 'bearer':
        raise OtherError('the token is not of the type Bearer')
    if got.id_token is None:
        raise BadToken('the reply has no ID token')
    claims = yield from _calls.check_id_token(
        client, got.id_token, got.access_token, issuer=issuer, keys=keys, nonce=kept['nonce'], algorithm=algorithm,
        leeway=leeway, max_age=kept.get('max_age'), other_audiences=other_audiences,
        authorized_parties=authorized_parties, signature=signature)
    return dataclasses.replace(got, claims=claims)


def bound_to(self: Settings, redirect: Optional[str]) -> dict[str, str]:
    """What a new login is bound to: the client, its token endpoint, the redirect URI and the issuer."""
    token_url, redirect_uri = self.script.get('token_url'), redirect or self.script.get('redirect')
    if not token_url:
        raise MissingEndpoint('a login needs the token endpoint: give token_url, or discover the client')
    if not redirect_uri:
        raise ValueError('a login needs a redirect URI: give redirect')
    return {'client_id': self.script['id'], 'token_url': token_url, 'redirect_uri': redirect_uri,
            **redirect_issuer(self)}


def redirect_issuer(self: Settings) -> dict[str, str]:
    """Which issuer a redirect has to name, or must not differ from (RFC 9207, 2.4)."""
    if not self.metadata:
        return {}
    needed = self.metadata.authorization_response_iss_parameter_supported
    return {'issuer' if needed else 'issuer_compared': self.metadata.issuer}
