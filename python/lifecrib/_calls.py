"""The calls, without any transport: each is a generator that yields requests and is sent their replies."""
from __future__ import annotations

import base64
import contextlib
import ipaddress
import time
import urllib.parse
from typing import Any, Generator, Iterable, Mapping, Optional, TypeVar, Union

from . import _library
from ._data import (Claims, Introspection, Metadata, Reply, Request, Token, claims_of, introspection_of, metadata_of,
                    token_of, without_none)
from ._errors import BadKeys, BadScript, BadSignature, InsecureEndpoint, LifecribError, OutOfMemory, RequestFailed

T = TypeVar('T')
Call = Generator[Request, Reply, T]
Texts = Union[str, Iterable[str]]
Pairs = Union[Mapping[str, str], Iterable['tuple[str, str]']]
LATEST = 253402207200  # that a script may have as a reading
ACCESS_TOKEN = 'urn:ietf:params:oauth:token-type:access_token'
PLACES = ('oauth-authorization-server', 'openid-configuration')
ENDPOINTS = {'auth_url': 'authorization_endpoint', 'token_url': 'token_endpoint',
             'device_url': 'device_authorization_endpoint', 'introspection_url': 'introspection_endpoint',
             'revocation_url': 'revocation_endpoint'}
PUSH = 'pushed_authorization_request_endpoint'
KEEP_KEYS = 3600  # seconds
LEEWAY = 60  # seconds
NO_ISSUER = 'an ID token needs an issuer: give issuer, or discover the client'
NO_KEYS = 'the signature of an ID token needs keys: give keys, discover the client, or say signature=False'


class Settings:
    """What a client is: the settings of a script, and what was discovered."""

    def __init__(self, script: Mapping[str, Any], metadata: Optional[Metadata], plain_http: bool) -> None:
        self.script, self.metadata, self.plain_http = without_none(script), metadata, plain_http
        self.keys: Optional[tuple[float, Any]] = None  # when they came, and the key set
        # a run that makes no request, so that a bad setting is told here
        self.run('redirect', {'state': '', 'redirect': 'https://localhost/'})

    def __repr__(self) -> str:
        return '%s(%r)' % (type(self).__name__, self.script['id'])

    def run(self, command: str, params: Mapping[str, Any], replies: Iterable[Mapping[str, Any]] = (),
            readings: Iterable[int] = ()) -> _library.Run:
        """Runs a script of this client. Parameters that are None are left out."""
        return _library.run_script({'client': self.script, 'command': command, 'params': without_none(params),
                             'replies': list(replies), 'readings': list(readings)})


def now() -> int:
    """This second since 1970."""
    return min(int(time.time()), LATEST)


def texts(given: Texts) -> list[str]:
    """A list of texts; one text is split at spaces, as a scope is written."""
    return given.split() if isinstance(given, str) else list(given)


def pairs(given: Pairs) -> list[list[str]]:
    return [list(it) for it in (given.items() if isinstance(given, Mapping) else given)]


def more(extra: Pairs, resource: Texts, client_assertion: Optional[str], scopes: Texts = ()) -> dict[str, Any]:
    """The parameters of most commands; those that are empty are left out."""
    found = {'scopes': texts(scopes), 'extra': pairs(extra), 'resource': texts(resource)}
    return {**{name: value for name, value in found.items() if value}, 'client_assertion': client_assertion}


# Requests and replies


def request_of(exchange: Mapping[str, Any]) -> Request:
    """The request that an exchange shows."""
    it = exchange['request']
    return Request(it['method'], it['url'], tuple((name, value) for name, value in it['headers']), it['body'].encode())


def may_send(url: str, plain_http: bool) -> bool:
    """Whether what is sent to a URL can not be read on the way: it is https, or stays on this machine."""
    try:
        at = urllib.parse.urlsplit(url)
        if at.scheme != 'http' or plain_http or at.hostname == 'localhost':
            return at.scheme in ('https', 'http') and bool(at.hostname)
        return ipaddress.ip_address(at.hostname or '').is_loopback
    except ValueError:  # no URL, or the name of another machine
        return False


def in_script(reply: Reply) -> dict[str, Any]:
    """A reply as a script holds it."""
    found: dict[str, Any] = {'status': reply.status}
    try:
        found['body'] = reply.body.decode()
    except UnicodeDecodeError:
        found['body_base64'] = base64.b64encode(reply.body).decode()
    kind = reply.content_type
    if kind is not None:
        # what no script holds is nothing that a reader of it would take either
        found['content_type'] = ''.join(it if it == '\t' or it.isprintable() else '\ufffd' for it in kind)
    return found


class NoReply(Exception):
    """The transport has no reply to a request for url; its exception is the __cause__."""

    def __init__(self, url: str) -> None:
        super().__init__()
        self.url = url

    def named(self, error: LifecribError) -> LifecribError:
        """The error of the call, which then says where the request was to go."""
        return error.to(self.url) if isinstance(error, RequestFailed) else error


def reply_to(self: Settings, request: Request) -> Call[Reply]:
    """Sends a request. InsecureEndpoint if others could read it on its way; NoReply if the transport fails. Want of
    memory is passed on as it is."""
    if not may_send(request.url, self.plain_http):
        raise InsecureEndpoint('not sent: the endpoint is no https URL, so others could read what is sent')
    try:
        return (yield request)
    except MemoryError:
        raise
    except Exception as error:
        raise NoReply(request.url) from error


def exchange(self: Settings, command: str, params: Mapping[str, Any]) -> Call[_library.Run]:
    """The run of a command that makes one request: without a reply, which shows the request, and then with it."""
    first = self.run(command, params)
    shown = first.exchanges
    if not shown:
        raise first.error()
    try:
        reply = yield from reply_to(self, request_of(shown[0]))
    except NoReply as failed:
        raise failed.named(first.error()) from failed.__cause__
    return self.run(command, params, [in_script(reply)])


def token(self: Settings, command: str, params: Mapping[str, Any], kept: Optional[str] = None) -> Call[Token]:
    """The token that a command gets."""
    asked_at = now()
    run = yield from exchange(self, command, params)
    return token_of(run.answer(), run.scopes(), run.members(), asked_at, kept)


# Tokens


def exchange_code(self: Settings, code: str, *, verifier: Optional[str] = None, redirect: Optional[str] = None,
                  extra: Pairs = (), resource: Texts = (), client_assertion: Optional[str] = None) -> Call[Token]:
    """A token for a code (RFC 6749, 4.1.3). A Login does this with the code's own verifier."""
    return (yield from token(self, 'code', {'code': code, 'verifier': verifier, 'redirect': redirect,
                                            **more(extra, resource, client_assertion)}))


def client_credentials(self: Settings, scopes: Texts = (), *, extra: Pairs = (), resource: Texts = (),
                       client_assertion: Optional[str] = None) -> Call[Token]:
    """A token for the client itself (RFC 6749, 4.4.2)."""
    return (yield from token(self, 'client_credentials', more(extra, resource, client_assertion, scopes)))


def password(self: Settings, username: str, password: str, scopes: Texts = (), *, extra: Pairs = (),
             resource: Texts = (), client_assertion: Optional[str] = None) -> Call[Token]:
    """A token for a user's name and password (RFC 6749, 4.3.2)."""
    return (yield from token(self, 'password', {'username': username, 'password': password,
                                                **more(extra, resource, client_assertion, scopes)}))


def refresh(self: Settings, refresh_token: Union[str, Token], scopes: Texts = (), *, extra: Pairs = (),
            resource: Texts = (), client_assertion: Optional[str] = None) -> Call[Token]:
    """A token for a refresh token (RFC 6749, 6), which the new token has too if the reply has no other one."""
    text = refresh_token.refresh_token if isinstance(refresh_token, Token) else refresh_token
    if text is None:
        raise ValueError('the token has no refresh token')
    return (yield from token(self, 'refresh', {'refresh_token': text,
                                               **more(extra, resource, client_assertion, scopes)}, text))


def fetch_token(self: Settings, code: Optional[str] = None, *, verifier: Optional[str] = None,
                redirect: Optional[str] = None, username: Optional[str] = None, password: Optional[str] = None,
                scopes: Texts = (), extra: Pairs = (), resource: Texts = (),
                client_assertion: Optional[str] = None) -> Call[Token]:
    """A token for a code, for a user's name and password, or else for the client itself."""
    params: dict[str, Any] = more(extra, resource, client_assertion, scopes)
    if code is not None:
        params.pop('scopes', None)  # the code has its own
        return (yield from token(self, 'code', {'code': code, 'verifier': verifier, 'redirect': redirect, **params}))
    if username is not None:
        return (yield from token(self, 'password', {'username': username, 'password': password, **params}))
    return (yield from token(self, 'client_credentials', params))


def extension(self: Settings, grant_type: str, scopes: Texts = (), *, extra: Pairs = (), resource: Texts = (),
              client_assertion: Optional[str] = None) -> Call[Token]:
    """A token by a grant type that is a URI (RFC 6749, 4.5)."""
    return (yield from token(self, 'extension', {'grant_type': grant_type,
                                                 **more(extra, resource, client_assertion, scopes)}))


def assertion(self: Settings, assertion: str, kind: str = 'jwt', scopes: Texts = (), *, extra: Pairs = (),
              resource: Texts = (), client_assertion: Optional[str] = None) -> Call[Token]:
    """A token by an assertion of another party (RFC 7521, 4.1): kind is 'jwt' or 'saml2'."""
    return (yield from token(self, 'assertion', {'kind': kind, 'assertion': assertion,
                                                 **more(extra, resource, client_assertion, scopes)}))


def exchange_token(self: Settings, subject_token: str, subject_token_type: str = ACCESS_TOKEN, *,
                   actor_token: Optional[str] = None, actor_token_type: Optional[str] = None,
                   requested_token_type: Optional[str] = None, audience: Texts = (), scopes: Texts = (),
                   extra: Pairs = (), resource: Texts = (), client_assertion: Optional[str] = None) -> Call[Token]:
    """A token for another one (RFC 8693, 2.1)."""
    return (yield from token(self, 'exchange_token', {
        'subject_token': subject_token, 'subject_token_type': subject_token_type, 'actor_token': actor_token,
        'actor_token_type': actor_token_type, 'requested_token_type': requested_token_type,
        'audience': [audience] if isinstance(audience, str) else list(audience),
        **more(extra, resource, client_assertion, scopes)}))


def introspect(self: Settings, token: str, *, hint: Optional[str] = None, extra: Pairs = (),
               client_assertion: Optional[str] = None) -> Call[Introspection]:
    """What a token is worth (RFC 7662, 2.1)."""
    run = yield from exchange(self, 'introspect', {'token': token, 'hint': hint, **more(extra, (), client_assertion)})
    return introspection_of(run.answer(), run.scopes(), run.members())


def revoke(self: Settings, token: str, *, kind: str = 'access', extra: Pairs = (),
           client_assertion: Optional[str] = None) -> Call[None]:
    """Revokes a token (RFC 7009, 2.1): kind is 'access' or 'refresh'."""
    run = yield from exchange(self, 'revoke', {'token': token, 'kind': kind, **more(extra, (), client_assertion)})
    run.answer()


# Issuers


def fetch_metadata(self: Settings, issuer: str, well_known: Optional[str] = None) -> Call[Metadata]:
    """The metadata of an issuer: at one place, or at that of RFC 8414 and then at that of OpenID Connect."""
    places, first = [well_known] if well_known else list(PLACES), None
    for place in places:
        try:
            run = yield from exchange(self, 'metadata', {'issuer': issuer, 'well_known': place})
            return metadata_of(run.answer(), run.members())
        except (InsecureEndpoint, OutOfMemory):
            raise
        except LifecribError as error:
            if place == places[-1]:
                raise error from error.__cause__ or first
            first = error
    raise AssertionError


def found_by(metadata: Metadata) -> dict[str, Any]:
    """The endpoints that metadata name, as settings of a client."""
    push = metadata.members.get(PUSH)
    found = without_none({name: getattr(metadata, member) for name, member in ENDPOINTS.items()})
    if isinstance(push, str) and may_send(push, False):
        # the library does not read this member: a bad one is left out, since most clients never push
        with contextlib.suppress(BadScript):
            Settings({'id': '', 'push_url': push}, None, False)
            found['push_url'] = push
    return found


def value(body: bytes) -> Any:
    """What the library reads in a JSON text, which is given to it as a reply; None if it is no JSON text."""
    script = {'client': {'id': ''}, 'command': 'metadata', 'params': {'issuer': 'https://localhost'}}
    found = _library.run_script({**script, 'replies': [in_script(Reply(200, None, body))]}).reply()
    return found['json'] if found else None


def payload(token: str) -> Any:
    """All claims of a token that was checked."""
    part = token.split('.')[1]
    return value(base64.urlsafe_b64decode(part + '=' * (-len(part) % 4)))


def fetch_keys(self: Settings) -> Call[Any]:
    """The key set of the issuer whose metadata were discovered (RFC 7517, 5)."""
    url = self.metadata.jwks_uri if self.metadata else None
    if not url:
        raise ValueError(NO_KEYS)
    try:
        reply = yield from reply_to(self, Request('GET', url, (('accept', 'application/json'),), b''))
    except NoReply as failed:
        raise failed.named(RequestFailed('Request failed')) from failed.__cause__
    found = value(reply.body) if reply.status == 200 else None
    if not isinstance(found, dict):
        raise BadKeys('there is no key set at jwks_uri', status=reply.status, content_type=reply.content_type)
    self.keys = time.monotonic(), found
    return found


def kept_keys(self: Settings) -> Optional[Any]:
    """The key set that came last, if that is not too long ago."""
    return self.keys[1] if self.keys and time.monotonic() < self.keys[0] + KEEP_KEYS else None


def check_id_token(self: Settings, id_token: str, access_token: str, *, issuer: Optional[str] = None,
                   keys: Optional[Mapping[str, Any]] = None, nonce: Optional[str] = None,
                   algorithm: Optional[str] = None, leeway: int = LEEWAY, max_age: Optional[int] = None,
                   other_audiences: Texts = (), authorized_parties: Texts = (),
                   signature: bool = True) -> Call[Claims]:
    """The claims of an ID token, if all rules hold (OpenID Connect Core 1.0, 3.1.3.7), and its signature is one by
    keys, or by those of the discovered issuer. signature=False leaves the signature unchecked."""
    issuer = needs_of_id_token(self, issuer, keys, signature)
    params: dict[str, Any] = {'id_token': id_token, 'access_token': access_token, 'issuer': issuer, 'nonce': nonce,
                              'algorithm': algorithm, 'leeway': leeway, 'max_age': max_age,
                              'other_audiences': texts(other_audiences),
                              'authorized_parties': texts(authorized_parties)}
    kept = kept_keys(self) if signature and keys is None else None
    if kept is not None:
        try:
            return checked(self, {**params, 'keys': kept})
        except (BadKeys, BadSignature):  # the issuer may have new keys
            pass
    if signature:
        params['keys'] = keys if keys is not None else (yield from fetch_keys(self))
    return checked(self, params)


def needs_of_id_token(self: Settings, issuer: Optional[str], keys: Optional[Mapping[str, Any]], signature: bool) -> str:
    """The issuer that an ID token has to name. ValueError if that, or keys for the signature, are nowhere."""
    found = issuer or (self.metadata.issuer if self.metadata else None)
    if found is None:
        raise ValueError(NO_ISSUER)
    if signature and keys is None and not (self.metadata and self.metadata.jwks_uri):
        raise ValueError(NO_KEYS)
    return found


def checked(self: Settings, params: Mapping[str, Any]) -> Claims:
    """The claims of an ID token that is checked now."""
    answer = self.run('id_token', params, readings=[now()]).answer()
    return claims_of({**answer['claims'], 'access_token_hash': answer['access_token_hash'],
                    'signature_checked': 'keys' in params, 'members': payload(params['id_token'])})


def check_access_token(access_token: str, *, issuer: str, audience: str, keys: Mapping[str, Any],
                       algorithm: Optional[str] = None, leeway: int = LEEWAY) -> Introspection:
    """What a JWT access token says, as its resource server checks it by the issuer's keys (RFC 9068, 4)."""
    params = without_none({'access_token': access_token, 'issuer': issuer, 'audience': audience, 'keys': keys,
                            'algorithm': algorithm, 'leeway': leeway})
    run = _library.run_script({'client': {'id': ''}, 'command': 'access_token', 'params': params, 'readings': [now()]})
    return introspection_of(run.answer(), run.scopes(), payload(access_token))
