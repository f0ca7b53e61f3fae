"""What is sent, what comes back, and what the library reads in it."""
from __future__ import annotations

import dataclasses
import functools
import time
from typing import Any, Mapping, NamedTuple, Optional

from . import _json


class Request(NamedTuple):
    """A request that a transport sends as it is. Names of headers are in lower case."""

    method: str
    url: str
    headers: tuple[tuple[str, str], ...]
    body: bytes

    def __repr__(self) -> str:
        return 'Request(%r, %r)' % (self.method, self.url)


class Reply(NamedTuple):
    """What a transport gives back: the status, the value of Content-Type, if there is one, and the body."""

    status: int
    content_type: Optional[str]
    body: bytes

    def __repr__(self) -> str:
        return 'Reply(%r, %r)' % (self.status, self.content_type)


@dataclasses.dataclass(frozen=True)
class Claims:
    """What an ID token says. The rules for these claims held; members are all claims, as they came."""

    iss: str
    sub: str
    aud: tuple[str, ...]
    exp: int
    iat: int
    nonce: Optional[str] = dataclasses.field(default=None, repr=False)
    auth_time: Optional[int] = None
    acr: Optional[str] = None
    amr: tuple[str, ...] = ()
    azp: Optional[str] = None
    at_hash: Optional[str] = dataclasses.field(default=None, repr=False)
    access_token_hash: str = 'absent'  # or 'matches', or 'not_checked'
    signature_checked: bool = False
    members: Mapping[str, Any] = dataclasses.field(default_factory=dict, repr=False)


@dataclasses.dataclass(frozen=True)
class Token:
    """A token. scopes is () if the reply has none: they are those that were asked for (RFC 6749, 5.1). asked_at is
    the second since 1970 before the request was sent. claims are there after a login with OpenID Connect."""

    access_token: str = dataclasses.field(repr=False)
    token_type: str
    expires_in: Optional[int] = None
    refresh_token: Optional[str] = dataclasses.field(default=None, repr=False)
    scopes: tuple[str, ...] = ()
    issued_token_type: Optional[str] = dataclasses.field(default=None, repr=False)
    members: Mapping[str, Any] = dataclasses.field(default_factory=dict, repr=False)
    asked_at: int = dataclasses.field(default=0, repr=False)
    claims: Optional[Claims] = dataclasses.field(default=None, repr=False)

    @property
    def expires_at(self) -> Optional[int]:
        """The second since 1970 at which the token ends; None if the reply does not say."""
        return None if self.expires_in is None else self.asked_at + self.expires_in

    def is_expired(self, margin: float = 60) -> bool:
        """Whether the token ends within so many seconds."""
        return self.expires_at is not None and time.time() + margin >= self.expires_at

    @property
    def id_token(self) -> Optional[str]:
        """The text of the ID token that came with it. Only claims are checked."""
        found = self.members.get('id_token')
        return found if isinstance(found, str) else None

    @property
    def headers(self) -> dict[str, str]:
        """The header of a request that uses the token (RFC 6750, 2.1)."""
        if self.token_type != 'bearer' or not all('!' <= it <= '~' for it in self.access_token):
            raise ValueError('no header can have this token: its type is %r' % self.token_type)
        return {'Authorization': 'Bearer ' + self.access_token}

    def to_json(self) -> str:
        """The token as a text, with its secrets."""
        found = without_none(vars(self))
        if self.claims:
            found['claims'] = without_none(vars(self.claims))
        return _json.text_of(found)

    @staticmethod
    def from_json(text: str) -> Token:
        """The token of a text that to_json wrote. ValueError if it is none."""
        try:
            found = _json.value_of(text)
            claims = found.pop('claims', None)
            made: Token = _of_types(Token, found, claims=None if claims is None else _of_types(Claims, claims))
        except (AttributeError, TypeError, RecursionError) as error:
            raise ValueError('this is no text of a token') from error
        if not (isinstance(made.access_token, str) and isinstance(made.token_type, str)):
            raise ValueError('this is no text of a token')
        return made

    def __reduce__(self) -> Any:
        return Token.from_json, (self.to_json(),)


@dataclasses.dataclass(frozen=True)
class Introspection:
    """What a server says of a token (RFC 7662, 2.2). members are all of the reply, as they came."""

    active: bool
    scopes: tuple[str, ...] = ()
    client_id: Optional[str] = None
    username: Optional[str] = None
    token_type: Optional[str] = None
    exp: Optional[int] = None
    iat: Optional[int] = None
    nbf: Optional[int] = None
    sub: Optional[str] = None
    aud: tuple[str, ...] = ()
    iss: Optional[str] = None
    jti: Optional[str] = None
    members: Mapping[str, Any] = dataclasses.field(default_factory=dict, repr=False)


@dataclasses.dataclass(frozen=True)
class Metadata:
    """What an issuer says of itself (RFC 8414, 2). members are all of the reply, as they came."""

    issuer: str
    authorization_endpoint: Optional[str] = None
    token_endpoint: Optional[str] = None
    device_authorization_endpoint: Optional[str] = None
    introspection_endpoint: Optional[str] = None
    revocation_endpoint: Optional[str] = None
    registration_endpoint: Optional[str] = None
    jwks_uri: Optional[str] = None
    scopes_supported: tuple[str, ...] = ()
    grant_types_supported: tuple[str, ...] = ()
    response_types_supported: tuple[str, ...] = ()
    code_challenge_methods_supported: tuple[str, ...] = ()
    token_endpoint_auth_methods_supported: tuple[str, ...] = ()
    authorization_response_iss_parameter_supported: bool = False
    members: Mapping[str, Any] = dataclasses.field(default_factory=dict, repr=False)


def without_none(found: Mapping[str, Any]) -> dict[str, Any]:
    return {name: value for name, value in found.items() if value is not None}


@functools.lru_cache(maxsize=None)
def _names_of(kind: Any) -> frozenset[str]:
    return frozenset(it.name for it in dataclasses.fields(kind))


def _of_types(kind: Any, found: Mapping[str, Any], **more: Any) -> Any:
    """The object of a class with these members, lists as tuples. Members that it does not name are left out."""
    names = _names_of(kind)
    known = {name: tuple(value) if isinstance(value, list) else value for name, value in found.items() if name in names}
    return kind(**{**known, **more})


def claims_of(found: Mapping[str, Any]) -> Claims:
    made: Claims = _of_types(Claims, found)
    return made


def token_of(answer: Mapping[str, Any], scopes: tuple[str, ...], members: Mapping[str, Any], asked_at: int,
             kept: Optional[str] = None) -> Token:
    """The token of an answer; kept is the refresh token that stays good if the answer has none."""
    made: Token = _of_types(Token, answer, scopes=scopes, members=members, asked_at=asked_at,
                            refresh_token=answer.get('refresh_token', kept))
    return made


def introspection_of(answer: Mapping[str, Any], scopes: tuple[str, ...], members: Mapping[str, Any]) -> Introspection:
    made: Introspection = _of_types(Introspection, answer, scopes=scopes, members=members)
    return made


def metadata_of(answer: Mapping[str, Any], members: Mapping[str, Any]) -> Metadata:
    made: Metadata = _of_types(Metadata, answer, members=members)
    return made
