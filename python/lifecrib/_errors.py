"""Why a call has no answer: one class for each kind of fault that the library tells."""
from __future__ import annotations

from typing import Optional


class LifecribError(Exception):
    """A call that has no answer. Beside what a server or a transport says of an error, no text of it has a token or a
    secret.

    kind names the fault, and text says it in words. error, error_description and error_uri are those of an error
    response, or of a redirect that has an error. member and cause say what of a reply can not be read. status and
    content_type are those of the last reply, if there was one.
    """

    kind = 'fault'

    def __init__(self, text: str = '', *, kind: Optional[str] = None, error: Optional[str] = None,
                 error_description: Optional[str] = None, error_uri: Optional[str] = None,
                 member: Optional[str] = None, cause: Optional[str] = None, status: Optional[int] = None,
                 content_type: Optional[str] = None) -> None:
        super().__init__(text)
        if kind is not None:
            self.kind = kind
        self.text, self.error, self.error_description, self.error_uri = text, error, error_description, error_uri
        self.member, self.cause, self.status, self.content_type = member, cause, status, content_type

    def __str__(self) -> str:
        more = []
        if self.cause is not None:
            more.append('%s: %s' % (self.member or 'the body', self.cause))
        if self.status is not None:
            more.append('HTTP status %d' % self.status)
        return '%s (%s)' % (self.text, ', '.join(more)) if more else self.text


class MissingEndpoint(LifecribError):
    """The client does not have the URL that the call needs. Nothing was sent."""

    kind = 'missing_endpoint'


class InsecureEndpoint(LifecribError):
    """The endpoint is no https URL. Nothing was sent."""

    kind = 'insecure_endpoint'


class RequestFailed(LifecribError):
    """There is no reply. The exception of the transport is the __cause__. The server may have got the request.

    url is where it was to go, without what follows a question mark there.
    """

    kind = 'request_failed'
    url: Optional[str] = None

    def to(self, url: str) -> RequestFailed:
        """The same error, which says where the request was to go."""
        self.url = url.partition('#')[0].partition('?')[0]
        return self

    def __str__(self) -> str:
        said, why = super().__str__(), self.__cause__
        if self.url:
            said += ': ' + self.url
        if not why:
            return said
        reason = ' '.join(str(why).split())
        return '%s (%s%s)' % (said, type(why).__name__, ': ' + reason if reason else '')


class ErrorResponse(LifecribError):
    """The server answered with an error response (RFC 6749, 5.2): error is its code."""

    kind = 'error_response'


class UnreadReply(LifecribError):
    """The body is not what the standard says: member is where, '' for the whole body, and cause is why."""

    kind = 'unread_reply'


class OtherTokenType(LifecribError):
    """The server gave a token of a type that was not expected (RFC 6749, 7.1). It is not held; its refresh token is."""

    kind = 'other_token_type'


class OtherError(LifecribError):
    """The reply has another Content-Type, or no body; the polls of a device have come to their limit; or a login
    with OpenID Connect got no Bearer token."""

    kind = 'other_error'


class OutOfMemory(LifecribError, MemoryError):
    """Memory ran out in the library. The request may have been sent."""

    kind = 'out_of_memory'


class RefusedRedirect(LifecribError):
    """The redirect of a login has another state, another issuer, an error or no code. No code was sent."""

    kind = 'refused_redirect'


class OtherClient(RefusedRedirect):
    """The login began with another client: the id of this one is not the login's. No code was sent."""

    kind = 'other_client'


class OtherTokenEndpoint(RefusedRedirect):
    """The login began at another token endpoint, so at another server (RFC 9700, 4.4). No code was sent."""

    kind = 'other_token_endpoint'


class OtherRedirectUri(RefusedRedirect):
    """The redirect came to another URL than the login's redirect URI (RFC 9700, 2.1). No code was sent."""

    kind = 'other_redirect_uri'


class OtherStatus(LifecribError):
    """A request for metadata has a reply with another status than 200, such as that of a redirect."""

    kind = 'other_status'


class BadMetadata(LifecribError):
    """An endpoint in the metadata is one that a client may not call."""

    kind = 'bad_metadata'


class OtherIssuer(LifecribError):
    """The metadata are those of another issuer."""

    kind = 'other_issuer'


class BadIssuer(LifecribError):
    """A text is no issuer. Nothing was sent."""

    kind = 'bad_issuer'


class BadToken(LifecribError):
    """There is no ID token, or a token can not be read."""

    kind = 'bad_token'


class BadClaims(LifecribError):
    """A claim of an ID token breaks a rule of OpenID Connect Core 1.0, 3.1.3.7."""

    kind = 'bad_claims'


class BadSignature(LifecribError):
    """The signature of a token is wrong, or no key is for it."""

    kind = 'bad_signature'


class UncheckedSignature(LifecribError):
    """No signature of the algorithm is checked."""

    kind = 'unchecked_signature'


class BadKeys(LifecribError):
    """What should be a key set is none."""

    kind = 'bad_keys'


class BadAccessToken(LifecribError):
    """A JWT access token breaks a rule of RFC 9068, 4."""

    kind = 'bad_access_token'


class TakenParameter(LifecribError):
    """A name in extra is one that the request sends itself. Nothing was sent."""

    kind = 'taken_parameter'


class BadPush(LifecribError):
    """A pushed authorization request can not be made. Nothing was sent."""

    kind = 'bad_push'


class Waiting(LifecribError):
    """A keeper makes no request now, since one failed: until is the second since 1970 at which it may again."""

    kind = 'wait'
    until: Optional[int] = None


class Ended(LifecribError):
    """The token that a keeper holds for a user has ended, and there is no refresh token: the user has to log in."""

    kind = 'ended'


class UnboundLogin(LifecribError, ValueError):
    """The text of a login does not say at which client, token endpoint and redirect URI it began, as those of older
    versions: the user has to begin again."""

    kind = 'unbound_login'


class BadScript(LifecribError, ValueError):
    """Something that was given is not what it has to be: member says what, as 'client.token_url', and why says why."""

    kind = 'bad_script'

    def __init__(self, text: str = '', *, member: Optional[str] = None, why: Optional[str] = None) -> None:
        super().__init__(text, member=member)
        self.why = why


KINDS = {it.kind: it for it in (
    MissingEndpoint, InsecureEndpoint, RequestFailed, ErrorResponse, UnreadReply, OtherTokenType, OtherError,
    OutOfMemory,
    RefusedRedirect, OtherClient, OtherTokenEndpoint, OtherRedirectUri, OtherStatus, BadMetadata, OtherIssuer,
    BadIssuer, BadToken, BadClaims, BadSignature, UncheckedSignature, BadKeys, BadAccessToken, TakenParameter,
    BadPush)}
