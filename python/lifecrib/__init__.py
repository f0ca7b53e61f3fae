"""An OAuth 2.0 client: a proved library makes each request and reads each reply, and this package sends them.

    from lifecrib import Client
    client = Client('aaa', 'bbb', token_url='https://as.example/token')
    token = client.fetch_token(scopes='read')
"""
from __future__ import annotations

import importlib
from typing import TYPE_CHECKING, Any

if TYPE_CHECKING:
    from ._calls import check_access_token
    from ._client import AsyncClient, AsyncDevice, AsyncKeeper, AsyncLogin, Client, Device, Keeper, Login
    from ._data import Claims, Introspection, Metadata, Reply, Request, Token
    from ._errors import (BadAccessToken, BadClaims, BadIssuer, BadKeys, BadMetadata, BadPush, BadScript, BadSignature,
                          BadToken, Ended, ErrorResponse, InsecureEndpoint, LifecribError, MissingEndpoint,
                          OtherClient, OtherError, OtherIssuer, OtherRedirectUri, OtherStatus, OtherTokenEndpoint,
                          OtherTokenType, OutOfMemory, RefusedRedirect, RequestFailed, TakenParameter, UnboundLogin,
                          UncheckedSignature, UnreadReply, Waiting)
    from ._library import Run, run_script
    from ._transport import (AiohttpTransport, AsyncHttpxTransport, AsyncTransport, HttpxTransport, RequestsTransport,
                             ThreadTransport, TooLarge, Transport, UrllibTransport)

__version__ = '0.1.0'
__all__ = [
    'AiohttpTransport', 'AsyncClient', 'AsyncDevice', 'AsyncHttpxTransport', 'AsyncKeeper', 'AsyncLogin',
    'AsyncTransport', 'BadAccessToken', 'BadClaims', 'BadIssuer', 'BadKeys', 'BadMetadata', 'BadPush', 'BadScript',
    'BadSignature', 'BadToken', 'Claims', 'Client', 'Device', 'Ended', 'ErrorResponse', 'HttpxTransport',
    'InsecureEndpoint', 'Introspection', 'Keeper', 'LifecribError', 'Login', 'Metadata', 'MissingEndpoint',
    'OtherClient', 'OtherError', 'OtherIssuer', 'OtherRedirectUri', 'OtherStatus', 'OtherTokenEndpoint',
    'OtherTokenType', 'OutOfMemory', 'RefusedRedirect', 'Reply', 'Request', 'RequestFailed', 'RequestsTransport', 'Run',
    'TakenParameter', 'ThreadTransport', 'Token', 'TooLarge', 'Transport', 'UnboundLogin', 'UncheckedSignature',
    'UnreadReply', 'UrllibTransport', 'Waiting', 'check_access_token', 'run_script']
_MODULES = ('_errors', '_library', '_data', '_calls', '_transport', '_client')  # the last ones take longest to load


def __getattr__(name: str) -> Any:
    """Loads what is used when it is used first."""
    if name in __all__:
        for module in _MODULES:
            known = vars(importlib.import_module('.' + module, __name__))
            if name in known:
                globals()[name] = known[name]
                return known[name]
    raise AttributeError('module %r has no attribute %r' % (__name__, name))


def __dir__() -> list[str]:
    return [*globals(), *(name for name in __all__ if name not in globals())]
