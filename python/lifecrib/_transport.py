"""How a request is sent. A transport is any function from a Request to a Reply; it may follow no redirect."""
from __future__ import annotations

import asyncio
import contextlib
import functools
import http.client
import io
import re
import socket
import ssl
import time
import urllib.error
import urllib.parse
import urllib.request
from typing import Any, Awaitable, Callable, Iterable, Optional

from ._data import Reply, Request

Transport = Callable[[Request], Reply]
AsyncTransport = Callable[[Request], Awaitable[Reply]]
TIMEOUT = 30.0  # seconds
MOST_BYTES = 1 << 20  # of a body
CHUNK = 1 << 14
# No reply is to be packed, so that its size is what was read.
PLAIN = ('accept-encoding', 'identity')
# What httpx is told, so that http goes by no proxy: it is for this machine alone.
DIRECT = {'http://': None}
# A proxy to which urllib speaks as it should: its scheme is http, or it has none. To any other one, too, the password
# would go unencrypted.
HTTP_PROXY = re.compile('http://|(?![^/:]+:/)', re.IGNORECASE)
BAD_PROXY = 'HTTPS_PROXY has to be an http:// URL: change it, or give the client another transport than UrllibTransport'


class TooLarge(ValueError):
    """The body of a reply has more bytes than a transport takes."""


class _Body:
    """A body that is read bit by bit, up to a number of bytes and a moment."""

    def __init__(self, limit: int, timeout: Optional[float]) -> None:
        self.parts: list[bytes] = []
        self.left, self.end = limit, None if timeout is None else time.monotonic() + timeout

    def add(self, part: bytes) -> None:
        self.left -= len(part)
        if self.left < 0:
            raise TooLarge('the reply is larger than the transport takes')
        if self.end is not None and time.monotonic() > self.end:
            raise TimeoutError('the reply takes too long')
        self.parts.append(part)

    def whole(self) -> bytes:
        return b''.join(self.parts)


def _refuse_packed(encodings: Iterable[str]) -> None:
    """Refuses a reply by its Content-Encoding. A few bytes may unpack to more than memory has, all in one part."""
    if any(it.strip().lower() not in ('', 'identity') for each in encodings for it in each.split(',')):
        raise ValueError('the reply is packed, though the request asked for a plain one')


class _Timed(io.RawIOBase):
    """What a socket gives until a moment. By itself it would give each read all of the timeout again."""

    def __init__(self, sock: socket.socket, raw: io.RawIOBase, end: float) -> None:
        self._socket, self._raw, self._end = sock, raw, end

    def readable(self) -> bool:
        return True

    def readinto(self, room: Any) -> Any:
        left = self._end - time.monotonic()
        if left <= 0:
            raise TimeoutError('the reply takes too long')
        self._socket.settimeout(left)
        return self._raw.readinto(room)

    def close(self) -> None:
        self._raw.close()
        super().close()


class _TimedReply(http.client.HTTPResponse):
    """A reply that has to be there at a moment, with its headers and all that stands around the parts of its body."""

    def __init__(self, end: float, sock: socket.socket, *args: Any, **words: Any) -> None:
        super().__init__(sock, *args, **words)
        self.fp: Any = io.BufferedReader(_Timed(sock, self.fp.detach(), end))


class _Plain(http.client.HTTPConnection):
    """A connection whose replies have to be there in the seconds of its timeout, counted from now on."""

    def __init__(self, *args: Any, **words: Any) -> None:
        super().__init__(*args, **words)
        if self.timeout is not None:
            end = time.monotonic() + self.timeout
            self.response_class: Any = functools.partial(_TimedReply, end)


class _Secure(_Plain, http.client.HTTPSConnection):
    """The same with TLS."""


class _Handler(urllib.request.HTTPHandler, urllib.request.HTTPSHandler):
    """Opens these connections."""

    def __init__(self, context: ssl.SSLContext) -> None:
        super().__init__(context=context)
        self._trusted = context

    def http_open(self, req: urllib.request.Request) -> Any:
        return self.do_open(_Plain, req)

    def https_open(self, req: urllib.request.Request) -> Any:
        return self.do_open(_Secure, req, context=self._trusted)


class _AnyStatus(urllib.request.HTTPErrorProcessor):
    """Takes a reply of any status as it is, also a redirect."""

    def http_response(self, request: urllib.request.Request, response: Any) -> Any:
        return response

    def https_response(self, request: urllib.request.Request, response: Any) -> Any:
        return response


class UrllibTransport:
    """Sends by the standard library. It takes the proxy of HTTPS_PROXY, and the authorities of the context, or else
    those of the system. timeout is how many seconds the whole reply may take, and limit is how many bytes its body may
    have. ValueError if the proxy has another scheme than http."""

    def __init__(self, timeout: float = TIMEOUT, limit: int = MOST_BYTES,
                 context: Optional[ssl.SSLContext] = None) -> None:
        if context is None:
            context = ssl.create_default_context()
            context.minimum_version = ssl.TLSVersion.TLSv1_2
        self._timeout, self._limit = timeout, limit
        # http is for this machine alone, and goes by no proxy
        proxies = {name: by for name, by in urllib.request.getproxies().items() if name == 'https'}
        if not all(map(HTTP_PROXY.match, proxies.values())):
            raise ValueError(BAD_PROXY)
        self._opener = urllib.request.build_opener(
            _AnyStatus(), _Handler(context), urllib.request.ProxyHandler(proxies))
        self._opener.addheaders = [('User-Agent', 'lifecrib')]

    def __call__(self, request: Request) -> Reply:
        asked = urllib.request.Request(request.url, request.body if request.method == 'POST' else None,
                                       dict(request.headers), method=request.method)
        body = _Body(self._limit, None)  # the connection has the timeout
        try:
            reply: http.client.HTTPResponse = self._opener.open(asked, timeout=self._timeout)
        except urllib.error.URLError as error:
            raise error.reason if isinstance(error.reason, Exception) else error
        with reply:
            for part in iter(lambda: reply.read1(CHUNK), b''):
                body.add(part)
            if reply.length:  # the connection was closed before all of it came
                raise http.client.IncompleteRead(b'', reply.length)
            return Reply(reply.status, reply.headers.get('Content-Type'), body.whole())


@functools.lru_cache(maxsize=None)
def default_transport() -> UrllibTransport:
    """The transport of all clients that are given none: its context takes a while to make."""
    return UrllibTransport()


class RequestsTransport:
    """Sends by a requests.Session, or by a session of its own for each request."""

    def __init__(self, session: Any = None, timeout: float = TIMEOUT, limit: int = MOST_BYTES) -> None:
        import requests
        self._session, self._new, self._timeout, self._limit = session, requests.Session, timeout, limit

    def __call__(self, request: Request) -> Reply:
        if self._session is not None:
            return self._send(self._session, request)
        with self._new() as session:
            return self._send(session, request)

    def _send(self, session: Any, request: Request) -> Reply:
        body = _Body(self._limit, self._timeout)
        # an auth that adds nothing, or else the secret of a .netrc would go in place of the client's
        with session.request(request.method, request.url, data=request.body, headers=dict([*request.headers, PLAIN]),
                             timeout=self._timeout, allow_redirects=False, stream=True, auth=_without_redirect,
                             proxies=_proxies_of(request.url)) as reply:
            _refuse_packed([reply.headers.get('Content-Encoding', '')])
            with contextlib.suppress(AttributeError):  # of an adapter that has no connection
                reply.raw.enforce_content_length = True  # a reply that is cut is none
            for part in reply.iter_content(CHUNK):
                body.add(part)
            return Reply(reply.status_code, reply.headers.get('Content-Type'), body.whole())


def _proxies_of(url: str) -> Optional[dict[str, str]]:
    """Leaves out HTTP_PROXY: http is for this machine alone. What the session itself has as its proxies stays."""
    at = urllib.parse.urlsplit(url)
    return {'no_proxy': at.hostname or ''} if at.scheme == 'http' else None


def _without_redirect(request: Any) -> Any:
    request.register_hook('response', _forget_location)
    return request


def _forget_location(reply: Any, *_: Any, **__: Any) -> None:
    """A redirect would be read to its end by requests itself, without a limit."""
    reply.headers.pop('Location', None)


def _same(request: Any) -> Any:
    return request


class HttpxTransport:
    """Sends by an httpx.Client, or by a client of its own for each request."""

    def __init__(self, client: Any = None, timeout: float = TIMEOUT, limit: int = MOST_BYTES) -> None:
        import httpx
        self._client, self._timeout, self._limit = client, timeout, limit
        self._new = functools.partial(httpx.Client, mounts=DIRECT)

    def __call__(self, request: Request) -> Reply:
        if self._client is not None:
            return self._send(self._client, request)
        with self._new() as client:
            return self._send(client, request)

    def _send(self, client: Any, request: Request) -> Reply:
        body = _Body(self._limit, self._timeout)
        with client.stream(request.method, request.url, content=request.body, headers=[*request.headers, PLAIN],
                           timeout=self._timeout, follow_redirects=False, auth=_same) as reply:
            _refuse_packed([reply.headers.get('content-encoding', '')])
            for part in reply.iter_bytes(CHUNK):
                body.add(part)
            return Reply(reply.status_code, reply.headers.get('Content-Type'), body.whole())


class AsyncHttpxTransport:
    """Sends by an httpx.AsyncClient, or by a client of its own for each request."""

    def __init__(self, client: Any = None, timeout: float = TIMEOUT, limit: int = MOST_BYTES) -> None:
        import httpx
        self._client, self._timeout, self._limit = client, timeout, limit
        self._new = functools.partial(httpx.AsyncClient, mounts=DIRECT)

    async def __call__(self, request: Request) -> Reply:
        return await asyncio.wait_for(self._reply(request), self._timeout)

    async def _reply(self, request: Request) -> Reply:
        if self._client is not None:
            return await self._send(self._client, request)
        async with self._new() as client:
            return await self._send(client, request)

    async def _send(self, client: Any, request: Request) -> Reply:
        body = _Body(self._limit, None)
        async with client.stream(request.method, request.url, content=request.body, headers=[*request.headers, PLAIN],
                                 timeout=self._timeout, follow_redirects=False, auth=_same) as reply:
            _refuse_packed([reply.headers.get('content-encoding', '')])
            async for part in reply.aiter_bytes(CHUNK):
                body.add(part)
            return Reply(reply.status_code, reply.headers.get('Content-Type'), body.whole())


class AiohttpTransport:
    """Sends by an aiohttp.ClientSession, or by a session of its own for each request."""

    def __init__(self, session: Any = None, timeout: float = TIMEOUT, limit: int = MOST_BYTES) -> None:
        import aiohttp
        import yarl
        self._session, self._url, self._limit = session, yarl.URL, limit
        self._new = functools.partial(aiohttp.ClientSession, auto_decompress=False)
        self._timeout = aiohttp.ClientTimeout(total=timeout)

    async def __call__(self, request: Request) -> Reply:
        if self._session is not None:
            return await self._send(self._session, request)
        async with self._new() as session:
            return await self._send(session, request)

    async def _send(self, session: Any, request: Request) -> Reply:
        body = _Body(self._limit, None)
        async with session.request(request.method, self._url(request.url, encoded=True), data=request.body,
                                   headers=[*request.headers, PLAIN], timeout=self._timeout,
                                   allow_redirects=False) as reply:
            _refuse_packed(reply.headers.getall('Content-Encoding', []))
            async for part in reply.content.iter_chunked(CHUNK):
                body.add(part)
            return Reply(reply.status, reply.headers.get('Content-Type'), body.whole())


class ThreadTransport:
    """Sends by a transport that is not async, in a thread of asyncio's pool."""

    def __init__(self, transport: Optional[Transport] = None) -> None:
        self._transport = transport or default_transport()

    async def __call__(self, request: Request) -> Reply:
        return await asyncio.to_thread(self._transport, request)
