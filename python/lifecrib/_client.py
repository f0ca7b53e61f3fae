"""Clients, logins, devices and keepers: each call of this package, sent by a transport, and the same with async."""
from __future__ import annotations

import asyncio
import contextvars
import functools
import inspect
import threading
import time
from typing import TYPE_CHECKING, Any, Awaitable, Callable, Coroutine, Generic, Iterable, Optional, TypeVar

from . import _calls, _device, _keeper, _login
from ._calls import Call, Pairs, Settings, Texts
from ._data import Metadata, Token
from ._transport import AsyncTransport, ThreadTransport, Transport, default_transport

if TYPE_CHECKING:
    from typing_extensions import Concatenate, ParamSpec

    P = ParamSpec('P')
D = TypeVar('D')
T = TypeVar('T')
S = TypeVar('S')
C = TypeVar('C', bound='Client')
A = TypeVar('A', bound='AsyncClient')
# The renewals whose on_token runs here: more than one, if it asks another keeper. token() may wait for none of them.
_TELLING: contextvars.ContextVar[tuple[asyncio.Task[Token], ...]] = contextvars.ContextVar('_TELLING', default=())


def _sync(call: Callable[Concatenate[D, P], Call[T]]) -> Callable[Concatenate[D, P], T]:
    """The method that makes a call."""
    @functools.wraps(call)
    def method(__self: D, *args: P.args, **words: P.kwargs) -> T:
        return _client_of(__self)._do(call(__self, *args, **words))  # type: ignore[no-any-return]
    return method


def _async(call: Callable[Concatenate[D, P], Call[T]]) -> Callable[Concatenate[D, P], Coroutine[Any, Any, T]]:
    """The same, to be awaited."""
    @functools.wraps(call)
    async def method(__self: D, *args: P.args, **words: P.kwargs) -> T:
        return await _client_of(__self)._do(call(__self, *args, **words))  # type: ignore[no-any-return]
    return method


def _client_of(it: Any) -> Any:
    return it if isinstance(it, Settings) else it._settings


class _Client(Settings, Generic[S]):
    def __init__(self, id: str, secret: Optional[str] = None, *, auth: str = 'basic', token_url: Optional[str] = None,
                 auth_url: Optional[str] = None, device_url: Optional[str] = None,
                 introspection_url: Optional[str] = None, revocation_url: Optional[str] = None,
                 push_url: Optional[str] = None, redirect: Optional[str] = None, adapters: Iterable[str] = (),
                 reply_rule: Optional[str] = None, transport: Optional[S] = None,
                 metadata: Optional[Metadata] = None, plain_http: bool = False) -> None:
        super().__init__({
            'id': id, 'secret': secret, 'auth': auth, 'token_url': token_url, 'auth_url': auth_url,
            'device_url': device_url, 'introspection_url': introspection_url, 'revocation_url': revocation_url,
            'push_url': push_url, 'redirect': redirect, 'adapters': list(adapters), 'reply_rule': reply_rule},
            metadata, plain_http)
        self._transport = self._default() if transport is None else transport

    def _default(self) -> S:
        raise NotImplementedError


class Client(_Client[Transport]):
    """A client of one authorization server (docs/PYTHON.md). Threads may share it, if its transport takes that."""

    def _default(self) -> Transport:
        return default_transport()

    @classmethod
    def discover(cls: type[C], issuer: str, id: str, secret: Optional[str] = None, *,
                 well_known: Optional[str] = None, **settings: Any) -> C:
        """A client whose endpoints the issuer's metadata name (RFC 8414); those in settings count instead."""
        found = cls(id, secret, **settings)
        metadata = found._do(_calls.fetch_metadata(found, issuer, well_known))
        return cls(id, secret, metadata=metadata, **{**_calls.found_by(metadata), **settings})

    def _do(self, call: Call[T]) -> T:
        """Makes a call: sends each of its requests."""
        try:
            request = next(call)
            while True:
                try:
                    reply = self._transport(request)
                except Exception as error:
                    request = call.throw(error)
                else:
                    request = call.send(reply)
        except StopIteration as end:
            return end.value  # type: ignore[no-any-return]

    fetch_token = _sync(_calls.fetch_token)
    exchange_code = _sync(_calls.exchange_code)
    client_credentials = _sync(_calls.client_credentials)
    password = _sync(_calls.password)
    refresh = _sync(_calls.refresh)
    exchange_token = _sync(_calls.exchange_token)
    assertion = _sync(_calls.assertion)
    extension = _sync(_calls.extension)
    introspect = _sync(_calls.introspect)
    revoke = _sync(_calls.revoke)
    check_id_token = _sync(_calls.check_id_token)
    _ask = _sync(_device.ask)
    _start = _sync(_login.start)

    def device(self, scopes: Texts = (), *, extra: Pairs = (), resource: Texts = (),
               client_assertion: Optional[str] = None) -> Device:
        """The codes of a device, which its user enters elsewhere (RFC 8628)."""
        return Device(self, self._ask(scopes, extra=extra, resource=resource, client_assertion=client_assertion))

    def login(self, scopes: Texts = (), *, redirect: Optional[str] = None, openid: Optional[bool] = None,
              max_age: Optional[int] = None, push: bool = False, extra: Pairs = (), resource: Texts = (),
              client_assertion: Optional[str] = None) -> Login:
        """A new login: the user is sent to its url. It is one with OpenID Connect if a scope is openid."""
        return Login(self, *self._start(scopes, redirect=redirect, openid=openid, max_age=max_age, push=push,
                                        extra=extra, resource=resource, client_assertion=client_assertion))


class AsyncClient(_Client[AsyncTransport]):
    """A client whose calls are awaited. Its transport is async; without one, threads of asyncio send the requests."""

    def _default(self) -> AsyncTransport:
        return ThreadTransport()

    @classmethod
    async def discover(cls: type[A], issuer: str, id: str, secret: Optional[str] = None, *,
                       well_known: Optional[str] = None, **settings: Any) -> A:
        """A client whose endpoints the issuer's metadata name (RFC 8414); those in settings count instead."""
        found = cls(id, secret, **settings)
        metadata = await found._do(_calls.fetch_metadata(found, issuer, well_known))
        return cls(id, secret, metadata=metadata, **{**_calls.found_by(metadata), **settings})

    async def _do(self, call: Call[T]) -> T:
        """Makes a call: sends each of its requests."""
        try:
            request = next(call)
            while True:
                try:
                    reply = await self._transport(request)
                except Exception as error:
                    request = call.throw(error)
                else:
                    request = call.send(reply)
        except StopIteration as end:
            return end.value  # type: ignore[no-any-return]

    fetch_token = _async(_calls.fetch_token)
    exchange_code = _async(_calls.exchange_code)
    client_credentials = _async(_calls.client_credentials)
    password = _async(_calls.password)
    refresh = _async(_calls.refresh)
    exchange_token = _async(_calls.exchange_token)
    assertion = _async(_calls.assertion)
    extension = _async(_calls.extension)
    introspect = _async(_calls.introspect)
    revoke = _async(_calls.revoke)
    check_id_token = _async(_calls.check_id_token)
    _ask = _async(_device.ask)
    _start = _async(_login.start)

    async def device(self, scopes: Texts = (), *, extra: Pairs = (), resource: Texts = (),
                     client_assertion: Optional[str] = None) -> AsyncDevice:
        """The codes of a device, which its user enters elsewhere (RFC 8628)."""
        return AsyncDevice(self, await self._ask(scopes, extra=extra, resource=resource,
                                                 client_assertion=client_assertion))

    async def login(self, scopes: Texts = (), *, redirect: Optional[str] = None, openid: Optional[bool] = None,
                    max_age: Optional[int] = None, push: bool = False, extra: Pairs = (), resource: Texts = (),
                    client_assertion: Optional[str] = None) -> AsyncLogin:
        """A new login: the user is sent to its url. It is one with OpenID Connect if a scope is openid."""
        return AsyncLogin(self, *await self._start(scopes, redirect=redirect, openid=openid, max_age=max_age, push=push,
                                                   extra=extra, resource=resource, client_assertion=client_assertion))


class Login(_login.LoginState[Client]):
    __doc__ = _login.LoginState.__doc__
    finish = _sync(_login.finish)

    @classmethod
    def from_json(cls, text: str, client: Client) -> Login:
        """The login of a text that to_json wrote. ValueError if it is none."""
        return cls(client, '', _login.read(text))


class AsyncLogin(_login.LoginState[AsyncClient]):
    __doc__ = _login.LoginState.__doc__
    finish = _async(_login.finish)

    @classmethod
    def from_json(cls, text: str, client: AsyncClient) -> AsyncLogin:
        """The login of a text that to_json wrote. ValueError if it is none."""
        return cls(client, '', _login.read(text))


class Device(_device.DeviceState[Client]):
    __doc__ = _device.DeviceState.__doc__
    poll = _sync(_device.poll)

    def token(self, *, timeout: Optional[int] = None, sleep: Callable[[float], Any] = time.sleep) -> Token:
        """Asks until the user has decided, and sleeps in between."""
        while True:
            found = self.poll(timeout=timeout)
            if found is not None:
                return found
            sleep(self.wait)


class AsyncDevice(_device.DeviceState[AsyncClient]):
    __doc__ = _device.DeviceState.__doc__
    poll = _async(_device.poll)

    async def token(self, *, timeout: Optional[int] = None,
                    sleep: Callable[[float], Awaitable[Any]] = asyncio.sleep) -> Token:
        """Asks until the user has decided, and sleeps in between."""
        while True:
            found = await self.poll(timeout=timeout)
            if found is not None:
                return found
            await sleep(self.wait)


class Keeper(_keeper.KeeperState[Client]):
    """A token that is renewed in time. Threads may share a keeper: one renews, and the others wait for it. Without a
    token it gets those of the client itself; with a user's token it renews that by its refresh token."""

    _good = _sync(_keeper.good_token)

    def _new_lock(self) -> Any:
        return threading.RLock()

    def token(self) -> Token:
        """A token that is good for at least the margin. A new one is told to on_token first."""
        with self._lock:
            found = self._good()
            if self._on_token and not self._is_told:
                with self._telling():
                    self._on_token(found)
            return found

    def forget_token(self, token: Optional[Token] = None) -> None:
        """Gets another token at the next call, as after a server has refused this one. If the keeper does not hold the
        token that is given, it has another one by now, and forgets nothing."""
        with self._lock:
            super().forget_token(token)

    def forget_refresh_token(self) -> None:
        """Sends this refresh token no more, as after the error invalid_grant."""
        with self._lock:
            super().forget_refresh_token()


class AsyncKeeper(_keeper.KeeperState[AsyncClient]):
    """A Keeper for the tasks of one loop. What on_token returns is awaited, if it can be."""

    _good = _async(_keeper.good_token)
    _renewal: Optional[asyncio.Task[Token]] = None  # held here, since a loop does not keep its tasks alive

    async def token(self) -> Token:
        """A token that is good for at least the margin. A new one is told to on_token first."""
        if self._under_way() in _TELLING.get():  # on_token asks, for which the renewal waits
            return await self._good()
        while True:
            other = self._under_way()
            if other is None:
                break
            await asyncio.wait([other])
        found = _keeper.token_at_hand(self)
        if found is not None:
            return found
        renewal = self._renewal = asyncio.ensure_future(self._renewed())
        renewal.add_done_callback(self._ended)
        if self.refresh_token is None:
            return await renewal
        # A server may take a refresh token only once, so its reply has to come, also if who waits here is cancelled.
        return await asyncio.shield(renewal)

    def _under_way(self) -> Optional[asyncio.Task[Token]]:
        """The renewal that has begun and will end: that of a loop which was closed does not."""
        found = self._renewal
        if found is None or found.done() or found.get_loop().is_closed():
            return None
        if found.get_loop() is not asyncio.get_running_loop():
            raise RuntimeError('a keeper is for the tasks of one loop')
        return found

    def _ended(self, renewal: asyncio.Task[Token]) -> None:
        if self._renewal is renewal:
            self._renewal = None
        if not renewal.cancelled():
            renewal.exception()  # or asyncio would report it where nobody waits any more

    async def _renewed(self) -> Token:
        """A new token, of which on_token knows."""
        found = await self._good()
        if self._on_token and not self._is_told:
            me = asyncio.current_task()
            assert me
            _TELLING.set((*_TELLING.get(), me))
            with self._telling():
                told = self._on_token(found)
                if inspect.isawaitable(told):
                    await told
        return found
