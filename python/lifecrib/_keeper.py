"""Keepers: a token that is renewed in time. The library decides when, by the last reply and the clock."""
from __future__ import annotations

import contextlib
import dataclasses
from typing import Any, Callable, Generic, Iterator, Mapping, Optional, TypeVar

from . import _calls, _json, _library
from ._calls import Call, Pairs, Settings, Texts
from ._data import Token, token_of, without_none
from ._errors import Ended, OtherTokenType

S = TypeVar('S', bound=Settings)


class KeeperState(Generic[S]):
    """What a keeper holds. Its script begins with the request whose reply was accepted last, and then has the one that
    failed after that, if one did: so the library knows all that decides."""

    def __init__(self, client: S, token: Optional[Token] = None, *, scopes: Texts = (), margin: int = 60,
                 life: int = 3600, retry_after: Optional[int] = None, on_token: Optional[Callable[[Token], Any]] = None,
                 token_types: Optional[Texts] = ('Bearer',), extra: Pairs = (), resource: Texts = (),
                 client_assertion: Optional[str] = None) -> None:
        self.client, self._is_of_a_user = client, token is not None
        self._params: dict[str, Any] = {
            **_calls.more(extra, resource, client_assertion, scopes), 'margin': margin, 'life': life,
            'retry_after': retry_after, 'token_types': None if token_types is None else _calls.texts(token_types)}
        self._on_token, self._is_told, self._retry_after = on_token, True, retry_after
        self._lock = self._new_lock()
        self._start(token)

    def _new_lock(self) -> Any:
        """What the threads need that share a keeper; tasks need nothing."""
        return None

    def _start(self, token: Optional[Token], refresh: Optional[str] = None) -> None:
        """Holds this token, and no failure."""
        self._token, self._refresh = token, refresh
        self._replies: list[dict[str, Any]] = [_reply_of(token)] if token else []
        self._readings: list[int] = [token.asked_at] if token else []

    @contextlib.contextmanager
    def _telling(self) -> Iterator[None]:
        """A new token is told to on_token here. If that fails, the next call tells it again."""
        self._is_told = True  # before, since on_token may ask this keeper
        try:
            yield
        except BaseException:
            self._is_told = False
            raise

    @property
    def _settings(self) -> S:
        return self.client

    @property
    def refresh_token(self) -> Optional[str]:
        """The refresh token that is held."""
        return self._token.refresh_token if self._token else self._refresh

    def forget_token(self, token: Optional[Token] = None) -> None:
        """Gets another token at the next call, as after a server has refused this one. If the keeper does not hold the
        token that is given, it has another one by now, and forgets nothing."""
        if token is None or self._token is not None and self._token.access_token == token.access_token:
            self._start(None, self.refresh_token)

    def forget_refresh_token(self) -> None:
        """Sends this refresh token no more, as after the error invalid_grant."""
        self._start(dataclasses.replace(self._token, refresh_token=None) if self._token else None)

    def _run(self, replies: list[dict[str, Any]], at: int) -> _library.Run:
        params = {**self._params, 'refresh': self._refresh}
        return self.client.run('keeper', params, replies, [*self._readings, at])


def good_token(self: KeeperState[Any]) -> Call[Token]:
    """A token that is good for at least the margin: the one that is held, or a new one. Waiting if a request failed
    less than retry_after seconds ago. OtherTokenType if the new one is of another type than token_types: then its
    refresh token is held alone."""
    at = _calls.now()
    run = self._run(self._replies, at)
    exchanges = run.exchanges
    if len(exchanges) == len(self._replies):
        if run.last['event'] == 'wait' and run.last['until'] is not None:
            self._readings[-1] = run.last['until'] - self._retry_after  # earlier, if the clock was set back
        run.answer()
        assert self._token
        return self._token
    exchange = exchanges[-1]
    why: Optional[_calls.NoReply] = None
    sent = dict(exchange['request']['pairs'])
    if self._is_of_a_user and 'refresh_token' not in sent:
        raise Ended('the token of the user has ended, and there is no refresh token')
    try:
        reply = _calls.in_script((yield from _calls.reply_to(self.client, _calls.request_of(exchange))))
    except _calls.NoReply as failed:
        reply, why = {'fail': True}, failed
    run = self._run([*self._replies, reply], at)
    if run.last['event'] != 'answer':
        error = run.error()
        if isinstance(error, OtherTokenType):
            self._start(None, _new_token(self, sent.get('refresh_token'), reply, at).refresh_token)
        held = 1 if self._token else 0
        self._replies, self._readings = [*self._replies[:held], reply], [*self._readings[:held], at]
        if why:
            raise why.named(error) from why.__cause__
        raise error
    self._token, self._is_told = _new_token(self, sent.get('refresh_token'), reply, at), False
    self._refresh, self._replies, self._readings = sent.get('refresh_token'), [reply], [at]
    return self._token


def token_at_hand(self: KeeperState[Any]) -> Optional[Token]:
    """The token that is held, if it needs no request and on_token knows it."""
    call = good_token(self)
    try:
        next(call)
    except StopIteration as end:
        found: Token = end.value
        return found if self._is_told or not self._on_token else None
    call.close()
    return None


def _new_token(self: KeeperState[Any], sent: Optional[str], reply: Mapping[str, Any], at: int) -> Token:
    """The token of the reply that a keeper has accepted, as the command of its request reads it."""
    params: Mapping[str, Any] = self._params if sent is None else {'refresh_token': sent}
    run = self.client.run('client_credentials' if sent is None else 'refresh', params, [reply])
    return token_of(run.answer(), run.scopes(), run.members(), at, sent)


def _reply_of(token: Token) -> dict[str, Any]:
    """The reply that gave a token, as far as a keeper looks at it."""
    found = {'access_token': token.access_token, 'token_type': token.token_type, 'expires_in': token.expires_in,
             'refresh_token': token.refresh_token}
    return {'status': 200, 'body': _json.text_of(without_none(found))}
