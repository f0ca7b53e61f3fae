"""Devices: a user enters a code elsewhere, and the device asks until that is decided (RFC 8628)."""
from __future__ import annotations

import ssl
from typing import Any, Generic, Mapping, NamedTuple, Optional, TypeVar

from . import _calls
from ._calls import Call, Pairs, Settings, Texts
from ._data import Token, token_of
from ._errors import RequestFailed

S = TypeVar('S', bound=Settings)
TRIED_AGAIN = (429, *range(500, 600))  # the statuses after which a poll goes on
NO_REPLY: dict[str, Any] = {'fail': True}
# What is kept of a reply after which a poll goes on, so that its length does not matter. No adapter changes these.
PENDING: dict[str, Any] = {'status': 400, 'body': '{"error":"authorization_pending"}'}
SLOW_DOWN: dict[str, Any] = {'status': 400, 'body': '{"error":"slow_down"}'}
DEEPEST = 8  # of reasons within reasons


class Asked(NamedTuple):
    """What is known of a device: the answer of the server, all members as they came, and when it was asked for."""

    answer: Mapping[str, Any]
    members: Mapping[str, Any]
    asked_at: int
    params: Mapping[str, Any]


class DeviceState(Generic[S]):
    """The codes of a device, and how far its polls have come. wait is how many seconds the next poll has to wait."""

    def __init__(self, client: S, asked: Asked) -> None:
        answer = asked.answer
        self.client, self._asked = client, asked
        self.user_code: str = answer['user_code']
        self.verification_uri: str = answer['verification_uri']
        self.verification_uri_complete: Optional[str] = answer.get('verification_uri_complete')
        self.expires_in: int = answer['expires_in']
        self.interval: int = answer['interval']
        self.members: Mapping[str, Any] = asked.members
        self.wait = 0.0
        self._replies: list[dict[str, Any]] = []  # to the polls so far
        self._readings = [asked.asked_at]  # when the codes were asked for, and at each of the replies
        self._why: Optional[_calls.NoReply] = None  # why the last poll has no reply

    def __repr__(self) -> str:
        return '%s(%r, %r)' % (type(self).__name__, self.user_code, self.verification_uri)

    @property
    def _settings(self) -> S:
        return self.client


def ask(self: Settings, scopes: Texts = (), *, extra: Pairs = (), resource: Texts = (),
        client_assertion: Optional[str] = None) -> Call[Asked]:
    """The codes of a device (RFC 8628, 3.1)."""
    params, asked_at = _calls.more(extra, resource, client_assertion, scopes), _calls.now()
    run = yield from _calls.exchange(self, 'device_authorization', params)
    return Asked(run.answer(), run.members(), asked_at, _calls.more((), resource, client_assertion))


def poll(self: DeviceState[Any], *, timeout: Optional[int] = None) -> Call[Optional[Token]]:
    """Asks once: the token, or None if the user has not decided yet, and the next poll has to wait for wait seconds.
    timeout is for how many seconds it goes on, if not for expires_in."""
    at, polls = _calls.now(), len(self._replies)
    while True:
        replies = self._replies
        params = {**self._asked.params, 'device': self._asked.answer, 'timeout': timeout,
                  'max_polls': len(replies) + 2}
        readings = self._readings if len(replies) > polls else [*self._readings, at]
        run = self.client.run('device_poll', params, replies, readings)
        step = _next(run.events, len(replies), polls)
        if step['event'] == 'exchange':
            reply = yield from _reply(self, step)  # if that is cut short, nothing has changed
            replies.append(reply)
            self._readings.append(at)
        elif step['event'] == 'sleep':
            self.wait = step['seconds'] + step['nanoseconds'] / 1e9
            if replies[-1] is not NO_REPLY:  # of replies, only slow_down makes the wait longer
                waits = [(self.interval, 0), *((it['seconds'], it['nanoseconds']) for it in run.events
                                               if it['event'] == 'sleep')]
                replies[-1] = SLOW_DOWN if waits[polls + 1] > waits[polls] else PENDING
            return None
        elif step['event'] == 'fault':
            if self._why:
                raise self._why.named(run.error()) from self._why.__cause__
            raise run.error()
        else:
            return token_of(run.answer(), run.scopes(), run.members(), at)


def _reply(self: DeviceState[Any], exchange: Mapping[str, Any]) -> Call[dict[str, Any]]:
    """The reply to a poll. One of a server that is busy, or none, is a call that failed: the next one comes later. But
    if no later one can be better, RequestFailed."""
    try:
        reply = yield from _calls.reply_to(self.client, _calls.request_of(exchange))
    except _calls.NoReply as failed:
        why = failed.__cause__
        if isinstance(why, TypeError) or _is_untrusted(why):
            raise failed.named(RequestFailed('Request failed')) from why
        self._why = failed
        return NO_REPLY
    self._why = None
    return NO_REPLY if reply.status in TRIED_AGAIN else _calls.in_script(reply)


def _is_untrusted(why: Any, depth: int = DEEPEST) -> bool:
    """Whether an error says that a certificate is not trusted, or names one that says so as its reason."""
    if isinstance(why, ssl.SSLCertVerificationError):
        return True
    if depth == 0 or not isinstance(why, BaseException):
        return False
    # each module that sends has a place of its own for the reason
    return any(_is_untrusted(it, depth - 1) for it in (why.__cause__, getattr(why, 'reason', None), *why.args))


def _next(events: list[dict[str, Any]], replies: int, sleeps: int) -> dict[str, Any]:
    """The event that comes next, behind so many exchanges and sleeps."""
    for it in events:
        if it['event'] == 'exchange':
            replies -= 1
            if replies < 0:
                return it
        elif it['event'] == 'sleep':
            sleeps -= 1
            if sleeps < 0:
                return it
    return events[-1]
