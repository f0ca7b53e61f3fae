"""How a script is run until its answer is there: each request that it shows is sent, and its reply put into the
script."""
from __future__ import annotations

import json
import time
from typing import Any, Callable, Mapping, NamedTuple, Optional

from lifecrib import BadScript, OutOfMemory, Request, Run, run_script
from lifecrib._calls import request_of

from . import endings, programs
from .endings import BAD_SETTING, NO_MEMORY, Stop, status_of
from .http_requests import FAILED, RETRIED, Reply, reply_to, status_text
from .renewal import Renewal

Script = Mapping[str, Any]
Fault = Mapping[str, Any]
LAST_READING = 253402207200  # that a script may have
ENDS = ('answer', 'fault')  # the events that are last
# What a server says of a device whose user has not decided (RFC 8628, 3.5).
UNDECIDED = ('authorization_pending', 'slow_down')
JSON = 'application/json'


class Outcome(NamedTuple):
    """What came of a command.

    reply is the last one as the script has it, url where its request went, and asked_at when. note says what the run
    does not know of it: why there is no reply, or where that sends to. may_retry is whether another try may have
    another result, and later when, as the server says.
    """

    run: Run
    reply: Optional[Mapping[str, Any]] = None
    url: Optional[str] = None
    asked_at: int = 0
    note: Optional[str] = None
    may_retry: bool = False
    later: Optional[str] = None

    @property
    def fault(self) -> Optional[Fault]:
        """Why there is no answer; None where there is one."""
        return fault_in(self.run)

    @property
    def answer(self) -> Any:
        return self.run.last['answer']

    @property
    def user_url(self) -> str:
        """The URL to which the user is sent."""
        return str(next(it['url'] for it in reversed(self.run.events) if it['event'] == 'url'))

    def is_undecided(self) -> bool:
        """Whether a device was asked for as often as was allowed, and its user has not decided."""
        reply = self.run.reply() if self.run.exchanges and self.run.exchanges[-1]['reply'] else None
        said = reply['json'] if reply else {'error': UNDECIDED[0]}
        is_said = isinstance(said, dict) and said.get('error') in UNDECIDED
        return is_said and self.fault is not None and bool(self.fault['kind'] == 'other_error')


def fault_in(run: Run) -> Optional[Fault]:
    return None if run.last['event'] == 'answer' else run.last


def code_of(fault: Fault) -> Optional[str]:
    """The code of the error response, or of the error in a redirect, that a fault is."""
    return fault['error']['error'] if fault['error'] else None


def status_of_fault(fault: Fault) -> int:
    return NO_MEMORY if fault['kind'] == 'out_of_memory' else status_of(code_of(fault))


def ran(script: Script) -> Run:
    """The run of a script. Stops where there is none, or the script is bad."""
    by = programs.library()
    try:
        return run_script(script, by)
    except OutOfMemory:
        raise Stop('%s ended with %d and no answer' % (by.path, NO_MEMORY), NO_MEMORY) from None
    except BadScript as bad:
        raise Refused(bad) from None
    except (OSError, RuntimeError) as error:
        raise Stop('%s does not run scripts as docs/SCRIPT.md says, it seems: %s' % (by.path, error)) from None


class Refused(Stop):
    """Which setting makes a script bad."""

    def __init__(self, bad: BadScript) -> None:
        self.member = bad.member or ''
        part, _, name = self.member.partition('.')
        what = '"%s" of the %s' % (name, part) if name else 'script'
        why = ' (%s)' % bad.why if bad.why else ''
        super().__init__('the program does not take the %s%s: docs/SCRIPT.md says what it may be' % (what, why),
                         BAD_SETTING)


def next_of(run: Run, replies: int, sleeps: int) -> Mapping[str, Any]:
    """The first event that has to be done, where so many requests have replies and so many sleeps are over; else the
    last one."""
    for event in run.events:
        if event['event'] == 'exchange':
            replies -= 1
        elif event['event'] == 'sleep':
            sleeps -= 1
        if replies < 0 or sleeps < 0:
            return event
    return run.last


def seconds_of(sleep: Mapping[str, Any]) -> float:
    return float(sleep['seconds']) + float(sleep['nanoseconds']) / 1e9


def sleep(seconds: float) -> None:
    endings.note('waiting %g second%s' % (seconds, '' if seconds == 1 else 's'))
    sleep_until(time.monotonic() + seconds)


def sleep_until(end: float) -> None:
    while time.monotonic() < end:
        time.sleep(min(end - time.monotonic(), 3600))


class Conversation:
    """A script whose requests are sent.

    limit is how many seconds a reply may take. renewal is told of what is sent, if that is a refresh token, and fresh
    gives the parameters that may have changed since the last request.
    """

    def __init__(self, script: Script, limit: float, renewal: Optional[Renewal],
                 fresh: Callable[[], Mapping[str, Any]]) -> None:
        self.script, self.limit, self.renewal, self.fresh = dict(script, replies=[]), limit, renewal, fresh
        self.sleeps = 0
        self.url: Optional[str] = None
        self.asked_at, self.got = int(time.time()), Reply(None)
        self.is_poll = script['command'] == 'device_poll'
        if self.is_poll:
            self.script['readings'] = [self.asked_at] * 2  # as the poll begins, and in its first round
        self.most: Optional[int] = script['params'].get('max_polls')

    def step(self, script: Script, sleeps: int) -> tuple[Mapping[str, Any], Run]:
        """What has to be done next, and the run that shows it."""
        run = ran(script)
        return next_of(run, len(script['replies']), sleeps), run

    def outcome(self, sleep: Callable[[float], None]) -> Outcome:
        """Does what the run shows until its answer is there: what came of it."""
        while True:
            params = {**self.script['params'], **self.fresh()}
            if self.most:  # the next request and what follows it: no more are made than that
                params['max_polls'] = min(self.most, len(self.script['replies']) + 2)
            self.script['params'] = params
            event, run = self.step(self.script, self.sleeps)
            if event['event'] == 'sleep':
                at = min(int(time.time() + seconds_of(event)), LAST_READING)
                then, later = self.step({**self.script, 'readings': [*self.script['readings'], at]}, self.sleeps + 1)
                if then['event'] in ENDS:  # one that no reply decides needs no wait
                    event, run = then, later
            if event['event'] == 'exchange':
                self.send(event)
            elif event['event'] == 'sleep':
                self.tell()
                self.shorten(run)
                sleep(seconds_of(event))
                self.sleeps, self.got = self.sleeps + 1, Reply(None)
                self.script['readings'].append(int(time.time()))
            else:
                last = self.script['replies'][-1] if self.script['replies'] else None
                got = self.got
                return Outcome(run, last, self.url, self.asked_at, got.note, got.may_retry, got.later)

    def tell(self) -> None:
        """Says what is to be known of the last reply, since others follow."""
        if self.got.note:
            endings.tell(self.got.note)

    def shorten(self, run: Run) -> None:
        """Keeps of a reply by which a poll goes on no more than its error, since each later script has it again."""
        replies, read = self.script['replies'], run.reply()
        if replies and 'body' in replies[-1] and read:
            replies[-1] = undecided(replies[-1], read['json'])

    def send(self, event: Mapping[str, Any]) -> None:
        self.tell()
        request = request_of(event)
        self.url, self.asked_at = request.url, int(time.time())
        self.got = reply_to(request, self.limit, self.renewal)
        if self.is_poll:
            self.got = of_poll(request, self.got)
        self.script['replies'].append(self.got.reply)


def undecided(reply: Mapping[str, Any], said: Any) -> Mapping[str, Any]:
    """A reply by which a poll goes on, with a body that has its error alone: that decides when the next request comes.
    said is its body, as the library reads it. A reply that is no JSON stays as it is, since an adapter reads it."""
    is_json = reply.get('content_type', JSON).startswith(JSON)
    if not (is_json and isinstance(said, dict) and said.get('error') in UNDECIDED):
        return reply
    return {**reply, 'body': json.dumps({'error': said['error']})}


def of_poll(request: Request, got: Reply) -> Reply:
    """What a poll makes of a reply: one of a server that is in trouble is as none, so that the next request comes later
    (RFC 8628, 3.5)."""
    status: int = (got.reply or {}).get('status', 0)
    if status not in RETRIED:
        return got
    return Reply(FAILED, '%s %s: %s' % (request.method, request.url, status_text(status, got.later)), True)


def answered(script: Script, limit: float, renewal: Optional[Renewal] = None, sleep: Callable[[float], None] = sleep,
             fresh: Callable[[], Mapping[str, Any]] = dict) -> Outcome:
    """What comes of a script whose requests are sent."""
    return Conversation(script, limit, renewal, fresh).outcome(sleep)
