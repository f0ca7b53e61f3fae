"""The library: a script goes in, and the events of its run come out (docs/SCRIPT.md)."""
from __future__ import annotations

import functools
import os
from typing import Any, Callable, Mapping, NamedTuple, Optional

from . import _json
from ._errors import KINDS, BadScript, LifecribError, OutOfMemory, Waiting

ANSWERED, FAULT, BAD_SCRIPT, NO_MEMORY = range(4)
LEAST_ROOM = 8192
HERE = os.path.dirname(os.path.abspath(__file__))
LIBRARY = os.path.join(HERE, 'liblifecrib.so')
PROGRAM = os.path.join(os.path.dirname(HERE), 'lifecrib_command', 'oauth2_run')
Runner = Callable[[bytes], 'tuple[int, bytes]']


class Library(NamedTuple):
    """What runs scripts: a file, and a function from a script to the exit status and the output."""

    path: str
    run: Runner


def by_library(path: str) -> Runner:
    """Runs scripts by the function of a shared library (c/lifecrib.h)."""
    import ctypes
    call = ctypes.CDLL(path).lifecrib_run  # other threads of Python run during a call
    call.argtypes = [ctypes.c_char_p, ctypes.c_size_t, ctypes.c_char_p, ctypes.c_size_t,
                     ctypes.POINTER(ctypes.c_size_t)]
    call.restype = ctypes.c_int32

    def run(script: bytes) -> tuple[int, bytes]:
        room, length = LEAST_ROOM + 4 * len(script), ctypes.c_size_t()
        while True:
            output = ctypes.create_string_buffer(room)
            status: int = call(script, len(script), output, room, ctypes.byref(length))
            if length.value <= room:
                return status, ctypes.string_at(output, length.value)
            room = length.value  # it did not fit
    return run


def by_program(path: str) -> Runner:
    """Runs scripts by a program, which reads one and writes the output. A Ctrl-C at the terminal does not end it."""
    import subprocess
    environment: dict[str, str] = {}

    def run(script: bytes) -> tuple[int, bytes]:
        ended = subprocess.run([path], input=script, stdout=subprocess.PIPE, env=environment, start_new_session=True)
        return ended.returncode, ended.stdout
    return run


@functools.lru_cache(maxsize=None)
def library() -> Library:
    """The program that LIFECRIB_PROGRAM names, the library of LIFECRIB_LIBRARY, or that of this package."""
    program = os.environ.get('LIFECRIB_PROGRAM')
    if program:
        return Library(program, by_program(program))
    path = os.environ.get('LIFECRIB_LIBRARY') or LIBRARY
    if path == LIBRARY and not os.path.exists(path):
        if os.path.exists(PROGRAM):
            return Library(PROGRAM, by_program(PROGRAM))
        raise ImportError('%s is not there: tools/package makes a wheel that has it, or LIFECRIB_LIBRARY names it'
                          % path)
    return Library(path, by_library(path))


class Run(NamedTuple):
    """A run of a script: its events in order."""

    events: list[dict[str, Any]]

    def __repr__(self) -> str:
        return 'Run(%d events, the last: %s)' % (len(self.events), self.last['event'])

    @property
    def exchanges(self) -> list[dict[str, Any]]:
        return [it for it in self.events if it['event'] == 'exchange']

    @property
    def last(self) -> dict[str, Any]:
        return self.events[-1]

    def reply(self) -> Optional[dict[str, Any]]:
        """The last reply, as the library has read it."""
        replies = (it['reply'] for it in reversed(self.events) if it['event'] == 'exchange')
        return next((it for it in replies if it is not None), None)

    def members(self) -> dict[str, Any]:
        """The members of the last reply, as they came."""
        reply = self.reply()
        found = reply['json'] if reply else None
        return found if isinstance(found, dict) else {}

    def answer(self) -> Any:
        """The answer; raises the error of a fault or of a wait."""
        if self.last['event'] != 'answer':
            raise self.error()
        return self.last['answer']

    def scopes(self) -> tuple[str, ...]:
        """The scopes of the answer, without empty ones."""
        return tuple(it for it in self.last['scopes'] or () if it)

    def error(self) -> LifecribError:
        """The error that the last event is."""
        it, reply = self.last, self.reply()
        if it['event'] == 'wait':
            found = Waiting('a request failed, and the next one may not be made yet')
            found.until = it['until']
            return found
        if it['event'] != 'fault':
            return LifecribError('the library gave no answer')
        said, unread = it.get('error') or {}, it.get('unread') or {}
        return KINDS.get(it['kind'], LifecribError)(
            it['text'], kind=it['kind'], error=said.get('error'), error_description=said.get('error_description'),
            error_uri=said.get('error_uri'), member=unread.get('member'), cause=unread.get('cause'),
            status=reply['status'] if reply else None, content_type=reply['content_type'] if reply else None)


def run_script(script: Mapping[str, Any], by: Optional[Library] = None) -> Run:
    """Runs a script (docs/SCRIPT.md), by the library of this package if no other is given. BadScript if it is none;
    OutOfMemory if there is no output."""
    by = by or library()
    status, output = by.run(_json.text_of({**script, 'result': 'json'}).encode('ascii'))
    if status == NO_MEMORY:
        raise OutOfMemory('Out of memory')
    if output == b'bad script\n':
        raise bad_script(None, None)
    try:
        events = _json.value_of(output.decode())['events']
        name = events[-1]['event']
    except (ValueError, LookupError, TypeError, RecursionError) as error:
        raise RuntimeError('%s gives no result of lifecrib (exit status %d)' % (by.path, status)) from error
    if name == 'bad_script':
        raise bad_script(events[-1]['member'], events[-1]['why'])
    return Run(events)


def bad_script(member: Optional[str], why: Optional[str]) -> BadScript:
    said = [it for it in (member and member + ' is not what it has to be', why) if it]
    return BadScript(': '.join(['bad script', *said]), member=member, why=why)
