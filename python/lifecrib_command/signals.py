"""How a signal ends the command: at once, or once nothing is left half done.

A thread waits for the signals and ends the process, so nothing of theirs runs in the middle of what the other threads
do. What may not be cut there holds the lock.
"""
from __future__ import annotations

import contextlib
import os
import signal
import threading

from .endings import note, tell

TYPE_CHECKING = False
if TYPE_CHECKING:  # typing takes a while to load
    from types import FrameType
    from typing import Callable, Iterator, Optional

ENDING = (signal.SIGINT, signal.SIGTERM, signal.SIGHUP, signal.SIGQUIT)
lock = threading.RLock()  # whoever has it can't be cut
# What has to be undone before the command ends, the last first. Each may be called twice.
to_undo: list[Callable[[], object]] = []
# What other signals do.
calls: dict[int, Callable[[], object]] = {}


def watch() -> None:
    """Has these signals end the command; not one that is ignored, as nohup and a shell have it."""
    here, there = os.pipe()
    os.set_blocking(there, False)
    signal.set_wakeup_fd(there, warn_on_full_buffer=False)
    for number in ENDING:
        if signal.getsignal(number) != signal.SIG_IGN:
            signal.signal(number, leave_it)
    threading.Thread(target=listen, args=(here,), daemon=True).start()


def leave_it(_number: int, _frame: Optional[FrameType]) -> None:
    """Does nothing, since the thread gets the number."""


def listen(here: int) -> None:
    while True:
        for number in os.read(here, 1 << 10):
            came(number)


def came(number: int) -> None:
    if number in calls:
        with contextlib.suppress(Exception):  # as where the terminal is gone
            calls[number]()
        return
    with lock:
        if hold.why is None or number == signal.SIGQUIT:
            end(number)
        if not hold.waiting:
            note('the signal %s waits: %s' % (signal.Signals(number).name, hold.why))
        hold.waiting.append(number)


class Hold:
    """Lets the signals that would end the command wait, from .begin() to .end(); not SIGQUIT."""

    def __init__(self) -> None:
        self.why: Optional[str] = None
        self.waiting: list[int] = []

    def begin(self, why: str) -> None:
        with lock:
            self.why = why

    def end(self) -> None:
        with lock:
            self.why = None
            if self.waiting:
                end(self.waiting[0])


hold = Hold()


def end(number: int) -> None:
    """Ends the process by a signal; whoever calls it has the lock."""
    for it in reversed(to_undo):
        with contextlib.suppress(OSError, ValueError):
            it()
    tell('ended by the signal %s' % signal.Signals(number).name)
    os._exit(128 + number)


def let_end() -> None:
    """Waits where a signal ends the process, so that nothing else is said of its end."""
    with lock:
        pass


@contextlib.contextmanager
def uncut(undo: Callable[[], object]) -> Iterator[None]:
    """A context that no signal cuts; what it makes is undone by this if a signal ends the process afterwards."""
    with lock:
        to_undo.append(undo)
        yield


def is_done(undo: Callable[[], object]) -> None:
    """Nothing has to be undone by this any more."""
    with lock:
        if undo in to_undo:
            to_undo.remove(undo)


@contextlib.contextmanager
def undone(undo: Callable[[], object]) -> Iterator[None]:
    """A context that ends with this, also where a signal ends it."""
    with uncut(undo):
        pass
    try:
        yield
    finally:
        undo()
        is_done(undo)


@contextlib.contextmanager
def handled(number: int, by: Callable[[], object]) -> Iterator[None]:
    """A context in which a signal calls this, unless it is ignored."""
    before = signal.getsignal(number)
    if before != signal.SIG_IGN:
        calls[number] = by
        signal.signal(number, leave_it)
    try:
        yield
    finally:
        signal.signal(number, before)
        calls.pop(number, None)
