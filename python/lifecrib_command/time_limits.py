"""Work that ends in time, whatever it waits for."""
from __future__ import annotations

import queue
import threading
from typing import Callable, Optional, TypeVar

T = TypeVar('T')


def in_time(work: Callable[[], T], seconds: float) -> T:
    """What comes of work. TimeoutError where it takes longer; what it does then comes too late.

    It runs in a thread of its own, since nothing ends the look-up of a name, not even a signal.
    """
    done: queue.SimpleQueue[tuple[Optional[T], Optional[BaseException]]] = queue.SimpleQueue()

    def run() -> None:
        try:
            done.put((work(), None))
        except BaseException as error:  # raised where it was asked for
            done.put((None, error))
    threading.Thread(target=run, daemon=True).start()
    try:
        found, error = done.get(timeout=seconds)
    except queue.Empty:
        raise TimeoutError from None
    if error:
        raise error
    return found  # type: ignore[return-value]
