"""What `device` shows while it waits for the user."""
from __future__ import annotations

import os
import time
from typing import Callable

from . import conversation, endings


def sleep_of(code: str, seconds: float) -> Callable[[float], None]:
    """How to sleep while the code stays on screen: a terminal gets one line that counts down, and all else one line."""
    end, is_told = time.monotonic() + seconds, False

    def sleep(wait: float) -> None:
        nonlocal is_told
        if endings.quiet or not os.isatty(2):
            if not is_told:
                endings.note('waiting for the user, for %d seconds at most' % seconds)
            is_told = True
            conversation.sleep_until(time.monotonic() + wait)
            return
        until = time.monotonic() + wait
        while time.monotonic() < until:
            left = max(0, round(end - time.monotonic()))
            endings.say_for_now('enter the code %s: %d seconds left' % (code, left))
            conversation.sleep_until(min(until, time.monotonic() + 1))
    return sleep
