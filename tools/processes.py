"""The processes that a tool has started, and all that those have started in turn; for the tools beside this file."""
import contextlib
import os
import signal
import time

PATIENCE = 5  # seconds in which a process may end by itself


def stat_of(number):
    """The state of a process and the number of its parent; None if there is no such process, or if it has ended."""
    try:
        with open('/proc/%d/stat' % number, encoding='utf-8', errors='replace') as f:
            state, parent = f.read().rpartition(') ')[2].split()[:2]
    except OSError:
        return None
    return None if state == 'Z' else (state, int(parent))


def tree_of(numbers):
    """These processes and all below them, by their numbers: also those that lead a session of their own, as a compiler may."""
    parents = {int(it): stat_of(int(it)) for it in os.listdir('/proc') if it.isdigit()}
    found = list(numbers)
    for number in found:
        found += [it for it, stat in parents.items() if stat and stat[1] == number and it not in found]
    return found


def end(numbers):
    """Ends these processes and all below them: by SIGTERM, and those that then still run by SIGKILL."""
    found = tree_of(numbers)
    for by in (signal.SIGTERM, signal.SIGKILL):
        found = list(dict.fromkeys([*found, *tree_of(found)]))
        for it in found:
            with contextlib.suppress(ProcessLookupError, PermissionError):
                os.kill(it, by)
        until = time.monotonic() + PATIENCE
        while any(map(stat_of, found)) and time.monotonic() < until:
            time.sleep(0.02)
