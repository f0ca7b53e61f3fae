"""The lock of a file, and which process has it."""
from __future__ import annotations

import fcntl
import os
from typing import IO

NOBODY = 'another run'  # where the system doesn't say which


def takes(file: IO[str]) -> bool:
    """Locks a file for this process alone, unless another has it."""
    try:
        fcntl.flock(file, fcntl.LOCK_EX | fcntl.LOCK_NB)
        return True
    except BlockingIOError:
        return False


def holder(file: IO[str]) -> str:
    """Who has the lock of a file: the process by its number and its command, as Linux tells it."""
    found = os.fstat(file.fileno())
    at = '%02x:%02x:%d' % (os.major(found.st_dev), os.minor(found.st_dev), found.st_ino)
    try:
        with open('/proc/locks', encoding='ascii') as f:
            rows = [line.split() for line in f]
        # as '1: FLOCK ADVISORY WRITE 4711 00:2f:123 0 EOF'; a row of one that waits has '->' in it
        number = next(int(row[4]) for row in rows if at in row and '->' not in row)
        with open('/proc/%d/cmdline' % number, encoding='utf-8', errors='replace') as f:
            words = f.read().split('\0')
    except (OSError, ValueError, IndexError, StopIteration):
        return NOBODY
    names = [os.path.basename(it) for it in words]
    ours = [at for at, it in enumerate(names) if it in ('oauth2', 'lifecrib')]
    # of the others, some may be secrets of the user
    command = ' '.join(words[ours[0]:][:2]) if ours else names[0]
    return 'process %d (%s)' % (number, command)
