"""Reads a line from a terminal without showing it.

In its usual mode a terminal hands over 4,095 bytes of a line, and drops the others without a word.
So the line is read as it is typed, and the keys that change it are read here.
"""
from __future__ import annotations

import contextlib
import os
import signal
import termios

from . import signals

MODES, KEYS = 3, 6  # what tcgetattr has there
BACKSPACES = b'\b\x7f'


class Terminal:
    """A terminal that shows nothing of what is typed, as a context."""

    def __init__(self, number: int, prompt: str) -> None:
        self.number, self.prompt = number, prompt
        self.before = termios.tcgetattr(number)
        keys = self.before[KEYS]
        self.erase = {*BACKSPACES, *keys[termios.VERASE]} - {0}
        self.kill, self.end = ord(keys[termios.VKILL]), ord(keys[termios.VEOF])

    def is_ours(self) -> bool:
        """Whether this run is in the foreground; also where no shell says who is."""
        with contextlib.suppress(OSError):
            return os.tcgetpgrp(self.number) == os.getpgrp()
        return True

    def hide(self) -> None:
        """Shows nothing, hands over each byte at once, and asks for the line."""
        if self.is_ours():
            mode = termios.tcgetattr(self.number)
            mode[MODES] &= ~(termios.ECHO | termios.ICANON | termios.IEXTEN)
            mode[KEYS][termios.VMIN], mode[KEYS][termios.VTIME] = 1, 0
            # what was typed before is dropped: it may be cut
            termios.tcsetattr(self.number, termios.TCSAFLUSH, mode)
            with contextlib.suppress(OSError):
                os.write(2, self.prompt.encode())

    def restore(self) -> None:
        if self.is_ours():
            termios.tcsetattr(self.number, termios.TCSAFLUSH, self.before)

    def stop(self) -> None:
        """Ctrl-Z."""
        self.restore()
        os.kill(os.getpid(), signal.SIGSTOP)

    def line(self) -> bytes:
        """What is typed up to the end of the line, or of the input."""
        found = bytearray()
        while True:
            typed = os.read(self.number, 1 << 16)
            for byte in typed:
                if byte in b'\r\n' or byte == self.end:
                    return bytes(found)
                self.take(byte, found)
            if not typed:
                return bytes(found)

    def take(self, byte: int, found: bytearray) -> None:
        """Puts a byte that was typed behind the others, or does what its key does."""
        if byte in self.erase:
            while found and found.pop() & 0xc0 == 0x80:  # a letter of several bytes
                pass
        elif byte == self.kill:
            found.clear()
        else:
            found.append(byte)


def line_of(number: int, prompt: str) -> bytes:
    """A line from a terminal, which doesn't show it and is as it was afterwards."""
    it = Terminal(number, prompt)
    with signals.undone(it.restore), signals.handled(signal.SIGTSTP, it.stop), \
            signals.handled(signal.SIGCONT, it.hide):
        it.hide()
        found = it.line()
    with contextlib.suppress(OSError):
        os.write(2, b'\n')
    return found
