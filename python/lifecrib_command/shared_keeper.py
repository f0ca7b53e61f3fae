"""The proved keeper of a token that many processes share, the program oauth2_shared_tests, and what it asks:
for the tools beside this file."""
from __future__ import annotations

import secrets
import subprocess
import time
from types import TracebackType
from typing import NamedTuple, Optional, Protocol


class Store(Protocol):
    """Where values are, each with its version: shared_stores.py."""

    def load(self, name: str) -> Optional[tuple[int, str]]:
        """The version of a name and what it has; None where that is not known."""

    def replace(self, name: str, version: int, text: str) -> Optional[bool]:
        """Whether this takes the place of that version; None where that is not known."""


class Settings(NamedTuple):
    """How a keeper does its work; times are in milliseconds."""

    margin: int = 0
    old_margin: int = 0
    wait: int = 0
    rounds: int = 1
    loads: int = 4
    repeats: int = 4


class Keeper:
    """The program while it runs, over a store, as a context. A kind of it says what a refresh is.

    One that is alone gets no signal from the terminal, and says nothing on standard error.
    """

    def __init__(self, path: str, store: Store, settings: Settings, is_alone: bool = False) -> None:
        self.store = store
        no_variables: dict[str, str] = {}
        self.run = subprocess.Popen([path], stdin=subprocess.PIPE, stdout=subprocess.PIPE, env=no_variables, text=True,
                                    bufsize=1,
                                    stderr=subprocess.DEVNULL if is_alone else None, start_new_session=is_alone)
        self.say('settings %d %d %d %d %d %d' % settings)

    def __enter__(self) -> 'Keeper':
        return self

    def __exit__(self, _kind: Optional[type], _error: Optional[BaseException], _where: Optional[TracebackType]) -> None:
        """Ends the program, which may stop anywhere."""
        self.run.kill()
        self.run.communicate()

    def say(self, line: str) -> None:
        assert self.run.stdin
        self.run.stdin.write(line + '\n')
        self.run.stdin.flush()

    def refreshed(self, token: str) -> Optional[str]:
        """The new token that the server gives for this one; None where it gives none."""
        raise NotImplementedError

    def load(self, name: str) -> Optional[tuple[int, str]]:
        return self.store.load(name)

    def replace(self, name: str, version: int, text: str) -> Optional[bool]:
        return self.store.replace(name, version, text)

    def sleep(self, seconds: float) -> None:
        time.sleep(seconds)

    def drawn(self) -> int:
        """The name of a renewal, which no other one has."""
        return secrets.randbits(128)

    def answer(self, words: list[str]) -> str:
        """What the program is answered."""
        if words[0] == 'load':
            value = self.load(words[1])
            return 'silent' if value is None else '%d %s' % value
        if words[0] == 'replace':
            done = self.replace(words[1], int(words[2]), ' '.join(words[3:]))
            return {True: 'done', False: 'refused', None: 'silent'}[done]
        if words[0] == 'refresh':
            new = self.refreshed(words[1])
            return 'silent' if new is None else 'new ' + new
        if words[0] == 'now':
            return str(int(time.time() * 1000))
        if words[0] == 'sleep':
            self.sleep(int(words[1]) / 1000)
            return 'slept'
        return str(self.drawn())

    def call(self, line: str) -> list[str]:
        """What the program tells of a call, as words. OSError where it ends before."""
        assert self.run.stdout
        self.say(line)
        for asked in self.run.stdout:
            words = asked.split()
            if words[0] == '=':
                return words[1:]
            self.say(self.answer(words))
        raise OSError('the program has ended')
