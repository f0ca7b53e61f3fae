"""A redis-server of its own, which syncs each write; for the tools and tests that try a shared token over a real one."""
from __future__ import annotations

import shutil
import socket
import subprocess
import time

import pythons


def python() -> str | None:
    """The Python that has the module redis; None where there is none, or no redis-server."""
    return pythons.that_has('redis') if shutil.which('redis-server') else None


def free_port() -> int:
    with socket.socket() as s:
        s.bind(('127.0.0.1', 0))
        return int(s.getsockname()[1])


class Redis:
    """A redis-server with its data in a folder. Its port stays when it is killed and started again."""

    def __init__(self, folder: str, *more: str) -> None:
        self.port = free_port()
        self.words = ['redis-server', '--port', str(self.port), '--bind', '127.0.0.1', '--dir', folder, '--appendonly', 'yes',
                      '--appendfsync', 'always', '--save', '', '--maxmemory-policy', 'noeviction', *more]
        self.start()

    def start(self) -> None:
        self.run = subprocess.Popen(self.words, stdout=subprocess.DEVNULL)
        for _ in range(200):
            try:
                socket.create_connection(('127.0.0.1', self.port), timeout=1).close()
                return
            except OSError:
                time.sleep(0.05)
        raise OSError('redis-server does not start')

    def restart(self) -> None:
        self.stop()
        self.start()

    def stop(self) -> None:
        self.run.kill()
        self.run.wait()
