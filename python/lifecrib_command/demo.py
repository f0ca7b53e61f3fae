"""`demo`: gets tokens from a small authorization server on this machine, and shows each request and reply.

Each step is a run of this command, as a user would type it. What it asks and is told goes to standard error, and its
token to standard output.
"""
from __future__ import annotations

import functools
import os
import shlex
import shutil
import subprocess
import sys
import tempfile
from typing import Mapping, NamedTuple

from . import answers, endings, signals
from .demo_server import CLIENT, LIFE, SECRET, USER_CODE, Server
from .endings import Stop, say

# What the demo uses as a browser: it goes where it is sent, as the server approves each user at once.
BROWSER = ('import sys, urllib.request as it; '
           'it.build_opener(it.ProxyHandler({})).open(sys.argv[1], timeout=30).read()')
KEPT_ENV = ('OAUTH2_PROGRAM', 'OAUTH2_KEEPER')  # of the variables of this command


class Step(NamedTuple):
    """What a step gets, the words of the command by which it does, and what is to be known of it."""

    what: str
    words: tuple[str, ...]
    note: str = ''


def steps_at(url: str, cache: str) -> list[Step]:
    """The steps, at a server and with a file for a kept token."""
    token = ('--client-id', CLIENT, '--token-url', url + '/token')
    login = ('login', *token, '--auth-url', url + '/authorize', '--redirect', 'http://127.0.0.1/back', '--listen', '0',
             '--wait', '60')
    return [Step('client credentials', ('token', *token)),
            Step('login in a browser', (*login, '--cache', cache)),
            Step('the kept token', ('token', *token, '--cache', cache), 'it is good, so no request is made'),
            Step('the renewed token', ('token', *token, '--cache', cache, '--margin', str(2 * LIFE))),
            Step('sign-in on a device', ('device', *token, '--device-url', url + '/device'),
                 'the user would enter %s; here nobody has to' % USER_CODE)]


def run() -> int:
    """Runs the demo: its exit status."""
    room = tempfile.mkdtemp(prefix='lifecrib-demo-')
    remove = functools.partial(shutil.rmtree, room, ignore_errors=True)
    with signals.uncut(remove):
        server = Server()
    try:
        say('a small authorization server runs at %s, for this demo alone: its client is %s with the secret %s,'
            % (server.url, CLIENT, SECRET))
        say('and it approves each user at once; what you see is otherwise as at a real server')
        env = environment(room)
        steps = steps_at(server.url, os.path.join(room, 'token'))
        for number, step in enumerate(steps, 1):
            answers.put('%d. %s: %s\n' % (number, step.what, token_of(step, env)))
        answers.put('%d steps, and the server is gone\n' % len(steps))
        return 0
    finally:
        server.shutdown()
        server.server_close()
        remove()
        signals.is_done(remove)


def environment(room: str) -> dict[str, str]:
    """The environment of each step: no setting of the user's, the client's secret, and the browser of the demo."""
    browser = os.path.join(room, 'browser')
    with open(browser, 'w', encoding='utf-8') as f:
        f.write('#!/bin/sh\nexec %s -I -c %s "$1"\n' % (shlex.quote(sys.executable), shlex.quote(BROWSER)))
    os.chmod(browser, 0o700)
    own = {name: value for name, value in os.environ.items() if not name.startswith('OAUTH2_') or name in KEPT_ENV}
    return {**own, 'OAUTH2_CLIENT_SECRET': SECRET, 'BROWSER': browser}


def token_of(step: Step, env: Mapping[str, str]) -> str:
    """The token of a step. Stops where it has none."""
    say('')
    say('$ %s' % shlex.join((endings.command, *step.words)))
    if step.note:
        say('(%s)' % step.note)
    words = [sys.executable, *flags_of_python(), sys.argv[0], *step.words, '--output', 'token', '--no-profile',
             '--verbose']
    ended = subprocess.run(words, env=env, stdin=subprocess.DEVNULL, stdout=subprocess.PIPE)
    if ended.returncode:
        raise Stop('the demo ends here: its step "%s" has the exit status %d' % (step.what, ended.returncode),
                   ended.returncode if ended.returncode > 0 else endings.NO_ANSWER)
    return ended.stdout.decode().strip()


def flags_of_python() -> list[str]:
    """The flags with which this Python runs that its steps need too."""
    return ['-S'] if sys.flags.no_site else []
