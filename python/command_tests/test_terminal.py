"""Tests of what tools/oauth2 reads from a terminal, by a pseudo-terminal that a run has."""
import os
import pty
import select
import signal
import subprocess
import sys
import termios
import time
import unittest
import urllib.parse

import stand_in
import where

LENGTHS = (5000, 70000)  # a terminal's usual mode hands over 4,095


class Terminal(stand_in.Case):
    """Runs whose standard streams are a terminal; .shown is what it shows."""

    def begin(self, *words, **env):
        main, other = pty.openpty()
        self.before = termios.tcgetattr(other)
        self.main, self.shown = main, ''
        self.addCleanup(os.close, main)
        self.addCleanup(os.close, other)
        self.other = other
        command = [sys.executable, '-S', where.OAUTH2, *words]
        run = subprocess.Popen(command, env={**self.env, **env}, stdin=other, stdout=other, stderr=other)
        self.addCleanup(run.wait)
        self.addCleanup(run.kill)
        return run

    def read(self, seconds=0.05):
        """Takes what the run has written meanwhile."""
        while select.select([self.main], [], [], seconds)[0]:
            self.shown += os.read(self.main, 10000).decode(errors='replace')

    def asked_for(self, what):
        """Waits until the run asks for something."""
        end = time.monotonic() + 30
        while what not in self.shown:
            self.assertLess(time.monotonic(), end, self.shown)
            self.read()

    def types(self, text):
        """Types a text, as a terminal passes it on that a user pastes into."""
        rest = text if isinstance(text, bytes) else text.encode()
        while rest:
            rest = rest[os.write(self.main, rest[:1000]):]

    def ended(self, run):
        """How a run has ended; the terminal is as it was before."""
        end = time.monotonic() + 60
        while run.poll() is None:
            self.assertLess(time.monotonic(), end, self.shown)
            self.read()
        self.read()
        self.assertEqual(termios.tcgetattr(self.other), self.before)
        return run.returncode

    def given(self, what, text, *words, **env):
        """How a run ends that is given a text when it asks for something."""
        run = self.begin(*words, **env)
        self.asked_for(what + ': ')
        self.types(text + '\n')
        status = self.ended(run)
        self.assertNotIn(text[:20], self.shown)
        return status

    def test_a_token_of_any_length(self):
        server = self.by_tls()
        self.server.reply = {'active': True}
        for length in LENGTHS:
            token = 'tok' * (length // 3)
            self.assertEqual(self.given('The token', token, 'introspect'), 0, self.shown)
            self.assertEqual(self.server.asked[-1][1], {'token': token})
            self.assertEqual(self.given('The token', token, 'revoke'), 0, self.shown)
            self.assertEqual(server.asked[-1][1], {'token': token})

    def test_secrets_of_any_length(self):
        for length in LENGTHS:
            secret = 'sec' * (length // 3)
            words = ['password', '--username', 'ann', '--show']
            self.assertEqual(self.given("The user's password", secret, *words), 0, self.shown)
            self.assertEqual(self.server.asked[-1][1]['password'], secret)
            words = ['password', '--username', 'ann', '--show', '--ask-secret', '--auth', 'body']
            env = {'OAUTH2_PASSWORD': 'p'}
            self.given("The client's secret", secret, *words, **env)
            self.assertEqual(self.scripts()[-1]['client']['secret'], secret)
            self.assertEqual(self.given('The refresh token', secret, 'refresh', '--show'), 0)
            self.assertEqual(self.server.asked[-1][1]['refresh_token'], secret)

    def test_a_redirect_of_any_length(self):
        for length in LENGTHS:
            run = self.begin('login', '--redirect', 'https://app.example/cb', '--show')
            self.asked_for('The address: ')
            url = next(it for it in self.shown.split() if it.startswith('http'))
            state = urllib.parse.parse_qs(urllib.parse.urlsplit(url).query)['state'][0]
            code = 'cod' * (length // 3)
            self.types('https://app.example/cb?state=%s&code=%s\n' % (state, code))
            self.assertEqual(self.ended(run), 0, self.shown)
            self.assertEqual(self.server.asked[-1][1]['code'], code)
            self.assertNotIn('code=', self.shown)

    def test_keys_that_change_the_line(self):
        for typed, wanted in ((b'ab\x7fc\n', 'ac'), (b'ab\x15c\n', 'c'), (b'\x7f\x08a\r', 'a'),
                              ('aé\x7fb\n'.encode(), 'ab'), (b'ab\x04', 'ab')):
            run = self.begin('refresh', '--show')
            self.asked_for('The refresh token: ')
            self.types(typed)
            self.assertEqual(self.ended(run), 0, self.shown)
            self.assertEqual(self.server.asked[-1][1]['refresh_token'], wanted)

    def test_nothing_and_no_text(self):
        for typed, said in ((b'\n', 'The refresh token is missing'), (b'\x04', 'is missing'),
                            (b'\xff\n', 'The refresh token is not UTF-8')):
            run = self.begin('refresh')
            self.asked_for('The refresh token: ')
            self.types(typed)
            self.assertEqual(self.ended(run), 2)
            self.assertIn(said, self.shown)

    def test_a_signal_leaves_the_terminal_as_it_was(self):
        for number in signal.SIGINT, signal.SIGTERM, signal.SIGHUP, signal.SIGQUIT:
            run = self.begin('refresh')
            self.asked_for('The refresh token: ')
            self.types('abc')
            run.send_signal(number)
            self.assertEqual(self.ended(run), 128 + number)
            self.assertIn('ended by the signal %s' % number.name, self.shown)

    def test_what_is_typed_after_a_stop_is_not_shown(self):
        run = self.begin('refresh', '--show')
        self.asked_for('The refresh token: ')
        run.send_signal(signal.SIGTSTP)
        os.waitid(os.P_PID, run.pid, os.WSTOPPED | os.WNOWAIT)
        self.assertEqual(termios.tcgetattr(self.other), self.before)
        self.shown = ''
        run.send_signal(signal.SIGCONT)
        self.asked_for('The refresh token: ')
        self.types('secret\n')
        self.assertEqual(self.ended(run), 0)
        self.assertNotIn('secret', self.shown)
        self.assertEqual(self.server.asked[-1][1]['refresh_token'], 'secret')


if __name__ == '__main__':
    unittest.main()
