"""Tests of the lock that runs of `tools/oauth2 --cache` have on their file."""
import contextlib
import fcntl
import os
import subprocess
import sys
import time
import unittest

import where
from stand_in import OK
from test_renewal import Case

from lifecrib_command import locks

# Locks a file until its standard input ends, as a run of the tool does.
LOCKS = '''import fcntl, sys
file = open(sys.argv[2])
fcntl.flock(file, fcntl.LOCK_EX)
print(flush=True)
sys.stdin.read()
'''


class Lock(Case):
    @contextlib.contextmanager
    def locked(self, path):
        """The number of a process that has the lock of a file meanwhile."""
        program = os.path.join(self.folder(), 'oauth2')
        with open(program, 'w', encoding='utf-8') as f:
            f.write(LOCKS)
        pipes = dict.fromkeys(('stdin', 'stdout'), subprocess.PIPE)
        with subprocess.Popen([sys.executable, program, 'login', path], **pipes) as run:
            run.stdout.readline()
            try:
                yield run.pid
            finally:
                run.stdin.close()

    def test_a_good_token_needs_no_lock(self):
        path = self.cache('1', ends=1000)
        with self.locked(path):
            self.assertEqual(self.token(path), (0, 'old', ''))
            words = ['login', '--cache', path, '--quiet', '--output', 'token']
            self.assertEqual(self.run_tool(*words), (0, 'old\n', ''))
        os.chmod(path, 0o400)
        self.assertEqual(self.token(path), (0, 'old', ''))

    def test_waiting_has_an_end_and_says_for_whom(self):
        path = self.cache('1', ends=0)
        with self.locked(path) as number:
            begun = time.monotonic()
            status, out, err = self.token(path, '--timeout', '0.5')
        self.assertLess(time.monotonic() - begun, 10)
        self.assertEqual((status, out, self.server.asked), (9, '', []))
        lines = err.strip().split('\n')
        self.assertRegex(lines[0], r'waiting for (process %d \(\S*oauth2 login\)|another run), which uses %s'
                         % (number, path))
        self.assertRegex(lines[1], r'has used %s for more than 0\.5 seconds \(--timeout\), so nothing was sent'
                         % path)
        self.assertEqual(len(lines), 2)

    def test_a_token_that_has_not_ended_is_handed_out_then(self):
        path = self.cache('1')
        with self.locked(path):
            status, out, err = self.token(path, '--timeout', '0.5')
            self.assertEqual((status, out), (0, 'old'))
            self.assertIn('but not renewed: ', err)
            words = ['refresh', '--cache', path, '--timeout', '0.5']
            self.assertEqual(self.run_tool(*words)[0], 9)

    def test_an_answer_that_finds_it_locked_is_shown(self):
        path = self.cache('1')
        words = ['password', '--username', 'ann', '--anew', '--cache', path, '--timeout', '2']
        with self.locked(path):
            self.assertEqual(self.run_tool(*words, OAUTH2_PASSWORD='p')[:2], (9, ''))
        self.assertEqual(self.server.asked, [])
        with open(path, encoding='utf-8') as file:
            self.server.reply = lambda _: fcntl.flock(file, fcntl.LOCK_EX) or {**OK, 'access_token': 'n'}
            status, out, _ = self.run_tool(*words, OAUTH2_PASSWORD='p')
        self.assertEqual((status, '"access_token":"n"' in out), (4, True))

    def is_free(self, path):
        with open(path, encoding='utf-8') as f:
            try:
                fcntl.flock(f, fcntl.LOCK_EX | fcntl.LOCK_NB)
                return True
            except BlockingIOError:
                return False

    def test_it_is_not_locked_while_the_user_is_asked(self):
        path = self.cache('1', ends=0)
        self.env['OAUTH2_REVOCATION_URL'] = 'https://localhost:1/revocation'
        for words, status in ((['token'], 0), (['refresh'], 0), (['login', '--redirect', 'https://a.example/'], 0),
                              (['token', '--anew'], 0), (['revoke'], 9)):
            with self.subTest(words):
                self.server.reply = {'access_token': 'n', 'token_type': 'bearer', 'expires_in': 0}
                run = self.start(*words, '--cache', path, '--ask-secret')
                time.sleep(0.6)
                self.assertIsNone(run.poll())
                self.assertTrue(self.is_free(path))
                out, err = run.communicate('secret\n', timeout=60)
                self.assertEqual(run.returncode, status, err)
                self.assertEqual(self.scripts()[-1]['client']['secret'], 'secret')


class Holder(unittest.TestCase):
    def test_of_no_lock(self):
        with open(os.devnull, encoding='utf-8') as f:
            self.assertEqual(locks.holder(f), locks.NOBODY)


if __name__ == '__main__':
    unittest.main()
