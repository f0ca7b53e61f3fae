"""Tests of renewals by `tools/oauth2 --cache` that a signal, a time limit or a full disk meets."""
import concurrent.futures
import contextlib
import glob
import json
import os
import signal
import subprocess
import sys
import threading
import time
import unittest
from unittest import mock

import stand_in
import where
from stand_in import OK

from lifecrib import Request
from lifecrib_command import http_requests, renewal, signals, wire_log

MOMENTS = int(os.environ.get('MOMENTS', '5'))  # of a renewal, at which each signal comes
TRIES = 20  # of such a renewal, where a signal comes before the tool has begun


class Case(stand_in.Case):
    """A server that takes each refresh token once: of the login k they are k.0, k.1, .."""

    def setUp(self):
        super().setUp()
        self.logins, self.lock, self.meanwhile = {}, threading.Lock(), lambda: None
        self.server.reply = self.renewed
        self.more = {}

    def renewed(self, asked):
        login, _, number = asked['refresh_token'].partition('.')
        with self.lock:
            if self.logins.get(login, 0) != int(number):
                return 400, {}, {'error': 'invalid_grant'}
            self.logins[login] = int(number) + 1
        self.meanwhile()
        token = 't%s.%d' % (login, int(number) + 1)
        return {**OK, 'access_token': token, 'refresh_token': token[1:], **self.more}

    def cache(self, login, folder=None, ends=30):
        """The path of a file that keeps a login, whose token ends in so many seconds."""
        path, now = os.path.join(folder or self.room, 'cache%s' % login), int(time.time())
        entry = {'format': 'cache of tools/oauth2, 1', 'command': 'login', 'client_id': 'aaa',
                 'issuer': None, 'token_url': self.env['OAUTH2_TOKEN_URL'], 'auth': None,
                 'username': None, 'scopes': [], 'extra': [], 'obtained_at': now,
                 'expires_at': now + ends, 'answer': '{"access_token":"old","token_type":"bearer"}',
                 'refresh_token': '%s.0' % login, 'user': None}
        with open(path, 'w', encoding='utf-8') as f:
            os.chmod(path, 0o600)
            json.dump(entry, f)
        return path

    def token(self, path, *words, **env):
        """The status of a run that renews, the token, and what it says."""
        status, out, err = self.run_tool('token', '--cache', path, '--output', 'token', *words, **env)
        return status, out.strip(), err


def has_not_begun(status, err):
    """Whether SIGINT met Python before it ran anything of the tool, as it does with "Fatal Python error:
    init_sys_streams"."""
    return status == 1 and 'KeyboardInterrupt' in err and 'oauth2' not in err


class Interrupted(Case):
    def one(self, number, login, is_asked, after):
        """Sends a signal so many seconds after a renewal has begun, or after the server has got it: how that ends, and
        the next one."""
        path = self.cache(login)
        with open(path, encoding='utf-8') as f:
            kept = f.read()
        for _ in range(TRIES):
            run = self.start('token', '--cache', path)
            while is_asked and login not in self.logins:
                time.sleep(0.01)
            time.sleep(after)
            with contextlib.suppress(ProcessLookupError):
                os.kill(run.pid, number)
            err = run.communicate(timeout=120)[1]
            self.assertEqual(sorted(glob.glob(path + '*')), [path])
            if not has_not_begun(run.returncode, err):
                break
            with open(path, encoding='utf-8') as f:
                self.assertEqual((f.read(), login in self.logins), (kept, False))
            after += 0.05
        return (run.returncode, err), self.token(path, '--margin', '7200')[::2]

    def test_each_signal_at_several_moments(self):
        for number in signals.ENDING[:3]:  # a shell may have them ignored
            self.addCleanup(signal.signal, number, signal.signal(number, lambda *_: None))
        self.meanwhile = lambda: time.sleep(1)
        rows = [(number, str(100 * number + at), at % 2, 1.2 * at / MOMENTS)
                for number in signals.ENDING[:3] for at in range(MOMENTS)]
        with concurrent.futures.ThreadPoolExecutor(8) as pool:
            found = list(pool.map(lambda row: self.one(*row), rows))
        self.assertEqual({status for _, (status, _) in found}, {0}, found)
        self.assertLessEqual({status for (status, _), _ in found}, {0, 129, 130, 143, -1, -2, -15}, found)

    def test_a_signal_before_the_tool_has_begun(self):
        fatal = "Fatal Python error: init_sys_streams: can't initialize sys standard streams\n"
        for status, err, wanted in ((1, fatal + 'KeyboardInterrupt\n', True),
                                    (1, 'File "/a/tools/oauth2", line 7\nKeyboardInterrupt\n', False),
                                    (1, 'tools/oauth2: KeyboardInterrupt', False),
                                    (-2, fatal + 'KeyboardInterrupt\n', False),
                                    (1, 'MemoryError\n', False)):
            self.assertEqual(has_not_begun(status, err), wanted)

    def test_a_signal_waits_for_the_reply(self):
        waits = threading.Event()
        self.meanwhile = lambda: waits.wait(20)
        path = self.cache('1')
        run = self.start('token', '--cache', path, '--output', 'token')
        while not self.server.asked:
            time.sleep(0.02)
        for _ in range(2):
            run.send_signal(signal.SIGTERM)
            time.sleep(0.3)
        waits.set()
        out, err = run.communicate(timeout=60)
        self.assertEqual((run.returncode, out), (143, ''))
        self.assertRegex(err, r'\Atools/oauth2: the signal SIGTERM waits: .*\n'
                              r'tools/oauth2: ended by the signal SIGTERM\n\Z')
        self.assertEqual(self.token(path)[:2], (0, 't1.1'))

    def test_a_signal_does_not_wait_once_the_renewal_has_failed(self):
        self.logins['1'] = 7
        words = ['login', '--cache', self.cache('1', ends=0), '--listen', '--no-browser']
        run = self.start(*words)
        for line in run.stderr:
            if 'waiting for the browser' in line:
                break
        run.send_signal(signal.SIGTERM)
        err = run.communicate(timeout=20)[1]
        self.assertEqual((run.returncode, err), (143, 'tools/oauth2: ended by the signal SIGTERM\n'))

    def test_sigquit_does_not_wait(self):
        waits = threading.Event()
        self.addCleanup(waits.set)
        self.meanwhile = lambda: waits.wait(30)
        run = self.start('token', '--cache', self.cache('1'))
        while not self.server.asked:
            time.sleep(0.02)
        run.send_signal(signal.SIGQUIT)
        run.communicate(timeout=20)
        self.assertEqual(run.returncode, 131)


class Late(Case):
    def test_the_time_limit_is_longer_once_the_token_is_sent(self):
        self.meanwhile = lambda: time.sleep(1.5)
        self.assertEqual(self.token(self.cache('1'), '--timeout', '0.7')[:2], (0, 't1.1'))

    def test_it_has_an_end(self):
        self.meanwhile = lambda: time.sleep(3)
        request = Request('POST', self.env['OAUTH2_TOKEN_URL'], (), b'refresh_token=1.0')
        self.addCleanup(setattr, signals.hold, 'why', None)
        with mock.patch.object(renewal, 'AT_LEAST', 0.5):
            reply, note, may_retry, _ = http_requests.reply_to(request, 0.1, renewal.Renewal(None))
        self.assertEqual((reply, may_retry), ({'fail': True}, True))
        self.assertIn('no whole reply within 0.5 seconds', note)


class Shown(Case):
    def test_a_reply_is_noted_before_it_is_shown(self):
        """Standard error may stand still, as that of a pager does."""
        waits, found = threading.Event(), renewal.Renewal(None)
        self.addCleanup(waits.set)
        self.addCleanup(setattr, signals.hold, 'why', None)
        request = Request('POST', self.env['OAUTH2_TOKEN_URL'], (), b'refresh_token=1.0')
        with mock.patch.object(renewal, 'AT_LEAST', 0.5), \
                mock.patch.object(wire_log, 'received', lambda *_: waits.wait(30)):
            self.assertEqual(http_requests.reply_to(request, 0.1, found).reply, {'fail': True})
        self.assertEqual(json.loads(found.body)['refresh_token'], '1.1')


def tmpfs(folder, size):
    """Mounts a small file system; whether that can be."""
    with contextlib.suppress(OSError):
        words = ['mount', '-t', 'tmpfs', '-o', 'size=%d' % size, 'tmpfs', folder]
        return subprocess.run(words, capture_output=True).returncode == 0
    return False


class Full(Case):
    """A file system that is full, or gone."""

    def setUp(self):
        super().setUp()
        self.small = self.folder()
        if not tmpfs(self.small, 1 << 17):
            self.skipTest('no file system can be mounted')
        self.addCleanup(subprocess.run, ['umount', self.small])
        self.path = self.cache('1', self.small)

    def fill(self):
        with contextlib.suppress(OSError), open(os.path.join(self.small, 'full'), 'wb') as f:
            for _ in range(1 << 8):
                f.write(bytes(1 << 12))
                f.flush()

    def test_before_anything_is_sent(self):
        self.fill()
        said = 'there is no room for a new token beside %s (No space left on device), so nothing was sent' % self.path
        status, out, err = self.token(self.path)
        self.assertEqual((status, out), (0, 'old'))
        self.assertIn('but not renewed: ' + said, err)
        self.cache('1', self.small, 0)
        status, out, err = self.token(self.path)
        self.assertEqual((status, out, err), (125, '', 'tools/oauth2: %s\n' % said))
        self.assertEqual(self.server.asked, [])
        os.unlink(os.path.join(self.small, 'full'))
        self.assertEqual(self.token(self.path)[:2], (0, 't1.1'))
        self.assertEqual(os.listdir(self.small), ['cache1'])

    def test_while_the_server_answers(self):
        self.meanwhile = self.fill
        self.assertEqual(self.token(self.path)[:2], (0, 't1.1'))
        self.assertEqual(self.token(self.path)[:2], (0, 't1.1'))

    def test_an_answer_for_which_there_is_no_room(self):
        self.more = {'id_token': 'i' * 200000}
        status, out, err = self.token(self.path)
        self.assertEqual((status, out), (4, 't1.1'))
        self.assertIn('%s could not be written (No space left on device)' % self.path, err)
        self.assertIn('kept nowhere else than in the line that follows:\n{"format": ', err)
        self.assertEqual(json.loads(err.strip().split('\n')[-1])['refresh_token'], '1.1')
        self.assertEqual(os.listdir(self.small), ['cache1'])

    def test_a_read_only_folder(self):
        subprocess.run(['mount', '-o', 'remount,ro', self.small], check=True)
        status, out, err = self.token(self.path)
        self.assertEqual((status, out, self.server.asked), (0, 'old', []))  # it is good yet
        self.assertRegex(err, 'good for .* seconds, but not renewed: .* can not be used as a cache: Read-only file system')
        self.assertEqual(self.token(self.path, '--margin', '0')[:2], (0, 'old'))
        status, out, err = self.run_tool('refresh', '--cache', self.path)
        self.assertEqual((status, out), (2, ''))
        self.assertIn('Read-only file system', err)


class Rescued(Case):
    def test_a_folder_that_is_gone(self):
        folder = os.path.join(self.room, 'a')
        os.mkdir(folder)
        path = self.cache('1', folder)
        self.meanwhile = lambda: os.rename(folder, folder + 'b')
        status, out, err = self.token(path)
        self.assertEqual((status, out), (4, 't1.1'))
        self.assertEqual(json.loads(err.strip().split('\n')[-1])['refresh_token'], '1.1')

    def test_a_file_that_takes_its_place(self):
        """The file that is to be replaced is a folder by then, so the new one stays beside it."""
        path = self.cache('1')
        self.meanwhile = lambda: (os.unlink(path), os.mkdir(path))
        status, out, err = self.token(path)
        self.assertEqual((status, out), (4, 't1.1'))
        beside = glob.glob(path + '.rescued-*')[0]
        self.assertIn('the new token is in %s: mv %s %s puts it there' % (beside, beside, path), err)
        self.assertEqual(os.stat(beside).st_mode & 0o777, 0o600)
        os.rmdir(path)
        os.rename(beside, path)
        self.assertEqual(self.token(path)[:2], (0, 't1.1'))

    def test_an_answer_that_can_not_be_read(self):
        body = '{"access_token":"t","token_type":"bearer","refresh_token":"1.1"'
        for ends, wanted in (30, (4, 'old')), (0, (4, '')):
            path = self.cache('1', ends=ends)
            self.server.reply = body
            status, out, err = self.token(path)
            self.assertEqual((status, out), wanted)
            beside = glob.glob(path + '.rescued-*')[0]
            self.assertIn('the new token is in %s: look into it' % beside, err)
            with open(beside, encoding='utf-8') as f:
                self.assertEqual(f.read(), body)
            os.unlink(beside)

    def test_an_answer_without_a_token_is_not_kept(self):
        path = self.cache('1')
        for reply in (200, {'Content-Type': 'text/html'}, '<p>Sign in'), (503, {}, 'refresh_token'):
            self.server.reply = reply
            self.assertEqual(self.token(path)[:2], (0, 'old'))
        self.assertEqual(glob.glob(path + '.rescued-*'), [])

    def test_without_a_cache_it_is_shown(self):
        with open('/dev/full', 'wb') as full:
            words = [sys.executable, where.OAUTH2, 'refresh']
            env = {**self.env, 'OAUTH2_REFRESH_TOKEN': '1.0'}
            run = subprocess.run(words, env=env, stdout=full, stderr=subprocess.PIPE, text=True)
        self.assertEqual(run.returncode, 4)
        self.assertEqual(json.loads(run.stderr.split('\n')[1])['refresh_token'], '1.1')
        self.assertIn('can not be written to standard output', run.stderr)


if __name__ == '__main__':
    unittest.main()
