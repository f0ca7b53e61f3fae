"""Tests of the library that runs scripts in the process of the command, of which a stand-in is made here."""
import hashlib
import os
import shutil
import subprocess
import sys
import unittest

import stand_in
import where
from stand_in import OK

from lifecrib_command import programs

UNPROVED = 'tools/oauth2: the library that runs here is not proved\n'


class Case(stand_in.Case):
    """A library that has the stand-in of the program run each script (tools/by_program.c)."""

    def setUp(self):
        super().setUp()
        self.library = os.path.join(self.room, 'liblifecrib.so')
        words = ['cc', '-shared', '-fPIC', '-DPROGRAM="%s"' % self.program, '-I', os.path.join(where.ROOT, 'c'),
                 os.path.join(where.TOOLS, 'by_program.c'), '-o', self.library]
        subprocess.run(words, check=True)
        del self.env['OAUTH2_PROGRAM']
        self.env['LIFECRIB_LIBRARY'] = self.library


@unittest.skipUnless(shutil.which('cc'), 'there is no C compiler')
class InProcess(Case):
    def test_an_answer_and_a_fault(self):
        status, out, err = self.run_tool('token', '--output', 'token')
        self.assertEqual((status, out, err), (0, 't1\n', UNPROVED))
        self.server.reply = (400, {}, {'error': 'invalid_scope'})
        status, out, err = self.run_tool('token')
        self.assertEqual((status, out), (15, ''))
        self.assertEqual(err,
                         UNPROVED + 'tools/oauth2: %s/token (--token-url): Server returned error response: invalid_scope '
                         '(HTTP status 400)\n' % self.server.url)

    def test_a_setting_that_it_refuses_is_named(self):
        status, _, err = self.run_tool('token', '--client-id', 'bad')
        self.assertEqual(status, 2)
        self.assertIn('does not take the "id" of the client (wrong_type)', err)

    def test_a_renewal(self):
        path = os.path.join(self.room, 'cache')
        self.server.reply = lambda asked: {**OK, 'access_token': 't%d' % len(self.server.asked), 'refresh_token': 'r'}
        self.assertEqual([self.run_tool('token', '--cache', path, '--output', 'token', *more)[1]
                          for more in ([], [], ['--margin', '9999'])],
                         ['t1\n', 't1\n', 't2\n'])
        self.assertEqual(self.server.asked[-1][1]['grant_type'], 'refresh_token')

    def test_the_program_of_the_environment_comes_first(self):
        self.assertEqual(self.run_tool('token', OAUTH2_PROGRAM=self.program)[2], '')

    def test_one_that_is_proved_needs_no_word(self):
        with open(self.library, 'rb') as f, open(self.library + '.proved', 'w', encoding='utf-8') as record:
            record.write('sum ' + hashlib.sha256(f.read()).hexdigest())
        self.assertEqual(self.run_tool('token')[2], '')
        self.assertTrue(self.run_tool('--version')[1].endswith(', proved library\n'))
        with open(self.library, 'ab') as f:
            f.write(b'x')
        self.assertFalse(programs.is_proved(self.library))

    def test_one_that_can_not_be_loaded(self):
        status, out, err = self.run_tool('token', LIFECRIB_LIBRARY='/none')
        self.assertEqual((status, out), (125, ''))
        self.assertIn('the library can not be loaded: /none', err)


class Loaded(stand_in.Case):
    """What a run loads that hands out a kept token."""
    SLOW = {'asyncio', 'ctypes', 'dataclasses', 'email', 'hashlib', 'http', 'lifecrib', 'shutil', 'socket', 'ssl',
            'subprocess', 'tempfile',
            'typing', 'urllib'}

    def test_a_kept_token_needs_few_modules(self):
        path = os.path.join(self.room, 'cache')
        self.assertEqual(self.run_tool('token', '--cache', path)[0], 0)
        words = [sys.executable, '-S', '-X', 'importtime', where.OAUTH2, 'token', '--cache', path, '--output', 'token']
        env = {name: self.env[name] for name in ('PATH', 'HOME')}
        run = subprocess.run(words, env=env, capture_output=True, text=True, timeout=300)
        self.assertEqual((run.returncode, run.stdout), (0, 't1\n'))
        loaded = {line.rpartition('|')[2].strip().partition('.')[0] for line in run.stderr.splitlines()}
        self.assertIn('lifecrib_command', loaded)
        self.assertEqual(loaded & self.SLOW, set())


@unittest.skipUnless(shutil.which('mypy'), 'there is no mypy')
class Types(unittest.TestCase):
    def test_the_types_hold(self):
        words = ['mypy', '--strict', '--cache-dir', os.devnull, 'lifecrib_command']
        run = subprocess.run(words, cwd=where.PYTHON, capture_output=True, text=True, timeout=900)
        self.assertEqual(run.returncode, 0, run.stdout)


if __name__ == '__main__':
    unittest.main()
