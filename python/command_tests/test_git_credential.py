"""Tests of `tools/oauth2 git-credential` over a stand-in of the program, and with git itself."""
import io
import os
import shutil
import subprocess
import time
import unittest

import stand_in
import where
from stand_in import OK

from lifecrib_command import git_credential

ASKED = 'protocol=https\nhost=git.example\n\n'


class Helper(stand_in.Case):
    def setUp(self):
        super().setUp()
        self.path = os.path.join(self.room, 'cache')
        self.server.reply = {**OK, 'refresh_token': 'r1'}

    def signed_in(self):
        words = ['password', '--cache', self.path, '--username', 'ann', '--quiet']
        self.assertEqual(self.run_tool(*words, OAUTH2_PASSWORD='p')[0], 0)

    def helper(self, operation, given=ASKED, *words):
        """The status of a run, and its lines."""
        words = ['git-credential', '--cache', self.path, '--host', 'git.example', *words, operation]
        status, out, self.err = self.run_tool(*words, given=given)
        return status, out.splitlines()

    def test_a_kept_token_is_the_password(self):
        self.signed_in()
        status, (user, password, ends) = self.helper('get')
        self.assertEqual((status, user, password), (0, 'username=oauth2', 'password=t1'))
        self.assertAlmostEqual(int(ends.partition('password_expiry_utc=')[2]), time.time() + 3600, delta=60)
        self.assertEqual(self.helper('get', ASKED, '--user', 'x-access-token')[1][0], 'username=x-access-token')
        self.assertEqual(self.helper('get', 'protocol=https\nhost=git.example\nusername=ann\n')[1][0], 'username=ann')
        self.assertEqual(self.helper('get', 'protocol=https\nhost=GIT.example\npath=a=b\nwwwauth[]=Basic\n')[1][1],
                         'password=t1')

    def test_no_other_host_gets_it(self):
        self.signed_in()
        for given in ('protocol=http\nhost=git.example\n', 'protocol=https\nhost=other.example\n',
                      'protocol=https\nhost=git.example:1\n',
                      'host=git.example\n', '', 'protocol=https\nhost=git.example.evil.example\n'):
            self.assertEqual(self.helper('get', given), (0, []))

    def test_what_git_stores_is_not_kept(self):
        self.signed_in()
        for operation in 'store', 'capability', 'other':
            self.assertEqual(self.helper(operation, ASKED.strip() + '\nusername=a\npassword=b\n'), (0, []))
        self.assertEqual(self.helper('get')[1][1], 'password=t1')

    def test_a_refused_token_is_renewed(self):
        self.signed_in()
        self.server.reply = {**OK, 'access_token': 't2'}
        self.assertEqual(self.helper('erase', ASKED.strip() + '\npassword=other\n'), (0, []))
        self.assertEqual(self.helper('get')[1][1], 'password=t1')
        self.assertEqual(self.helper('erase', ASKED.strip() + '\npassword=t1\n'), (0, []))
        self.assertEqual(self.helper('get')[1][1], 'password=t2')
        self.assertEqual(self.server.asked[-1][1], {'grant_type': 'refresh_token', 'refresh_token': 'r1'})

    def test_a_token_of_the_client_itself(self):
        self.server.reply = {**OK, 'expires_in': 0}
        self.run_tool('token', '--cache', self.path, '--scope', 'read')
        for token in 't2', 't3', 't4':
            self.server.reply = {**OK, 'expires_in': 0, 'access_token': token}
            self.assertEqual(self.helper('get')[1][1:2], ['password=' + token])
        self.assertEqual(self.run_tool('token', '--cache', self.path, '--output', 'token')[:2], (0, 't4\n'))
        self.assertEqual([it[1]['scope'] for it in self.server.asked], ['read'] * 5)

    def test_without_a_token_or_its_place(self):
        self.assertEqual(self.helper('get'), (5, []))
        self.assertIn('sign in first', self.err)
        self.assertEqual(self.helper('erase'), (0, []))
        self.assertFalse(os.path.exists(self.path))
        status, _, err = self.run_tool('git-credential', '--host', 'git.example', 'get')
        self.assertEqual(status, 2)
        self.assertIn('git-credential needs --profile or --cache', err)
        self.assertEqual(self.run_tool('git-credential', '--cache', self.path, 'get')[0], 2)

    @unittest.skipUnless(shutil.which('git'), 'there is no git here')
    def test_git_itself(self):
        self.signed_in()
        words = "%s git-credential --cache '%s' --host git.example" % (where.OAUTH2, self.path)
        command = ['git', '-c', 'credential.https://git.example.helper=!' + words, 'credential']
        env = {**self.env, 'HOME': self.room, 'GIT_TERMINAL_PROMPT': '0', 'GIT_CONFIG_NOSYSTEM': '1'}

        def git(operation, given):
            return subprocess.run([*command, operation], input=given, env=env, cwd=self.room, capture_output=True,
                                  text=True, timeout=120)
        lines = git('fill', ASKED).stdout.splitlines()
        self.assertEqual(lines[:4], ['protocol=https', 'host=git.example', 'username=oauth2', 'password=t1'])
        self.assertEqual(git('fill', ASKED.replace('git.', 'other.')).stdout, '')
        self.server.reply = {**OK, 'access_token': 't2'}
        self.assertEqual(git('reject', '\n'.join(lines) + '\n').returncode, 0)
        self.assertIn('password=t2', git('fill', ASKED).stdout.splitlines())


class Protocol(unittest.TestCase):
    def test_reading_ends_at_an_empty_line(self):
        self.assertEqual(git_credential.read(io.BytesIO(b'a=b\nc=d=e\n\nf=g\n')), {'a': 'b', 'c': 'd=e'})
        self.assertEqual(git_credential.read(io.BytesIO(b'a=\xff')), {'a': '\udcff'})


if __name__ == '__main__':
    unittest.main()
