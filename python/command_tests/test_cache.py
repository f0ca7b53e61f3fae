"""Tests of `tools/oauth2 --cache` over a stand-in of the program and a server on this machine."""
import json
import os
import stat
import subprocess
import sys
import threading
import time
import unittest
from unittest import mock

import stand_in
import where
from stand_in import OK

from lifecrib_command import caches, endings, kept_tokens, token_cache

# What an entry says of the request by which its token came.
OF_REQUEST = ('command', 'client_id', 'server', 'issuer', 'token_url', 'auth', 'username', 'scopes', 'extra',
              'resource', 'user')


class Cache(stand_in.Case):
    def setUp(self):
        super().setUp()
        self.path, self.count = os.path.join(self.room, 'cache'), 0
        self.server.reply = self.next_token

    def next_token(self, asked):
        """A token of a server that rotates refresh tokens: each is good once."""
        if asked['grant_type'] == 'refresh_token' and asked['refresh_token'] != 'r%d' % self.count:
            return 400, {}, {'error': 'invalid_grant'}
        self.count += 1
        return {**OK, 'access_token': 't%d' % self.count, 'refresh_token': 'r%d' % self.count, 'id_token': 'i'}

    def token(self, *words, command='token', **env):
        """The status of a run with the cache, and the token."""
        status, out, self.err = self.run_tool(command, '--cache', self.path, '--output', 'token', *words, **env)
        return status, out.strip()

    def grants(self):
        return [it[1]['grant_type'] for it in self.server.asked]

    def kept(self):
        with open(self.path, encoding='utf-8') as f:
            return json.load(f)

    def change(self, **members):
        """Changes members of the kept entry."""
        found = {**self.kept(), **members}
        with open(self.path, 'w', encoding='utf-8') as f:
            json.dump(found, f)

    def sign_in(self):
        self.assertEqual(self.token('--username', 'ann', command='password', OAUTH2_PASSWORD='p'), (0, 't1'))

    def test_a_good_token_is_used_again(self):
        self.assertEqual([self.token(), self.token()], [(0, 't1'), (0, 't1')])
        self.assertEqual(self.grants(), ['client_credentials'])
        self.assertEqual(stat.S_IMODE(os.stat(self.path).st_mode), 0o600)
        self.assertEqual(sorted(os.listdir(self.room)), ['cache', 'program', 'scripts'])
        status, out, _ = self.run_tool('token', '--cache', self.path)
        answer = json.loads(out)
        self.assertEqual((status, answer['id_token']), (0, 'i'))
        self.assertTrue(3500 <= answer['expires_in'] <= 3600)

    def test_a_good_token_needs_neither_program_nor_settings(self):
        self.token()
        bare = {'OAUTH2_PROGRAM': '/none', 'OAUTH2_CLIENT_ID': '', 'OAUTH2_TOKEN_URL': ''}
        self.assertEqual(self.token(**bare), (0, 't1'))
        self.assertEqual(self.token('--margin', '3600', OAUTH2_CLIENT_ID='', OAUTH2_TOKEN_URL=''), (0, 't2'))

    def test_it_is_renewed_when_the_margin_is_reached(self):
        self.token('--scope', 'a')
        self.assertEqual(self.token('--margin', '3600'), (0, 't2'))
        self.assertEqual(self.kept()['refresh_token'], 'r2')
        self.assertEqual(self.token('--margin', '3600'), (0, 't3'))
        self.assertEqual(self.server.asked[2][1], {'grant_type': 'refresh_token', 'refresh_token': 'r2'})
        self.assertEqual(self.kept()['scopes'], ['a'])

    def test_a_refresh_token_stays_where_no_other_comes(self):
        self.token()
        self.server.reply = {**OK, 'access_token': 'n'}
        self.assertEqual(self.token('--margin', '3600'), (0, 'n'))
        self.assertEqual(self.kept()['refresh_token'], 'r1')

    def test_the_client_asks_anew_where_the_refresh_token_is_over(self):
        self.token('--extra', 'audience=x')
        self.change(refresh_token='r0')
        self.assertEqual(self.token('--margin', '3600'), (0, 't2'))
        self.assertEqual(self.grants(), ['client_credentials', 'refresh_token', 'client_credentials'])
        self.assertEqual([it[1].get('audience') for it in self.server.asked], ['x'] * 3)

    def test_renewals_in_a_row_ask_as_the_first_run_did(self):
        asked = {'scope': 'read', 'audience': 'api', 'resource': 'https://api.example'}
        self.token('--scope', 'read', '--extra', 'audience=api', '--resource', asked['resource'])
        before = self.kept()
        for refused, new in (None, {}), ('r0', {'refresh_token': 'n'}), ('r0', {}):
            self.change(refresh_token=refused, expires_at=0)
            no = (400, {}, {'error': 'invalid_grant'})
            self.server.reply = lambda asked: no if 'refresh_token' in asked else {**OK, **new}
            self.assertEqual(self.token(), (0, 't1'))
            kept = self.kept()
            self.assertEqual({it: kept[it] for it in OF_REQUEST}, {it: before[it] for it in OF_REQUEST})
            self.assertEqual(kept['refresh_token'], new.get('refresh_token'))
        forms = [dict(it) for it in self.server.forms if ('grant_type', 'client_credentials') in it]
        self.assertEqual(forms, [{'grant_type': 'client_credentials', **asked}] * 4)

    def test_a_login_is_renewed_by_its_refresh_token_alone(self):
        self.sign_in()
        self.assertEqual(self.token('--margin', '3600'), (0, 't2'))
        self.assertEqual(self.kept()['command'], 'password')
        self.change(refresh_token='r0', expires_at=int(time.time()))
        self.assertEqual(self.token(), (5, ''))
        self.assertIn('sign in anew by tools/oauth2 password --cache', self.err)
        self.change(refresh_token=None)
        self.assertEqual(self.token(), (5, ''))
        self.assertNotIn('client_credentials', self.grants())

    def test_a_user_signs_in_anew_where_nothing_else_is_left(self):
        self.sign_in()
        self.change(refresh_token='r0', expires_at=int(time.time()))
        self.assertEqual(self.token('--username', 'ann', command='password', OAUTH2_PASSWORD='p'), (0, 't2'))
        self.assertEqual(self.grants(), ['password', 'refresh_token', 'password'])

    def test_a_login_that_has_a_good_token_uses_it(self):
        self.sign_in()
        self.assertEqual(self.token(command='password', OAUTH2_USERNAME='ann'), (0, 't1'))
        self.assertIn('--anew signs in anew', self.err)
        self.assertEqual(self.token('--anew', command='password', OAUTH2_USERNAME='ann', OAUTH2_PASSWORD='p'),
                         (0, 't2'))
        self.assertEqual(self.token(command='password', OAUTH2_USERNAME='bob'), (2, ''))
        self.assertIn('another --username ("ann")', self.err)

    def test_what_another_run_has_put_there_meanwhile_stays(self):
        for content, said in ('text', 'is no cache of this tool'), (None, 'keeps a token of another'):
            self.server.reply = self.next_token
            if os.path.exists(self.path):
                os.unlink(self.path)
            self.token('--scope', 'other')
            content = content or json.dumps(self.kept())
            os.unlink(self.path)
            self.server.reply = lambda asked: self.put(content) or OK
            status, token = self.token('--username', 'ann', command='password', OAUTH2_PASSWORD='p')
            self.assertEqual((status, token), (4, 't1'))
            self.assertIn(said, self.err)
            with open(self.path, encoding='utf-8') as f:
                self.assertEqual(f.read(), content)

    def put(self, content):
        """Writes the file, as another run does."""
        with open(self.path, 'w', encoding='utf-8') as f:
            os.chmod(self.path, 0o600)
            f.write(content)

    def test_within_the_margin_a_failed_renewal_leaves_the_old_token(self):
        self.sign_in()
        before = self.kept()
        for reply in (503, {}, ''), (400, {}, {'error': 'invalid_grant'}):
            self.server.reply = reply
            self.assertEqual(self.token('--margin', '3600'), (0, 't1'))
            self.assertIn('more seconds, but not renewed', self.err)
        self.assertEqual(self.kept(), before)
        self.change(expires_at=int(time.time()))
        self.server.reply = (503, {}, '')
        self.assertEqual(self.token(), (9, ''))
        self.assertIn('(HTTP status 503)', self.err)

    def test_refresh_renews_whatever_the_margin(self):
        self.token()
        self.assertEqual(self.token(command='refresh'), (0, 't2'))
        self.change(refresh_token='r0')
        self.assertEqual(self.token(command='refresh'), (12, ''))
        self.change(refresh_token=None)
        self.assertEqual(self.token(command='refresh', OAUTH2_REFRESH_TOKEN='r2'), (0, 't3'))

    def test_a_refresh_token_from_elsewhere_begins_a_cache(self):
        self.count = 7
        self.assertEqual(self.token(command='refresh', OAUTH2_REFRESH_TOKEN='r7'), (0, 't8'))
        self.assertEqual(self.token('--margin', '3600'), (0, 't9'))

    def test_a_login_without_its_endpoints_uses_a_good_token(self):
        self.assertEqual(self.token('--username', 'ann', command='password', OAUTH2_PASSWORD='p'), (0, 't1'))
        self.assertEqual(self.token(command='password', OAUTH2_TOKEN_URL=''), (0, 't1'))
        os.unlink(self.path)
        self.assertEqual(self.token(OAUTH2_CLIENT_ID=''), (2, ''))
        self.assertIn('there is no token in %s yet: sign in first, by tools/oauth2 login --cache' % self.path, self.err)

    def test_a_revocation_removes_the_file(self):
        server = self.by_tls()
        self.assertEqual(self.run_tool('revoke', '--cache', self.path)[0], 2)
        for member, form in ({}, {'token': 'r1'}), ({'refresh_token': None}, {'token': 't2'}):
            self.token()
            self.change(**member)
            server.reply = (503, {}, '')
            status, _, err = self.run_tool('revoke', '--cache', self.path, OAUTH2_CLIENT_ID='')
            self.assertEqual(status, 9)
            self.assertIn('%s stays, since its token is not revoked' % self.path, err)
            self.assertTrue(os.path.exists(self.path))
            self.assertEqual(self.run_tool('revoke', '--cache', self.path, '--client-id', 'other')[0], 2)
            server.reply = {}
            self.assertEqual(self.run_tool('revoke', '--cache', self.path, '--quiet', OAUTH2_CLIENT_ID=''),
                             (0, 'null\n', ''))
            self.assertEqual(server.asked[-1][1], form)
            self.assertFalse(os.path.exists(self.path))
        self.assertEqual([it['params'].get('kind') for it in self.scripts() if it['command'] == 'revoke'][::4],
                         ['refresh', 'access'])

    def test_two_runs_at_once_renew_once(self):
        self.sign_in()
        self.change(expires_at=int(time.time()) + 30)
        self.assertEqual(self.at_once(), ['t2\n'] * 4)
        self.assertEqual((self.grants(), self.kept()['refresh_token']), (['password', 'refresh_token'], 'r2'))

    def at_once(self):
        """What four runs write that begin before the server answers the first."""
        waits, reply = threading.Event(), self.next_token
        self.server.reply = lambda asked: waits.wait(20) and reply(asked)
        runs = [self.start('token', '--cache', self.path, '--output', 'token') for _ in range(4)]
        time.sleep(0.5)
        waits.set()
        return [it.communicate(timeout=60)[0] for it in runs]

    def test_two_clients_ask_once(self):
        self.assertEqual(self.at_once(), ['t1\n'] * 4)
        self.assertEqual(self.grants(), ['client_credentials'])

    def test_the_token_of_another_is_refused_and_left(self):
        self.token('--scope', 'a', '--extra', 'x=y')
        before = self.kept()
        for words, said in ((['--client-id', 'other'], 'another --client-id ("aaa")'),
                            (['--scope', 'b'], 'for other scopes (a)'),
                            (['--extra', 'x=z'], 'with other --extra (x)'),
                            (['--token-url', 'https://other.example/'], 'another --token-url')):
            self.assertEqual(self.token(*words), (2, ''))
            self.assertIn(said, self.err)
        self.assertEqual(self.token('--username', 'a', command='password', OAUTH2_PASSWORD='p'), (2, ''))
        self.assertEqual(self.kept(), before)
        self.assertEqual(self.token('--scope', 'b', '--anew'), (0, 't2'))
        self.assertEqual(self.kept()['scopes'], ['b'])

    def test_a_file_that_is_not_ours_is_refused_and_left(self):
        for content in b'{"a":1}', b'[]', b'\xff', b'{"format":"cache of tools/oauth2, 1"}', b'text', b'[' * 100000:
            with open(self.path, 'wb') as f:
                f.write(content)
            os.chmod(self.path, 0o600)
            for words in [], ['--anew']:
                self.assertEqual(self.token(*words), (2, ''))
                self.assertIn('is no cache of this tool, so it is left as it is', self.err)
            with open(self.path, 'rb') as f:
                self.assertEqual(f.read(), content)
        self.assertEqual(self.server.asked, [])

    def test_a_member_of_another_kind_is_refused(self):
        self.token('--scope', 'a')
        before = self.kept()
        for member in ({'scopes': [1]}, {'scopes': 'a'}, {'extra': [1]}, {'extra': [['a', 1]]}, {'answer': '{}'},
                       {'answer': '['},
                       {'expires_at': '1'}, {'refresh_token': 1}, {'format': 'cache of tools/oauth2, 2'}, {'more': 1}):
            self.put(json.dumps({**before, **member}))
            self.assertEqual(self.token(), (2, ''), member)
            self.assertIn('is no cache of this tool', self.err)

    def test_a_file_that_others_can_read_is_refused(self):
        self.token()
        os.chmod(self.path, 0o640)
        self.assertEqual(self.token(), (2, ''))
        self.assertIn('chmod 600', self.err)

    def test_what_is_no_file(self):
        os.mkfifo(self.path)
        self.assertEqual(self.token(), (2, ''))
        self.assertIn('is no file of this user', self.err)
        self.path = self.room
        self.assertEqual(self.token(), (2, ''))
        self.assertIn('can not be used as a cache', self.err)
        self.path = os.path.join(self.room, 'none', 'cache')
        self.assertEqual(self.token(), (2, ''))

    def test_a_folder_that_is_gone(self):
        gone = ['sh', '-c', 'mkdir gone && cd gone && rmdir ../gone && exec "$@"', 'sh']
        for command in 'token', 'status', 'revoke':
            words = [*gone, sys.executable, *stand_in.FLAGS, where.OAUTH2, command, '--cache', 'c']
            run = subprocess.run(words, cwd=self.room, env=self.env, capture_output=True, text=True)
            self.assertEqual((run.returncode, run.stdout), (2, ''), run.stderr)
            self.assertEqual(run.stderr, 'tools/oauth2: c can not be used as a cache: No such file or directory\n')

    def test_an_empty_file_is_a_new_cache_and_a_link_stays(self):
        target = os.path.join(self.room, 'target')
        with open(target, 'w', encoding='utf-8'):
            os.chmod(target, 0o600)
        os.symlink(target, self.path)
        self.assertEqual(self.token(), (0, 't1'))
        self.assertTrue(os.path.islink(self.path))
        self.assertEqual(self.token(), (0, 't1'))

    def test_a_reply_without_its_end(self):
        self.server.reply = {'access_token': 't', 'token_type': 'bearer'}
        self.token('--life', '100')
        self.assertEqual(self.kept()['expires_at'], self.kept()['obtained_at'] + 100)
        self.server.reply = {'access_token': 'u', 'token_type': 'bearer'}
        self.assertEqual(self.token('--margin', '0'), (0, 't'))
        self.assertEqual(self.token('--margin', '100'), (0, 'u'))

    def test_a_token_without_a_lifetime_is_not_called_ended(self):
        self.server.reply = {'access_token': 't', 'token_type': 'bearer'}
        self.token('--username', 'ann', '--life', '100', command='password', OAUTH2_PASSWORD='p')
        self.token(command='password')
        self.assertIn('came without a lifetime and is taken as good for ', self.err)
        self.change(expires_at=int(time.time()) - 1, obtained_at=int(time.time()) - 101)
        self.assertEqual(self.token(), (5, ''))
        self.assertIn('came without a lifetime, is older than 100 seconds (--life), and can not be renewed', self.err)
        self.assertNotIn('ended', self.err)

    def test_a_clock_that_was_put_back(self):
        self.token()
        self.change(obtained_at=int(time.time()) + 1000, expires_at=int(time.time()) + 9000)
        self.assertEqual(self.token(), (0, 't2'))

    def test_no_secret_is_kept_but_the_tokens(self):
        self.token(OAUTH2_CLIENT_SECRET='sss')
        self.assertNotIn('sss', json.dumps(self.kept()))


class Unwritable(unittest.TestCase):
    """A cache that can be read and not written: a token that has not ended is handed out (the tests may be run by root,
    whom no mode of a file keeps from writing, so the file's own calls fail here)."""

    FAILS = ((mock.patch.object(os, 'access', lambda *_: False), 'the folder of .* can not be written'),
             (mock.patch.object(token_cache, 'opened', side_effect=OSError(30, 'Read-only file system')), 'Read-only'),
             (mock.patch.object(token_cache, 'opened', side_effect=OSError(13, 'Permission denied')), 'Permission denied'))

    def setUp(self):
        self.case = Cache('sign_in')
        self.case.setUp()
        self.addCleanup(self.case.doCleanups)
        self.case.token()

    def test_why_it_is_not_renewed(self):
        for fails, why in self.FAILS:
            with self.subTest(why), fails, self.assertRaisesRegex(token_cache.NotAsked, why) as stop:
                with token_cache.File(self.case.path, 1):
                    pass
            self.assertEqual(stop.exception.status, endings.BAD_SETTING)

    def renewed(self, left):
        """What comes of a token that is good for so many seconds more: its exit status, and what is said and written."""
        entry = {**self.case.kept(), 'expires_at': int(time.time()) + left}
        entry.pop('format')
        cache = mock.Mock(wraps=caches.FileCache(self.case.path, 1))
        cache.name, cache.renewed.side_effect = self.case.path, token_cache.NotAsked('the folder can not be written', 2)
        session = mock.Mock(cache=cache, given=mock.Mock(command='token', margin=60, anew=False))
        with mock.patch.object(kept_tokens, 'tell') as tell, mock.patch.object(kept_tokens, 'write') as write:
            return kept_tokens.renewed(session, {}, entry), tell.call_args.args[0], write.call_count

    def test_a_token_within_its_margin(self):
        status, said, written = self.renewed(30)
        self.assertEqual((status, written), (0, 1))
        self.assertRegex(said, r'is good for (30|29) more seconds, but not renewed: the folder can not be written$')

    def test_a_token_that_has_ended(self):
        with self.assertRaisesRegex(token_cache.NotAsked, 'the folder can not be written'):
            self.renewed(-1)

    def test_a_url_of_the_cache_is_called_so(self):
        self.case.change(expires_at=1)
        self.case.server.reply = (503, {}, '')
        self.assertEqual(self.case.token(OAUTH2_TOKEN_URL='')[0], 9)
        self.assertIn('%s/token (kept in %s)' % (self.case.server.url, self.case.path), self.case.err)
        self.assertEqual(self.case.token()[0], 9)
        self.assertIn('/token (--token-url)', self.case.err)


class Whole(unittest.TestCase):
    """A file that can't be written is as it was."""

    def test_a_write_that_fails(self):
        case = Cache('sign_in')
        case.setUp()
        self.addCleanup(case.doCleanups)
        case.token()
        before = case.kept()
        with token_cache.File(case.path, 1) as cache, mock.patch.object(os, 'fsync',
                                                                        side_effect=OSError(28, 'no space')):
            self.assertRaises(OSError, cache.write, dict(cache.entry, answer='{}'))
        self.assertEqual(case.kept(), before)
        self.assertEqual(sorted(os.listdir(case.room)), ['cache', 'program', 'scripts'])

    def test_an_answer_that_is_not_kept_has_its_status(self):
        outcome = mock.Mock(fault=None)
        cache = caches.FileCache('/c', 1)
        session = mock.Mock(cache=cache, given=mock.Mock(command='token', extra=None, life=1), settings=dict.fromkeys(
            ('client_id', 'server', 'issuer', 'token_url', 'auth', 'username', 'scopes')))
        entry, file = {'answer': '{}'}, mock.MagicMock()
        opened = mock.Mock(path='/c', entry=None, **{'write.side_effect': OSError(28, 'no space')})
        file.__enter__.return_value = opened
        with mock.patch.object(kept_tokens, 'entry_of',
                               return_value=entry), mock.patch.object(kept_tokens, 'write') as write, \
                mock.patch.object(cache, 'opened', return_value=file), mock.patch.object(kept_tokens, 'tell') as say:
            self.assertEqual(kept_tokens.keep(session, outcome), endings.NOT_KEPT)
        write.assert_called_once_with(session, '{}', None)
        self.assertIn('/c could not be written (no space)', say.call_args.args[0])


if __name__ == '__main__':
    unittest.main()
