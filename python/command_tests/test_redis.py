"""Tests of `tools/oauth2 --cache redis://..` over the keeper itself, a stand-in of the program, one of Redis, and a
server here; and over a real Redis where there is one."""
import fcntl
import json
import os
import shutil
import signal
import socket
import stat
import sys
import tempfile
import threading
import time
import unittest
from unittest import mock

import stand_in
import where
from stand_in import OK

import program
from lifecrib_command import caches, shared_cache, shared_places, shared_stores
import redis_server
import repository
from lifecrib_command.endings import Stop
from lifecrib_command.time_limits import in_time

PLACE = 'redis://cache.example/3?name=mail'
SHOWN = 'redis://cache.example:6379/3?name=mail'


def keeper():
    """The path of the keeper, compiled without proofs if there is no proved one."""
    return program.path_of(program.KEEPER) if program.is_proved(program.KEEPER) else program.unproved(lambda: None, program.KEEPER)


class Case(stand_in.Case):
    """A server that takes each refresh token once."""

    def setUp(self):
        super().setUp()
        self.count, self.lock, self.meanwhile, self.place = 0, threading.Lock(), lambda: None, PLACE
        self.server.reply = self.next_token
        self.state = os.path.join(self.room, 'state')
        self.env.update(XDG_STATE_HOME=self.state, OAUTH2_KEEPER=keeper())
        self.prepare_store()

    def prepare_store(self):
        self.store, modules = self.folder(), self.folder()
        shutil.copy(os.path.join(where.HERE, 'fake_redis.py'), os.path.join(modules, 'redis.py'))
        self.env.update(PYTHONPATH=modules, FAKE_REDIS=self.store, PYTHONDONTWRITEBYTECODE='1')

    def next_token(self, asked):
        with self.lock:
            if asked['grant_type'] == 'refresh_token' and asked['refresh_token'] != 'r%d' % self.count:
                return 400, {}, {'error': 'invalid_grant'}
            self.count += 1
            found = {**OK, 'access_token': 't%d' % self.count, 'refresh_token': 'r%d' % self.count}
        self.meanwhile()
        return found

    def token(self, *words, command='token', **env):
        """The status of a run with the cache, and the token."""
        status, out, self.err = self.run_tool(command, '--cache', self.place, '--output', 'token', *words, **env)
        return status, out.strip()

    def begin(self, *words, command='token'):
        return self.start(command, '--cache', self.place, '--output', 'token', *words)

    def sign_in(self, *words):
        status, out = self.token('--username', 'ann', *words, command='password', OAUTH2_PASSWORD='p')
        self.assertEqual(status, 0, self.err)
        return out

    def grants(self):
        return [it[1]['grant_type'] for it in self.server.asked]

    def value(self, name='mail'):
        """The words of a value."""
        with open(os.path.join(self.store, 'lifecrib_' + name), encoding='utf-8') as f:
            return f.read().split()

    def put(self, *words):
        with open(os.path.join(self.store, 'lifecrib_mail'), 'w', encoding='utf-8') as f:
            f.write(' '.join(words))

    def entry(self):
        return shared_cache.entry_of(self.value()[-1], 'x')

    def change(self, **members):
        """Changes members of the kept token."""
        *words, _ = self.value()
        self.put(*words, shared_cache.token_of({**self.entry(), **members}))

    def faults(self, *words):
        with open(os.path.join(self.store, 'faults'), 'w', encoding='utf-8') as f:
            f.write('\n'.join(words))

    def over(self):
        """Has the kept token end."""
        self.change(expires_at=int(time.time()))

    def marked(self, age):
        """Has a renewal mark the kept token that began so many seconds ago and did not finish."""
        version, _, token = self.value()
        renewal = int(1000 * (time.time() - age)) << shared_cache.RANDOM
        self.put(str(int(version) + 1), 'mark', str(renewal), token)

    def at_once(self):
        """What four runs write that begin before the server answers the first."""
        waits = threading.Event()
        self.meanwhile = lambda: waits.wait(20)
        runs = [self.begin() for _ in range(4)]
        while len(self.server.asked) < 2:
            time.sleep(0.05)
        time.sleep(0.5)
        waits.set()
        return [it.communicate(timeout=60)[0] for it in runs]

    def killed(self, number=signal.SIGKILL):
        """A run that a signal meets between mark and answer: its status, and what it says."""
        waits = threading.Event()
        self.addCleanup(waits.set)
        self.meanwhile = lambda: waits.wait(20)
        before = len(self.server.asked)
        run = self.begin('--margin', '3600')
        while len(self.server.asked) == before:
            time.sleep(0.02)
        run.send_signal(number)
        time.sleep(0.3)
        self.meanwhile = lambda: None
        waits.set()
        err = run.communicate(timeout=60)[1]
        return run.returncode, err

    def check_that_many_renew_once(self):
        """Runs that begin at once renew a token that has ended, once."""
        self.over()
        self.assertEqual(self.at_once(), ['t2\n'] * 4)
        self.assertEqual((self.grants(), self.value()[:2]), (['password', 'refresh_token'], ['3', 'rest']))

    def check_that_a_killed_run_leaves_a_mark(self):
        """What a killed run leaves, and what the next one hands out."""
        self.change(expires_at=int(time.time()) + 30)
        self.assertEqual(self.killed()[0], -signal.SIGKILL)
        self.assertEqual(self.value()[:2], ['2', 'mark'])
        self.assertEqual(self.token(), (0, 't1'))
        self.assertRegex(self.err, 'more seconds, but not renewed: another run renews it since 20')


@unittest.skipUnless(repository.has_kit(), 'there is no kit here')
class Renewals(Case):
    def test_a_good_token_is_used_again(self):
        self.assertEqual(self.sign_in(), 't1')
        self.assertEqual(self.value()[:2], ['1', 'rest'])
        bare = {'OAUTH2_PROGRAM': '/none', 'OAUTH2_KEEPER': '/none', 'OAUTH2_CLIENT_ID': '', 'OAUTH2_TOKEN_URL': ''}
        self.assertEqual((self.token(**bare), self.err), ((0, 't1'), ''))
        self.assertEqual(self.grants(), ['password'])
        with open(os.path.join(self.store, 'settings'), encoding='utf-8') as f:
            settings = json.load(f)
        self.assertEqual({it: settings[it]
                          for it in ('host', 'port', 'db', 'password', 'socket_timeout', 'socket_connect_timeout')},
                         {'host': 'cache.example', 'port': 6379, 'db': 3, 'password': None, 'socket_timeout': 30.0,
                          'socket_connect_timeout': 30.0})

    def test_it_is_renewed_when_the_margin_is_reached(self):
        self.sign_in('--scope', 'a')
        self.assertEqual(self.token('--margin', '3600', OAUTH2_CLIENT_ID='', OAUTH2_TOKEN_URL=''), (0, 't2'))
        self.assertEqual(self.value()[:2], ['3', 'rest'])
        self.assertEqual((self.entry()['refresh_token'], self.entry()['scopes']), ('r2', ['a']))
        self.assertEqual(self.token(command='refresh'), (0, 't3'))
        self.assertEqual(self.token(), (0, 't3'))

    def test_one_without_a_refresh_token_is_not_marked(self):
        self.sign_in()
        self.change(refresh_token=None, expires_at=int(time.time()) + 30)
        self.assertEqual(self.token(), (0, 't1'))
        self.assertIn('but not renewed: it has no refresh token', self.err)
        self.over()
        self.assertEqual(self.token(), (5, ''))
        self.assertIn('(it has no refresh token): sign in anew by tools/oauth2 password --cache redis://', self.err)
        self.assertEqual(self.value()[:2], ['1', 'rest'])
        self.assertEqual(self.sign_in(), 't2')

    def test_runs_at_once_renew_once(self):
        self.sign_in()
        self.check_that_many_renew_once()

    def test_a_killed_run_leaves_a_mark_and_a_login_mends_it(self):
        self.sign_in()
        self.check_that_a_killed_run_leaves_a_mark()
        self.over()
        self.assertEqual(self.token('--timeout', '1'), (9, ''))
        self.assertRegex(self.err,
                         'the token of redis://.* has ended and is not renewed: another run renews it since 20')
        self.assertEqual(self.token('--timeout', '1', '--username', 'ann', command='password'), (9, ''))
        self.assertIn('--anew signs in anew', self.err)
        self.put('1', 'rest', self.value()[-1])
        self.marked(3600)
        self.change(expires_at=int(time.time()) + 30)
        self.assertEqual(self.token(), (0, 't1'))
        self.assertRegex(self.err,
                         'but not renewed: .* did not finish, .*; sign in anew by tools/oauth2 password --cache '
                         'redis://')
        self.over()
        self.assertEqual(self.token(), (5, ''))
        self.assertRegex(self.err,
                         'another run began to renew it at 20.* and did not finish, so nobody knows whether the '
                         'refresh token was '
                                   r'used\): sign in anew by tools/oauth2 password --cache redis://cache.example:6379/3\?name=mail')
        status, out, _ = self.run_tool('status', '--cache', self.place)
        self.assertEqual(status, 5)
        self.assertRegex(out, r'\Acache: redis://cache.example:6379/3\?name=mail\n')
        self.assertRegex(out, 'renewal: begun by another run at 20.* and not finished: sign in anew\n')
        self.assertEqual(self.token(command='refresh')[0], 5)
        self.change(expires_at=int(time.time()) + 30)
        self.assertEqual(self.sign_in(), 't3')
        self.assertEqual((self.value()[:2], self.entry()['refresh_token']), (['3', 'rest'], 'r3'))
        self.assertEqual(self.token('--margin', '3600'), (0, 't4'))
        self.assertEqual(self.grants().count('refresh_token'), 2)

    def test_a_signal_waits_until_the_mark_is_off(self):
        self.sign_in()
        status, err = self.killed(signal.SIGTERM)
        self.assertEqual(status, 143)
        self.assertIn('the signal SIGTERM waits', err)
        self.assertEqual((self.value()[:2], self.entry()['refresh_token']), (['3', 'rest'], 'r2'))
        self.assertEqual(self.token(), (0, 't2'))

    def test_what_the_server_refuses_may_be_sent_again(self):
        self.sign_in()
        for reply, ends, wanted, said in (((401, {}, {'error': 'invalid_client'}), 0, 11, 'invalid_client'),
                                          ((400, {}, {'error': 'invalid_grant'}), 0, 5, 'sign in anew'),
                                          ((400, {}, {'error': 'invalid_grant'}), 30, 0,
                                           '(--token-url): Server returned')):
            self.change(expires_at=int(time.time()) + ends)
            self.server.reply = reply
            self.assertEqual(self.token()[0], wanted)
            self.assertIn(said, self.err)
            self.assertEqual(self.value()[1], 'rest')
        self.server.reply = self.next_token
        self.assertEqual(self.token(), (0, 't2'))

    def test_what_was_not_sent_may_be_sent(self):
        self.sign_in()
        self.over()
        with socket.socket() as s:
            s.bind(('127.0.0.1', 0))
            url = 'http://127.0.0.1:%d/token' % s.getsockname()[1]
        self.change(token_url=url)
        self.assertEqual(self.token('--timeout', '2', OAUTH2_TOKEN_URL=url)[0], 9)
        self.assertIn('Connection refused', self.err)
        self.assertEqual(self.value()[:2], ['3', 'rest'])

    def test_what_may_be_used_is_not_sent_again(self):
        for reply in ((503, {}, ''), (200, {'Content-Type': 'text/html'}, '<p>Sign in')):
            self.server.reply = self.next_token
            self.sign_in('--anew')
            self.change(expires_at=int(time.time()) + 30)
            self.server.reply = reply
            self.assertEqual(self.token(), (0, 't%d' % self.count))
            self.assertIn('so nobody knows whether the refresh token was used, and no run sends it again', self.err)
            self.assertEqual(self.value()[1], 'mark')
            before = len(self.server.asked)
            self.over()
            self.assertEqual(self.token('--timeout', '1'), (9, ''))
            self.assertEqual(len(self.server.asked), before)
        self.server.reply = (503, {}, '')
        self.put('8', 'rest', self.value()[-1])
        self.assertEqual(self.token(), (5, ''))
        self.assertIn('HTTP status 503', self.err)

    def test_an_answer_that_the_store_does_not_keep(self):
        self.sign_in()
        self.meanwhile = lambda: self.faults('then', 'gone')
        self.assertEqual(self.token('--margin', '3600', '--timeout', '1'), (4, 't2'))
        self.assertIn('did not say that it keeps the new token: the connection is gone, so this answer is not kept '
                      'there', self.err)
        folder = os.path.join(self.state, 'lifecrib')
        file, = os.listdir(folder)
        self.assertRegex(file, r'\Amail\.token\.rescued-')
        self.assertIn('unless tools/oauth2 status shows it by then, give its refresh token to tools/oauth2 refresh '
                      '--anew --cache redis://',
                      self.err)
        with open(os.path.join(folder, file), encoding='utf-8') as f:
            refresh = json.load(f)['refresh_token']
        self.faults()
        self.meanwhile = lambda: None
        self.assertEqual(self.value()[:2], ['2', 'mark'])
        self.assertEqual(self.token('--anew', command='refresh', OAUTH2_REFRESH_TOKEN=refresh), (0, 't3'))
        self.assertEqual(self.value()[:2], ['3', 'rest'])

    def test_replies_of_the_store_that_are_lost(self):
        self.sign_in()
        mark = ['ok'] * 4  # before it are two reads of the tool and two of the keeper
        for words in ([*mark, 'lost'], [*mark, 'ok', 'lost'], ['ok', 'ok', 'gone'],
                      ['ok', 'ok', 'ok', 'lost', 'lost', 'gone']):
            count = self.count
            self.faults(*words)
            self.assertEqual(self.token('--margin', '3600', '--timeout', '5'), (0, 't%d' % (count + 1)),
                             (words, self.err))
            self.assertEqual(self.value()[1], 'rest')

    def test_a_mark_of_which_nothing_is_known(self):
        self.sign_in()
        self.over()
        self.faults('ok', 'ok', 'ok', 'ok', 'lost', 'then', 'gone')
        self.assertEqual(self.token('--timeout', '1')[0], 9)
        self.assertEqual((self.grants(), self.value()[1]), (['password'], 'mark'))
        self.assertIn('it is not known whether %s took the mark of this run' % SHOWN, self.err)

    def test_the_client_itself_asks_anew(self):
        self.assertEqual(self.token('--scope', 'a'), (0, 't1'))
        self.change(refresh_token=None)
        self.marked(1)
        self.over()
        self.assertEqual(self.token('--timeout', '1'), (0, 't2'))
        self.change(expires_at=int(time.time()))
        self.marked(3600)
        said = 'renewal: begun by another run at 20.* and not finished: the client itself gets another token once this one has ended\n'
        self.assertRegex(self.run_tool('status', '--cache', self.place)[1], said)
        self.assertEqual(self.token(), (0, 't3'))
        self.change(refresh_token='r0')
        self.over()
        self.assertEqual(self.token(), (0, 't4'))
        self.assertEqual(self.grants(), ['client_credentials'] * 3 + ['refresh_token', 'client_credentials'])
        self.assertEqual((self.entry()['command'], self.entry()['scopes']), ('token', ['a']))
        self.assertEqual(self.token('--anew'), (0, 't5'))
        self.over()
        self.server.reply = lambda asked: (503, {},
                                           '') if asked['grant_type'] == 'refresh_token' else self.next_token(asked)
        self.assertEqual(self.token(), (0, 't6'))
        self.assertEqual((self.value()[1], self.entry()['refresh_token']), ('rest', 'r6'))


@unittest.skipUnless(repository.has_kit(), 'there is no kit here')
class Others(Case):
    def test_a_logout_keeps_the_version(self):
        server = self.by_tls()
        self.sign_in()
        server.reply = (503, {}, '')
        status, _, err = self.run_tool('revoke', '--cache', self.place)
        self.assertEqual((status, self.value()[:2]), (9, ['1', 'rest']))
        self.assertIn('%s stays, since its token is not revoked' % SHOWN, err)
        server.reply = {}
        for command, out, said in (('revoke', 'null\n',
                                    'the refresh token of %s is revoked, and it is kept no more' % SHOWN),
                                   ('logout', '', '%s keeps no token any more' % SHOWN)):
            token = self.entry()['refresh_token']
            status, found, err = self.run_tool(command, '--cache', self.place)
            self.assertEqual((status, found, self.value()[1:]), (0, out, ['none']), err)
            self.assertIn(said, err)
            self.assertEqual(server.asked[-1][1]['token'], token)
            self.assertEqual(self.run_tool(command, '--cache', self.place)[0], 2)
            self.assertEqual(self.run_tool('status', '--cache', self.place)[0], 5)
            self.sign_in()
        self.assertEqual(self.value()[:2], ['5', 'rest'])

    def test_a_token_that_another_run_puts_there_is_revoked_too(self):
        server = self.by_tls()
        self.sign_in()
        other = shared_cache.token_of({**self.entry(), 'refresh_token': 'other'})
        server.reply = lambda asked: asked['token'] == 'r1' and self.put('7', 'rest', other) or {}
        self.assertEqual(self.run_tool('logout', '--cache', self.place)[0], 0)
        self.assertEqual([it[1]['token'] for it in server.asked], ['r1', 'other'])
        self.assertEqual(self.value(), ['8', 'none'])
        self.sign_in()
        server.reply = lambda asked: self.put('10', 'rest', other) or {} if asked['token'] == 'r2' else (503, {}, '')
        status, _, err = self.run_tool('logout', '--cache', self.place)
        self.assertEqual((status, self.value()), (25, ['11', 'none']), err)
        self.assertIn('another run had put a new token into %s, which is dropped and not revoked: ' % SHOWN, err)

    def test_git(self):
        self.sign_in()
        words = ['git-credential', '--cache', self.place, '--host', 'git.example']
        asked = 'protocol=https\nhost=git.example\n'
        for given, wanted in (('password=t0\n', '1'), ('password=t1\n', '2')):
            self.assertEqual(self.run_tool(*words, 'erase', given=asked + given)[0], 0)
            self.assertEqual(self.value()[:2], [wanted, 'rest'])
        self.assertIn('password=t2', self.run_tool(*words, 'get', given=asked)[1])

    def test_the_token_of_another_is_refused_and_left(self):
        self.sign_in()
        before = self.value()
        for words in ['--client-id', 'other'], ['--scope', 'b']:
            self.assertEqual(self.token(*words), (2, ''))
            self.assertIn('%s keeps a token ' % SHOWN, self.err)
        for words in ['1', 'text'], ['1', 'rest', '1:e30'], ['1', 'rest',
                                                             '1:%%'], ['x', 'none'], ['1', 'mark', 'x', before[-1]]:
            self.put(*words)
            self.assertEqual(self.token()[0], 2)
            self.assertIn('has something that is no token of this tool', self.err)
            self.assertEqual(self.value(), words)

    def test_a_store_that_says_no_or_nothing(self):
        for word, status, said in ('no', 2, 'NOPERM'), ('gone', 9, 'the connection is gone'):
            self.faults('then', word)
            for command in 'token', 'password':
                self.assertEqual(self.token(command=command, OAUTH2_USERNAME='ann')[0], status)
            self.assertIn('%s can not be read: %s' % (SHOWN, said), self.err)
        self.faults('ok', 'ok', 'ok', 'ok', 'then', 'gone')
        self.assertEqual(self.token('--username', 'ann', '--timeout', '1', command='password', OAUTH2_PASSWORD='p'),
                         (4, 't1'))
        self.assertIn('so this answer is not kept there', self.err)

    def test_passwords_are_not_shown(self):
        self.place = 'redis://:s3cret@cache.example/3?name=mail'
        for words in [], ['--verbose']:
            status = self.token('--username', 'ann', '--anew', *words, command='password', OAUTH2_PASSWORD='p')[0]
            self.assertEqual(status, 0)
            self.assertIn('OAUTH2_REDIS_PASSWORD has it instead', self.err)
            self.assertNotIn('s3cret', self.err)
        status, out, err = self.run_tool('status', '--cache', self.place)
        self.assertEqual((status, 's3cret' in out + err), (0, False))
        self.place = PLACE
        self.assertEqual((self.token(OAUTH2_REDIS_PASSWORD='e'), self.err), ((0, 't2'), ''))
        with open(os.path.join(self.store, 'settings'), encoding='utf-8') as f:
            self.assertEqual(json.load(f)['password'], 'e')

    def test_the_name_of_a_token(self):
        config = os.path.join(self.room, 'config.toml')
        with open(config, 'w', encoding='utf-8') as f:
            f.write('[profile.work]\nclient_id = "w"\ncache = "rediss://cache.example"\n')
        self.env.update(OAUTH2_CLIENT_ID='', OAUTH2_CONFIG=config)
        for words, name in ((['--profile', 'work'], 'work'),
                            (['--profile', 'work', '--cache', 'redis://cache.example'], 'work'),
                            (['--no-profile', '--client-id', 'n', '--cache', 'redis://cache.example'], 'default')):
            self.assertEqual(self.run_tool('token', *words)[0], 0)
            self.assertEqual(self.value(name)[1], 'rest')
            status, out, _ = self.run_tool('status', *words[:2] if name == 'work' else words[:1] + words[3:])
            self.assertIn('?name=%s\n' % name, out)
        with open(config, 'w', encoding='utf-8') as f:
            f.write('[profile.work]\ncache = "file"\n')
        self.assertEqual(self.run_tool('token', '--profile', 'work')[0], 2)

    def test_settings_that_break_what_it_rests_on(self):
        for config, said in (({'appendonly': 'yes', 'appendfsync': 'everysec'},
                              '%s runs with appendfsync everysec: if it dies' % SHOWN),
                             ({'appendonly': 'yes', 'appendfsync': 'always', 'maxmemory-policy': 'noeviction'}, None),
                             (None, None)):
            env = {} if config is None else {'FAKE_REDIS_CONFIG': json.dumps(config)}
            words = ['--anew', '--quiet', '--username', 'ann']
            self.assertEqual(self.token(*words, command='password', OAUTH2_PASSWORD='p', **env)[0], 0)
            self.assertEqual(self.err.partition(': if it dies')[0],
                             'tools/oauth2: ' + said.partition(': if')[0] if said else '')

    def test_without_the_module(self):
        for path, status, said in ((self.room, 125, 'install python3-redis'),):
            self.assertEqual(self.token(PYTHONPATH=path)[0], status)
            self.assertIn(said, self.err)


@unittest.skipUnless(repository.has_kit(), 'there is no kit here')
class InAFolder(Case):
    """The same over files in a folder."""

    def prepare_store(self):
        self.store = self.folder()
        self.place = 'file://%s?name=mail' % self.store

    def value(self, name='mail'):
        with open(os.path.join(self.store, name), encoding='utf-8') as f:
            return f.read().split()

    def put(self, *words):
        with open(os.path.join(self.store, 'mail'), 'w', encoding='utf-8') as f:
            f.write(' '.join(words))

    def test_it_is_renewed_once(self):
        self.assertEqual(self.sign_in(), 't1')
        self.assertEqual(self.value()[:2], ['1', 'rest'])
        self.assertEqual(os.stat(os.path.join(self.store, 'mail')).st_mode & 0o777, 0o600)
        self.check_that_many_renew_once()

    def test_a_killed_run_leaves_a_mark_and_a_login_mends_it(self):
        self.sign_in()
        self.check_that_a_killed_run_leaves_a_mark()
        self.assertEqual(self.sign_in('--anew'), 't3')
        self.assertEqual(self.token('--margin', '3600'), (0, 't4'))
        self.assertEqual(self.run_tool('status', '--cache', self.place)[0], 0)
        with open(os.path.join(self.store, 'mail'), 'w', encoding='utf-8') as f:
            f.write('1 something else')
        self.assertEqual(self.token()[0], 2)


class Places(unittest.TestCase):
    def test_places(self):
        for text, wanted in (('redis://h', ('redis', 'h', 6379, 0, None, None, None)),
                             ('rediss://u:p%40@h:1/2?name=a-b_1', ('rediss', 'h', 1, 2, 'u', 'p@', 'a-b_1')),
                             ('redis://:p@[::1]/', ('redis', '::1', 6379, 0, None, 'p', None))):
            self.assertEqual(tuple(shared_places.place_in(text)), wanted)
        for text, wanted in (('file:///var/a%20b', ('/var/a b', None, None)), ('file:///a?name=x', ('/a', 'x', None))):
            self.assertEqual(tuple(shared_places.place_in(text)), wanted)
            self.assertEqual(shared_places.place_in(text).shown('x').partition('?')[0], text.partition('?')[0])
        self.assertEqual(shared_places.place_in('redis://:p@[::1]/').shown('x'), 'redis://[::1]:6379/0?name=x')

    def test_what_is_none(self):
        for text in ('redis://', 'redis://h:0', 'redis://h:x', 'redis://h/a', 'redis://h?name=a b', 'redis://h?name=',
                     'redis://h?db=1',
                     'redis://h?name=a&name=b', 'redis://h#a', 'redis://s3cret', 'redis://:s3cret@', 'file://',
                     'file://host/a',
                     'file:///a#b', 'file:///a?name=.x', 'file:///a?b=c'):
            if text != 'redis://s3cret':
                with self.subTest(text), self.assertRaises(Stop) as raised:
                    shared_places.place_in(text)
                self.assertNotIn('s3cret', str(raised.exception))
        self.assertEqual([caches.is_shared(it)
                          for it in ('file:///a', 'redis://h', 'REDISS://h', 'redis:h', 'a/redis://h', '', None)],
                         [True, True, True, False, False, False, False])


class Files(unittest.TestCase):
    """A store in a folder, where something is in the way of a run."""

    def setUp(self):
        folder = tempfile.TemporaryDirectory()
        self.addCleanup(folder.cleanup)
        self.store = shared_stores.FileStore(folder.name, seconds=0.3)
        self.lock = self.store.path('mail', '.lock')

    def test_no_other_user_can_open_the_lock(self):
        with open(self.lock, 'w', encoding='utf-8'):
            os.chmod(self.lock, 0o644)
        for name in 'mail', 'new':
            self.assertIs(self.store.replace(name, 0, 'none'), True)
            self.assertEqual(stat.S_IMODE(os.stat(self.store.path(name, '.lock')).st_mode), 0o600)

    def test_a_lock_is_waited_for_and_not_for_ever(self):
        with open(self.lock, 'w', encoding='utf-8') as f:
            fcntl.flock(f, fcntl.LOCK_EX)
            begun = time.monotonic()
            self.assertIsNone(in_time(lambda: self.store.replace('mail', 0, 'none'), 20))
            self.assertGreater(time.monotonic() - begun, 0.2)
            self.assertRegex(str(self.store.fault), r'has had the lock of %s for more than 0\.3 seconds \(--timeout\)'
                             % self.lock)
            with mock.patch.object(time, 'sleep', side_effect=AssertionError):  # the next call only tries
                self.assertIsNone(self.store.replace('mail', 0, 'none'))
            self.assertEqual(self.store.load('mail'), (0, 'none'))
        self.assertIs(self.store.replace('mail', 0, 'none'), True)

    def test_what_is_no_file_is_not_waited_for(self):
        os.mkfifo(self.store.path('mail'))
        os.mkfifo(self.store.path('other', '.lock'))
        for call in (lambda: self.store.load('mail'), lambda: self.store.replace('other', 0, 'none')):
            self.assertIsNone(in_time(call, 20))
            self.assertRegex(str(self.store.fault), 'is no regular file$')
            self.assertTrue(self.store.is_refused())
        os.symlink(self.store.path('target'), self.store.path('link', '.lock'))
        self.assertIsNone(self.store.replace('link', 0, 'none'))
        self.assertFalse(os.path.exists(self.store.path('target')))


class Values(unittest.TestCase):
    def test_tokens(self):
        entry = {'expires_at': 10 ** 30}
        with mock.patch.object(shared_cache.token_cache, 'entry_in', side_effect=lambda text, _: json.loads(text)):
            token = shared_cache.token_of(entry)
            self.assertEqual(token.partition(':')[0], str(1000 * shared_cache.LAST_SECOND))
            self.assertEqual(shared_cache.entry_of(token, 'x')['expires_at'], 10 ** 30)
            self.assertEqual(shared_cache.value_of(7, 'mark 5 ' + token, 'x')[::2], (7, 5))
        self.assertEqual(shared_cache.value_of(3, 'none', 'x'), (3, None, None))

    def test_when_a_renewal_began(self):
        for renewal, wanted in ((1700000000000 << shared_cache.RANDOM, '2023-11-14T22:13:20Z'),
                                (2 ** 128 - 1, 'an unknown time')):
            self.assertEqual(shared_cache.Mark(renewal, 1).since(), wanted)


@unittest.skipUnless(repository.has_kit() and redis_server.python(), 'no kit or no Redis here')
class OnRedis(Case):
    def prepare_store(self):
        redis = redis_server.Redis(self.folder(), '--requirepass', 's3cret')
        self.addCleanup(redis.stop)
        self.place, self.python = 'redis://127.0.0.1:%d?name=mail' % redis.port, redis_server.python()
        self.env['OAUTH2_REDIS_PASSWORD'] = 's3cret'

    def start(self, *words, **env):
        with mock.patch.object(sys, 'executable', self.python), mock.patch.object(stand_in, 'FLAGS', []):
            return super().start(*words, **env)

    def test_runs_at_once_and_one_that_is_killed(self):
        self.assertEqual(self.token(OAUTH2_REDIS_PASSWORD='')[0], 2)
        self.assertNotIn('s3cret', self.err)
        self.sign_in()
        self.assertNotIn('runs with', self.err)
        self.server.reply = lambda asked: {**self.next_token(asked), 'expires_in': 0}
        self.assertEqual(self.token('--margin', '3600'), (0, 't2'))
        self.server.reply = self.next_token
        before = len(self.server.asked)
        runs = [self.begin() for _ in range(4)]
        self.assertEqual([it.communicate(timeout=60)[0] for it in runs], ['t3\n'] * 4)
        self.assertEqual(len(self.server.asked), before + 1)
        self.assertEqual(self.killed()[0], -signal.SIGKILL)
        self.assertEqual(self.token(), (0, 't3'))
        self.assertIn('another run renews it since', self.err)
        self.assertEqual(self.token('--timeout', '1', command='refresh'), (9, ''))
        self.assertEqual(self.sign_in('--anew'), 't5')
        self.assertEqual(self.token('--margin', '3600'), (0, 't6'))


if __name__ == '__main__':
    unittest.main()
