"""Tests of `tools/oauth2 login --openid` over a stand-in of the program and a server on this machine: ID tokens, and
who has signed in."""
import base64
import json
import os
import time
import unittest
import urllib.parse

import stand_in
from stand_in import OK

ISSUER = 'https://as.example'


def part(value):
    return base64.urlsafe_b64encode(json.dumps(value).encode()).decode().rstrip('=')


HEADER = part({'alg': 'RS256'})


class Case(stand_in.Case):
    def setUp(self):
        super().setUp()
        self.env.update(OAUTH2_REDIRECT='https://app.example/cb', OAUTH2_ID_TOKEN_ISSUER=ISSUER)
        self.path = os.path.join(self.room, 'cache')

    def reply(self, **claims):
        """A token response with an ID token of these claims, and others that are right."""
        now = int(time.time())
        claims = {'iss': ISSUER, 'sub': 'u-1', 'aud': 'aaa', 'exp': now + 600, 'iat': now,
                  'nonce': self.asked.get('nonce'), **claims}
        return {**OK, 'id_token': '%s.%s.c2ln' % (HEADER, part(claims))}

    def login(self, *words, reply=None, back='', claims=(), **env):
        """The status, standard output and standard error of a login. The reply is a good one but for these claims, if
        none is given; back has further parameters of the redirect."""
        run = self.start('login', *words, **env)
        for line in run.stderr:
            if line.startswith('http'):
                self.asked = dict(urllib.parse.parse_qsl(urllib.parse.urlsplit(line.strip()).query))
                self.server.reply = reply or self.reply(**dict(claims))
                out, err = run.communicate('https://app.example/cb?code=c&state=%s%s\n' % (self.asked['state'], back),
                                           timeout=60)
                return run.returncode, out, err
            self.said = line
        return run.wait(60), run.stdout.read(), self.said

    def refused(self, *words, status=7, **more):
        """What a login says whose ID token is refused. Nothing of the reply is in it."""
        found, out, err = self.login(*words, **more)
        self.assertEqual((found, out), (status, ''))
        self.assertIn('nothing of the reply is shown or kept', err)
        for secret in OK['access_token'], HEADER, 'u-1':
            self.assertNotIn(secret, err.replace(self.asked['nonce'], ''))
        return err

    def params(self, command):
        return next(it['params'] for it in reversed(self.scripts()) if it['command'] == command)

    def kept(self):
        with open(self.path, encoding='utf-8') as f:
            return json.load(f)

    def change(self, **members):
        """Changes members of the kept entry."""
        found = {**self.kept(), **members}
        with open(self.path, 'w', encoding='utf-8') as f:
            json.dump(found, f)

    def again(self, *words, **env):
        """A run that needs no user."""
        return self.run_tool('login', '--cache', self.path, *words, **env)


class Login(Case):
    def test_a_token_that_is_good(self):
        status, out, err = self.login('--openid')
        self.assertEqual((status, json.loads(out)), (0, self.server.reply))
        self.assertEqual(err, 'tools/oauth2: the signature of the ID token is not checked: give --jwks-url\n'
                              'signed in as "u-1" at https://as.example\n')
        self.assertEqual(self.params('authorize')['scopes'], ['openid'])
        self.assertGreaterEqual(len(self.asked['nonce']), 22)
        self.assertEqual(self.params('id_token'),
                         {'id_token': self.server.reply['id_token'], 'access_token': 't1', 'issuer': ISSUER,
                                                   'nonce': self.asked['nonce'], 'leeway': 60})
        readings = next(it['readings'] for it in self.scripts() if it['command'] == 'id_token')
        self.assertTrue(len(readings) == 1 and abs(readings[0] - time.time()) < 60)

    def test_each_login_has_its_nonce(self):
        found = set()
        for _ in range(2):
            self.login('--openid')
            found.add(self.asked['nonce'])
        self.assertEqual(len(found), 2)

    def test_without_the_flag_there_is_no_nonce_and_no_check(self):
        status, out, err = self.login(reply={**OK, 'id_token': 'x'})
        self.assertEqual((status, json.loads(out)['id_token']), (0, 'x'))
        self.assertNotIn('signed in', err)
        self.assertNotIn('nonce', self.asked)
        self.assertEqual([it['command'] for it in self.scripts()], ['authorize', 'redirect', 'code', 'code'])

    def test_scopes(self):
        for words, wanted in (['--scope', 'read'], ['openid', 'read']), (['--scope', 'read', '--scope', 'openid'],
                                                                         ['read', 'openid']):
            self.login('--openid', *words)
            self.assertEqual([it for it in self.scripts() if it['command'] == 'authorize'][-1]['params']['scopes'],
                             wanted)

    def test_rules_that_do_not_hold(self):
        now = int(time.time())
        for claims, said in (({'nonce': 'x'}, 'the nonce is another one; it does not belong to this login'),
                             ({'iss': ISSUER + '/'},
                              'the issuer is another one; it has to be https://as.example (--id-token-issuer)'),
                             ({'aud': 'bbb'}, 'the client is not in the audience; it is not for this client alone'),
                             ({'exp': now - 120},
                              'the token has expired; is the clock of this machine right? --leeway'),
                             ({'iat': now + 100000},
                              'the token was issued in the future; is the clock of this machine right?')):
            with self.subTest(said):
                self.assertIn('tools/oauth2: the ID token is refused: ' + said, self.refused('--openid', claims=claims))

    def test_nothing_of_a_refused_reply_is_shown_or_kept(self):
        self.refused('--openid', '--cache', self.path, claims={'nonce': 'x'})
        with open(self.path, encoding='utf-8') as f:
            self.assertEqual(f.read(), '')
        err = self.refused('--openid', reply={**OK, 'id_token': 'a.b'})
        self.assertIn('the ID token is refused: not three parts; nothing', err)
        self.assertIn('the ID token is refused: it is no text',
                      self.refused('--openid', reply={**OK, 'id_token': ['t1']}))
        self.assertIn('--algorithm says which', self.refused('--openid', '--algorithm', 'ES256'))

    def test_a_reply_without_an_id_token(self):
        for reply in OK, {**OK, 'id_token': None}:
            self.assertIn('the server sent no ID token',
                          self.refused('--openid', '--cache', self.path, reply=reply, status=8))
        with open(self.path, encoding='utf-8') as f:
            self.assertEqual(f.read(), '')

    def test_an_error_response_stays_what_it_is(self):
        self.assertEqual(self.login('--openid', reply=(400, {}, {'error': 'invalid_grant'}))[:2], (12, ''))

    def test_the_issuer(self):
        for one, said in ('https://y.example',
                          'https://y.example (--id-token-issuer)'), ('', 'https://x.example (--issuer)'):
            err = self.refused('--openid', '--issuer', 'https://x.example', back='&iss=https://x.example',
                               OAUTH2_ID_TOKEN_ISSUER=one)
            self.assertIn('it has to be ' + said, err)

    def test_flags(self):
        self.assertEqual(self.login('--openid', '--max-age', '300', '--leeway', '0', '--algorithm', 'RS256', '--extra',
                                    'a=b')[0], 0)
        self.assertEqual((self.asked['max_age'], self.asked['a']), ('300', 'b'))
        params = self.params('id_token')
        self.assertEqual((params['max_age'], params['leeway'], params['algorithm']), (300, 0, 'RS256'))
        for words, env, said in ((['--max-age', '1'], {}, '--max-age goes with --openid'),
                                 (['--leeway', '1'], {}, '--leeway goes with --openid'),
                                 (['--algorithm', 'x'], {}, '--algorithm goes with --openid'),
                                 (['--openid'], {'OAUTH2_ID_TOKEN_ISSUER': ''},
                                  'the issuer of the ID token is not set: give --issuer')):
            status, out, err = self.login(*words, OAUTH2_PROGRAM='/none', **env)
            self.assertEqual((status, out), (2, ''))
            self.assertIn(said, err)

    def test_a_program_that_does_not_know_the_command(self):
        with open(self.program, encoding='utf-8') as f:
            text = f.read()
        for edit, status, said in (("print('bad script')\n    sys.exit(2)", 2, 'the program does not take the script'),
                                   ('sys.exit(3)', 3, 'ended with 3 and no answer'),
                                   ('sys.exit(0)', 125, 'gives no result of lifecrib (exit status 0)')):
            with open(self.program, 'w', encoding='utf-8') as f:
                f.write(text.replace("elif command == 'id_token':\n    id_token()",
                                     "elif command == 'id_token':\n    " + edit))
            found, out, err = self.login('--openid')
            self.assertEqual((found, out), (status, ''))
            self.assertIn(said, err)


class Cache(Case):
    def test_a_later_run_names_the_user(self):
        self.login('--openid', '--cache', self.path)
        self.assertEqual(self.kept()['user'], {'iss': ISSUER, 'sub': 'u-1'})
        status, out, err = self.again('--openid')
        self.assertEqual((status, json.loads(out)['access_token']), (0, 't1'))
        self.assertIn('signed in as "u-1" at https://as.example\n', err)
        self.assertNotIn('signed in', self.again()[2])
        self.assertNotIn('signed in', self.run_tool('token', '--cache', self.path)[2])

    def test_the_scope_that_the_flag_adds_need_not_be_given_later(self):
        self.login('--openid', '--scope', 'read', '--cache', self.path)
        self.assertEqual(self.kept()['scopes'], ['openid', 'read'])
        for scopes, status in ('read', 0), ('read openid', 0), ('other', 2), ('openid', 2):
            self.assertEqual(self.run_tool('token', '--cache', self.path, '--scope', scopes)[0], status)

    def test_a_renewed_token_keeps_the_user(self):
        self.login('--openid', '--cache', self.path)
        self.change(refresh_token='r')
        status, _, err = self.again('--openid', '--margin', '100000')
        self.assertEqual((status, self.kept()['user']['sub']), (0, 'u-1'))
        self.assertIn('signed in as "u-1"', err)
        self.assertEqual(self.server.asked[-1][1]['grant_type'], 'refresh_token')

    def test_a_token_that_came_otherwise_is_not_used(self):
        said = 'does not keep the token of a login with --openid at this issuer'
        self.login('--scope', 'openid', '--cache', self.path)
        status, out, err = self.again('--openid')
        self.assertEqual((status, out), (2, ''))
        self.assertIn(said, err)
        self.login('--openid', '--anew', '--cache', self.path)
        self.assertEqual(self.again('--openid')[0], 0)
        self.assertIn(said, self.again('--openid', OAUTH2_ID_TOKEN_ISSUER='https://x.example')[2])
        self.login('--anew', '--scope', 'openid', '--cache', self.path)
        self.assertIsNone(self.kept()['user'])

    def test_a_maximum_age_asks_anew(self):
        self.login('--openid', '--cache', self.path)
        self.assertEqual(self.login('--openid', '--max-age', '5', '--cache', self.path)[0], 0)
        self.assertEqual(len(self.server.asked), 2)

    def test_a_login_without_the_flag_keeps_no_user_of_an_earlier_one(self):
        self.login('--openid', '--cache', self.path)
        self.change(expires_at=0)
        self.assertEqual(self.login('--scope', 'openid', '--cache', self.path, reply={**OK, 'access_token': 't2'})[0],
                         0)
        self.assertIsNone(self.kept()['user'])

    def test_files_of_earlier_versions(self):
        self.login('--scope', 'openid', '--cache', self.path)
        found = self.kept()
        for user, is_ours in ({'iss': 'i', 'sub': 's'}, True), ({'iss': 'i'},
                                                                False), ({'iss': 'i', 'sub': 1}, False), ('x', False):
            self.change(user=user)
            self.assertEqual(self.again()[0] == 0, is_ours)
        del found['user']
        with open(self.path, 'w', encoding='utf-8') as f:
            json.dump(found, f)
        self.assertEqual(self.again()[0], 0)


class Keys(Case):
    """The issuer's keys, by which the program checks the signature."""
    KEYS = {'keys': [{'kty': 'RSA', 'n': 'AQAB', 'e': 'AQAB'}]}

    def test_the_keys_go_to_the_program(self):
        self.server.documents['/jwks'] = (200, {}, self.KEYS)
        self.assertEqual(self.login('--openid', '--jwks-url', self.server.url + '/jwks')[0], 0)
        self.assertEqual(self.params('id_token')['keys'], self.KEYS)
        self.assertEqual([path for path, _ in self.server.looked_at], ['/jwks'])
        self.assertNotIn('Authorization', self.server.looked_at[0][1])

    def test_no_keys_no_check_of_the_signature(self):
        for words, why in ((), 'give --jwks-url'), (('--algorithm', 'HS256', '--jwks-url', self.server.url),
                                                    'the algorithm has no public keys'):
            with self.subTest(why):
                err = self.login('--openid', *words)[2]
                self.assertIn('the signature of the ID token is not checked: ' + why, err)
                self.assertNotIn('keys', self.params('id_token'))

    def test_keys_that_can_not_be_had(self):
        for reply, why in ((404, {}, ''), 'HTTP status 404'), ((200, {}, '<p>'), 'not a JSON object'):
            with self.subTest(why):
                self.server.documents['/jwks'] = reply
                err = self.refused('--openid', '--jwks-url', self.server.url + '/jwks', status=6)
                self.assertIn(why, err)


if __name__ == '__main__':
    unittest.main()
