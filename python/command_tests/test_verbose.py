"""Tests of `tools/oauth2 --verbose`: it shows each request and reply, and no secret in any form."""
import base64
import json
import os
import unittest
import urllib.parse
from unittest import mock

import stand_in
import where
from stand_in import OK
from test_secret_texts import WAYS

from lifecrib_command import wire_log
from lifecrib_command.secret_texts import Secrets

TOKENS = {**OK, 'access_token': 'acc/ess+1', 'refresh_token': 'ref resh&2', 'id_token': 'id.to.ken'}


class Verbose(stand_in.Case):
    def shown(self, *words, hides=(), **more):
        """What a run shows. No secret is in it, in any way to write one."""
        status, _, err = self.run_tool(*words, '--verbose', **more)
        for secret in hides:
            for way in WAYS.values():
                self.assertNotIn(way(secret), err)
        return status, err

    def test_a_request_and_its_reply(self):
        self.server.reply = {'access_token': 'tok1', 'token_type': 'Bearer'}
        status, err = self.shown('token', '--scope', 'a b', OAUTH2_CLIENT_SECRET='b/b b', hides=['tok1', 'b/b b'])
        self.assertEqual(status, 0)
        lines = [it for it in err.splitlines() if not it.startswith(('< Server: ', '< Date: '))]
        self.assertEqual(lines, [
            '* %s, not encrypted' % self.server.url.partition('//')[2], '> POST %s/token' % self.server.url,
            '> Accept: application/json',
            '> Connection: close', '> Content-Type: application/x-www-form-urlencoded', '> Authorization: Basic ***',
            '>',
            '> grant_type=client_credentials&scope=a+b', '< 200 OK', '< Content-Type: application/json', '<',
            '< {"access_token": "***", "token_type": "Bearer"}'])

    def test_nothing_without_the_flag(self):
        self.assertEqual(self.run_tool('token')[2], '')

    def test_the_secrets_of_each_command(self):
        self.server.reply = {**TOKENS, 'active': True, 'nested': [{'refresh_token': 'deep'}]}
        got = ['acc/ess+1', 'ref resh&2', 'id.to.ken', 'deep']
        for words, env in ((['password', '--username', 'ann'], {'OAUTH2_PASSWORD': 'pass word'}),
                           (['refresh'], {'OAUTH2_REFRESH_TOKEN': 'o d'}),
                           (['introspect'], {'OAUTH2_TOKEN': 'the+token'}),
                           (['token', '--extra', 'client_assertion=j.w.t'], {}),
                           (['token', '--extra', 'own=mine all'], {})):
            hides = [*got, *env.values(), 'j.w.t', 'mine all', 'cli ent']
            status, err = self.shown(*words, '--auth', 'body', hides=hides, OAUTH2_CLIENT_SECRET='cli ent', **env)
            self.assertEqual(status, 0)
            self.assertIn('***', err)
        self.assertIn('audience=aud', self.shown('token', '--extra', 'audience=aud')[1])

    def test_a_device(self):
        self.server.reply = lambda asked: OK if 'device_code' in asked else {
            'device_code': 'de/vice', 'user_code': 'U-1', 'verification_uri': 'https://as.example/d', 'expires_in': 60,
            'interval': 0}
        status, err = self.shown('device', hides=['de/vice', '"t1"'])
        self.assertEqual((status, err.count('> POST ')), (0, 2))

    def test_a_server_that_sends_secrets_back(self):
        secret, password = 'se cret/1', 'pass&word'
        login = base64.b64encode(('aaa:' + urllib.parse.quote_plus(secret)).encode()).decode()
        for way in WAYS.values():
            said = 'secret [%s] password [%s] header [%s]' % (way(secret), way(password), way(login))
            for body, kind in ((json.dumps({'error': 'x', 'error_description': said}), 'application/json'),
                               ('<p>%s' % said, 'text/html')):
                self.server.reply = (400, {'Content-Type': kind, 'X-Echo': way(secret).replace('\n', '')}, body)
                _, err = self.shown('password', '--username', 'ann', OAUTH2_PASSWORD=password,
                                    OAUTH2_CLIENT_SECRET=secret)
                shown = ''.join(it for it in err.splitlines() if it.startswith('<'))
                self.assertIn('secret [***] password [***] header [***]', shown)
                self.assertIn('X-Echo: ***', shown)

    def test_replies_that_are_no_json(self):
        for body in '{"access_token": "acc/ess", "refresh_token" : "ref\\"r', 'access_token=acc%2Fess&refresh_token=ref%22r':
            self.server.reply = (200, {'Set-Cookie': 'a=cookie', 'Location': 'https://x.example/y?code=zzz'}, body)
            err = self.shown('token', hides=['acc/ess', 'ref"r', 'cookie', 'zzz'])[1]
            shown = ''.join(it for it in err.splitlines() if it.startswith('<'))
            self.assertNotIn('ref', shown.replace('refresh_token', ''))
            self.assertIn('Set-Cookie: ***', shown)
            self.assertIn('Location: https://x.example/y?***', shown)

    def test_a_kept_token(self):
        path = os.path.join(self.room, 'cache')
        self.server.reply = TOKENS
        self.run_tool('token', '--cache', path)
        self.server.reply = (500, {'Content-Type': 'text/plain'}, 'acc/ess+1 and ref resh&2')
        err = self.shown('refresh', '--cache', path, hides=['acc/ess+1', 'ref resh&2'])[1]
        self.assertIn('< *** and ***', err)

    def test_nothing_steers_the_terminal(self):
        self.server.reply = (400, {'Content-Type': 'text/plain'}, '\x1b[2J\nmore')
        err = self.shown('token')[1]
        self.assertNotIn('\x1b', err)
        self.assertIn('< ?[2J\n< more\n', err)


    def test_a_login(self):
        run = self.start('login', '--redirect', 'https://app.example/cb', '--verbose')
        url = next(it for it in run.stderr if it.startswith('http'))
        state = dict(urllib.parse.parse_qsl(urllib.parse.urlsplit(url).query))['state'].strip()
        err = run.communicate('https://app.example/cb?code=the%%2Fcode&state=%s&x=y&iss=https://as.example\n' % state,
                              timeout=120)[1]
        self.assertEqual(run.returncode, 0)
        verifier = next(it['params']['verifier'] for it in self.scripts() if it['command'] == 'authorize')
        for secret in 'the/code', 'the%2Fcode', verifier, state:
            self.assertNotIn(secret, err)
        self.assertIn('< https://app.example/cb?code=***&state=***&x=***&iss=https://as.example\n', err)
        self.assertIn('> grant_type=authorization_code&code=***&verifier=***\n', err)


class Log(unittest.TestCase):
    def test_a_long_body_is_cut(self):
        said = []
        with mock.patch.multiple(wire_log, say=said.append, is_on=True, secrets=Secrets()):
            wire_log.received(200, 'OK', [], b'{"access_token":"secret","x":"%s"}' % (b'y' * (2 * wire_log.MOST)))
        self.assertTrue(said[2].startswith('< {"access_token":"***","x":"yyy'))
        self.assertEqual(said[3], '< .. and %d letters more' % (wire_log.MOST + 32))


if __name__ == '__main__':
    unittest.main()
