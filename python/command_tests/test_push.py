"""Tests of `tools/oauth2 login --push` over a stand-in of the program and a server on this machine that judges each
request by RFC 9126."""
import json
import os
import unittest
import urllib.parse
import urllib.request

import grant_replies
import stand_in
import test_grants
from test_discovery import FIRST
from test_grants import JWT, OTHER_JWT, REDIRECT

REQUIRES = 'require_pushed_authorization_requests'
PAR = 'pushed_authorization_request_endpoint'
GOOD_FOR = 'the parameters are pushed; the address is good for 60 seconds'


class Case(test_grants.Case):
    def setUp(self):
        super().setUp()
        self.server.reply = self.replies = grant_replies.Replies(self.server)
        self.push_url = self.server.url + '/push'

    def publish(self, **more):
        """Puts the metadata of an issuer without the endpoints that are set already."""
        self.env['OAUTH2_ISSUER'] = self.server.url
        self.server.documents = {FIRST: (200, {},
                                         {'issuer': self.server.url, 'token_endpoint': self.server.url + '/token',
                                          **more})}

    def pushed_in(self, *words, **env):
        """How a login ends whose parameters are pushed: its status, its output, and what was pushed."""
        run = self.start('login', '--redirect', REDIRECT, *words, **env)
        for line in run.stderr:
            if line.startswith('http'):
                pushed = list(self.replies.pushed.values())[-1] if self.replies.pushed else []
                out, err = run.communicate(self.replies.back(line.strip()) + '\n', timeout=60)
                return run.returncode, out or err, pushed
        return run.wait(60), '', []

    def plain(self, **env):
        """The status of a login whose parameters the user carries."""
        run = self.start('login', '--redirect', REDIRECT, **env)
        for line in run.stderr:
            if line.startswith('http'):
                state = dict(urllib.parse.parse_qsl(urllib.parse.urlsplit(line.strip()).query))['state']
                run.communicate('%s?%s\n'
                                % (REDIRECT,
                                   urllib.parse.urlencode({'code': 'c', 'state': state, 'iss': self.server.url})),
                                timeout=60)
                break
        return run.wait(60)

    def paths(self):
        return [it[0] for it in self.server.asked]


class Pushes(Case):
    def test_a_login(self):
        status, out, pushed = self.pushed_in('--push-url', self.push_url, '--scope', 'x y', '--extra', 'foo=bar',
                                             '--resource', 'urn:a')
        self.assertEqual((status, json.loads(out)['access_token'], self.paths()), (0, 't1', ['/push', '/token']))
        found = dict(pushed)
        self.assertEqual([found.pop(it)
                          for it in ('response_type', 'client_id', 'redirect_uri', 'scope', 'foo', 'resource')],
                         ['code', 'aaa', REDIRECT, 'x y', 'bar', 'urn:a'])
        self.assertEqual({it for it in found if it not in ('code_challenge', 'code_challenge_method')}, {'state'})

    def test_where_the_endpoint_comes_from(self):
        settings = self.file(json.dumps({'push_url': self.push_url}), 'settings.json')
        lines = 'client_id = "a"\ntoken_url = "%s/token"\nauth_url = "%s/auth"\n' % (self.server.url, self.server.url)
        profile = self.file('[profile.a]\npush_url = "%s"\n%s' % (self.push_url, lines), 'a.toml')
        for words, env in ((['--push-url', self.push_url], {}), (['--push', '--push-url', self.push_url], {}),
                           ([], {'OAUTH2_PUSH_URL': self.push_url}), (['--config', settings], {}),
                           (['--config', profile, '--profile', 'a', '--cache', os.path.join(self.room, 'cache')], {})):
            self.server.asked = []
            self.assertEqual(self.pushed_in(*words, **env)[0], 0)
            self.assertEqual(self.paths(), ['/push', '/token'])

    def test_by_the_metadata(self):
        self.publish(**{PAR: self.push_url})
        self.assertEqual(self.pushed_in('--push')[0], 0)
        profile = self.file('[profile.a]\npush = true\nclient_id = "a"\n', 'a.toml')
        self.assertEqual(self.pushed_in('--config', profile, '--profile', 'a', '--cache',
                                        os.path.join(self.room, 'cache'))[0], 0)
        self.assertEqual(self.paths(), ['/push', '/token'] * 2)
        self.assertEqual([it[0] for it in self.server.looked_at], [FIRST] * 2)
        self.assertEqual(self.plain(), 0)  # all endpoints are set, and none is asked for
        self.assertEqual(self.plain(OAUTH2_TOKEN_URL=''), 0)  # that there is an endpoint does not make a push
        self.assertEqual(self.paths()[4:], ['/token'] * 2)

    def test_where_the_server_requires_it(self):
        for value, wanted in (True, ['/push', '/token']), (False, ['/token']), (None, ['/token']), ('true', ['/token']):
            self.server.asked = []
            self.publish(**{PAR: self.push_url, REQUIRES: value})
            if wanted[0] == '/push':
                self.assertEqual(self.pushed_in(OAUTH2_TOKEN_URL='')[0], 0)
            else:
                self.assertEqual(self.plain(OAUTH2_TOKEN_URL=''), 0)
            self.assertEqual(self.paths(), wanted)
        self.publish(**{REQUIRES: True})
        self.refused('has no "%s": give --push-url, OAUTH2_PUSH_URL' % PAR, 'login', '--redirect', REDIRECT, status=6,
                     OAUTH2_TOKEN_URL='')
        self.assertEqual(self.pushed_in(OAUTH2_TOKEN_URL='', OAUTH2_PUSH_URL=self.push_url)[0], 0)

    def test_how_a_client_is_known(self):
        self.assertEqual(self.pushed_in('--push-url', self.push_url, OAUTH2_CLIENT_SECRET='bbb')[0], 0)
        self.assertTrue(all('Authorization' in it[2] for it in self.server.asked))
        path, asked = self.file(JWT), []

        def reply(form):
            self.file(OTHER_JWT)
            asked.append(dict(self.server.forms[-1]).get('client_assertion'))
            return self.replies(form)
        self.server.reply = reply
        self.assertEqual(self.pushed_in('--push-url', self.push_url, '--client-assertion-file', path)[0], 0)
        self.assertEqual(asked, [JWT, OTHER_JWT])

    def test_a_listener(self):
        run = self.start('login', '--push-url', self.push_url, '--listen', '--no-browser')
        for line in run.stderr:
            if line.startswith('http'):
                with urllib.request.urlopen(self.replies.back(line.strip())) as page:
                    self.assertEqual(page.status, 200)
                break
        out, err = run.communicate(timeout=60)
        self.assertEqual((run.returncode, json.loads(out)['access_token']), (0, 't1'), err)

    def test_openid(self):
        run = self.start('login', '--push-url', self.push_url, '--openid', '--id-token-issuer', 'https://as.example',
                         '--redirect', REDIRECT)
        for line in run.stderr:
            if line.startswith('http'):
                found = dict(list(self.replies.pushed.values())[0])
                self.assertEqual((found['scope'], len(found['nonce'])), ('openid', 22))
                break
        run.communicate(self.replies.back(line.strip()) + '\n', timeout=60)
        self.assertEqual(run.returncode, 8)  # there is no ID token

    def test_how_long_the_address_is_good(self):
        run = self.start('login', '--push-url', self.push_url, '--redirect', REDIRECT)
        self.assertIn(GOOD_FOR, run.stderr.readline())
        run.communicate('')
        self.assertNotIn(GOOD_FOR,
                         self.run_tool('login', '--push-url', self.push_url, '--redirect', REDIRECT, '--quiet')[2])

    def test_errors(self):
        words = ['login', '--push-url', self.push_url, '--redirect', REDIRECT]
        at = self.push_url + ' (--push-url)'
        for reply, status, said in (((400, {}, {'error': 'invalid_request'}), 10, 'invalid_request (HTTP status 400)'),
                                    ((401, {}, {'error': 'invalid_client'}), 11,
                                     'invalid_client (HTTP status 401); no secret was sent'),
                                    ((200, {}, {'request_uri': 'urn:x', 'expires_in': 5}), 1,
                                     at + ': Failed to parse server response'),
                                    ((429, {}, ''), 9, 'HTTP status 429'),
                                    ((404, {'Content-Type': 'text/html'}, '<p>'), 1, at + ': the reply')):
            self.server.reply = reply
            found = self.run_tool(*words)
            self.assertEqual(found[:2], (status, ''), found)
            self.assertIn(said, found[2])
            self.assertNotIn('Open this address', found[2])

    def test_what_is_refused(self):
        words = ['login', '--redirect', REDIRECT]
        self.refused('the endpoint to which the parameters of a login are pushed (RFC 9126) is not set: give --push-url', *words, '--push')
        self.refused('--push-url is "x", which is no URL', *words, '--push-url', 'x')
        self.refused('where secrets would go unencrypted', *words, '--push-url', 'http://as.example/push')
        self.refused('--extra request_uri: the tool sends', *words, '--push-url', self.push_url, '--extra',
                     'request_uri=urn:x')
        self.publish(**{PAR: self.push_url, REQUIRES: True})
        self.refused('URL has the parameter `request_uri`', *words, '--extra', 'request_uri=urn:x', OAUTH2_TOKEN_URL='')
        self.env['OAUTH2_ISSUER'] = ''
        self.refused('there is no flag --push', 'token', '--push')
        self.refused('there is no flag --push-url', 'token', '--push-url', self.push_url)
        profile = self.file('[profile.a]\npush = 1\n', 'a.toml')
        self.refused('"push" is not true or false', 'login', '--config', profile, '--profile', 'a')

    def test_no_secret_is_shown(self):
        run = self.start('login', '--push-url', self.push_url, '--redirect', REDIRECT, '--verbose',
                         '--client-assertion-file', self.file(JWT))
        lines = []
        for line in run.stderr:
            lines.append(line)
            if line.startswith('http'):
                break
        err = ''.join(lines) + run.communicate(self.replies.back(line.strip()) + '\n', timeout=60)[1]
        self.assertEqual(run.returncode, 0)
        self.assertNotIn(JWT, err)
        self.assertIn('> POST ' + self.push_url, err)


class PushesByProgram(stand_in.ByProgram, Pushes):
    pass


if __name__ == '__main__':
    unittest.main()
