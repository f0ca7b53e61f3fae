"""Tests of `tools/oauth2 --issuer` over a stand-in of the program and a server on this machine: endpoints that no
setting names."""
import json
import os
import unittest
import urllib.parse

import stand_in
import where
from stand_in import OK

from lifecrib_command import discovery, settings

NAMES = ('token_url', 'auth_url', 'device_url', 'introspection_url', 'revocation_url')
FIRST, SECOND = '/.well-known/oauth-authorization-server', '/.well-known/openid-configuration'
PROMISE = {'authorization_response_iss_parameter_supported': True}


class Case(stand_in.Case):
    def setUp(self):
        super().setUp()
        self.env.update(('OAUTH2_' + name.upper(), '') for name in NAMES)
        self.issuer = self.env['OAUTH2_ISSUER'] = self.server.url
        self.publish()

    def publish(self, path=FIRST, without=(), **more):
        """Puts the metadata of this server at a path, and nothing elsewhere."""
        found = {settings.ENDPOINTS[name]: '%s/%s' % (self.server.url, name.partition('_')[0]) for name in NAMES}
        found = {**found, 'issuer': self.issuer, **more}
        self.server.documents = {path: (200, {}, {name: value for name, value in found.items() if name not in without})}

    def paths(self):
        """Where metadata were asked for, and where the other requests went."""
        return [it[0] for it in self.server.looked_at], [it[0] for it in self.server.asked]

    def logged_in(self, more, *words, **env):
        """How a login ends whose redirect has these further parameters."""
        run = self.start('login', '--redirect', 'https://app.example/cb', *words, **env)
        for line in run.stderr:
            if line.startswith('http'):
                state = dict(urllib.parse.parse_qsl(urllib.parse.urlsplit(line.strip()).query))['state']
                out, err = run.communicate('https://app.example/cb?state=%s&%s\n' % (state, more), timeout=60)
                return run.returncode, out, err
        return (run.wait(60), '', '')


class Endpoints(Case):
    def test_each_command_by_its_issuer(self):
        codes = {'device_code': 'd', 'user_code': 'U-1', 'verification_uri': 'https://as.example/d', 'expires_in': 60,
                 'interval': 0}
        for words, env, wanted in ((['token'], {}, ['/token']),
                                   (['introspect'], {'OAUTH2_TOKEN': 't'}, ['/introspection']),
                                   (['device'], {}, ['/device', '/token']),
                                   (['password', '--username', 'ann'], {'OAUTH2_PASSWORD': 'p'}, ['/token']),
                                   (['refresh'], {'OAUTH2_REFRESH_TOKEN': 'r'}, ['/token'])):
            with self.subTest(words):
                self.server.looked_at, self.server.asked = [], []
                self.server.reply = lambda asked: OK if 'grant_type' in asked else {**codes, 'active': True}
                self.assertEqual(self.run_tool(*words, **env)[0], 0)
                self.assertEqual(self.paths(), ([FIRST], wanted))
        self.server.looked_at, self.server.asked = [], []
        self.assertEqual(json.loads(self.logged_in('code=c')[1]), OK)
        self.assertEqual(self.paths(), ([FIRST], ['/token']))

    def test_a_revocation_by_its_issuer(self):
        server = self.by_tls()
        self.env['OAUTH2_REVOCATION_URL'] = ''
        self.assertEqual(self.run_tool('revoke', OAUTH2_TOKEN='t')[0], 6)  # http
        self.publish(revocation_endpoint=server.url + '/revocation')
        self.assertEqual(self.run_tool('revoke', OAUTH2_TOKEN='t')[0], 0)
        self.assertEqual(server.asked[0][:2], ('/revocation', {'token': 't'}))

    def test_what_is_sent_for_metadata(self):
        self.run_tool('token', OAUTH2_CLIENT_SECRET='bbb')
        (_, headers), = self.server.looked_at
        self.assertEqual({name: value for name,
                          value in headers.items() if name not in ('Host', 'Connection', 'Accept-Encoding')},
                         {'Accept': 'application/json'})
        self.assertEqual(self.scripts()[0],
                         {'client': {'id': 'aaa'}, 'command': 'metadata', 'replies': [], 'result': 'json',
                                             'params': {'issuer': self.issuer,
                                                        'well_known': 'oauth-authorization-server'}})

    def test_the_issuer_is_a_flag_a_variable_or_a_member(self):
        path = os.path.join(self.room, 'settings.json')
        with open(path, 'w', encoding='utf-8') as f:
            json.dump({'issuer': self.issuer}, f)
        for words, env in (['--issuer', self.issuer], ''), ([], self.issuer), (['--config', path], ''):
            self.assertEqual(self.run_tool('token', *words, OAUTH2_ISSUER=env)[0], 0)

    def test_an_endpoint_that_is_set_counts_first(self):
        path = os.path.join(self.room, 'settings.json')
        with open(path, 'w', encoding='utf-8') as f:
            json.dump({'token_url': self.server.url + '/mine'}, f)
        for words, env in ((['--token-url', self.server.url + '/mine'], {}), (['--config', path], {}),
                           ([], {'OAUTH2_TOKEN_URL': self.server.url + '/mine'})):
            self.server.asked = []
            self.assertEqual(self.run_tool('token', *words, **env)[0], 0)
            self.assertEqual(self.paths(), ([], ['/mine']))
        self.logged_in('code=c', '--token-url', self.server.url + '/mine')
        self.assertEqual(self.paths(), ([FIRST], ['/mine', '/mine']))

    def test_the_second_place_is_asked_where_the_first_has_none(self):
        self.publish(SECOND)
        self.assertEqual(self.run_tool('token'), (0, json.dumps(OK, separators=(',', ':')) + '\n', ''))
        self.assertEqual(self.paths(), ([FIRST, SECOND], ['/token']))

    def test_an_issuer_with_a_path(self):
        self.issuer += '/tenant'
        for path in FIRST + '/tenant', '/tenant' + SECOND:
            self.publish(path)
            self.assertEqual(self.run_tool('token', '--issuer', self.issuer)[0], 0)
        self.assertEqual(self.paths()[0], [FIRST + '/tenant'] * 2 + ['/tenant' + SECOND])

    def test_both_reasons_are_told(self):
        self.server.documents = {SECOND: (200, {}, {'issuer': 'https://other.example'})}
        status, out, err = self.run_tool('token')
        self.assertEqual((status, out), (6, ''))
        self.assertIn('tools/oauth2: --issuer is "%s", and the metadata at %s name the issuer '
                      '"https://other.example", so they are not used'
                      % (self.issuer, self.issuer + SECOND), err)
        self.server.documents = {}
        said = ': server answers the request for metadata with status 404 (HTTP status 404)'
        self.assertEqual(self.run_tool('token')[2],
                         'tools/oauth2: the endpoints of the issuer %s can not be discovered '
                         '(is --issuer right?): %s%s; %s%s\n'
                         % (self.issuer, self.issuer + FIRST, said, self.issuer + SECOND, said))
        self.assertEqual(self.server.asked, [])

    def test_a_server_that_is_not_there(self):
        self.server.documents = {FIRST: (302, {'Location': 'https://x.example/y'}, '')}
        status, _, err = self.run_tool('token')
        self.assertEqual(status, 6)
        self.assertIn('sends elsewhere to https://x.example/y (HTTP status 302), which is not followed: give the URL '
                      'of the issuer', err)
        status, _, err = self.run_tool('token', '--issuer', 'http://127.0.0.1:1')
        self.assertEqual(status, 9)
        self.assertEqual(err,
                         'tools/oauth2: the endpoints of the issuer http://127.0.0.1:1 can not be discovered (is '
                         '--issuer right?): '
                              'GET http://127.0.0.1:1%s: Connection refused\n' % FIRST)

    def test_a_missing_member_is_named(self):
        self.publish(without=['device_authorization_endpoint'])
        status, _, err = self.run_tool('device')
        self.assertEqual(status, 6)
        self.assertIn('the metadata of the issuer %s has no "device_authorization_endpoint": give --device-url, '
                      'OAUTH2_DEVICE_URL'
                      % self.issuer, err)
        self.assertEqual(self.server.asked, [])

    def test_an_endpoint_that_can_not_be_used(self):
        for member, url, said in (('token_endpoint', 'http://h.example/token', 'where secrets would go unencrypted'),
                                  ('authorization_endpoint', 'http://h.example/auth',
                                   'where secrets would go unencrypted'),
                                  ('token_endpoint', 'ftp://h/token', 'which is no URL')):
            self.publish(**{member: url})
            status, _, err = self.run_tool('login', '--redirect', 'https://app.example/cb')
            self.assertEqual(status, 6)
            self.assertIn('"%s" in the metadata of the issuer is ' % member, err)
            self.assertIn(said, err)
        self.assertEqual(self.server.asked, [])

    def test_an_issuer_that_can_not_be_used(self):
        for issuer, said in (('http://as.example', '--issuer is http://as.example, where secrets would go unencrypted'),
                             ('as.example', '--issuer is "as.example", which is no URL')):
            status, _, err = self.run_tool('token', '--issuer', issuer, OAUTH2_PROGRAM='/none')
            self.assertEqual(status, 2)
            self.assertIn(said, err)
        status, _, err = self.run_tool('token', '--issuer', self.issuer + '?a=b')
        self.assertEqual((status, err), (2, 'tools/oauth2: --issuer is "%s?a=b": issuer has a query\n' % self.issuer))
        self.assertEqual(self.server.looked_at, [])

    def test_without_an_issuer_a_missing_endpoint_says_so(self):
        status, _, err = self.run_tool('token', OAUTH2_ISSUER='')
        self.assertEqual(status, 2)
        self.assertIn('the token endpoint is not set: give --token-url', err)
        self.assertIn('or --issuer, to discover it', err)


class Issuers(Case):
    """The issuer that a redirect names (RFC 9207, 2.4)."""

    def ends(self, **promises):
        """How logins end whose redirects name no issuer, this one, another one, and two."""
        self.publish(**promises)
        this, other = (urllib.parse.urlencode({'iss': it}) for it in (self.issuer, 'https://other.example'))
        return [self.logged_in(it)[0]
                for it in ('code=c', 'code=c&' + this, 'code=c&' + other, 'code=c&%s&%s' % (this, other))]

    def test_where_the_metadata_promise_it(self):
        self.assertEqual(self.ends(**PROMISE), [1, 0, 1, 1])

    def test_where_the_metadata_do_not(self):
        self.assertEqual(self.ends(), [0, 0, 1, 1])
        self.assertEqual(self.ends(authorization_response_iss_parameter_supported=False), [0, 0, 1, 1])

    def test_where_no_metadata_were_asked_for(self):
        self.env.update(OAUTH2_AUTH_URL=self.server.url + '/auth', OAUTH2_TOKEN_URL=self.server.url + '/token')
        self.assertEqual(self.ends(), [1, 0, 1, 1])
        self.assertEqual(self.server.looked_at, [])
        for more, is_advised in ('', True), ('&iss=x', False):
            self.assertEqual('leave --issuer out' in self.logged_in('code=c' + more)[2], is_advised)

    def test_errors_and_fragments(self):
        self.assertEqual(self.logged_in('error=access_denied')[0], 16)
        self.assertEqual(self.logged_in('error=access_denied&iss=https%3A%2F%2Fother.example')[0], 1)
        self.assertEqual(self.logged_in('code=c#iss=x')[0], 0)
        status, _, err = self.logged_in('code=c&iss=x#y')
        self.assertEqual(status, 1)
        self.assertIn('does not name the issuer (--issuer) once', err)

    def test_what_a_redirect_has_to_name(self):
        for metadata, wanted in (None, True), (PROMISE, True), ({}, False), (dict.fromkeys(PROMISE, False), False):
            self.assertEqual(discovery.must_name_issuer(metadata), wanted)


class Cache(Case):
    def setUp(self):
        super().setUp()
        self.path = os.path.join(self.room, 'cache')
        self.server.reply = lambda asked: {**OK, 'access_token': 't%d' % len(self.server.asked), 'refresh_token': 'r'}

    def token(self, *words, **env):
        """The status of a run with the cache, its token, and where metadata were asked for meanwhile."""
        self.server.looked_at = []
        status, out, self.err = self.run_tool('token', '--cache', self.path, '--output', 'token', *words, **env)
        return status, out.strip(), len(self.server.looked_at)

    def kept(self, **changed):
        """What the file has, once these members are changed."""
        with open(self.path, 'r+', encoding='utf-8') as f:
            found = {**json.load(f), **changed}
            f.seek(0)
            json.dump({name: value for name, value in found.items() if value != 'none'}, f)
            f.truncate()
        return found

    def test_the_discovered_token_endpoint_is_kept(self):
        self.assertEqual(self.token(), (0, 't1', 1))
        self.assertEqual((self.kept()['token_url'], self.kept()['issuer']), (self.server.url + '/token', self.issuer))
        self.assertEqual(self.token(), (0, 't1', 0))
        self.assertEqual(self.token('--margin', '3600'), (0, 't2', 0))
        self.assertEqual(self.token('--margin', '3600', OAUTH2_ISSUER='', OAUTH2_CLIENT_ID=''), (0, 't3', 0))

    def test_a_login_is_renewed_without_metadata(self):
        self.assertEqual(self.logged_in('code=c', '--cache', self.path)[0], 0)
        self.server.documents = {}
        self.assertEqual(self.token('--margin', '3600'), (0, 't2', 0))
        status, out, _ = self.run_tool('login', '--cache', self.path, '--margin', '3600', '--redirect',
                                       'https://app.example/cb')
        self.assertEqual((status, json.loads(out)['access_token']), (0, 't3'))

    def test_the_token_of_another_issuer_is_refused(self):
        self.token()
        self.assertEqual(self.token('--issuer', 'https://other.example'), (2, '', 0))
        self.assertIn('keeps a token of another --issuer ("%s")' % self.issuer, self.err)
        self.issuer += '/x'
        self.publish(FIRST + '/x')
        self.assertEqual(self.token('--issuer', self.issuer, '--anew'), (0, 't2', 1))
        self.assertEqual(self.kept()['issuer'], self.issuer)

    def test_a_file_of_an_earlier_version(self):
        self.token()
        self.kept(issuer='none')
        self.assertEqual(self.token(OAUTH2_ISSUER=''), (0, 't1', 0))
        self.assertEqual(self.token(), (0, 't1', 1))
        self.publish(token_endpoint=self.server.url + '/other')
        self.assertEqual(self.token(), (2, '', 1))
        self.assertIn('another --token-url', self.err)
        self.publish()
        self.assertEqual(self.token('--margin', '3600'), (0, 't2', 1))
        self.assertEqual(self.token('--margin', '3600'), (0, 't3', 0))


if __name__ == '__main__':
    unittest.main()
