"""The programs of recipes run as they are, each at a server on this machine that speaks TLS."""
import importlib.util
import json
import os
import shutil
import socket
import stat
import subprocess
import sys
import tempfile
import time
import unittest
import urllib.error
import urllib.parse
import urllib.request
from unittest import mock

from case import HERE, Local
import lifecrib
from test_openid import signer

RECIPES = os.path.join(os.path.dirname(HERE), 'recipes')
ACCESS_TOKEN = 'urn:ietf:params:oauth:token-type:access_token'


class Site:
    """An authorization server, and the API for its tokens."""

    def __init__(self):
        self.signer, self.seen, self.url, self.claims, self.polls, self.refused = signer('k1'), None, '', None, 0, {}

    def __call__(self, path):
        method, _, headers, body = self.seen[-1]
        self.asked = dict(urllib.parse.parse_qsl(body.decode()))
        if path in self.refused:
            return self.refused[path], {}, b'{"error":"invalid_grant"}'
        found = getattr(self, path.strip('/').replace('.', '_').replace('/', '_').replace('-', '_'), None)
        status, body = found(headers) if found else (404, {})
        return status, {}, json.dumps(body).encode()

    def _well_known_oauth_authorization_server(self, _headers):
        names = {'authorization_endpoint': 'auth', 'token_endpoint': 'token', 'jwks_uri': 'keys',
                 'device_authorization_endpoint': 'device', 'revocation_endpoint': 'revoke'}
        return 200, {'issuer': self.url, **{name: '%s/%s' % (self.url, it) for name, it in names.items()}}

    def token(self, _headers):
        grant = self.asked['grant_type'].rpartition(':')[2]
        if grant == 'device_code':
            self.polls += 1
            if self.polls == 1:
                return 400, {'error': 'authorization_pending'}
        if grant == 'token-exchange' and self.asked['subject_token'] != 'of ann':
            return 400, {'error': 'invalid_request'}
        found = {'access_token': 'by-' + grant, 'token_type': 'Bearer', 'expires_in': 3600}
        if grant == 'token-exchange':
            found['issued_token_type'] = ACCESS_TOKEN
        elif grant != 'client_credentials':
            found['refresh_token'] = 'r-' + grant
        if self.claims:
            found['id_token'] = self.signer.token(**self.claims)
        return 200, found

    def device(self, _headers):
        return 200, {'device_code': 'd', 'user_code': 'U-1', 'verification_uri': self.url + '/v', 'expires_in': 60,
                     'interval': 1}

    def introspect(self, _headers):
        is_known = self.asked['token'] in ('reads', 'writes')
        found = {'active': True, 'scope': self.asked['token'][:-1], 'sub': 'ann', 'aud': ['https://api.example/']}
        return 200, found if is_known else {'active': False}

    def keys(self, _headers):
        return 200, {'keys': [self.signer.key]}

    def revoke(self, _headers):
        return 200, {}

    def api(self, headers):
        return 200, {'by': headers.get('Authorization')}

    def asks(self):
        """The grants for which tokens were asked."""
        forms = [dict(urllib.parse.parse_qsl(body.decode())) for _, path, _, body in self.seen if path == '/token']
        return [it['grant_type'].rpartition(':')[2] for it in forms]


class NoRedirect(urllib.request.HTTPRedirectHandler):
    def redirect_request(self, *_):
        return None


def visit(url, method='GET', **headers):
    """The status, headers and text of a reply."""
    request = urllib.request.Request(url, headers=headers, method=method)
    opener = urllib.request.build_opener(urllib.request.ProxyHandler({}), NoRedirect)
    try:
        with opener.open(request, timeout=30) as reply:
            return reply.status, reply.headers, reply.read().decode()
    except urllib.error.HTTPError as reply:
        with reply:
            return reply.code, reply.headers, reply.read().decode()


@unittest.skipUnless(shutil.which('openssl'), 'there is no openssl')
class Case(unittest.TestCase):
    def setUp(self):
        self.site = Site()
        local = Local(self.site, tls=True)
        self.site.seen, self.site.url = local.seen, local.url
        local.__enter__()
        self.addCleanup(local.__exit__)
        self.room = tempfile.mkdtemp()
        self.addCleanup(shutil.rmtree, self.room)
        kept = {it: os.environ[it] for it in ('PATH', 'LIFECRIB_PROGRAM', 'LIFECRIB_LIBRARY') if it in os.environ}
        self.env = {**kept, 'PYTHONPATH': os.path.dirname(HERE), 'PYTHONDONTWRITEBYTECODE': '1', 'HOME': self.room,
                    'SSL_CERT_FILE': local.certificate, 'ISSUER': local.url, 'CLIENT_ID': 'aaa', 'CLIENT_SECRET': 'bbb',
                    'TOKEN_URL': local.url + '/token', 'INTROSPECTION_URL': local.url + '/introspect',
                    'API': local.url + '/api', 'BROWSER': 'true'}

    def start(self, name, *words, without=(), **env):
        """A run of a program."""
        env = {it: value for it, value in {**self.env, **env}.items() if it not in without}
        pipes = dict.fromkeys(('stdin', 'stdout', 'stderr'), subprocess.PIPE)
        run = subprocess.Popen([sys.executable, os.path.join(RECIPES, name), *words], env=env, text=True, **pipes)
        self.addCleanup(self.end, run)
        return run

    @staticmethod
    def end(run):
        run.kill()
        run.communicate()

    def serve(self, name, **settings):
        """The address at which a program serves."""
        self.server = self.start(name, '0', **settings)
        found = self.server.stdout.readline().strip()
        self.assertTrue(found, found or self.server.stderr.read())
        return found

    def came_back(self, url, redirect):
        """The URL by which the browser of a login comes back, whose user has agreed."""
        asked = dict(urllib.parse.parse_qsl(urllib.parse.urlsplit(url).query))
        self.assertEqual((asked['code_challenge_method'], asked['redirect_uri']), ('S256', redirect))
        now = int(time.time())
        if 'nonce' in asked:
            self.site.claims = {'iss': self.site.url, 'sub': 'ann', 'aud': 'aaa', 'exp': now + 60, 'iat': now,
                                'nonce': asked['nonce']}
        return asked['state'], '?code=c&state=' + asked['state']


class WebBackend(Case):
    def setUp(self):
        super().setUp()
        self.base = self.serve('web_backend.py', BASE='https://app.example')

    def signed_in(self):
        """The cookie of a session, and the one of the login before it."""
        status, headers, _ = visit(self.base + '/login')
        first = headers['Set-Cookie'].partition(';')[0]
        self.assertEqual(status, 303)
        self.assertRegex(headers['Set-Cookie'], '; Secure; HttpOnly; SameSite=Lax$')
        _, self.back = self.came_back(headers['Location'], 'https://app.example/back')
        status, headers, text = visit(self.base + '/back' + self.back, Cookie=first)
        self.assertEqual((status, headers['Location']), (303, '/'), text)
        return headers['Set-Cookie'].partition(';')[0], first

    def test_a_login_and_a_call(self):
        self.assertIn('Sign in', visit(self.base + '/')[2])
        self.assertEqual(visit(self.base + '/orders')[0], 401)
        cookie, first = self.signed_in()
        self.assertNotEqual(cookie, first)
        status, headers, text = visit(self.base + '/orders', Cookie=cookie)
        self.assertEqual(status, 200)
        self.assertEqual(json.loads(text), {'user': 'ann', 'orders': {'by': 'Bearer by-authorization_code'}})
        self.assertEqual(headers['Cache-Control'], 'no-store')
        self.assertEqual(visit(self.base + '/orders', Cookie=first)[0], 401)
        self.assertEqual(visit(self.base + '/back' + self.back, Cookie=first)[0], 403)

    def test_a_login_of_another_browser(self):
        _, headers, _ = visit(self.base + '/login')
        _, back = self.came_back(headers['Location'], 'https://app.example/back')
        _, headers, _ = visit(self.base + '/login')
        status, _, text = visit(self.base + '/back' + back, Cookie=headers['Set-Cookie'].partition(';')[0])
        self.assertEqual((status, text), (502, 'redirect has another state'))
        self.assertEqual(visit(self.base + '/back' + back)[0], 403)
        self.assertEqual(self.site.asks(), [])

    def test_cookies_of_others(self):
        cookie, _ = self.signed_in()
        for odd in ('a/b=1; %s', '%s; a@b=1', 'a={"b": 1}; %s; c', 'x%s=1; %%s' % cookie.partition('=')[0]):
            self.assertEqual(visit(self.base + '/orders', Cookie=odd % cookie)[0], 200, odd)
        self.assertEqual(visit(self.base + '/orders', Cookie='a; x' + cookie)[0], 401)

    def test_a_new_login_ends_the_session(self):
        cookie, _ = self.signed_in()
        self.assertEqual(visit(self.base + '/login', Cookie=cookie)[0], 303)
        self.assertEqual(visit(self.base + '/orders', Cookie=cookie)[0], 401)

    def test_its_log_has_no_code(self):
        self.signed_in()
        self.server.kill()
        self.assertNotIn('code=c', self.server.communicate()[1])

    def test_a_logout(self):
        cookie, _ = self.signed_in()
        self.assertEqual(visit(self.base + '/logout', Cookie=cookie)[0], 404)
        self.assertEqual(visit(self.base + '/logout', 'POST', Cookie=cookie)[0], 303)
        self.assertEqual(self.site.seen[-1][1], '/revoke')
        self.assertEqual(visit(self.base + '/orders', Cookie=cookie)[0], 401)


class CommandLine(Case):
    def setUp(self):
        super().setUp()
        self.path = os.path.join(self.room, 'token')
        self.env['TOKEN_FILE'] = self.path

    def sign_in(self, run):
        """The address of a login that waits for its browser."""
        url = run.stderr.readline().split()[-1]
        redirect = dict(urllib.parse.parse_qsl(urllib.parse.urlsplit(url).query))['redirect_uri']
        self.assertRegex(redirect, r'^http://127\.0\.0\.1:\d+/back$')
        return redirect, self.came_back(url, redirect)[1]

    def test_a_login_and_later_runs(self):
        run = self.start('command_line.py', without=['CLIENT_SECRET'])
        redirect, back = self.sign_in(run)
        at = urllib.parse.urlsplit(redirect)
        with socket.create_connection((at.hostname, at.port)), socket.create_connection((at.hostname, at.port)) as odd:
            odd.sendall(b'GET * HTTP/1.0\r\n\r\n')  # the first says nothing
            self.assertEqual(visit(redirect, 'POST')[0], 501)
        self.assertEqual(visit(redirect + back.replace('state=', 'state=x'))[0], 200)
        self.assertEqual(visit(redirect + back)[0], 200)
        out, err = run.communicate(timeout=30)
        self.assertEqual((run.returncode, json.loads(out)), (0, {'by': 'Bearer by-authorization_code'}), err)
        self.assertIn('redirect has another state', err)
        self.assertEqual(stat.S_IMODE(os.stat(self.path).st_mode), 0o600)
        before = len(self.site.seen)
        self.assertEqual(self.start('command_line.py').communicate()[0], out)
        self.assertEqual(len(self.site.seen), before + 1)  # the call of the API

    def test_a_renewal(self):
        with open(self.path, 'w') as f:
            json.dump({'access_token': 't', 'token_type': 'bearer', 'expires_in': 1, 'refresh_token': 'r0'}, f)
        runs = [self.start('command_line.py') for _ in range(3)]
        self.assertEqual([json.loads(it.communicate()[0])['by'] for it in runs], ['Bearer by-refresh_token'] * 3)
        self.assertEqual(self.site.asks(), ['refresh_token'])

    def test_a_refresh_token_that_is_refused(self):
        with open(self.path, 'w') as f:
            json.dump({'access_token': 't', 'token_type': 'bearer', 'expires_in': 1, 'refresh_token': 'r0'}, f)
        self.site.refused['/token'] = 400
        run = self.start('command_line.py')
        redirect, back = self.sign_in(run)
        self.site.refused.clear()
        visit(redirect + back)
        self.assertEqual(json.loads(run.communicate()[0])['by'], 'Bearer by-authorization_code')

    def test_a_user_who_says_no(self):
        run = self.start('command_line.py')
        redirect, back = self.sign_in(run)
        visit(redirect + back.replace('code=c', 'error=access_denied'))
        self.assertIn('RefusedRedirect: access_denied', run.communicate()[1])
        self.assertFalse(os.path.exists(self.path))


class Device(Case):
    def test_each_line(self):
        run = self.start('device.py')
        self.assertEqual(run.stdout.readline(), 'Open %s/v and enter U-1\n' % self.site.url)
        out, err = run.communicate('12\n13\n', timeout=30)
        self.assertEqual(run.returncode, 0, err)
        self.assertEqual(out.splitlines(), ['Signed in.'] + ['{"by": "Bearer by-device_code"}'] * 2)
        self.assertEqual([it[3] for it in self.site.seen if it[1] == '/api'], [b'12\n', b'13\n'])
        self.assertEqual(self.site.asks(), ['device_code'] * 2)


class Service(Case):
    def setUp(self):
        super().setUp()
        self.base = self.serve('service.py', AUDIENCE='https://stock.example/', SCOPES='read')

    def test_a_call_of_its_own(self):
        for _ in range(2):
            self.assertEqual(visit(self.base + '/report')[::2], (200, '{"by": "Bearer by-client_credentials"}'))
        self.assertEqual(self.site.asks(), ['client_credentials'])

    def test_a_call_for_its_caller(self):
        for authorization, status in (('Bearer of ann', 200), ('Bearer of eve', 401), ('Basic x', 401), ('', 401)):
            self.assertEqual(visit(self.base + '/orders', Authorization=authorization)[0], status, authorization)
        self.assertEqual(self.site.asks(), ['token-exchange'] * 2)
        self.assertEqual(self.site.asked['audience'], 'https://stock.example/')

    def test_a_server_that_is_down(self):
        self.site.refused['/token'] = 500
        self.assertEqual(visit(self.base + '/report')[::2], (503, 'not now'))
        self.assertEqual(visit(self.base + '/report')[0], 503)
        self.assertEqual(self.site.asks(), ['client_credentials'])  # the second call waits


class ResourceServer(Case):
    def check(self, base, *rows):
        for token, status, why in rows:
            found, headers, _ = visit(base, **({'Authorization': token} if token else {}))
            self.assertEqual((found, headers['WWW-Authenticate']), (status, why), token)

    def test_by_introspection(self):
        base = self.serve('resource_server.py')
        wrong, other = 'Bearer error="invalid_token"', 'Bearer error="insufficient_scope", scope="read"'
        self.check(base, ('Bearer reads', 200, None), ('bearer writes', 403, other), ('Bearer x', 401, wrong),
                   ('', 401, 'Bearer'), ('Basic eDp5', 401, 'Bearer'))
        self.assertEqual(visit(base, Authorization='Bearer reads')[2], '{"sub": "ann"}')
        self.site.refused['/introspect'] = 500
        self.check(base, ('Bearer reads', 503, None))

    def test_the_audience_by_introspection(self):
        for audience, status in (('https://api.example/', 200), ('https://other.example/', 401)):
            base = self.serve('resource_server.py', AUDIENCE=audience)
            self.check(base, ('Bearer reads', status, None if status == 200 else 'Bearer error="invalid_token"'))

    def test_by_keys(self):
        base = self.serve('resource_server.py', without=['INTROSPECTION_URL'], AUDIENCE='https://api.example/')
        now = int(time.time())
        claims = {'iss': self.site.url, 'sub': 'ann', 'aud': 'https://api.example/', 'exp': now + 60, 'iat': now,
                  'client_id': 'aaa', 'jti': '1', 'scope': 'read'}

        def token(**more):
            return 'Bearer ' + self.site.signer.token('at+jwt', **{**claims, **more})
        wrong = 'Bearer error="invalid_token"'
        self.check(base, (token(), 200, None), (token(aud='https://other.example/'), 401, wrong),
                   (token(exp=1), 401, wrong), (token(iss='https://other.example'), 401, wrong),
                   ('Bearer x', 401, wrong),
                   (token(scope='write'), 403, 'Bearer error="insufficient_scope", scope="read"'))
        self.assertEqual([path for _, path, _, _ in self.site.seen].count('/keys'), 1)

    def by_keys(self, keys_of, jwks_uri='https://as.example/keys'):
        """The check of a program whose issuer's keys come so."""
        spec = importlib.util.spec_from_file_location('resource_server', os.path.join(RECIPES, 'resource_server.py'))
        module = importlib.util.module_from_spec(spec)
        spec.loader.exec_module(module)
        with mock.patch.object(module.Client, 'discover') as discover, \
                mock.patch.object(module, 'UrllibTransport', lambda **_: keys_of):
            discover.return_value.metadata = lifecrib.Metadata('https://as.example', jwks_uri=jwks_uri)
            return module.ByKeys('https://as.example', 'https://api.example/')

    def test_keys_that_others_could_change(self):
        for url in ('http://as.example/keys', 'file:///keys', None):
            with self.assertRaises(ValueError):
                self.by_keys(None, url)
        for status, body in ((302, b'{"keys": []}'), (200, b'{}'), (200, b'[]')):
            with self.assertRaises(OSError):
                self.by_keys(lambda _: lifecrib.Reply(status, None, body))

    def test_keys_that_do_not_come(self):
        replies = [lifecrib.Reply(200, None, json.dumps({'keys': [signer('k1').key]}).encode())]
        asked = []

        def keys_of(request):
            asked.append(request)
            return replies.pop() if replies else lifecrib.Reply(503, None, b'{}')
        check, now = self.by_keys(keys_of), int(time.time())
        claims = {'iss': 'https://as.example', 'sub': 'ann', 'aud': 'https://api.example/', 'exp': now + 60, 'iat': now,
                  'client_id': 'aaa', 'jti': '1', 'scope': 'read'}
        good, bad = signer('k1').token('at+jwt', **claims), signer('k2').token('at+jwt', **claims)
        for passed, seen in ((0, 1), (61, 2), (3601, 3)):
            check.asked_at -= passed
            check.came_at -= passed
            for token in (bad, bad, good, bad):
                try:
                    self.assertTrue(check(token).active)
                except (OSError, lifecrib.BadAccessToken):
                    pass
            self.assertTrue(check(good).active)
            self.assertEqual(len(asked), seen)

    def test_a_new_key(self):
        issuer, audience, now = 'https://as.example', 'https://api.example/', int(time.time())
        claims = {'iss': issuer, 'sub': 'ann', 'aud': audience, 'exp': now + 60, 'iat': now, 'client_id': 'aaa',
                  'jti': '1', 'scope': 'read'}
        tokens = [signer(kid).token('at+jwt', **claims) for kid in ('k1', 'k2')]
        sets = [lifecrib.Reply(200, None, json.dumps({'keys': [signer(kid).key]}).encode()) for kid in ('k1', 'k2')]
        check = self.by_keys(lambda _: sets.pop(0))
        self.assertTrue(check(tokens[0]).active)
        with self.assertRaises(lifecrib.BadAccessToken):
            check(tokens[1])
        self.assertEqual(len(sets), 1)  # they are asked for at most once in a minute
        check.asked_at -= 61
        self.assertTrue(check(tokens[1]).active)
        with self.assertRaises(lifecrib.BadAccessToken):
            check(tokens[0])
        self.assertEqual(sets, [])


class Fleet(Case):
    """Over a stand-in of the command; tools/try-servers has it over the command itself."""

    def run_with(self, *statuses):
        """A run whose command ends with these statuses, one after the other."""
        path = os.path.join(self.room, 'lifecrib')
        with open(path, 'w') as f:
            f.write('#!/bin/sh\necho "$@" >> %s/words\nset -- %s\nshift $(($(wc -l < %s/words) - 1))\n'
                    'echo Authorization: Bearer t1\nexit $1\n' % (self.room, ' '.join(map(str, statuses)), self.room))
        os.chmod(path, 0o755)
        run = self.start('fleet.py', LIFECRIB=path, CACHE='redis://cache.example/0')
        out, err = run.communicate('job 1\n', timeout=30)
        with open(os.path.join(self.room, 'words')) as f:
            words = f.read().splitlines()
        os.remove(os.path.join(self.room, 'words'))
        return run.returncode, out, err, words

    def test_each(self):
        words = 'token --cache redis://cache.example/0 --output header --quiet'
        self.assertEqual(self.run_with(0), (0, '{"by": "Bearer t1"}\n', '', [words]))
        self.assertEqual(self.run_with(9, 0), (0, '{"by": "Bearer t1"}\n', '', [words] * 2))
        self.assertEqual(self.run_with(5)[0::3], (1, [words]))
        self.assertEqual(self.run_with(12)[0::3], (12, [words]))


if __name__ == '__main__':
    unittest.main()
