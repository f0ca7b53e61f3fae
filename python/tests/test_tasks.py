"""The programs of tasks, by each library that is installed: all do the same, lifecrib's in the fewest lines."""
import ast
import contextlib
import importlib.util
import json
import os
import re
import shutil
import time
import unittest
import urllib.parse
import warnings
from unittest import mock

from case import HERE, Local
from lifecrib import _transport
from test_openid import signer

TASKS = os.path.join(os.path.dirname(HERE), 'tasks')
PAGE = os.path.join(os.path.dirname(HERE), '..', 'docs', 'PYTHON.md')
NEEDS = {'lifecrib': [], 'authlib': ['authlib', 'requests'], 'requests_oauthlib': ['requests_oauthlib', 'requests']}
MORE = {('openid', 'requests_oauthlib'): ['jwt'], ('renewal', 'lifecrib'): ['requests']}
PLAIN = {'OAUTHLIB_INSECURE_TRANSPORT': '1', 'AUTHLIB_INSECURE_TRANSPORT': '1'}  # the server is on this machine


def path_of(task, library):
    return os.path.join(TASKS, task, 'with_%s.py' % library)


def lines_of(path):
    """How many lines of code a file has: those that are not empty, a comment or the text that says what it is for."""
    with open(path) as f:
        text = f.read()
    said = set()
    for it in ast.walk(ast.parse(text)):
        if isinstance(it, (ast.Module, ast.FunctionDef)) and ast.get_docstring(it):
            said |= set(range(it.body[0].lineno, it.body[0].end_lineno + 1))
    rows = [(at, line.strip()) for at, line in enumerate(text.split('\n'), 1)]
    return sum(1 for at, line in rows if line and not line.startswith('#') and at not in said)


class Authorization:
    """What a server answers to the tasks."""

    def __init__(self):
        self.signer, self.polls, self.claims, self.seen = signer('k1'), 0, {}, None

    def __call__(self, path):
        sent = dict(urllib.parse.parse_qsl(self.seen[-1][3].decode()))
        token = {'access_token': 't1', 'token_type': 'Bearer', 'expires_in': 3600, 'refresh_token': 'r2'}
        if path == '/token' and 'device_code' in sent:
            self.polls += 1
            if self.polls == 1:
                return 400, {}, b'{"error":"authorization_pending"}'
        if path == '/token' and self.claims:
            token['id_token'] = self.signer.token(**self.claims)
        url = 'http://' + self.seen[-1][2]['Host']
        found = {
            '/token': token, '/revoke': {}, '/introspect': {'active': True}, '/keys': {'keys': [self.signer.key]},
            '/api': {'by': self.seen[-1][2].get('Authorization')},
            '/device': {'device_code': 'd', 'user_code': 'U', 'verification_uri': url + '/v', 'expires_in': 60,
                        'interval': 1},
            '/.well-known/openid-configuration': {
                'issuer': url, 'authorization_endpoint': url + '/auth', 'token_endpoint': url + '/token',
                'jwks_uri': url + '/keys'}}
        return (200, {}, json.dumps(found[path]).encode()) if path in found else (404, {}, b'{}')


@unittest.skipUnless(shutil.which('openssl'), 'there is no openssl')
class Tasks(unittest.TestCase):
    @contextlib.contextmanager
    def server(self, tls=False):
        self.addCleanup(_transport.default_transport.cache_clear)
        answer = Authorization()
        with Local(answer, tls) as server:
            answer.seen = server.seen
            trusted = {name: server.certificate for name in ('SSL_CERT_FILE', 'REQUESTS_CA_BUNDLE')} if tls else {}
            with mock.patch.dict(os.environ, {**PLAIN, **trusted}), warnings.catch_warnings():
                warnings.simplefilter('ignore', ResourceWarning)  # of sessions that nobody closes
                _transport.default_transport.cache_clear()
                yield server, answer

    def each(self, task):
        """The program of a task by each library that is here."""
        for library in NEEDS:
            if all(map(importlib.util.find_spec, NEEDS[library] + MORE.get((task, library), []))):
                spec = importlib.util.spec_from_file_location('%s_%s' % (task, library), path_of(task, library))
                module = importlib.util.module_from_spec(spec)
                spec.loader.exec_module(module)
                with self.subTest(library):
                    yield module

    def test_client_credentials(self):
        for it in self.each('client_credentials'):
            with self.server() as (server, _):
                self.assertEqual(it.run(server.url), 't1')

    def test_login(self):
        for it in self.each('login'):
            with self.server() as (server, _):
                session = {}
                url = it.begin(server.url, session)
                asked = dict(urllib.parse.parse_qsl(urllib.parse.urlsplit(url).query))
                self.assertEqual(json.loads(json.dumps(session)), session)
                back = 'https://app.example/back?code=c&state=' + asked['state']
                self.assertEqual((it.end(server.url, session, back), session), ('t1', {}))
                sent = dict(urllib.parse.parse_qsl(server.seen[0][3].decode()))
                self.assertEqual((asked['code_challenge_method'], len(sent['code_verifier']) >= 43), ('S256', True))

    def test_renewal(self):
        for it in self.each('renewal'):
            with self.server() as (server, _):
                saved = []
                answer = it.run(server.url, {'access_token': 't0', 'refresh_token': 'r1'}, saved.append)
                self.assertEqual((json.loads(answer), len(saved)), ({'by': 'Bearer t1'}, 1))
                sent = dict(urllib.parse.parse_qsl(server.seen[0][3].decode()))
                self.assertEqual((sent['grant_type'], sent['refresh_token']), ('refresh_token', 'r1'))

    def test_device(self):
        for it in self.each('device'):
            with self.server() as (server, answer):
                shown = []
                self.assertEqual(it.run(server.url, lambda *them: shown.append(them)), 't1')
                self.assertEqual((shown, answer.polls), ([(server.url + '/v', 'U')], 2))

    def test_openid(self):
        for it in self.each('openid'):
            with self.server() as (server, answer):
                session = {}
                url = it.begin(server.url, session)
                asked = dict(urllib.parse.parse_qsl(urllib.parse.urlsplit(url).query))
                now = int(time.time())
                answer.claims = {'iss': server.url, 'sub': 'u1', 'aud': 'aaa', 'exp': now + 60, 'iat': now,
                                 'nonce': asked['nonce']}
                back = 'https://app.example/back?code=c&state=' + asked['state']
                self.assertEqual(it.end(server.url, session, back), 'u1')

    def test_introspection(self):
        for it in self.each('introspection'):
            with self.server(tls=True) as (server, _):
                self.assertTrue(it.run(server.url, 't'))
                self.assertEqual([path for _, path, _, _ in server.seen], ['/introspect', '/revoke'])


class Lines(unittest.TestCase):
    def test_those_of_lifecrib_are_the_fewest(self):
        for task in os.listdir(TASKS):
            own, *others = [lines_of(path_of(task, library)) for library in NEEDS]
            self.assertLessEqual(own, min(others), task)

    def test_no_line_is_long(self):
        for at, folders, names in os.walk(os.path.dirname(HERE)):
            folders[:] = [it for it in folders if it != 'command_tests']
            for name in names:
                if name.endswith(('.py', '.md', '.toml')):
                    with open(os.path.join(at, name)) as f:
                        for number, line in enumerate(f, 1):
                            self.assertLessEqual(len(line.rstrip('\n')), 120, '%s:%d' % (name, number))

    @unittest.skipUnless(os.path.exists(PAGE), 'there is no page')
    def test_the_page_has_the_numbers(self):
        with open(PAGE) as f:
            rows = re.findall(r'python/tasks/(\w+).*?\| (\d+) \| (\d+) \| (\d+) \|', f.read())
        found = {task: tuple(str(lines_of(path_of(task, library))) for library in NEEDS) for task in os.listdir(TASKS)}
        self.assertEqual({task: tuple(numbers) for task, *numbers in rows}, found)


if __name__ == '__main__':
    unittest.main()
