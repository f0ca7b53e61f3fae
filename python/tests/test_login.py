"""Logins: the URL, what is kept, and what comes of the redirect."""
import base64
import hashlib
import json
import pickle
import unittest
import urllib.parse

from case import TOKEN, URLS, Case, Server, client
import lifecrib
from lifecrib import Client, Login


def query(url):
    return dict(urllib.parse.parse_qsl(urllib.parse.urlsplit(url).query))


def back(login, **said):
    """The URL by which the user of a login comes back."""
    return 'https://app.example/back?' + urllib.parse.urlencode({'state': login.state, 'code': 'c/1', **said})


class Logins(Case):
    def test_the_url(self):
        it, server = client()
        login = it.login(scopes=['read', 'write'], extra={'prompt': 'login'})
        self.assertTrue(login.url.startswith('https://as.example/auth_url?response_type=code&client_id=aaa&state='))
        said = query(login.url)
        self.assertEqual((said['state'], said['scope'], said['redirect_uri'], said['prompt']),
                         (login.state, 'read write', 'https://app.example/back', 'login'))
        self.assertEqual(said['code_challenge_method'], 'S256')
        self.assertNotIn('nonce', said)
        self.assertEqual(server.requests, [])

    def test_the_challenge_is_that_of_the_verifier(self):
        it, server = client((200, TOKEN))
        login = it.login()
        challenge = query(login.url)['code_challenge']
        login.finish(back(login))
        sent = dict(urllib.parse.parse_qsl(server.bodies[0]))
        digest = base64.urlsafe_b64encode(hashlib.sha256(sent['code_verifier'].encode()).digest())
        self.assertEqual(digest.decode().rstrip('='), challenge)
        self.assertEqual((sent['code'], sent['redirect_uri']), ('c/1', 'https://app.example/back'))

    def test_no_two_are_the_same(self):
        it, _ = client()
        found = [it.login(scopes='openid') for _ in range(20)]
        for part in ('state', 'verifier', 'nonce'):
            self.assertEqual(len({login._kept[part] for login in found}), 20)

    def test_another_redirect(self):
        it, server = client((200, TOKEN))
        login = it.login(redirect='http://127.0.0.1:8400/')
        self.assertEqual(query(login.url)['redirect_uri'], 'http://127.0.0.1:8400/')
        login.finish('http://127.0.0.1:8400/?code=c&state=' + login.state)
        self.assertIn('redirect_uri=http%3A%2F%2F127.0.0.1%3A8400%2F', server.bodies[0])

    def test_it_is_kept_as_a_text(self):
        it, server = client((200, TOKEN))
        login = it.login(scopes='read')
        again = Login.from_json(login.to_json(), it)
        self.assertEqual((again.state, again.url), (login.state, ''))
        self.assertEqual(again.finish(back(login)).access_token, 't1')
        self.assertNotIn('bbb', login.to_json())
        for text in ('', '[]', '{}', '{"state":1,"verifier":"v"}', '{"state":"s"}', 'null'):
            with self.assertRaises(ValueError):
                Login.from_json(text, it)

    def test_what_it_is_bound_to_is_kept(self):
        it, _ = client(metadata=lifecrib.Metadata('https://as.example'))
        kept = json.loads(it.login().to_json())
        self.assertEqual((kept['client_id'], kept['token_url'], kept['redirect_uri'], kept['issuer_compared']),
                         ('aaa', 'https://as.example/token_url', 'https://app.example/back', 'https://as.example'))
        announced = lifecrib.Metadata('https://as.example', authorization_response_iss_parameter_supported=True)
        kept = json.loads(client(metadata=announced)[0].login(redirect='http://127.0.0.1/').to_json())
        self.assertEqual((kept['redirect_uri'], kept['issuer']), ('http://127.0.0.1/', 'https://as.example'))
        self.assertNotIn('issuer_compared', kept)

    def test_the_text_of_an_older_version_is_refused(self):
        it, server = client()
        kept = json.loads(it.login().to_json())
        for name in ('client_id', 'token_url', 'redirect_uri'):
            old = json.dumps({key: value for key, value in kept.items() if key != name})
            error = self.fails(lifecrib.UnboundLogin, Login.from_json, old, it)
            self.assertEqual(error.kind, 'unbound_login')
            self.assertIsInstance(error, ValueError)
            self.fails(lifecrib.UnboundLogin, pickle.loads, pickle.dumps(Login(None, '', json.loads(old))))
        self.assertEqual(server.requests, [])

    def test_a_login_of_another_client_sends_nothing(self):
        login = client()[0].login()
        for kind, name, settings in ((lifecrib.OtherClient, 'other_client', {'id': 'bbb'}),
                                     (lifecrib.OtherTokenEndpoint, 'other_token_endpoint',
                                      {'token_url': 'https://other.example/token_url'}),
                                     (lifecrib.OtherTokenEndpoint, 'other_token_endpoint', {'token_url': None})):
            server = Server()
            known = {'id': 'aaa', **URLS, 'redirect': 'https://app.example/back', 'transport': server, **settings}
            again = Login.from_json(login.to_json(), Client(**known))
            error = self.fails(kind, again.finish, back(login))
            self.assertEqual((error.kind, error.error, error.status), (name, None, None))
            self.assertIsInstance(error, lifecrib.RefusedRedirect)
            self.assertEqual(server.requests, [])

    def test_a_redirect_to_another_place_sends_nothing(self):
        it, server = client(redirect='https://app.example/back?a=1')
        login = it.login()
        said = 'code=c&state=' + login.state
        for place in ('http://app.example/back?a=1&', 'https://other.example/back?a=1&',
                      'https://app.example:8443/back?a=1&', 'https://app.example/other?a=1&',
                      'https://app.example/back/?a=1&', 'https://app.example/back?', 'https://app.example/back?a=2&'):
            error = self.fails(lifecrib.OtherRedirectUri, login.finish, place + said)
            self.assertEqual((error.kind, error.text), ('other_redirect_uri', 'redirect came to another URI'))
        self.assertEqual(server.requests, [])
        server.replies.append((200, TOKEN))
        self.assertEqual(login.finish('https://app.example/back?%s&a=1' % said).access_token, 't1')

    def test_any_port_of_this_machine(self):
        """RFC 8252, 7.3: at a loopback address the port is not compared."""
        it, server = client((200, TOKEN), redirect='http://127.0.0.1/back')
        login = it.login()
        self.fails(lifecrib.OtherRedirectUri, login.finish, 'http://localhost:8400/back?code=c&state=' + login.state)
        login.finish('http://127.0.0.1:8400/back?code=c&state=' + login.state)
        self.assertIn('redirect_uri=http%3A%2F%2F127.0.0.1%2Fback', server.bodies[0])

    def test_what_a_login_needs(self):
        self.fails(lifecrib.MissingEndpoint, client(token_url=None)[0].login)
        with self.assertRaisesRegex(ValueError, 'a login needs a redirect URI'):
            client(redirect=None)[0].login()

    def test_it_is_pickled(self):
        it, _ = client((200, TOKEN))
        login = it.login()
        again = pickle.loads(pickle.dumps(login))
        with self.assertRaisesRegex(ValueError, 'needs its client'):
            again.finish(back(login))
        again.client = it
        self.assertEqual(again.finish(back(login)).access_token, 't1')

    def test_it_shows_no_secret(self):
        it, _ = client()
        login = it.login()
        self.assertNotIn(login._kept['verifier'], repr(login) + repr([login]) + str(login))

    def test_another_state_sends_nothing(self):
        it, server = client()
        login = it.login()
        for url in ('https://app.example/back?code=c&state=x', 'https://app.example/back?code=c',
                    'https://app.example/back?code=c&state=', back(it.login())):
            error = self.fails(lifecrib.RefusedRedirect, login.finish, url)
            self.assertEqual((error.kind, error.text, error.error),
                             ('refused_redirect', 'redirect has another state', None))
        self.assertEqual(self.fails(lifecrib.RefusedRedirect, login.finish, back(login, code='')).text,
                         'redirect has no code')
        self.assertEqual(server.requests, [])

    def test_the_user_said_no(self):
        it, server = client()
        login = it.login()
        url = back(login, error='access_denied', error_description='no: never (see x)', error_uri='https://e/')
        error = self.fails(lifecrib.RefusedRedirect, login.finish, url)
        self.assertEqual((error.error, error.error_description, error.error_uri),
                         ('access_denied', 'no: never (see x)', 'https://e/'))
        url = 'https://app.example/back?error=a&error=b&state=' + login.state
        self.assertEqual(self.fails(lifecrib.RefusedRedirect, login.finish, url).error, 'a')
        self.assertEqual(server.requests, [])

    def test_a_refused_code(self):
        it, _ = client((400, {'error': 'invalid_grant', 'error_description': 'used up'}))
        login = it.login()
        error = self.fails(lifecrib.ErrorResponse, login.finish, back(login))
        self.assertEqual((error.error, error.error_description), ('invalid_grant', 'used up'))

    def test_a_pushed_login(self):
        it, server = client((201, {'request_uri': 'urn:r:1', 'expires_in': 60}), (200, TOKEN))
        login = it.login(scopes='read', push=True)
        self.assertEqual(query(login.url), {'client_id': 'aaa', 'request_uri': 'urn:r:1'})
        self.assertEqual(server.requests[0].url, 'https://as.example/push_url')
        self.assertIn('code_challenge=', server.bodies[0])
        self.assertEqual(login.finish(back(login)).access_token, 't1')

    def test_no_endpoint(self):
        it, _ = client(auth_url=None)
        self.assertEqual(self.fails(lifecrib.MissingEndpoint, it.login).kind, 'missing_endpoint')


if __name__ == '__main__':
    unittest.main()
