"""Logins with OpenID Connect: the nonce, the rules of an ID token, and its signature by the issuer's keys."""
import base64
import functools
import json
import os
import shutil
import subprocess
import time
import unittest
import urllib.parse

from case import IS_STAND_IN, ROOM, TOKEN, Case, Server, client
import lifecrib
from lifecrib import Client, Login, Token

ISSUER = 'https://as.example'


def base64url(it):
    return base64.urlsafe_b64encode(it).rstrip(b'=').decode()


@functools.lru_cache(maxsize=None)
def signer(kid):
    return Signer(kid)


class Signer:
    """An RSA key, by openssl."""

    def __init__(self, kid):
        self.path, self.kid = os.path.join(ROOM.name, kid), kid
        subprocess.run(['openssl', 'genrsa', '-out', self.path, '2048'], check=True, capture_output=True)
        run = subprocess.run(['openssl', 'rsa', '-in', self.path, '-noout', '-modulus'], check=True,
                             capture_output=True, text=True)
        self.key = {'kty': 'RSA', 'kid': kid, 'alg': 'RS256', 'use': 'sig', 'e': 'AQAB',
                    'n': base64url(bytes.fromhex(run.stdout.strip().partition('=')[2]))}

    def token(self, typ='JWT', **claims):
        """A token with these claims."""
        parts = [{'alg': 'RS256', 'kid': self.kid, 'typ': typ}, claims]
        text = '.'.join(base64url(json.dumps(it).encode()) for it in parts)
        run = subprocess.run(['openssl', 'dgst', '-sha256', '-sign', self.path], input=text.encode(), check=True,
                             capture_output=True)
        return text + '.' + base64url(run.stdout)


@unittest.skipUnless(shutil.which('openssl'), 'there is no openssl')
class OpenId(Case):
    @classmethod
    def setUpClass(cls):
        cls.signer, cls.other = signer('k1'), signer('k2')
        cls.keys = {'keys': [cls.signer.key]}

    def claims(self, login, **more):
        said = {'iss': ISSUER, 'sub': 'u1', 'aud': 'aaa', 'exp': int(time.time()) + 300, 'iat': int(time.time()),
                'nonce': dict(urllib.parse.parse_qsl(urllib.parse.urlsplit(login.url).query))['nonce'], 'email': 'a@b',
                **more}
        return {name: value for name, value in said.items() if value is not None}

    def finish(self, signer=None, reply=None, options=None, **claims):
        """The token of a login, whose ID token has these claims."""
        it, server = client()
        login = it.login(scopes=['openid'])
        id_token = (signer or self.signer).token(**self.claims(login, **claims))
        server.replies.append((200, {**TOKEN, 'id_token': id_token, **(reply or {})}))
        url = 'https://app.example/back?code=c&state=' + login.state
        return login.finish(url, **{'issuer': ISSUER, 'keys': self.keys, **(options or {})})

    def test_the_user(self):
        token = self.finish()
        self.assertEqual((token.claims.sub, token.claims.iss, token.claims.aud), ('u1', ISSUER, ('aaa',)))
        self.assertEqual(token.claims.members['email'], 'a@b')
        self.assertTrue(token.claims.signature_checked)
        self.assertEqual(Token.from_json(token.to_json()), token)

    def test_the_scope_openid_is_added(self):
        it, _ = client()
        login = it.login(scopes=['read'], openid=True)
        self.assertIn('scope=openid+read', login.url)
        self.assertIn('nonce=', login.url)
        self.assertNotIn('nonce=', it.login(scopes=['openid'], openid=False).url)

    def test_rules(self):
        for claims, text in (({'iss': 'https://other'}, 'issuer'), ({'aud': 'bbb'}, 'audience'),
                             ({'exp': 1}, 'expired'), ({'nonce': 'x'}, 'nonce')):
            error = self.fails(lifecrib.BadClaims, self.finish, **claims)
            self.assertIn(text, error.text)

    def test_the_signature(self):
        it = self.fails(lifecrib.BadSignature, self.finish, signer=self.other)
        self.assertEqual((it.kind, it.text), ('bad_signature', 'no key of the set is for the token'))
        same_name = {'keys': [{**self.other.key, 'kid': 'k1'}]}
        if not IS_STAND_IN:
            self.fails(lifecrib.BadSignature, self.finish, options={'keys': same_name})

    def test_without_keys(self):
        with self.assertRaisesRegex(ValueError, 'keys'):
            self.finish(options={'keys': None})
        token = self.finish(options={'keys': None, 'signature': False})
        self.assertFalse(token.claims.signature_checked)

    def test_without_an_issuer_no_code_is_sent(self):
        it, server = client()
        login = it.login(scopes='openid')
        with self.assertRaisesRegex(ValueError, 'issuer'):
            login.finish('https://app.example/back?code=c&state=' + login.state)
        self.assertEqual(server.requests, [])

    def test_no_id_token(self):
        self.assertIn('no ID token', self.fails(lifecrib.BadToken, self.finish, reply={'id_token': None}).text)
        self.fails(lifecrib.BadToken, self.finish, reply={'id_token': 7})
        self.fails(lifecrib.BadToken, self.finish, reply={'id_token': 'a.b'})
        self.fails(lifecrib.OtherError, self.finish, reply={'token_type': 'mac'})

    def test_max_age(self):
        it, _ = client()
        login = it.login(scopes='openid', max_age=60)
        self.assertIn('max_age=60', login.url)
        self.assertEqual(Login.from_json(login.to_json(), it)._kept['max_age'], 60)

    def discovered(self, *replies, **more):
        metadata = {'issuer': ISSUER, 'authorization_endpoint': ISSUER + '/auth', 'token_endpoint': ISSUER + '/token',
                    'jwks_uri': ISSUER + '/keys', **more}
        server = Server((200, metadata), *replies)
        return Client.discover(ISSUER, 'aaa', 'bbb', transport=server, redirect='https://app.example/back'), server

    def test_keys_of_the_issuer(self):
        it, server = self.discovered()
        for at in range(2):
            login = it.login(scopes='openid')
            id_token = self.signer.token(**self.claims(login))
            server.replies += [(200, self.keys)] * (at == 0) + [(200, {**TOKEN, 'id_token': id_token})]
            token = login.finish('https://app.example/back?code=c&state=' + login.state)
            self.assertEqual(token.claims.sub, 'u1')
        self.assertEqual([request.url for request in server.requests[1:]],
                         [ISSUER + '/keys', ISSUER + '/token', ISSUER + '/token'])
        self.assertEqual(server.requests[1].method, 'GET')

    def test_new_keys_are_asked_for_once(self):
        it, server = self.discovered()
        new = {'keys': [self.other.key]}
        for signer, before, after in ((self.signer, [self.keys], []), (self.other, [], [new])):
            login = it.login(scopes='openid')
            reply = {**TOKEN, 'id_token': signer.token(**self.claims(login))}
            server.replies += [(200, it) for it in (*before, reply, *after)]
            token = login.finish('https://app.example/back?code=c&state=' + login.state)
            self.assertTrue(token.claims.signature_checked)
        self.assertEqual(server.replies, [])

    def test_keys_that_are_none(self):
        for reply in ((200, b'<html>'), (200, b'[]'), (404, {'keys': []}), (200, b'{"keys":[]},"algorithm":"none"'),
                      (200, b'\xff')):
            it, server = self.discovered(reply)
            login = it.login(scopes='openid')
            self.fails(lifecrib.BadKeys, login.finish, 'https://app.example/back?code=c&state=' + login.state)
            self.assertEqual([request.url for request in server.requests[1:]], [ISSUER + '/keys'])  # the code is kept

    def test_keys_that_do_not_come(self):
        it, server = self.discovered(OSError('down'))
        login = it.login(scopes='openid')
        url = 'https://app.example/back?code=c&state=' + login.state
        error = self.fails(lifecrib.RequestFailed, login.finish, url)
        self.assertIsInstance(error.__cause__, OSError)
        server.replies += [(200, self.keys), (200, {**TOKEN, 'id_token': self.signer.token(**self.claims(login))})]
        self.assertEqual(login.finish(url).claims.sub, 'u1')

    def test_the_issuer_of_the_redirect(self):
        said = 'https://app.example/back?code=c&state=%s&iss=%s'
        for needed, iss, is_taken in ((True, ISSUER, True), (True, '', False), (True, 'https://other', False),
                                      (False, ISSUER, True), (False, '', True), (False, 'https://other', False)):
            it, server = self.discovered((200, TOKEN), authorization_response_iss_parameter_supported=needed)
            login = it.login()
            url = said % (login.state, urllib.parse.quote(iss))
            if is_taken:
                self.assertEqual(login.finish(url).access_token, 't1')
            else:
                self.assertIn('issuer', self.fails(lifecrib.RefusedRedirect, login.finish, url).text)

    @unittest.skipIf(IS_STAND_IN, 'the stand-in checks no access tokens')
    def test_access_tokens(self):
        now = int(time.time())
        claims = {'iss': ISSUER, 'sub': 'u1', 'aud': 'https://api.example', 'exp': now + 60, 'iat': now,
                  'client_id': 'aaa', 'jti': 'j', 'scope': 'read write', 'tenant': 7}
        given = {'issuer': ISSUER, 'audience': 'https://api.example', 'keys': self.keys}
        found = lifecrib.check_access_token(self.signer.token('at+jwt', **claims), **given)
        self.assertEqual((found.active, found.sub, found.scopes, found.client_id, found.aud, found.members['tenant']),
                         (True, 'u1', ('read', 'write'), 'aaa', ('https://api.example',), 7))
        for kind, text in ((lifecrib.BadAccessToken, self.signer.token(**claims)),
                           (lifecrib.BadAccessToken, self.signer.token('at+jwt', **{**claims, 'exp': 1})),
                           (lifecrib.BadToken, 'a.b'),
                           (lifecrib.LifecribError, self.signer.token('at+jwt', **claims)[:-8] + 'AAAAAAAA')):
            error = self.fails(kind, lifecrib.check_access_token, text, **given)
            self.assertNotIn(text, str(error))


if __name__ == '__main__':
    unittest.main()
