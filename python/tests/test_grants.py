"""Tokens by each grant: what is sent, and what of the reply a token has."""
import decimal
import pickle
import unittest

from case import TOKEN, Case, client
from lifecrib import Client, Token


class Grants(Case):
    def sent(self, call, reply=TOKEN, **settings):
        """The one request of a call, and what the call returns."""
        it, server = client((200, reply), **settings)
        found = call(it)
        self.assertEqual(len(server.requests), 1)
        return server.requests[0], found

    def test_client_credentials(self):
        request, token = self.sent(lambda it: it.client_credentials(['read', 'write'], extra={'audience': 'api'}))
        self.assertEqual((request.method, request.url), ('POST', 'https://as.example/token_url'))
        self.assertEqual(request.body, b'grant_type=client_credentials&scope=read+write&audience=api')
        headers = dict(request.headers)
        self.assertEqual(headers['authorization'], 'Basic YWFhOmJiYg==')
        self.assertEqual(headers['accept'], 'application/json')
        self.assertEqual(headers['content-type'], 'application/x-www-form-urlencoded')
        self.assertEqual((token.access_token, token.token_type, token.expires_in, token.refresh_token, token.scopes),
                         ('t1', 'bearer', 3600, 'r1', ('read', 'write')))

    def test_fetch_token_takes_the_grant_of_its_arguments(self):
        verifier = 'v' * 43
        for call, body in (
                (lambda it: it.fetch_token(), 'grant_type=client_credentials'),
                (lambda it: it.fetch_token(scopes='read write'), 'grant_type=client_credentials&scope=read+write'),
                (lambda it: it.fetch_token(code='c/1', verifier=verifier),
                 'grant_type=authorization_code&code=c%2F1&code_verifier=' + verifier),
                (lambda it: it.fetch_token('c'), 'grant_type=authorization_code&code=c'),
                (lambda it: it.fetch_token(username='joe', password='p&w', scopes='read'),
                 'grant_type=password&username=joe&password=p%26w&scope=read')):
            request, _ = self.sent(call)
            self.assertTrue(request.body.decode().startswith(body), request.body)

    def test_secret_in_the_body(self):
        request, _ = self.sent(lambda it: it.fetch_token(), auth='body')
        self.assertNotIn('authorization', dict(request.headers))
        self.assertEqual(request.body, b'grant_type=client_credentials&client_id=aaa&client_secret=bbb')

    def test_public_client(self):
        it, server = client((200, TOKEN))
        public = Client('aaa', token_url='https://as.example/t', transport=server)
        public.exchange_code('c')
        self.assertEqual(server.bodies, ['grant_type=authorization_code&code=c&client_id=aaa'])
        self.assertNotIn('authorization', dict(server.requests[0].headers))

    def test_refresh_keeps_the_refresh_token(self):
        it, server = client((200, {'access_token': 't2', 'token_type': 'bearer'}),
                            (200, {**TOKEN, 'refresh_token': 'r2'}), (200, TOKEN))
        self.assertEqual(it.refresh('r1').refresh_token, 'r1')
        self.assertEqual(it.refresh('r1').refresh_token, 'r2')
        token = Token('t', 'bearer', refresh_token='r3')
        it.refresh(token, scopes='read')
        self.assertEqual(server.bodies[2], 'grant_type=refresh_token&refresh_token=r3&scope=read')
        with self.assertRaises(ValueError):
            it.refresh(Token('t', 'bearer'))

    def test_exchange_token(self):
        kind = 'urn:ietf:params:oauth:token-type:access_token'
        request, token = self.sent(lambda it: it.exchange_token('s', resource=['https://api.example/']),
                                   {**TOKEN, 'issued_token_type': kind})
        self.assertIn('subject_token=s', request.body.decode())
        self.assertIn('resource=https%3A%2F%2Fapi.example%2F', request.body.decode())
        self.assertEqual(token.issued_token_type, kind)

    def test_assertion_and_extension(self):
        request, _ = self.sent(lambda it: it.assertion('j.w.t'))
        self.assertIn('grant-type%3Ajwt-bearer&assertion=j.w.t', request.body.decode())
        request, _ = self.sent(lambda it: it.extension('urn:my:grant', extra=[('a', '1'), ('a', '2')]))
        self.assertIn('grant_type=urn%3Amy%3Agrant', request.body.decode())
        self.assertTrue(request.body.endswith(b'a=1&a=2'))

    def test_introspect(self):
        reply = {'active': True, 'scope': 'a b', 'aud': ['x'], 'exp': 2000000000, 'tenant': 7}
        request, found = self.sent(lambda it: it.introspect('t', hint='access_token'), reply)
        self.assertEqual((request.url, request.body),
                         ('https://as.example/introspection_url', b'token=t&token_type_hint=access_token'))
        self.assertEqual((found.active, found.scopes, found.aud, found.exp), (True, ('a', 'b'), ('x',), 2000000000))
        self.assertEqual(found.members['tenant'], 7)
        self.assertFalse(self.sent(lambda it: it.introspect('t'), {'active': False})[1].active)

    def test_revoke(self):
        request, found = self.sent(lambda it: it.revoke('t', kind='refresh'), {})
        self.assertEqual(request.body, b'token=t&token_type_hint=refresh_token')
        self.assertIsNone(found)


class Tokens(Case):
    def token(self, **more):
        it, _ = client((200, {**TOKEN, **more}))
        return it.fetch_token()

    def test_all_members_come(self):
        token = self.token(id_token='a.b.c', tenant={'n': [1, None]})
        self.assertEqual(token.members, {**TOKEN, 'id_token': 'a.b.c', 'tenant': {'n': [1, None]}})
        self.assertEqual(token.id_token, 'a.b.c')
        self.assertIsNone(token.claims)

    def test_numbers_are_as_they_were_spelled(self):
        it, _ = client((200, b'{"access_token":"t","token_type":"bearer","price":1.10,"big":123456789012345678901}'))
        token = it.fetch_token()
        self.assertEqual(str(token.members['price']), '1.10')
        self.assertEqual(token.members['price'], decimal.Decimal('1.10'))
        self.assertEqual(token.members['big'], 123456789012345678901)
        self.assertEqual(Token.from_json(token.to_json()), token)

    def test_it_is_stored_and_read_back(self):
        token = self.token(tenant=1.5)
        self.assertEqual(Token.from_json(token.to_json()), token)
        self.assertEqual(pickle.loads(pickle.dumps(token)), token)
        for text in ('', '[]', 'null', '{}', '{"access_token":1}x', '{"access_token":"t"}',
                     '{"access_token":1,"token_type":"bearer"}'):
            with self.assertRaises(ValueError):
                Token.from_json(text)

    def test_it_shows_no_secret(self):
        token = self.token(access_token='secret1', refresh_token='secret2', id_token='secret3')
        self.assertNotIn('secret', repr(token) + str(token))
        self.assertIn("scopes=('read', 'write')", repr(token))
        it, server = client((200, TOKEN))
        it.fetch_token()
        self.assertNotIn('bbb', repr(it))
        self.assertNotIn('Basic', repr(server.requests))

    def test_when_it_ends(self):
        token = self.token(expires_in=100)
        self.assertEqual(token.expires_at, token.asked_at + 100)
        self.assertFalse(token.is_expired())
        self.assertTrue(token.is_expired(margin=100))
        it, _ = client((200, {'access_token': 't', 'token_type': 'bearer'}))
        token = it.fetch_token()
        self.assertIsNone(token.expires_at)
        self.assertFalse(token.is_expired())
        self.assertEqual(token.scopes, ())

    def test_the_header(self):
        self.assertEqual(self.token().headers, {'Authorization': 'Bearer t1'})
        for it in (self.token(access_token='a\r\nb'), self.token(token_type='mac')):
            with self.assertRaises(ValueError):
                it.headers


if __name__ == '__main__':
    unittest.main()
