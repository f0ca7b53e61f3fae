"""Clients whose endpoints an issuer names."""
import unittest

from case import TOKEN, Case, Server
import lifecrib
from lifecrib import Client

ISSUER = 'https://as.example/tenant'
METADATA = {'issuer': ISSUER, 'authorization_endpoint': ISSUER + '/auth', 'token_endpoint': ISSUER + '/token',
            'jwks_uri': ISSUER + '/keys', 'scopes_supported': ['openid'], 'userinfo_endpoint': ISSUER + '/user',
            'pushed_authorization_request_endpoint': ISSUER + '/par'}
FIRST = 'https://as.example/.well-known/oauth-authorization-server/tenant'
SECOND = ISSUER + '/.well-known/openid-configuration'


class Discovery(Case):
    def discover(self, *replies, issuer=ISSUER, **settings):
        server = Server(*replies)
        return Client.discover(issuer, 'aaa', 'bbb', transport=server, **settings), server

    def test_the_endpoints(self):
        it, server = self.discover((200, METADATA), (200, TOKEN))
        first = server.requests[0]
        self.assertEqual((first.method, first.url, first.body), ('GET', FIRST, b''))
        self.assertEqual((it.metadata.issuer, it.metadata.jwks_uri, it.metadata.scopes_supported),
                         (ISSUER, ISSUER + '/keys', ('openid',)))
        self.assertEqual(it.metadata.members['userinfo_endpoint'], ISSUER + '/user')
        it.fetch_token()
        self.assertEqual(server.requests[1].url, ISSUER + '/token')
        self.assertEqual(it.script['push_url'], ISSUER + '/par')

    def test_the_second_place(self):
        for first in ((404, b'<html>'), (404, {'error': 'not_found'}), (200, b'<html>'), OSError(), (302, b'')):
            it, server = self.discover(first, (200, METADATA))
            self.assertEqual([request.url for request in server.requests], [FIRST, SECOND])
        it, server = self.discover((200, METADATA), well_known='openid-configuration')
        self.assertEqual([request.url for request in server.requests], [SECOND])

    def test_no_place(self):
        error = self.fails(lifecrib.OtherStatus, self.discover, (500, b''), (404, b''))
        self.assertEqual((error.kind, error.status), ('other_status', 404))
        self.assertEqual(error.__cause__.status, 500)

    def test_another_issuer(self):
        other = {**METADATA, 'issuer': 'https://as.example/other'}
        self.fails(lifecrib.OtherIssuer, self.discover, (200, other), (200, other))

    def test_no_issuer(self):
        self.fails(lifecrib.BadIssuer, self.discover, issuer='nonsense')

    def test_settings_count_before(self):
        it, server = self.discover((200, METADATA), (200, TOKEN), token_url='https://other.example/token')
        it.fetch_token()
        self.assertEqual(server.requests[1].url, 'https://other.example/token')

    def test_a_push_endpoint_that_is_no_endpoint(self):
        for url in ('', '/par', 'https:///', 'https://[x', 'http://as.example/par', 1):
            it, _ = self.discover((200, {**METADATA, 'pushed_authorization_request_endpoint': url}),
                                  redirect='https://app.example/back')
            self.fails(lifecrib.MissingEndpoint, it.login, push=True)

    def test_an_issuer_that_others_could_read(self):
        with self.assertRaises(lifecrib.LifecribError):
            self.discover(issuer='http://as.example')


if __name__ == '__main__':
    unittest.main()
