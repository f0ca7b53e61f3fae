"""What each fault becomes, and what it tells."""
import copy
import pickle
import unittest

from case import IS_STAND_IN, TOKEN, Case, Server, client
import lifecrib
from lifecrib import Client, _errors


class Faults(Case):
    def fault(self, kind, reply, call=lambda it: it.fetch_token(), **settings):
        it, _ = client(reply, **settings)
        return self.fails(kind, call, it)

    def test_each_kind_has_a_class_of_its_name(self):
        for kind, found in _errors.KINDS.items():
            self.assertEqual(found.__name__, ''.join(it.capitalize() for it in kind.split('_')))
            self.assertIs(getattr(lifecrib, found.__name__), found)
        self.assertEqual(len(_errors.KINDS), 24)

    def test_error_response(self):
        body = {'error': 'invalid_grant', 'error_description': 'who: you (see x)', 'error_uri': 'https://e/'}
        error = self.fault(lifecrib.ErrorResponse, (400, body))
        self.assertEqual((error.error, error.error_description, error.error_uri, error.status, error.content_type),
                         ('invalid_grant', 'who: you (see x)', 'https://e/', 400, 'application/json'))
        self.assertIn('invalid_grant', str(error))
        error = self.fault(lifecrib.ErrorResponse, (401, {'error': 'invalid_client'}))
        self.assertEqual((error.error, error.error_description, error.error_uri), ('invalid_client', None, None))

    def test_unread_reply(self):
        error = self.fault(lifecrib.UnreadReply, (200, {'access_token': 'secret'}))
        self.assertEqual((error.status, error.member, error.cause), (200, 'token_type', 'Missing'))
        self.assertNotIn('secret', str(error) + repr(error))
        error = self.fault(lifecrib.UnreadReply, (200, {**TOKEN, 'expires_in': 'soon'}))
        self.assertEqual((error.member, error.cause), ('expires_in', 'WrongType'))
        error = self.fault(lifecrib.UnreadReply, (502, b'<html>Bad gateway</html>'))
        self.assertEqual((error.status, error.member, error.cause), (502, '', 'NotJson'))
        self.assertEqual(str(error), 'Failed to parse server response (the body: NotJson, HTTP status 502)')

    def test_no_utf_8(self):
        error = self.fault(lifecrib.UnreadReply, (200, b'{"access_token":"\xff","token_type":"bearer"}'))
        self.assertEqual(error.cause, 'NotJson')

    def test_other_error(self):
        error = self.fault(lifecrib.OtherError, (200, b'', 'application/json'))
        self.assertEqual((error.kind, error.status), ('other_error', 200))
        error = self.fault(lifecrib.OtherError, (200, TOKEN, 'text/html'))
        self.assertEqual(error.content_type, 'text/html')

    def test_a_reply_without_a_type(self):
        it, _ = client((200, TOKEN, None))
        self.assertEqual(it.fetch_token().access_token, 't1')

    def test_a_type_that_no_script_holds(self):
        it, _ = client((400, {'error': 'e'}, 'text/\x01html'))
        self.assertEqual(self.fails(lifecrib.ErrorResponse, it.fetch_token).error, 'e')

    def test_request_failed(self):
        error = self.fault(lifecrib.RequestFailed, ConnectionRefusedError('at 127.0.0.1'))
        self.assertEqual((error.kind, error.text, error.status), ('request_failed', 'Request failed', None))
        self.assertIsInstance(error.__cause__, ConnectionRefusedError)
        told = 'Request failed: https://as.example/token_url (ConnectionRefusedError: at 127.0.0.1)'
        self.assertEqual(str(error), told)
        self.assertEqual(error.url, 'https://as.example/token_url')
        for kind in (KeyboardInterrupt, MemoryError):  # which are no failure of the request
            it, _ = client(kind())
            with self.assertRaises(kind):
                it.fetch_token()

    def test_missing_endpoint(self):
        it = Client('aaa', transport=Server())
        for call in (it.fetch_token, it.login, it.device, lambda: it.introspect('t'), lambda: it.revoke('t')):
            self.assertEqual(self.fails(lifecrib.MissingEndpoint, call).kind, 'missing_endpoint')

    def test_insecure_endpoint(self):
        it, server = client(token_url='http://as.example/token', revocation_url='http://localhost/revoke')
        self.assertEqual(self.fails(lifecrib.InsecureEndpoint, it.fetch_token).kind, 'insecure_endpoint')
        self.fails(lifecrib.InsecureEndpoint, it.revoke, 't')  # RFC 7009, 2
        self.assertEqual(server.requests, [])
        for url in ('http://localhost:1/t', 'http://127.0.0.1/t', 'http://[::1]/t', 'https://as.example/t'):
            it, _ = client((200, TOKEN), token_url=url)
            it.fetch_token()
        it, _ = client((200, TOKEN), token_url='http://as.example/token', plain_http=True)
        it.fetch_token()

    def test_an_endpoint_that_is_no_url(self):
        for url in ('https://[x', 'https://', 'nonsense'):
            it, server = client(metadata=lifecrib.Metadata('https://as.example', jwks_uri=url))
            login = it.login(scopes='openid')
            back = 'https://app.example/back?code=c&iss=https%3A%2F%2Fas.example&state=' + login.state
            self.fails(lifecrib.InsecureEndpoint, login.finish, back)
            self.assertEqual(server.requests, [])

    def test_a_redirect_is_no_success(self):
        error = self.fault(lifecrib.LifecribError, (302, b''))
        self.assertEqual(error.status, 302)

    def test_taken_parameter(self):
        it, server = client()
        error = self.fails(lifecrib.TakenParameter, it.exchange_token, 's', extra={'grant_type': 'x'})
        self.assertEqual(error.kind, 'taken_parameter')
        self.assertEqual(server.requests, [])

    def test_a_bad_setting(self):
        for name, given in (('token_url', 'nonsense'), ('auth', 'x'), ('redirect', 'no url')):
            with self.assertRaises(ValueError):
                client(**{name: given})
            error = self.fails(lifecrib.BadScript, client, **{name: given})
            self.assertEqual((error.member, error.kind), ('client.' + name, 'bad_script'))
            self.assertIn('client.' + name, str(error))
        it, _ = client()
        error = self.fails(lifecrib.BadScript, it.fetch_token, 'c', verifier='short')
        self.assertEqual(error.member, 'params.verifier')
        self.fails(lifecrib.BadScript, it.fetch_token, '\ud800')

    def test_errors_are_copied_and_pickled(self):
        error = self.fault(lifecrib.ErrorResponse, (400, {'error': 'invalid_grant'}))
        bad = self.fails(lifecrib.BadScript, client, auth='x')
        for it in (error, bad, lifecrib.UnreadReply('x', member='m', cause='c', status=200)):
            for again in (pickle.loads(pickle.dumps(it)), copy.copy(it)):
                self.assertIs(type(again), type(it))
                self.assertEqual(vars(again), vars(it))
                self.assertEqual(str(again), str(it))

    def test_adapters(self):
        it, _ = client((200, {'error': 'bad_verification_code'}), adapters=['errors_at_status_200'])
        if IS_STAND_IN:
            self.skipTest('the stand-in has no adapters')
        self.assertEqual(self.fails(lifecrib.ErrorResponse, it.fetch_token, 'c').error, 'bad_verification_code')


if __name__ == '__main__':
    unittest.main()
