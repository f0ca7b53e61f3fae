"""Tests of `tools/oauth2 verify-token` over a stand-in of the program and a server on this machine: JWT access tokens,
and whose keys."""
import base64
import json
import time
import unittest

import stand_in

from lifecrib_command import access_tokens

KEYS = {'keys': [{'kty': 'EC', 'kid': 'k'}]}


def part(value):
    return base64.urlsafe_b64encode(json.dumps(value).encode()).decode().rstrip('=')


class Tests(stand_in.Case):
    def setUp(self):
        super().setUp()
        del self.env['OAUTH2_CLIENT_ID']
        self.issuer = self.server.url
        self.server.documents['/keys'] = (200, {}, KEYS)
        self.server.documents['/.well-known/oauth-authorization-server'] = (
            200, {}, {'issuer': self.issuer, 'jwks_uri': self.issuer + '/keys'})

    def token(self, **claims):
        return '.'.join((part({'typ': 'at+jwt', 'alg': 'RS256'}),
                         part({'iss': self.issuer, 'aud': 'api', 'exp': int(time.time()) + 600, **claims}), 'c2ln'))

    def verify(self, *words, token, **env):
        return self.run_tool('verify-token', '--issuer', self.issuer, '--audience', 'api', *words, given=token + '\n',
                             **env)

    def test_by_the_keys_of_the_metadata_or_of_a_url(self):
        token = self.token(sub='u-1', weight=0.25)
        for words in (), ('--jwks-url', self.issuer + '/keys'):
            status, out, err = self.verify(*words, token=token)
            self.assertEqual((status, json.loads(out)['sub'], json.loads(out)['weight'], err), (0, 'u-1', 0.25, ''))
        script = self.scripts()[-1]
        self.assertEqual(script['params'],
                         {'issuer': self.issuer, 'audience': 'api', 'keys': KEYS, 'leeway': 60, 'access_token': token})
        self.assertEqual(script['client'], {'id': 'api'})
        self.assertLess(abs(script['readings'][0] - time.time()), 60)
        self.assertEqual(self.server.asked, [])

    def test_a_token_of_the_environment_with_other_settings(self):
        token = self.token(exp=int(time.time()) - 100)
        status, out, err = self.run_tool('verify-token', '--audience', 'api', '--leeway', '200', '--algorithm', 'ES256',
                                         OAUTH2_ISSUER=self.issuer, OAUTH2_TOKEN=token)
        self.assertEqual((status, json.loads(out)['active'], err), (0, True, ''))
        self.assertEqual(self.scripts()[-1]['params']['algorithm'], 'ES256')

    def test_what_is_refused(self):
        for claims, said in (({'iss': 'https://other'}, 'it has to be ' + self.issuer),
                             ({'aud': 'b'}, 'it has to have "api" (--audience)'),
                             ({'exp': 1}, 'is the clock of this machine right?')):
            status, out, err = self.verify(token=self.token(**claims))
            self.assertEqual((status, out), (7, ''))
            self.assertIn('the token is refused: ', err)
            self.assertIn(said, err)
        self.assertEqual(self.verify(token='a.b')[:2], (7, ''))

    def test_a_token_of_another_key(self):
        params = {'access_token': self.token(), 'issuer': self.issuer, 'audience': 'api', 'leeway': 60}
        fault = {'kind': 'bad_access_token', 'text': 'no key of the set is for the token'}
        said = access_tokens.advice_of(fault, params, int(time.time()))
        self.assertIn('are the keys those of this issuer?', said)

    def test_no_keys(self):
        for document, status, said in (((404, {}, ''), 6, 'HTTP status 404'), ((503, {}, ''), 9, 'HTTP status 503'),
                                       ((200, {}, 'x'), 6, 'no token is read')):
            self.server.documents['/keys'] = document
            found, out, err = self.verify(token=self.token())
            self.assertEqual((found, out), (status, ''))
            self.assertIn(said, err)
        del self.server.documents['/.well-known/oauth-authorization-server']
        self.assertEqual(self.verify(token=self.token())[:2], (6, ''))

    def test_what_has_to_be_given(self):
        for words, said in ((('--audience', 'api'), 'the issuer of the token is not set'),
                            (('--issuer', self.issuer), '--audience')):
            status, out, err = self.run_tool('verify-token', *words, given='t\n')
            self.assertEqual((status, out), (2, ''))
            self.assertIn(said, err)
        status, _, err = self.verify('--client-id', 'a', token='t')
        self.assertEqual(status, 2)
        self.assertIn('there is no flag --client-id', err)


if __name__ == '__main__':
    unittest.main()
