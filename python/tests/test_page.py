"""The programs on the pages run, at a server that is a function."""
import json
import os
import re
import shutil
import time
import unittest
import urllib.parse
from unittest import mock

from case import HERE
from test_openid import ISSUER, signer
import lifecrib
from lifecrib import Client, Reply

TOP = os.path.dirname(HERE)
PAGES = [os.path.join(TOP, 'README.md'), os.path.join(TOP, '..', 'docs', 'PYTHON.md')]
BLOCK = re.compile(r'^```python\n(.*?)^```$', re.M | re.S)


class Site:
    """Answers as the server of the pages."""

    def __init__(self, signer):
        self.signer, self.claims, self.polls = signer, None, 0

    def __call__(self, request):
        path = urllib.parse.urlsplit(request.url).path
        token = {'access_token': 't1', 'token_type': 'Bearer', 'expires_in': 3600, 'refresh_token': 'r1',
                 'scope': 'read'}
        if self.claims:
            token['id_token'] = self.signer.token(**self.claims)
        found = {'/token': token, '/keys': {'keys': [self.signer.key]}, '/device': {
            'device_code': 'd', 'user_code': 'U', 'verification_uri': ISSUER + '/v', 'expires_in': 60, 'interval': 5}}
        metadata = {'issuer': ISSUER, 'token_endpoint': ISSUER + '/token', 'authorization_endpoint': ISSUER + '/auth',
                    'device_authorization_endpoint': ISSUER + '/device', 'jwks_uri': ISSUER + '/keys'}
        return Reply(200, 'application/json', json.dumps(found.get(path, metadata)).encode())

    def came_back(self, login):
        """The URL by which the user of a login comes back."""
        asked = dict(urllib.parse.parse_qsl(urllib.parse.urlsplit(login.url).query))
        now = int(time.time())
        self.claims = {'iss': ISSUER, 'sub': 'u1', 'aud': 'aaa', 'exp': now + 60, 'iat': now, 'email': 'a@b',
                       'nonce': asked.get('nonce')}
        return 'https://app.example/back?code=c&state=' + asked['state']


@unittest.skipUnless(shutil.which('openssl'), 'there is no openssl')
class Pages(unittest.TestCase):
    def run_page(self, path):
        with open(path, encoding='utf-8') as f:
            page = f.read()
        site = Site(signer('k1'))
        said, names = [], {'came_back': site.came_back, 'store': lambda _: None}
        names['print'] = lambda *them: said.append(' '.join(map(str, them)))
        with mock.patch.object(Client, '_default', lambda _: site), \
                mock.patch('lifecrib._client.ThreadTransport', lambda: self.later(site)), \
                mock.patch('lifecrib.UrllibTransport', lambda **_: site):
            for block in BLOCK.findall(page):
                exec(compile(block, os.path.basename(path), 'exec'), names)
        return page, said

    @staticmethod
    def later(site):
        async def send(request):
            return site(request)
        return send

    def test_readme(self):
        page, said = self.run_page(PAGES[0])
        self.assertEqual((said[0], said[-1]), ("3600 ('read',)", 'u1'))
        self.assertLessEqual(page.count('\n'), 60)

    @unittest.skipUnless(os.path.exists(PAGES[1]), 'there is no page')
    def test_the_page(self):
        page, said = self.run_page(PAGES[1])
        shown = re.search(r'prints\n\n((?:    .*\n)+)', page).group(1)
        self.assertEqual(said[:3], [line.strip() for line in shown.splitlines()])
        self.assertLessEqual(len(BLOCK.search(page).group(1).splitlines()), 15)
        self.assertIn('u1 a@b', said)
        self.assertIn('Enter U at https://as.example/v', said)

    @unittest.skipUnless(os.path.exists(PAGES[1]), 'there is no page')
    def test_a_token_that_another_library_stored(self):
        with open(PAGES[1], encoding='utf-8') as f:
            shown = re.search(r'\n\n((?:    .*\n)+)', f.read().partition('A token that Authlib stored')[2]).group(1)
        old = {'access_token': 't1', 'token_type': 'Bearer', 'expires_in': 3600, 'expires_at': 4600,
               'refresh_token': 'r1', 'scope': 'read write'}
        token = eval(shown.strip(), {'Token': lifecrib.Token, 'old': old})
        self.assertEqual((token.headers, token.refresh_token, token.scopes, token.expires_at),
                         ({'Authorization': 'Bearer t1'}, 'r1', ('read', 'write'), 4600))

    @unittest.skipUnless(os.path.exists(PAGES[1]), 'there is no page')
    def test_the_page_has_each_name(self):
        with open(PAGES[1], encoding='utf-8') as f:
            page = f.read()
        aside = {'Transport', 'AsyncTransport', 'TooLarge', 'Claims', 'Introspection', 'Metadata', 'Request'}
        for name in set(lifecrib.__all__) - aside:
            self.assertTrue(re.search(r'\b%s\b' % name, page), name)
        self.assertLessEqual(max(map(len, page.splitlines())), 120)


if __name__ == '__main__':
    unittest.main()
