"""Derives every line that the program oauth2_openid_refusals_tests has to print, and compares them with the file `stdout` of that
crate.

The rows' inputs stand here once more, as data: those of the examples of OpenID Connect Core 1.0, if nothing else is said. Only the ID
tokens are taken from the sources, and decoded. The lines follow from RFC 6749, sections 4.1.1 and 4.1.3, RFC 7636, section 4, OpenID
Connect Core 1.0, sections 3.1.2.1 and 3.1.3.6, and the README.md of oauth2_openid_login. The order of the parameters is that of the Rust
crate. The generator is PCG32 of M. E. O'Neill.
"""
import base64
import hashlib
import json
import os
import re
import unittest
from urllib.parse import urlencode

import tool

CRATE = os.path.join(os.path.dirname(tool.TOOLS), 'crates', 'oauth2_openid_refusals_tests')
CLIENT_ID = 's6BhdRkqt3'
REDIRECT_URI = 'https://client.example.org/cb'
VERIFIER = 'dBjftJeZ4CVP-mB92K27uhbUJU1p1r_wW1gFWFOEjXk'  # of RFC 7636, appendix B
ACCESS_TOKEN = 'SlAV32hkKG'
SERVER = dict(client_id=CLIENT_ID, token_url='https://server.example.com/token', issuer='http://server.example.com',
              issuer_in_each_redirect=True)


def base64url(data):
    return base64.urlsafe_b64encode(data).rstrip(b'=').decode()


def drawn(state, stream, count):
    """So many bytes, in words of four, that PCG32 draws."""
    multiplier, mask = 6364136223846793005, 2 ** 64 - 1
    increment = (stream << 1 | 1) & mask
    state = ((state + increment) * multiplier + increment) & mask
    words = []
    for _ in range(count // 4):
        word, turn = (state >> 18 ^ state) >> 27 & 2 ** 32 - 1, state >> 59
        words.append((word >> turn | word << (-turn & 31)) & 2 ** 32 - 1)
        state = (state * multiplier + increment) & mask
    return b''.join(word.to_bytes(4, 'little') for word in words)


def stored(**members):
    """A login as JSON, its members in the order of their names."""
    return 'stored ' + json.dumps(members, sort_keys=True, separators=(',', ':'))


def user(source):
    """The lines of the ID token that stands in a source: its subject, and whether its hash is the access token's."""
    with open(os.path.join(CRATE, 'src', source)) as f:
        text = re.sub(r'\\\n *', '', f.read())
    payload, = re.findall(r'eyJ[\w-]+\.([\w-]+)\.[\w-]+', text)
    claims = json.loads(base64.urlsafe_b64decode(payload + '=='))
    digest = base64url(hashlib.sha256(ACCESS_TOKEN.encode()).digest()[:16])
    found = {None: 'Absent', digest: 'Matches'}[claims.get('at_hash')]
    return ['subject ' + claims['sub'], 'hash ' + found]


def start():
    data = drawn(42, 54, 64)
    state, verifier, nonce = base64url(data[:16]), base64url(data[16:48]), base64url(data[48:])
    pairs = [('response_type', 'code'), ('client_id', CLIENT_ID), ('state', state),
             ('code_challenge', base64url(hashlib.sha256(verifier.encode()).digest())), ('code_challenge_method', 'S256'),
             ('redirect_uri', REDIRECT_URI), ('scope', 'openid profile email'), ('nonce', nonce), ('max_age', '3600'), ('prompt', 'consent')]
    return ['url https://server.example.com/authorize?' + urlencode(pairs),
            stored(state=state, verifier=verifier, redirect_uri=REDIRECT_URI, nonce=nonce, max_age=3600, **SERVER)]


def read_and_stored():
    return [stored(state='af0ifjsldkj', verifier=VERIFIER, redirect_uri=REDIRECT_URI, nonce='n-0S6_WzA2Mj', max_age=100, **SERVER)]


def login():
    """The one request, and the user. The client has no secret, so it is named in the body (RFC 6749, 3.2.1)."""
    body = [('grant_type', 'authorization_code'), ('code', 'SplxlOBeZQQYbYS6WxSbIA'), ('code_verifier', VERIFIER),
            ('client_id', CLIENT_ID), ('redirect_uri', REDIRECT_URI)]
    return ['calls 1', 'body ' + urlencode(body)] + user('ends.rt')


LINES = {'openid_start': start, 'openid_stored': read_and_stored, 'openid_login': login, 'openid_token': lambda: user('tokens.rt')}


class OpenIdRows(unittest.TestCase):
    maxDiff = None

    def test_generator(self):
        """The first words of PCG's own C code, pcg32-demo."""
        self.assertEqual(drawn(42, 54, 8), (0xa15c02b7).to_bytes(4, 'little') + (0x7b47f409).to_bytes(4, 'little'))

    def test_lines(self):
        with open(os.path.join(CRATE, 'stdin')) as names, open(os.path.join(CRATE, 'stdout')) as wanted:
            names = names.read().splitlines()
            self.assertEqual(names, [*LINES])
            self.assertEqual([line for name in names for line in ['row ' + name] + LINES[name]()], wanted.read().splitlines())


if __name__ == '__main__':
    unittest.main()
