"""The operations of oauth2_bench by Authlib: the same names, inputs and output. tools/bench --others runs it.

It ends with an AssertionError unless the last request and what was read are what they have to be.
"""
import io
import string
import sys
import time
import urllib.parse

import requests
from authlib.integrations.requests_client import OAuth2Session
from authlib.oauth2.rfc7636 import create_s256_code_challenge

SHORT = '{"access_token": "12/34", "token_type": "BEARER"}'
# Those of RFC 7636, appendix B.
VERIFIER, CHALLENGE = 'dBjftJeZ4CVP-mB92K27uhbUJU1p1r_wW1gFWFOEjXk', 'E9Melhoa2OwvFrEMTJguCHaoeK1t8URWbuGJSstw-cM'


def token(size):
    return (string.ascii_lowercase * (size // 26 + 1))[:size]


def long(size):
    return ('{"access_token":"%s","token_type":"bearer","expires_in":3600,"refresh_token":"r1","scope":"read write"}' % token(size))


class Canned(requests.adapters.BaseAdapter):
    """Hands back one reply, whatever it is asked."""

    def __init__(self, body):
        super().__init__()
        self.body, self.last = body.encode(), None

    def send(self, request, **settings):
        self.last = request
        reply = requests.Response()
        reply.status_code, reply.url, reply.request, reply.raw = 200, request.url, request, io.BytesIO(self.body)
        return reply


def exchange(body, wanted):
    """The exchange of a code, which tells how many bytes it sent and read, and a check of its request and token."""
    client, transport, got = OAuth2Session('aaa', 'bbb'), Canned(body), None
    client.mount('https://', transport)

    def run():
        nonlocal got
        got = client.fetch_token('https://example.com/token', grant_type='authorization_code', code='ccc')
        return len(transport.last.body), len(got['access_token'])

    def check():
        headers = transport.last.headers
        assert (transport.last.method, transport.last.url) == ('POST', 'https://example.com/token'), transport.last
        assert headers['Authorization'] == 'Basic YWFhOmJiYg==', headers
        assert headers['Content-Type'] == 'application/x-www-form-urlencoded;charset=UTF-8', headers
        assert transport.last.body == 'grant_type=authorization_code&code=ccc', transport.last.body
        assert {**got, 'expires_at': None} == {**wanted, 'expires_at': None}, got
    return run, check


def authorization_url():
    client, got = OAuth2Session('aaa', 'bbb', scope=['read', 'write', 'openid'], redirect_uri='https://localhost/redirect'), None

    def run():
        nonlocal got
        got, _ = client.create_authorization_url('https://example.com/auth', state='csrf_token', code_challenge=CHALLENGE,
                                                 code_challenge_method='S256')
        return 0, len(got)

    def check():
        address, _, query = got.partition('?')
        assert address == 'https://example.com/auth' and dict(urllib.parse.parse_qsl(query)) == {
            'response_type': 'code', 'client_id': 'aaa', 'redirect_uri': 'https://localhost/redirect', 'scope': 'read write openid',
            'state': 'csrf_token', 'code_challenge': CHALLENGE, 'code_challenge_method': 'S256'}, got
    return run, check


def challenge():
    got = None

    def run():
        nonlocal got
        got = create_s256_code_challenge(VERIFIER)
        return 0, len(got)

    def check():
        assert got == CHALLENGE, got
    return run, check


OPERATIONS = {
    'a_code_exchange': lambda: exchange(SHORT, {'access_token': '12/34', 'token_type': 'BEARER'}),
    'c_authorize_url_pkce_3_scopes_redirect': authorization_url,
    'e_token_4kb_request': lambda: exchange(long(4 << 10), {
        'access_token': token(4 << 10), 'token_type': 'bearer', 'expires_in': 3600, 'refresh_token': 'r1', 'scope': 'read write'}),
    'f_pkce_challenge_sha256': challenge,
}


def measure(name, iterations):
    """Runs an operation so often: the nanoseconds, and what the last run sent and read."""
    run, check = OPERATIONS[name]()
    start, done = time.perf_counter_ns(), (0, 0)
    for _ in range(iterations):
        done = run()
    taken = time.perf_counter_ns() - start
    check()
    return taken, done


if sys.argv[1:2] == ['--time']:
    print(measure(sys.argv[2], int(sys.argv[3]))[0])
else:
    for it in OPERATIONS:
        print(it, *measure(it, 3)[1])
