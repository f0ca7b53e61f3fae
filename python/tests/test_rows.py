"""Rows of behaviour: what is sent, what comes back, and what the caller gets of it."""
import base64
import unittest
from typing import Any, Callable, NamedTuple, Optional

from case import IS_STAND_IN, TOKEN, Case, Server
import lifecrib
from lifecrib import Client, LifecribError


class Row(NamedTuple):
    """A call and a reply; then what is sent, and a value of the result or the error, by names of its members."""

    name: str
    call: Callable[[Client], Any]
    reply: Any = (200, TOKEN)
    settings: 'dict[str, Any]' = {}
    body: Optional[str] = None
    result: 'dict[str, Any]' = {}
    error: Optional[type] = None
    is_real: bool = False  # the stand-in does not know it


def fetch(it):
    return it.fetch_token()


def changed(**more):
    return 200, {name: value for name, value in {**TOKEN, **more}.items() if value is not ...}


ROWS = [
    # the client
    Row('no secret', lambda it: it.exchange_code('c'), settings={'secret': None},
        body='grant_type=authorization_code&code=c&client_id=aaa'),
    Row('an empty secret is one', lambda it: it.exchange_code('c'), settings={'secret': ''},
        body='grant_type=authorization_code&code=c'),
    Row('a secret in the body', lambda it: it.exchange_code('c'), settings={'auth': 'body'},
        body='grant_type=authorization_code&code=c&client_id=aaa&client_secret=bbb'),
    Row('a JWT in place of a secret', lambda it: it.client_credentials(client_assertion='j.w.t'),
        settings={'secret': None}, is_real=True,
        body='grant_type=client_credentials&client_id=aaa&client_assertion_type='
             'urn%3Aietf%3Aparams%3Aoauth%3Aclient-assertion-type%3Ajwt-bearer&client_assertion=j.w.t'),
    Row('a JWT beside a secret', lambda it: it.client_credentials(client_assertion='j.w.t'),
        error=lifecrib.BadScript, is_real=True),
    # what is sent
    Row('letters that a form escapes', lambda it: it.password('jo e', 'p&w=\u00e9%'),
        body='grant_type=password&username=jo+e&password=p%26w%3D%C3%A9%25'),
    Row('a scope of two', lambda it: it.client_credentials(('read', 'write')),
        body='grant_type=client_credentials&scope=read+write'),
    Row('a scope as a text', lambda it: it.client_credentials('read write'),
        body='grant_type=client_credentials&scope=read+write'),
    Row('no scope', lambda it: it.client_credentials([]), body='grant_type=client_credentials'),
    Row('a parameter twice', lambda it: it.client_credentials(extra=[('a', '1'), ('a', '2')]),
        body='grant_type=client_credentials&a=1&a=2'),
    Row('resources', lambda it: it.client_credentials(resource=['https://a/', 'urn:b']),
        body='grant_type=client_credentials&resource=https%3A%2F%2Fa%2F&resource=urn%3Ab'),
    Row('a resource with a fragment', lambda it: it.client_credentials(resource='https://a/#b'),
        error=lifecrib.BadScript, is_real=True),
    Row('an audience with a space', lambda it: it.exchange_token('s', audience='my api'),
        changed(issued_token_type='urn:t'), is_real=True,
        body='grant_type=urn%3Aietf%3Aparams%3Aoauth%3Agrant-type%3Atoken-exchange&audience=my+api&subject_token=s'
             '&subject_token_type=urn%3Aietf%3Aparams%3Aoauth%3Atoken-type%3Aaccess_token'),
    # tokens
    Row('a type in capitals', fetch, changed(token_type='BEARER'), result={'token_type': 'bearer'}),
    Row('another type', fetch, changed(token_type='DPoP'), result={'token_type': 'dpop'}, is_real=True),
    Row('no type', fetch, changed(token_type=...), error=lifecrib.UnreadReply, result={'member': 'token_type'}),
    Row('no token', fetch, changed(access_token=...), error=lifecrib.UnreadReply,
        result={'member': 'access_token', 'cause': 'Missing'}),
    Row('a token that is a number', fetch, changed(access_token=1), error=lifecrib.UnreadReply,
        result={'member': 'access_token', 'cause': 'WrongType'}),
    Row('a token with letters that no header has', fetch, changed(access_token='t\u00e9"\\'),
        result={'access_token': 't\u00e9"\\'}),
    Row('a scope of the server', lambda it: it.client_credentials('read write'), changed(scope='read'),
        result={'scopes': ('read',)}),
    Row('no scope in the reply', fetch, changed(scope=...), result={'scopes': ()}),
    Row('a scope with commas', fetch, changed(scope='read,write'), {'adapters': ['commas_in_scopes']},
        result={'scopes': ('read', 'write')}, is_real=True),
    Row('a time that is 0', fetch, changed(expires_in=0), result={'expires_in': 0}),
    Row('a time that is null', fetch, changed(expires_in=None), result={'expires_in': None}, is_real=True),
    Row('a time before it begins', fetch, changed(expires_in=-1), error=lifecrib.UnreadReply,
        result={'member': 'expires_in'}, is_real=True),
    Row('a time that is a text', fetch, changed(expires_in='3600'), error=lifecrib.UnreadReply,
        result={'member': 'expires_in', 'cause': 'WrongType'}),
    Row('the same with its adapter', fetch, changed(expires_in='3600'), {'adapters': ['numbers_as_texts']},
        result={'expires_in': 3600}, is_real=True),
    Row('a form in place of JSON', fetch, (200, b'access_token=t&token_type=bearer&expires_in=5',
                                           'application/x-www-form-urlencoded'),
        {'adapters': ['form_bodies']}, is_real=True,
        result={'members': {'access_token': 't', 'token_type': 'bearer', 'expires_in': 5}}),
    Row('a name twice', fetch, (200, b'{"access_token":"a","access_token":"b","token_type":"bearer"}'),
        result={'access_token': 'b', 'members': {'access_token': 'b', 'token_type': 'bearer'}}),
    Row('a mark before the JSON', fetch, (200, b'\xef\xbb\xbf{}'), error=lifecrib.UnreadReply, is_real=True),
    Row('more behind the JSON', fetch, (200, b'{} {}'), error=lifecrib.UnreadReply, result={'cause': 'NotJson'}),
    Row('half of a pair of surrogates', fetch, (200, b'{"access_token":"\\ud800","token_type":"bearer"}'),
        error=lifecrib.UnreadReply, is_real=True),
    Row('no number of JSON', fetch, (200, b'{"access_token":"t","token_type":"bearer","n":NaN}'),
        error=lifecrib.UnreadReply, result={'cause': 'NotJson'}, is_real=True),
    Row('deep values', fetch, (200, b'{"access_token":"t","token_type":"bearer","n":' + b'[' * 200 + b']' * 200 + b'}'),
        error=lifecrib.UnreadReply, is_real=True),
    # the reply
    Row('a type with a charset', fetch, (200, TOKEN, 'application/json; charset=utf-8'), result={'access_token': 't1'}),
    Row('a type that begins so', fetch, (200, TOKEN, 'application/jsonfoo'), result={'access_token': 't1'}),
    Row('the same by the other rule', fetch, (200, TOKEN, 'application/jsonfoo'), {'reply_rule': 'media_type'},
        error=lifecrib.OtherError, is_real=True),
    Row('another type', fetch, (200, TOKEN, 'text/plain'), error=lifecrib.OtherError),
    Row('another type, with its adapter', fetch, (200, TOKEN, 'text/plain'), {'adapters': ['other_media_types']},
        result={'access_token': 't1'}, is_real=True),
    Row('created', fetch, (201, TOKEN), error=LifecribError, result={'status': 201}),
    Row('an error at status 200', fetch, (200, {'error': 'invalid_scope'}), error=lifecrib.UnreadReply),
    Row('the same with its adapter', fetch, (200, {'error': 'invalid_scope'}), {'adapters': ['errors_at_status_200']},
        error=lifecrib.ErrorResponse, result={'error': 'invalid_scope'}, is_real=True),
    Row('an error of the server\'s own', fetch, (400, {'error': 'too: many (see x)', 'error_description': 'a: b'}),
        error=lifecrib.ErrorResponse, result={'error': 'too: many (see x)', 'error_description': 'a: b'}),
    Row('an error that is no text', fetch, (400, {'error': 7}), error=lifecrib.UnreadReply,
        result={'member': 'error', 'status': 400}, is_real=True),
    Row('an error without a body', fetch, (500, b''), error=lifecrib.OtherError, result={'status': 500}),
    Row('a page of a proxy', fetch, (503, b'<html>', 'text/html'), error=lifecrib.UnreadReply,
        result={'status': 503, 'content_type': 'text/html'}),
    # other calls
    Row('not active', lambda it: it.introspect('t'), (200, {'active': False, 'why': 'old'}),
        result={'active': False, 'scopes': (), 'members': {'active': False, 'why': 'old'}}),
    Row('one audience', lambda it: it.introspect('t'), (200, {'active': True, 'aud': 'x'}), result={'aud': ('x',)},
        is_real=True),
    Row('no word about it', lambda it: it.introspect('t'), (200, {}), error=lifecrib.UnreadReply,
        result={'member': 'active'}),
    Row('a type that is not revoked', lambda it: it.revoke('t'), (400, {'error': 'unsupported_token_type'}),
        error=lifecrib.ErrorResponse, result={'error': 'unsupported_token_type'}),
    Row('revoked, with a page', lambda it: it.revoke('t'), (200, b'<html>', 'text/html'), body='token=t'
        '&token_type_hint=access_token'),
    Row('an exchange without its type', lambda it: it.exchange_token('s'), error=lifecrib.UnreadReply,
        result={'member': 'issued_token_type', 'cause': 'Missing'}),
    Row('a device that has to be asked at http', lambda it: it.device(), (200, {'device_code': 'd'}),
        error=lifecrib.UnreadReply, result={'member': 'user_code'}),
]


class Rows(Case):
    def test_each(self):
        for row in ROWS:
            if not (row.is_real and IS_STAND_IN):
                with self.subTest(row.name):
                    self.check(row)

    def check(self, row):
        server = Server(row.reply)
        settings = {'secret': 'bbb', 'token_url': 'https://as.example/t', 'introspection_url': 'https://as.example/i',
                    'revocation_url': 'https://as.example/r', 'device_url': 'https://as.example/d', **row.settings}
        it = Client('aaa', transport=server, **settings)
        found = self.fails(row.error, row.call, it) if row.error else row.call(it)
        if row.error not in (None, LifecribError):
            self.assertIs(type(found), row.error)
        self.assertEqual({name: getattr(found, name) for name in row.result}, row.result)
        if row.body is not None:
            self.assertEqual(server.bodies, [row.body])

    def test_the_names_are_different(self):
        self.assertGreater(len(ROWS), 50)

    def test_what_a_header_has_is_escaped_before(self):
        server = Server((200, TOKEN))
        Client('a:b', 'c d%\u00e9', token_url='https://as.example/t', transport=server).fetch_token()
        sent = dict(server.requests[0].headers)['authorization'].partition(' ')[2]
        self.assertEqual(base64.b64decode(sent), b'a%3Ab:c+d%25%C3%A9')

    def test_calls_do_not_change_the_client(self):
        server = Server((200, TOKEN), (200, TOKEN), (400, {'error': 'e'}), (200, TOKEN))
        it = Client('aaa', 'bbb', token_url='https://as.example/t', transport=server)
        before = repr(it.script)
        it.fetch_token(scopes='read', extra={'a': 'b'})
        it.fetch_token()
        self.fails(lifecrib.ErrorResponse, it.fetch_token)
        it.fetch_token()
        self.assertEqual((server.bodies[1:], repr(it.script)), (['grant_type=client_credentials'] * 3, before))


if __name__ == '__main__':
    unittest.main()
