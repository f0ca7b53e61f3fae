"""Tests of tools/compare-grants: the examples of its RFCs, that its scripts show each of many bugs, and some over the program."""
import base64
import contextlib
import hashlib
import io
import json
import random
import re
import sys
import unittest
import urllib.parse
from unittest import mock

import tool

sys.path.insert(0, tool.TOOLS)
import program  # noqa: E402, of the folder above
import pythons  # noqa: E402, likewise
import repository  # noqa: E402, likewise

TOOL = tool.load('compare-grants')
GRANT = 'urn:ietf:params:oauth:grant-type:'


class Bad(Exception):
    """Why a script is bad, or has no request."""


class Model:
    """Does what docs/SCRIPT.md says of the scripts of the tool. bugs has the names of what it does wrong."""

    def __init__(self, script, bugs=()):
        self.script, self.bugs, self.lines = script, bugs, []
        self.client, self.params, self.command = script['client'], script['params'], script['command']

    def has(self, bug):
        return bug in self.bugs

    def run(self):
        """The lines and the status."""
        try:
            self.check()
            text = self.answered()
        except Bad as bad:
            text = 'fault ' + json.dumps(str(bad))
            if str(bad) == 'script':
                return ['bad script'], 2
        return self.lines + ['answer ' + text], 1 if text.startswith('fault') else 0

    def check(self):
        params = self.params
        is_uri = re.compile('(?s).*:.*' if self.has('uris') else r"[a-zA-Z][a-zA-Z0-9+.-]*:(?:%[0-9a-fA-F]{2}|[^\x00-\x20\x7f-\U0010ffff\"#<>\\^`{|}%])*")
        if any(not is_uri.fullmatch(it) for it in params.get('resource', [])) and not self.has('resource unchecked'):
            raise Bad('script')
        if 'client_assertion' in params and 'secret' in self.client and not self.has('secret and assertion'):
            raise Bad('script')
        self.check_grant(params, is_uri)

    def check_grant(self, params, is_uri):
        types = [params[it] for it in ('grant_type', 'subject_token_type', 'actor_token_type', 'requested_token_type') if it in params]
        if not all(is_uri.fullmatch(it) for it in types) and not self.has('types unchecked'):
            raise Bad('script')
        if ('actor_token' in params) != ('actor_token_type' in params) and not self.has('actor alone'):
            raise Bad('script')
        if self.command == 'exchange_token' and not {'subject_token', 'subject_token_type'} <= params.keys():
            raise Bad('script')
        if self.command == 'assertion' and params['kind'] not in ('jwt', 'saml2'):
            raise Bad('script')

    def check_extra(self):
        """Ends without a request where a parameter would come twice, or a push has no place."""
        names = [it[0] for it in self.params.get('extra', [])]
        taken = TOOL.TAKEN[self.command]
        if any(it in taken for it in names) and not self.has('extra unchecked'):
            raise Bad('the name of a parameter is taken')
        if self.command == 'push' and not {'auth_url', 'push_url'} <= self.client.keys():
            raise Bad('no endpoint')
        queries = '&'.join(urllib.parse.urlsplit(self.client[it]).query for it in ('auth_url', 'push_url') if self.command == 'push')
        if {'client_id', 'request_uri'} & dict(urllib.parse.parse_qsl(queries, True)).keys() and not self.has('queries unchecked'):
            raise Bad('an endpoint has it')

    def grant_pairs(self):
        """Those of a grant that is no older one."""
        params, audience = self.params, self.params.get('audience', [])
        scope = [('scope', ' '.join(it)) for it in [params.get('scopes')] if it]
        if self.command == 'extension':
            return [('grant_type', params['grant_type'])] + scope
        if self.command == 'assertion':
            text = params['assertion']
            if params['kind'] == 'saml2' and not self.has('plain assertion'):
                coded = base64.b64encode(text.encode()) if self.has('base64') else base64.urlsafe_b64encode(text.encode())
                text = coded.decode() if self.has('padding') else coded.decode().rstrip('=')
            kind = 'jwt' if self.has('one kind') else params['kind']
            return [('grant_type', GRANT + kind + '-bearer')] + scope + [('assertion', text)]
        audience = audience[::-1] if self.has('audiences turned') else audience[:1] if self.has('one audience') else audience
        found = [('grant_type', GRANT + 'token-exchange')] + scope + [('audience', it) for it in audience]
        names = ['requested_token_type', 'subject_token', 'subject_token_type', 'actor_token', 'actor_token_type']
        if self.has('no actor'):
            names = names[:3]
        return found + [(it, params[it]) for it in names if it in params]

    def pairs(self):
        params, client, command = self.params, self.client, self.command
        if command in ('extension', 'exchange_token', 'assertion'):
            return self.grant_pairs()
        one = [(it, params[it]) for it in ('code', 'refresh_token', 'username', 'password', 'token') if it in params]
        names = {'code': 'authorization_code', 'refresh': 'refresh_token', 'device_poll': GRANT + 'device_code',
                 'keeper': 'refresh_token' if 'refresh' in params else 'client_credentials'}
        found = [] if command in ('introspect', 'revoke', 'device_authorization', 'authorize', 'push') else [
            ('grant_type', names.get(command, command))]
        if command in ('authorize', 'push'):
            found += [('response_type', params.get('response_type', 'code')), ('client_id', client['id']), ('state', params['state'])]
        if 'verifier' in params:
            digest = base64.urlsafe_b64encode(hashlib.sha256(params['verifier'].encode()).digest()).decode()[:43]
            found += [('code_verifier', params['verifier'])] if command == 'code' else [
                ('code_challenge', params['verifier'] if self.has('plain challenge') else digest), ('code_challenge_method', 'S256')]
        found += one + [('refresh_token', it) for it in [params.get('refresh')] if it is not None]
        found += [('device_code', it['device_code']) for it in [params.get('device')] if it]
        found += [('token_type_hint', params.get('kind', '') + '_token')] * (command == 'revoke')
        found += [('redirect_uri', it) for it in [params.get('redirect', client.get('redirect'))] if it and (
            command in ('authorize', 'push', 'code'))]
        is_scoped = 'scopes' in params and not (command == 'keeper' and 'refresh' in params)
        found += [('scope', ('+' if self.has('scopes') else ' ').join(params.get('scopes', [])))] * is_scoped
        return found + [('nonce', it) for it in [params.get('nonce')] if it is not None]

    def all_pairs(self):
        """All pairs of a request, and its Authorization header."""
        client, params = self.client, self.params
        found, header = self.pairs(), None
        is_body, named = client['auth'] == 'body', [('client_id', client['id'])] * (self.command not in ('authorize', 'push'))
        if self.has('client_id twice') and self.command == 'push':
            named = [('client_id', client['id'])]
        if 'secret' not in client:
            found += named
        elif is_body:
            found += named + [('client_secret', client['secret'])] * (not (self.has('a push without a secret') and self.command == 'push'))
        elif self.command != 'authorize':
            quote = str if self.has('login') else urllib.parse.quote_plus
            header = 'Basic ' + base64.b64encode(('%s:%s' % (quote(client['id']), quote(client['secret']))).encode()).decode()
        if self.command == 'authorize':
            found = [it for it in found if it[0] != 'client_secret']  # a URL has none
        resource = params.get('resource', [])
        resource = resource[::-1] if self.has('resources turned') else resource[:1] if self.has('one resource') else resource
        found += [('resource', it) for it in resource] + [tuple(it) for it in params.get('extra', [])]
        if 'client_assertion' in params:
            found += [('client_assertion_type', 'urn:ietf:params:oauth:client-assertion-type:' + ('saml2' if self.has('type') else 'jwt') + '-bearer'),
                      ('client_assertion', params['client_assertion'])][::-1 if self.has('assertion turned') else 1]
        return found, header

    def answered(self):
        if self.command in TOOL.GRANTS:
            self.check_extra()
        pairs, header = self.all_pairs()
        if self.command == 'authorize':
            self.url(pairs)
            return 'ok ' + json.dumps(self.params['state'])
        body = urllib.parse.urlencode(pairs, quote_via=urllib.parse.quote if self.has('percent') else urllib.parse.quote_plus)
        body = body.replace('%2B', '+') if self.has('plus') else body
        url = self.client[TOOL.ENDPOINTS.get(self.command, 'token_url')]
        self.lines += ['request POST ' + url, 'authorization ' + (header or 'none'), 'body ' + json.dumps(body), 'basic none']
        self.lines += ['pair %s %s' % tuple(map(json.dumps, it)) for it in pairs]
        return self.read((self.script['replies'] or [{'fail': True}])[0])

    def read(self, reply):
        """The answer of a reply."""
        if self.command not in TOOL.GRANTS or 'fail' in reply:
            raise Bad('Request failed')
        found, is_push = json.loads(reply['body']), self.command == 'push'
        good = (200, 201) if self.has('any status') else (201,) if is_push else (200,)
        if reply['status'] not in good:
            raise Bad('Server returned error response: ' + found['error'] if 'error' in found else 'Failed to parse server response')
        needed = ['request_uri', 'expires_in'] if is_push else ['access_token', 'token_type'] + ['issued_token_type'] * (
            self.command == 'exchange_token' and not self.has('no issued type'))
        if not all(it in found for it in needed):
            raise Bad('Failed to parse server response')
        if is_push and not self.has('an empty request_uri') and found['request_uri'] in ('', 0):
            raise Bad('Failed to parse server response')
        if is_push and not self.has('a lifetime of 0') and found['expires_in'] in ('', 0):
            raise Bad('Failed to parse server response')
        if is_push:
            name = [('request_uri', found['request_uri'])] + [('client_id', self.client['id'])] * (not self.has('a URL without the client'))
            self.url(name + self.pairs() * self.has('all in the URL'))
        return 'ok ' + json.dumps({**found, **({} if is_push else {'token_type': found['token_type'].lower()})})

    def url(self, pairs):
        url = self.client['auth_url']
        self.lines.append('url ' + json.dumps(url + ('&' if '?' in url else '?') + urllib.parse.urlencode(pairs)))


# A name for each bug of the model.
BUGS = ('uris', 'resource unchecked', 'secret and assertion', 'plain challenge', 'scopes', 'login', 'resources turned', 'one resource', 'type',
        'assertion turned', 'plus', 'types unchecked', 'actor alone', 'extra unchecked', 'plain assertion', 'base64', 'padding', 'one kind',
        'audiences turned', 'one audience', 'no actor', 'client_id twice', 'a push without a secret', 'any status', 'no issued type',
        'a URL without the client', 'all in the URL', 'an empty request_uri', 'a lifetime of 0', 'queries unchecked')


class Judge(unittest.TestCase):
    def compared(self, *bugs, number):
        """How many scripts differ for a model with bugs, and what was printed."""
        said = io.StringIO()
        with mock.patch.object(TOOL, 'told', lambda _, script: Model(script, bugs).run()), contextlib.redirect_stdout(said):
            return TOOL.compare('/program', number, 1), said.getvalue().splitlines()

    def test_a_program_that_is_right(self):
        differences, said = self.compared(number=500)
        self.assertEqual(differences, 0, '\n'.join(said)[-3000:])
        self.assertRegex(said[-1], r'^4\d\d requests, 0 differences$')
        self.assertEqual(self.compared('percent', number=50)[0], 0)  # %20 is a space of a form too

    def test_each_bug(self):
        for bug in BUGS:
            scripts = TOOL.Scripts(random.Random(1))
            made = (scripts.made() for _ in range(3000))
            self.assertTrue(any(TOOL.differences_of(it, *Model(it.script, [bug]).run())[0] for it in made), bug)

    def test_a_difference_is_printed(self):
        differences, said = self.compared('resources turned', number=60)
        self.assertGreater(differences, 0)
        self.assertRegex(said[-1], r'^\d+ requests, %d differences$' % differences)
        self.assertIn('  it reads other pairs: ', '\n'.join(said))

    @unittest.skipUnless(pythons.that_has('authlib'), 'there is no Authlib here')
    def test_authlib(self):
        for bugs, is_right in ((), True), (['plus'], False), (['assertion turned'], True):
            scripts = TOOL.Scripts(random.Random(2))
            shown = [(it.script, Model(it.script, bugs).run()[0]) for it in (scripts.made() for _ in range(500)) if not it.spoiled]
            with contextlib.redirect_stdout(io.StringIO()) as said:
                self.assertEqual(TOOL.differences_of_authlib(shown) == 0, is_right, said.getvalue())
            self.assertRegex(said.getvalue(), r'\d\d of the requests read by Authlib, \d+ differences\n\Z')

    def test_uris(self):
        for text in ('https://a.example/', 'urn:x', 'a:', 'http://[::1]/', 'a+b.c-1:%2f?q=/?'):
            self.assertTrue(TOOL.is_uri(text), text)
        for text in ('', 'a', '/a', '//a', '1:a', 'a:#', 'a: ', 'a:%', 'a:%4g', 'a:\u00e9', ':a', 'a_b:c', 'a:\n'):
            self.assertFalse(TOOL.is_uri(text), text)
        made = TOOL.Scripts(random.Random(1))
        for _ in range(2000):
            self.assertTrue(TOOL.is_uri(made.uri()))
            text = made.no_uri()
            self.assertFalse(TOOL.is_uri(text), text)

    def judged(self, body, authorization=None):
        return TOOL.fault_of(TOOL.seen('https://as.example/x', authorization, body))

    def test_examples(self):
        """RFC 8707, 2.2, and RFC 7523, 2.2, each with its parameters alone."""
        code = 'grant_type=authorization_code&code=10esc29BWC2qZB0acc9v8zAv9ltc2pko105tQauZ&resource=https%3A%2F%2Fcal.example.com%2F'
        shown = '&client_assertion_type=urn%3Aietf%3Aparams%3Aoauth%3Aclient-assertion-type%3Ajwt-bearer&client_assertion=eyJ.eyJ.cC4'
        basic = 'Basic czZCaGRSa3F0Mzo3RmpmcDBaQnIxS3REUmJuZlZkbUl3'
        for body, authorization in (code, None), (code, basic), (code + shown, None), (code + '&resource=urn%3Aa', None):
            self.assertIsNone(self.judged(body, authorization))
        for body, authorization, section in (
                (code + '&code=b', None, 'RFC 6749, 3.2'), (code + shown, basic, 'RFC 6749, 2.3'),
                (code + shown + '&client_secret=b', None, 'RFC 6749, 2.3'), (code + '&client_secret=b', None, 'RFC 6749, 2.3.1'),
                (code.replace('.com%2F', '.com%2F%23f'), None, 'RFC 8707, 2'), (code + '&resource=', None, 'RFC 8707, 2'),
                (code + shown.replace('jwt-bearer', 'saml2-bearer'), None, 'RFC 7523, 2.2'),
                (code + shown.replace('client_assertion=', 'x='), None, 'RFC 7521, 4.2')):
            self.assertIn(section, self.judged(body, authorization) or '')

    def test_examples_of_grants(self):
        """RFC 8693, 2.3, RFC 7523, 2.1, RFC 7522, 2.1, and RFC 9126, 2.1, each with its parameters alone."""
        exchange = ('grant_type=urn%3Aietf%3Aparams%3Aoauth%3Agrant-type%3Atoken-exchange&resource=https%3A%2F%2Fbackend.example.com%2Fapi'
                    '&subject_token=accVkjcJyb4BWCxGsndESCJQbdFMogUC5PbRDqceLTC'
                    '&subject_token_type=urn%3Aietf%3Aparams%3Aoauth%3Atoken-type%3Aaccess_token')
        acts = '&actor_token=eyJ.eyJ.cC4&actor_token_type=urn%3Aietf%3Aparams%3Aoauth%3Atoken-type%3Ajwt'
        jwt = 'grant_type=urn%3Aietf%3Aparams%3Aoauth%3Agrant-type%3Ajwt-bearer&assertion=eyJ.eyJ.cC4'
        saml = 'grant_type=urn%3Aietf%3Aparams%3Aoauth%3Agrant-type%3Asaml2-bearer&assertion=PHNhbWxwOl'
        for body in exchange, exchange + acts, exchange + '&audience=a&audience=b', jwt, saml + '8', 'grant_type=urn%3Ax&y=z':
            self.assertIsNone(self.judged(body), body)
        for body, section in (
                (exchange.replace('&subject_token=', '&x='), 'RFC 8693, 2.1'), (exchange.replace('_token_type', '_type'), 'RFC 8693, 2.1'),
                (exchange + acts.partition('&actor_token_type')[0], 'RFC 8693, 2.1'), (exchange + '&requested_token_type=jwt', 'RFC 8693, 3'),
                (jwt.replace('&assertion', '&x'), 'RFC 7521, 4.1'), (jwt + '&assertion=a', 'RFC 6749, 3.2'),
                (saml, 'RFC 7522, 2.1'), (saml + 'w%3D', 'RFC 7522, 2.1'), (saml + '%0Aw', 'RFC 7522, 2.1'), ('grant_type=x', 'RFC 6749, 4.5')):
            self.assertIn(section, self.judged(body) or '', body)
        pushed = ('response_type=code&state=af0ifjsldkj&client_id=s6BhdRkqt3&redirect_uri=https%3A%2F%2Fclient.example.org%2Fcb'
                  '&code_challenge=K2-ltc83acc4h0c9w6ESC_rEMTJ3bww-uCHaoeK1t8U&code_challenge_method=S256&scope=account-information')
        at, basic = 'https://as.example/push_url?t=1', 'Basic czZCaGRSa3F0Mzo3RmpmcDBaQnIxS3REUmJuZlZkbUl3'
        self.assertIsNone(TOOL.fault_of(TOOL.seen(at, basic, pushed)))
        for body in pushed.replace('client_id', 'x'), pushed + '&request_uri=urn%3Ax', pushed.replace('response_type', 'x'):
            self.assertIn('RFC 9126, 2.1', TOOL.fault_of(TOOL.seen(at, basic, body)))

    def test_what_is_no_form(self):
        for body in 'a b=c', 'a=\u00e9', 'a=%ff', 'a', 'a=b&&c=d', 'a=(':
            with self.assertRaises(ValueError):
                TOOL.seen('https://as.example/x', None, body)


class Program(unittest.TestCase):
    @unittest.skipUnless(repository.has_kit(), 'there is no kit here')
    def test_a_few_scripts(self):
        said = io.StringIO()
        with contextlib.redirect_stdout(said):
            path = program.PROGRAM if program.is_proved() else program.unproved(lambda: None)
            self.assertEqual(TOOL.compare(path, 30, 7), 0, said.getvalue())


if __name__ == '__main__':
    unittest.main()
