"""Random scripts (docs/SCRIPT.md) for tools/compare-with-rust: most of them good, the same for the same seed.

Left out are the commands `keeper`, `redirect`, `metadata` and `id_token`, which the Rust crate lacks, and URLs that docs/DIFFERENCES.md
lists under "How URLs are read".
"""
import json
import random

TEXTS = ['', 'a', 'aaa', 'a:b', 'c+d e', 'p&w', 'x=y', '%', '%41', '~', '*-._', '\0', '\t\n', 'é', '€', '\U0001F600',
         ' ', '  ', '"', '\\', '/', 'A' * 60, '+', '++', ':', 'ÿ\x7f', 'read', 'openid']
OWN_NAMES = ['grant_type', 'code', 'code_verifier', 'refresh_token', 'username', 'password', 'scope', 'client_id', 'client_secret',
             'redirect_uri', 'token', 'token_type_hint', 'device_code', 'response_type', 'state', 'code_challenge', 'code_challenge_method']
URLS = ['https://example.com/token', 'https://example.com', 'https://example.com/a?b=c&d', 'http://localhost:8080/x',
        'https://u:p@example.com:8443/a%20b?c#d', 'HTTPS://EXAMPLE.com/%7Efoo', 'https://example.com/a b?c d', 'https://[::1]/x',
        'https://example.com/?', 'https://example.com/#f', 'https://example.com/t?x=é']
NO_URLS = ['', 'not a url', '/x', 'https://', 'http://a b/']
NO_TARGETS = ['data:text/plain,hello', 'foo:/p?x', 'file:///x']
CONTENT_TYPES = ['application/json', 'APPLICATION/JSON; charset=utf-8', 'application/jsonfoo', 'application/json-patch+json', 'text/html',
                 '', 'application/jso', ' application/json', 'a"b', 'application/json; x=é', 'application/json\t']
CODES = ['invalid_client', 'invalid_grant', 'invalid_request', 'invalid_scope', 'unauthorized_client', 'unsupported_grant_type',
         'authorization_pending', 'slow_down', 'access_denied', 'expired_token', 'unsupported_token_type', 'Invalid_Client', 'x', '']
NUMBERS = [0, 1, 5, 300, 3600, 2**31, 2**63 - 1, 2**63, 2**64 - 1, 2**64, -1, -2**63, 1.5, 1.0, -0.0, 1e30]
OF_ANOTHER_KIND = [None, True, 1, 'x', [], {}, 1.5, ['a', 1]]
NO_BODIES = ['', 'x', '{', '[]', 'null', '1', '"x"', '\ufeff{}']
TOKEN_TYPES = ['bearer', 'BEARER', 'Mac', 'x', '', 'ÄB', 'K\u212a']
EARLIEST, LATEST = -377705023201, 253402207200
COMMANDS = ['code', 'refresh', 'password', 'client_credentials', 'introspect', 'revoke', 'device_authorization', 'device_poll',
            'device_poll', 'authorize']
WITH_SCOPES = ('refresh', 'password', 'client_credentials', 'device_authorization', 'authorize')


class Chance(random.Random):
    """Random texts, numbers and JSON bodies."""

    def may(self, share):
        return self.random() < share

    def text(self):
        if self.random() < .8:
            return self.choice(TEXTS)
        return ''.join(chr(self.choice([self.randrange(128), self.randrange(256), self.randrange(0x800)]))
                       for _ in range(self.randrange(12)))

    def number(self):
        return self.choice(NUMBERS) if self.may(.4) else self.randrange(0, 100)

    def url(self):
        return self.choice(URLS)

    def extra(self):
        return [[self.choice(OWN_NAMES) if self.may(.2) else self.text(), self.text()] for _ in range(self.randrange(4))]

    def scopes(self):
        return [self.text() for _ in range(self.randrange(4))]

    def body(self, rows):
        """An object of members, each a name, how its value is made, and how often it is there. Some have another kind, a member that
        nobody knows, another order or a name twice."""
        members = []
        for name, make, share in rows:
            if self.may(share):
                members.append((name, self.choice(OF_ANOTHER_KIND) if self.may(.06) else make()))
        if self.may(.3):
            members.append((self.text(), self.choice(OF_ANOTHER_KIND + [{'a': [1.5]}])))
        if self.may(.5):
            self.shuffle(members)
        if members and self.may(.03):
            members.append((self.choice(members)[0], self.text()))
        return '{' + ','.join(json.dumps(name) + ':' + json.dumps(value) for name, value in members) + '}'

    def token(self):
        return self.body([
            ('access_token', self.text, .95), ('token_type', lambda: self.choice(TOKEN_TYPES), .95), ('expires_in', self.number, .4),
            ('refresh_token', self.text, .3), ('scope', lambda: self.choice(['', 'a', 'a b', ' a  b ', self.text()]), .4)])

    def time(self):
        some = NUMBERS + [LATEST, LATEST + 1, EARLIEST, EARLIEST - 1]
        return self.choice(some) if self.may(.4) else self.randrange(-2**33, 2**33)

    def introspection(self):
        rows = [('active', lambda: self.may(.5), .95), ('scope', self.text, .4), ('client_id', self.text, .3), ('username', self.text, .3),
                ('token_type', self.text, .3)]
        rows += [(name, self.time, .3) for name in ('exp', 'iat', 'nbf')]
        return self.body(rows + [('sub', self.text, .3), ('aud', lambda: self.choice(['demo', [], ['a'], ['a', 'b']]), .3),
                                 ('iss', self.text, .3), ('jti', self.text, .3)])

    def device(self, is_good=False):
        share = 1 if is_good else .95
        rows = [('device_code', self.text, share), ('user_code', self.text, share),
                (self.choice(['verification_uri', 'verification_uri', 'verification_url']), self.url, share),
                ('verification_uri_complete', self.text, .3)]
        if not is_good:
            rows += [('expires_in', self.number, .95), ('interval', lambda: None if self.may(.2) else self.number(), .5),
                     ('verification_url', self.url, .03)]
        return self.body(rows)

    def error(self):
        if self.may(.03):
            return json.dumps([self.choice(CODES), None, None][:self.randrange(1, 4)])
        return self.body([('error', lambda: self.choice(CODES), .97),
                          ('error_description', lambda: self.choice([None, 'text', 'a "b"', 'é']), .3),
                          ('error_uri', lambda: self.choice([None, 'https://x/']), .3)])

    def reply(self, good_body):
        if self.may(.06):
            return {'fail': True}
        ok = self.may(.6)
        reply = {'status': 200 if ok else self.choice([400, 401, 500, 201, 204, 100, 999, 302]),
                 'body': good_body() if ok == self.may(.97) else self.error()}
        if self.may(.04):
            reply['body'] = self.choice(NO_BODIES + [reply['body'] + ' x', reply['body'] + ' \n', reply['body'][:-1]])
        if self.may(.4):
            reply['content_type'] = 'application/json' if self.may(.6) else self.choice(CONTENT_TYPES)
        return reply

    def poll_reply(self):
        share = self.random()
        if share < .35:
            return {'status': 400, 'body': '{"error":"authorization_pending"}'}
        if share < .6:
            return {'status': 400, 'body': '{"error":"slow_down"}'}
        return {'fail': True} if share < .85 else self.reply(self.token)

    def client(self):
        client = {'id': self.text()}
        if self.may(.7):
            client['secret'] = self.text()
        if self.may(.4):
            client['auth'] = self.choice(['basic', 'body'])
        for name in ('auth_url', 'token_url', 'device_url', 'introspection_url', 'revocation_url'):
            if self.may(.9):
                client[name] = self.choice(NO_TARGETS) if self.may(.03) else self.url()
        if self.may(.3):
            client['redirect'] = self.url()
        return client

    def script(self):
        client, script, good_body = self.client(), {}, self.token
        command, params = self.choice(COMMANDS), {}
        if self.may(.6):
            params['extra'] = self.extra()
        if command in WITH_SCOPES and self.may(.6):
            params['scopes'] = self.scopes()
        if command == 'introspect':
            good_body = self.introspection
        if command == 'device_authorization':
            good_body = self.device
        self.set_params(command, params, script)
        script.update({'client': client, 'command': command, 'params': params})
        if command != 'device_poll':
            script['replies'] = [self.reply(good_body) for _ in range(self.choice([0, 1, 1, 1, 1, 1, 1, 2]))]
        if self.may(.04):
            self.damage(self.choice([script, client, params] + script['replies']))
        return json.dumps(script, ensure_ascii=self.may(.5))

    def set_params(self, command, params, script):
        """Adds what one command has beside scopes and extra pairs, and of a poll its replies and readings."""
        if command == 'code':
            params['code'] = self.text()
            if self.may(.3):
                params['verifier'] = self.choice(['a' * 43, 'b' * 128, 'é' * 22, 'a' * 42 if self.may(.1) else '~' * 50])
            if self.may(.3):
                params['redirect'] = self.url()
        elif command == 'refresh':
            params['refresh_token'] = self.text()
        elif command == 'password':
            params['username'], params['password'] = self.text(), self.text()
        elif command == 'introspect':
            params['token'] = self.text()
            if self.may(.4):
                params['hint'] = self.text()
        elif command == 'revoke':
            params['token'] = self.text()
            if self.may(.5):
                params['kind'] = self.choice(['access', 'refresh'])
        elif command == 'device_poll':
            self.set_poll(params, script)
        elif command == 'authorize':
            self.set_authorization(params)

    def set_authorization(self, params):
        params['state'] = self.text()
        if self.may(.4):
            params['verifier'] = self.choice(['a' * 43, 'dBjftJeZ4CVP-mB92K27uhbUJU1p1r_wW1gFWFOEjXk'])
        if self.may(.3):
            params['redirect'] = self.url()
        if self.may(.3):
            params['response_type'] = self.text()

    def set_poll(self, params, script):
        device = json.loads(self.device(True))
        device['expires_in'] = self.choice([2, 60, 2**63 - 1, 2**63, 2**64 - 1]) if self.may(.2) else self.randrange(0, 200)
        if self.may(.8):
            device['interval'] = self.choice([0, 30, 2**63 - 1, 2**64 - 6, 2**64 - 1]) if self.may(.2) else self.randrange(0, 12)
        params['device'] = device
        params['max_polls'] = self.randrange(1, 8)
        if self.may(.3):
            params['timeout'] = self.number() if self.may(.3) else self.randrange(0, 100)
        if self.may(.3):
            params['cap'] = self.randrange(0, 40)
        script['replies'] = [self.poll_reply() for _ in range(self.randrange(8))]
        time = self.choice([0, 0, 0, -5, 1700000000, LATEST - 100, EARLIEST])
        script['readings'] = []
        for _ in range(self.randrange(10)):
            script['readings'].append(max(EARLIEST, min(LATEST, time)))
            time += self.choice([0, 1, 5, 20, -3])

    def damage(self, members):
        """Changes or drops a member, by which most scripts become bad."""
        if members and self.may(.7):
            name = self.choice(sorted(members))
            members[name] = self.choice(OF_ANOTHER_KIND + NO_URLS + [99, 1000])
        elif members:
            members.pop(self.choice(sorted(members)))


def scripts(seed):
    """Scripts without end, as bytes."""
    chance = Chance(seed)
    while True:
        yield chance.script().encode('utf-8', 'replace')
