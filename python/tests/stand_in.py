#!/usr/bin/env -S python3 -IS
"""A stand-in of the program: it reads a script and writes a result, as far as the tests here need it.

Nothing of it is proved. The tests use it where LIFECRIB_PROGRAM and LIFECRIB_LIBRARY name nothing.
"""
import base64
import hashlib
import json
import re
import sys
import urllib.parse

EVENTS = []
GRANTS = {'code': 'authorization_code', 'client_credentials': 'client_credentials', 'refresh': 'refresh_token',
          'password': 'password', 'device_poll': 'urn:ietf:params:oauth:grant-type:device_code',
          'exchange_token': 'urn:ietf:params:oauth:grant-type:token-exchange',
          'assertion': 'urn:ietf:params:oauth:grant-type:jwt-bearer'}
TOKEN = {'access_token': str, 'token_type': str, 'expires_in': int, 'refresh_token': str, 'scope': str}
DEVICE = {'device_code': str, 'user_code': str, 'verification_uri': str, 'expires_in': int}
URLS = ('auth_url', 'token_url', 'device_url', 'introspection_url', 'revocation_url', 'push_url', 'redirect')
NEEDED = ('access_token', 'token_type', 'issued_token_type', 'active', 'request_uri', 'issuer')
BODIES = []  # of replies, each the text of one JSON value


def scopes_of(answer):
    """The scopes of an answer as a list."""
    found = answer.get('scope') if isinstance(answer, dict) else None
    return found.split(' ') if isinstance(found, str) else None


def end(status, event, **more):
    EVENTS.append({'event': event, **more})
    for it in EVENTS:
        if it['event'] == 'answer':
            it['scopes'] = scopes_of(it['answer'])
    text = json.dumps({'events': EVENTS})
    for at, body in enumerate(BODIES):  # each as it came
        text = text.replace('"\\u0000%d"' % at, body)
    sys.stdout.buffer.write(text.encode() + b'\n')
    sys.exit(status)


def fault(kind, text, **more):
    end(1, 'fault', kind=kind, text=text, error=more.get('error'), unread=more.get('unread'))


def bad(member, why):
    end(2, 'bad_script', member=member, why=why)


class Stand:
    def __init__(self, script):
        self.client, self.params, self.command = script['client'], script.get('params', {}), script['command']
        self.replies, self.readings = iter(script.get('replies', [])), script.get('readings') or [0]

    def check(self):
        for name in URLS:
            if name in self.client and not re.match(r'[a-z]+://[^/]', self.client[name]):
                bad('client.' + name, 'not_a_url')
        if self.client.get('auth') not in (None, 'basic', 'body'):
            bad('client.auth', 'unknown_name')
        if len(self.params.get('verifier', 'v' * 43)) < 43:
            bad('params.verifier', 'too_short')

    def exchange(self, url, pairs, method='POST'):
        """Shows a request: its reply, or a fault where there is none."""
        client_id, secret = self.client.get('id'), self.client.get('secret')
        headers, basic = [['accept', 'application/json']], None
        if method == 'POST':
            headers.append(['content-type', 'application/x-www-form-urlencoded'])
            if secret is not None and self.client.get('auth') != 'body':
                basic = [client_id, secret]
                text = ':'.join(map(urllib.parse.quote_plus, basic))
                headers.append(['authorization', 'Basic ' + base64.b64encode(text.encode()).decode()])
            else:
                pairs = pairs + [('client_id', client_id)] + [('client_secret', secret)] * (secret is not None)
            pairs = pairs + [('resource', it) for it in self.params.get('resource', [])]
            pairs = pairs + [tuple(it) for it in self.params.get('extra', [])]
        request = {'method': method, 'url': url, 'headers': headers, 'body': urllib.parse.urlencode(pairs),
                   'basic': basic, 'pairs': pairs}
        reply = next(self.replies, {'fail': True})
        if reply.get('fail'):
            EVENTS.append({'event': 'exchange', 'request': request, 'reply': None})
            return None
        body = base64.b64decode(reply['body_base64']) if 'body_base64' in reply else reply['body'].encode()
        try:
            value = json.loads(body)
            shown = '\0%d' % len(BODIES)
            BODIES.append(body.decode())
        except ValueError:
            value = shown = None
        EVENTS.append({'event': 'exchange', 'request': request, 'reply': {
            'status': reply['status'], 'content_type': reply.get('content_type'), 'json': shown}})
        return reply['status'], reply.get('content_type'), body, value

    def read(self, reply, kinds, status=200):
        """The answer that a reply has, of members of these kinds."""
        if reply is None:
            fault('request_failed', 'Request failed')
        found_status, content_type, body, value = reply
        if found_status == status and not (content_type or 'application/json').startswith('application/json'):
            fault('other_error', 'Other error: unexpected response Content-Type')
        if not body:
            fault('other_error', 'Other error: server returned empty response body')
        unread = 'Failed to parse server response'
        if not isinstance(value, dict):
            fault('unread_reply', unread, unread={'member': '', 'cause': 'NotJson' if value is None else 'WrongType'})
        if found_status != status:
            if not isinstance(value.get('error'), str):
                fault('unread_reply', unread, unread={'member': 'error', 'cause': 'Missing'})
            said = {it: value.get(it) for it in ('error', 'error_description', 'error_uri')}
            text = said['error'] + ''.join(': ' + it for it in [said['error_description']] if it)
            fault('error_response', 'Server returned error response: ' + text, error=said)
        for name, kind in kinds.items():
            if name not in value and (name in NEEDED or 'user_code' in kinds and name in DEVICE):
                fault('unread_reply', unread, unread={'member': name, 'cause': 'Missing'})
            if name in value and type(value[name]) is not kind:
                fault('unread_reply', unread, unread={'member': name, 'cause': 'WrongType'})
        return {name: value[name] for name in kinds if name in value}

    def endpoint(self, name, words):
        if name not in self.client:
            fault('missing_endpoint', 'No %s endpoint URL specified' % words)
        return self.client[name]

    def scope(self):
        return [('scope', ' '.join(self.params['scopes']))] if self.params.get('scopes') else []

    def token(self):
        names = {'verifier': 'code_verifier', 'redirect': 'redirect_uri'}
        sent = ('code', 'verifier', 'refresh_token', 'username', 'password', 'assertion', 'subject_token',
                'subject_token_type', 'redirect')
        pairs = [('grant_type', GRANTS.get(self.command) or self.params['grant_type'])]
        pairs += [(names.get(it, it), self.params[it]) for it in sent if it in self.params]
        pairs += [('audience', it) for it in self.params.get('audience', [])]
        taken = [it for it, _ in self.params.get('extra', []) if it in ('grant_type', 'scope')]
        url = self.endpoint('token_url', 'token')
        if taken and self.command in ('exchange_token', 'assertion', 'extension'):
            fault('taken_parameter', 'the request itself sends a parameter of this name')
        kinds = {**TOKEN, **({'issued_token_type': str} if self.command == 'exchange_token' else {})}
        answer = self.read(self.exchange(url, pairs + self.scope()), kinds)
        answer['token_type'] = answer['token_type'].lower()
        end(0, 'answer', answer=answer)

    def introspect(self):
        url = self.endpoint('introspection_url', 'introspection')
        pairs = [('token', self.params['token'])] + [('token_type_hint', it) for it in [self.params.get('hint')] if it]
        kinds = {'active': bool, 'scope': str, 'client_id': str, 'username': str, 'exp': int, 'sub': str, 'aud': list}
        end(0, 'answer', answer=self.read(self.exchange(url, pairs), kinds))

    def revoke(self):
        url = self.endpoint('revocation_url', 'revocation')
        if not url.startswith('https:'):
            fault('insecure_endpoint', 'Scheme for revocation endpoint URL is not HTTPS')
        pairs = [('token', self.params['token']), ('token_type_hint', self.params.get('kind', 'access') + '_token')]
        reply = self.exchange(url, pairs)
        if reply is None or reply[0] != 200:
            self.read(reply, {})
        end(0, 'answer', answer=None)

    def device_authorization(self):
        reply = self.exchange(self.endpoint('device_url', 'device authorization'), self.scope())
        answer = self.read(reply, {**DEVICE, 'interval': int, 'verification_uri_complete': str})
        end(0, 'answer', answer={'interval': 5, **answer})

    def device_poll(self):
        device, interval = self.params['device'], self.params['device']['interval']
        limit = self.readings[0] + self.params.get('timeout', device['expires_in'])
        for at in range(1, self.params['max_polls'] + 1):
            if self.readings[min(at, len(self.readings) - 1)] > limit:
                said = {'error': 'expired_token', 'error_description': None, 'error_uri': None}
                fault('error_response', 'Server returned error response: expired_token', error=said)
            reply = self.exchange(self.endpoint('token_url', 'token'), [
                ('grant_type', GRANTS['device_poll']), ('device_code', device['device_code'])])
            error = reply[3].get('error') if reply and isinstance(reply[3], dict) else None
            if reply is not None and error not in ('authorization_pending', 'slow_down'):
                answer = self.read(reply, TOKEN)
                end(0, 'answer', answer={**answer, 'token_type': answer['token_type'].lower()})
            interval = interval * 2 if reply is None else interval + 5 * (error == 'slow_down')
            EVENTS.append({'event': 'sleep', 'seconds': interval, 'nanoseconds': 0})
        fault('other_error', 'Other error: polling limit reached')

    def pairs_of_login(self):
        challenge = base64.urlsafe_b64encode(hashlib.sha256(self.params['verifier'].encode()).digest()).decode()
        redirect = self.params.get('redirect') or self.client.get('redirect')
        return ([('response_type', 'code'), ('client_id', self.client['id']), ('state', self.params['state']),
                 ('code_challenge', challenge.rstrip('=')), ('code_challenge_method', 'S256')]
                + [('redirect_uri', it) for it in [redirect] if it] + self.scope()
                + [('nonce', it) for it in [self.params.get('nonce')] if it])

    def authorize(self):
        url = self.endpoint('auth_url', 'authorization')
        pairs = self.pairs_of_login() + [tuple(it) for it in self.params.get('extra', [])]
        EVENTS.append({'event': 'url', 'url': url + '?' + urllib.parse.urlencode(pairs)})
        end(0, 'answer', answer=self.params['state'])

    def push(self):
        url = self.endpoint('auth_url', 'authorization')
        kinds = {'request_uri': str, 'expires_in': int}
        reply = self.exchange(self.endpoint('push_url', 'pushed authorization request'), self.pairs_of_login())
        answer = self.read(reply, kinds, 201)
        query = urllib.parse.urlencode({'client_id': self.client['id'], 'request_uri': answer['request_uri']})
        EVENTS.append({'event': 'url', 'url': url + '?' + query})
        end(0, 'answer', answer=answer)

    def bound(self, login):
        """A fault where the client or the place of the redirect is not that of the login."""
        if login['client_id'] != self.client['id']:
            fault('other_client', 'login is of another client')
        if login['token_url'] != self.client.get('token_url'):
            fault('other_token_endpoint', 'login is of another token endpoint')
        uri, called = (urllib.parse.urlsplit(it) for it in (login['redirect_uri'], self.params['redirect']))
        is_loopback = uri.scheme == 'http' and uri.hostname in ('127.0.0.1', '::1')
        pairs, sent = urllib.parse.parse_qsl(uri.query), urllib.parse.parse_qsl(called.query)
        if ((uri.scheme, uri.hostname, uri.path or '/') != (called.scheme, called.hostname, called.path or '/')
                or not is_loopback and uri.port != called.port or not all(it in sent for it in pairs)):
            fault('other_redirect_uri', 'redirect came to another URI')

    def redirect(self):
        if 'login' in self.params:
            self.bound(self.params['login'])
        query = urllib.parse.urlsplit(self.params['redirect']).query
        said = dict(reversed(urllib.parse.parse_qsl(query)))
        if said.get('state') != self.params['state'] or not said.get('state'):
            fault('refused_redirect', 'redirect has another state')
        needed, compared = self.params.get('issuer'), self.params.get('issuer_compared')
        if (needed or compared) and said.get('iss', compared) != (needed or compared):
            fault('refused_redirect', 'redirect has another issuer')
        if 'error' in said:
            about = ''.join(': ' + it for it in [said.get('error_description')] if it)
            where = ''.join(' (see %s)' % it for it in [said.get('error_uri')] if it)
            names = 'error', 'error_description', 'error_uri'
            fault('refused_redirect', said['error'] + about + where, error={it: said.get(it) for it in names})
        if 'code' not in said:
            fault('refused_redirect', 'redirect has no code')
        end(0, 'answer', answer=said['code'])

    def metadata(self):
        issuer = self.params['issuer']
        place = '/.well-known/' + self.params.get('well_known', 'oauth-authorization-server')
        at = urllib.parse.urlsplit(issuer)
        if not at.scheme:
            fault('bad_issuer', 'issuer is not a URL')
        path = at.path.rstrip('/')
        path = path + place if place.endswith('openid-configuration') else place + path
        reply = self.exchange('%s://%s%s' % (at.scheme, at.netloc, path), [], 'GET')
        if reply and reply[0] in (301, 302, 303, 307, 308):
            fault('refused_redirect', 'server redirects the request for metadata, with status %d' % reply[0])
        if reply and reply[0] != 200 and not (isinstance(reply[3], dict) and 'error' in reply[3]):
            fault('other_status', 'server answers the request for metadata with status %d' % reply[0])
        kinds = {'issuer': str, 'authorization_endpoint': str, 'token_endpoint': str, 'jwks_uri': str,
                 'device_authorization_endpoint': str, 'revocation_endpoint': str, 'introspection_endpoint': str,
                 'scopes_supported': list, 'authorization_response_iss_parameter_supported': bool}
        answer = self.read(reply, kinds)
        if answer.get('issuer') != issuer:
            fault('other_issuer', "metadata is another issuer's: %s" % answer.get('issuer'))
        end(0, 'answer', answer=answer)

    def id_token(self):
        parts = self.params['id_token'].split('.')
        if len(parts) != 3:
            fault('bad_token', 'not three parts')
        header, claims = (json.loads(base64.urlsafe_b64decode(it + '==')) for it in parts[:2])
        now, leeway, keys = self.readings[0], self.params.get('leeway', 0), self.params.get('keys')
        for holds, why in ((claims['iss'] == self.params['issuer'], 'the issuer is another one'),
                           (self.client['id'] == claims['aud'], 'the client is not in the audience'),
                           (now < claims['exp'] + leeway, 'the token has expired'),
                           (claims.get('nonce') == self.params.get('nonce'), 'the nonce is another one')):
            if not holds:
                fault('bad_claims', why)
        if keys is not None:
            if not [it for it in keys.get('keys', []) if it['kid'] == header.get('kid')]:
                fault('bad_signature', 'no key of the set is for the token')
            if parts[2] == 'AAAA':
                fault('bad_signature', 'the signature is wrong')
        known = ('iss', 'sub', 'aud', 'exp', 'iat', 'nonce', 'auth_time')
        found = {it: claims[it] for it in known if it in claims}
        end(0, 'answer', answer={'access_token_hash': 'absent', 'claims': {**found, 'aud': [claims['aud']]}})

    def access_token(self):
        parts = self.params['access_token'].split('.')
        if len(parts) != 3:
            fault('bad_token', 'not three parts')
        header, claims = (json.loads(base64.urlsafe_b64decode(it + '==')) for it in parts[:2])
        for holds, why in ((header['typ'] == 'at+jwt', 'the type is another one'),
                           (claims['iss'] == self.params['issuer'], 'the issuer is another one'),
                           (claims['aud'] == self.params['audience'], 'the audience is another one'),
                           (self.readings[0] < claims['exp'] + self.params['leeway'], 'the token has expired')):
            if not holds:
                fault('bad_access_token', why)
        if not [it for it in self.params['keys']['keys'] if it['kid'] == header['kid']]:
            fault('bad_access_token', 'no key of the set is for the token')
        names = ('iss', 'sub', 'exp', 'iat', 'client_id', 'scope', 'jti')
        end(0, 'answer', answer={'active': True, 'aud': [claims['aud']], **{it: claims[it] for it in names}})

    def understands(self, found):
        """Whether a keeper hands out a token of this type (RFC 6749, 7.1)."""
        types = self.params.get('token_types')
        return types is None or found.lower() in [it.lower() for it in types]

    def keeper(self):
        refresh, token, failed_at, last = self.params.get('refresh'), None, None, None
        url, wait = self.endpoint('token_url', 'token'), self.params.get('retry_after')
        for now in self.readings:
            if token and now + self.params['margin'] <= token[1] + token[2]:
                last = {'event': 'answer', 'answer': token[0]}
                EVENTS.append(last)
                continue
            if wait is not None and failed_at is not None:
                failed_at = min(failed_at, now)
                if now < failed_at + wait:
                    last = {'event': 'wait', 'until': failed_at + wait}
                    EVENTS.append(last)
                    continue
            if refresh:
                pairs = [('grant_type', 'refresh_token'), ('refresh_token', refresh)]
            else:
                pairs = [('grant_type', 'client_credentials')] + self.scope()
            reply = self.exchange(url, pairs)
            value = reply[3] if reply and reply[0] == 200 and 'access_token' in reply[3] else None
            if value is None:
                names = 'error', 'error_description', 'error_uri'
                said = reply and reply[3] and {it: reply[3].get(it) for it in names}
                kind = 'error_response' if said else 'unread_reply' if reply else 'request_failed'
                last = {'event': 'fault', 'kind': kind,
                        'text': 'Server returned error response: ' + said['error'] if said else 'Request failed',
                        'error': said, 'unread': None}
                failed_at = now
            elif not self.understands(value['token_type']):
                token, refresh, failed_at = None, value.get('refresh_token', refresh), now
                last = {'event': 'fault', 'kind': 'other_token_type', 'text': 'The server gave a token of another type',
                        'error': None, 'unread': None}
            else:
                token = value['access_token'], now, value.get('expires_in', self.params['life'])
                refresh = value.get('refresh_token', refresh)
                last = {'event': 'answer', 'answer': token[0]}
            EVENTS.append(last)
        last = EVENTS.pop()
        end(0 if all(it['event'] in ('answer', 'exchange') for it in [*EVENTS, last]) else 1, **last)


def main():
    try:
        script = json.loads(sys.stdin.buffer.read())
        json.dumps(script, ensure_ascii=False).encode()  # no half of a surrogate
    except ValueError:
        sys.stdout.write('bad script\n')
        sys.exit(2)
    stand = Stand(script)
    stand.check()
    getattr(stand, stand.command, stand.token)()


if __name__ == '__main__':
    main()
