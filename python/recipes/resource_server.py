"""A resource server: it serves a request only if the request's access token is good and has the scope `read`.

    ISSUER=https://as.example AUDIENCE=https://api.example/ python3 resource_server.py 8002
    INTROSPECTION_URL=https://as.example/introspect CLIENT_ID=api CLIENT_SECRET=bbb python3 resource_server.py 8002

The first checks JWT access tokens by the issuer's keys, and the second asks the server about each token. With AUDIENCE
the second, too, takes only tokens whose `aud` names it.
"""
import json
import os
import sys
import time
import wsgiref.simple_server

from lifecrib import (BadAccessToken, BadKeys, BadToken, Client, LifecribError, Request, UncheckedSignature,
                      UrllibTransport, check_access_token)

SCOPE = os.environ.get('SCOPE', 'read')
KEEP_KEYS, ASK_AGAIN, NEVER = 3600, 60, float('-inf')  # seconds


class ByIntrospection:
    """Asks the authorization server (RFC 7662)."""

    def __init__(self, url, client_id, secret, audience):
        self.client, self.audience = Client(client_id, secret, introspection_url=url), audience

    def __call__(self, token):
        found = self.client.introspect(token)
        if found.active and self.audience and self.audience not in found.aud:
            raise BadAccessToken('the token is for another API')
        return found


class ByKeys:
    """Checks a JWT by the issuer's keys (RFC 9068), which are kept. A token that is refused may have a newer key."""

    def __init__(self, issuer, audience):
        self.metadata = Client.discover(issuer, audience).metadata
        if not (self.metadata.jwks_uri or '').startswith('https:'):  # others could put in keys of theirs
            raise ValueError('the issuer names no https URL of its keys')
        self.audience, self.send, self.came_at, self.asked_at = audience, UrllibTransport(timeout=10), NEVER, NEVER
        self.ask_for_keys(0)

    def __call__(self, token):
        self.ask_for_keys(KEEP_KEYS)
        try:
            return self.check(token)
        except (BadAccessToken, BadKeys):
            self.ask_for_keys(0)
            return self.check(token)

    def ask_for_keys(self, age):
        """Asks for the keys, if those that are kept are older: once in a minute at most, also while none come."""
        now = time.monotonic()
        if now >= max(self.came_at + age, self.asked_at + ASK_AGAIN):
            self.asked_at = now
            reply = self.send(Request('GET', self.metadata.jwks_uri, (), b''))  # follows no redirect
            keys = json.loads(reply.body)
            if reply.status != 200 or 'keys' not in keys:
                raise OSError('no keys came')
            self.keys, self.came_at = keys, now

    def check(self, token):
        return check_access_token(token, issuer=self.metadata.issuer, audience=self.audience, keys=self.keys)


def checker():
    if 'INTROSPECTION_URL' in os.environ:
        needed = (os.environ[it] for it in ('INTROSPECTION_URL', 'CLIENT_ID', 'CLIENT_SECRET'))
        return ByIntrospection(*needed, os.environ.get('AUDIENCE'))
    return ByKeys(os.environ['ISSUER'], os.environ['AUDIENCE'])


def verdict(check, authorization):
    """The status of the reply, what WWW-Authenticate says (RFC 6750, 3), and what is known of the token."""
    kind, _, token = authorization.partition(' ')
    if kind.lower() != 'bearer' or not token:
        return '401 Unauthorized', 'Bearer', None
    try:
        found = check(token)
    except (BadToken, BadAccessToken, UncheckedSignature):
        return '401 Unauthorized', 'Bearer error="invalid_token"', None
    except (LifecribError, OSError, ValueError):  # the authorization server could not be asked
        return '503 Service Unavailable', None, None
    if not found.active:
        return '401 Unauthorized', 'Bearer error="invalid_token"', None
    if SCOPE not in found.scopes:
        return '403 Forbidden', 'Bearer error="insufficient_scope", scope="%s"' % SCOPE, None
    return '200 OK', None, found


def application(check):
    def app(environ, start_response):
        status, why, found = verdict(check, environ.get('HTTP_AUTHORIZATION', ''))
        challenge = [('WWW-Authenticate', why)] if why else []
        start_response(status, [('Content-Type', 'application/json'), *challenge])
        return [json.dumps({'sub': found.sub} if found else {}).encode()]
    return app


if __name__ == '__main__':
    with wsgiref.simple_server.make_server('127.0.0.1', int(sys.argv[1]), application(checker())) as server:
        print('http://127.0.0.1:%d' % server.server_port, flush=True)
        server.serve_forever()
