"""The authorization server of `demo`: a small one on this machine, for one client. It approves each user at once, so it
is for nothing but that."""
from __future__ import annotations

import base64
import hashlib
import http.server
import threading
import urllib.parse
from typing import Any, Mapping, Optional

from .answers import text_of

CLIENT, SECRET, USER_CODE = 'aaa', 'bbb', 'WDJB-MJHT'
BASIC = 'Basic ' + base64.b64encode(('%s:%s' % (CLIENT, SECRET)).encode()).decode()
LIFE, INTERVAL = 3600, 1  # seconds of a token, and between the polls of a device
DEVICE_GRANT = 'urn:ietf:params:oauth:grant-type:device_code'  # RFC 8628, 3.4
MOST_POLLS = 2  # of a device before the user has approved it
PAGE = b'<!doctype html><title>Demo</title>\n'
Form = Mapping[str, str]


class Refused(Exception):
    """A request that has an error response with this code (RFC 6749, 5.2; RFC 8628, 3.5)."""


class Server(http.server.ThreadingHTTPServer):
    """Hands out tokens in order: demo-token-1, demo-token-2, .. A code, a device code and a refresh token are good
    once."""

    daemon_threads = True

    def __init__(self) -> None:
        super().__init__(('127.0.0.1', 0), Handler)
        self.url = 'http://127.0.0.1:%d' % self.server_port
        self.tokens, self.logins, self.polls = 0, 0, 0
        self.codes: dict[str, Form] = {}  # the authorization request of each code that is good
        self.refresh_tokens: set[str] = set()
        self.turn = threading.Lock()  # so that one request is answered after the other
        threading.Thread(target=self.serve_forever, kwargs={'poll_interval': 0.05}, daemon=True).start()

    def token(self, has_refresh: bool) -> dict[str, Any]:
        """A new token, for a user with a refresh token (RFC 6749, 5.1)."""
        self.tokens += 1
        found: dict[str, Any] = {'access_token': 'demo-token-%d' % self.tokens, 'token_type': 'Bearer',
                                 'expires_in': LIFE}
        if has_refresh:
            found['refresh_token'] = 'demo-refresh-%d' % self.tokens
            self.refresh_tokens.add(found['refresh_token'])
        return found

    def code(self, asked: Form) -> str:
        """The URL to which the browser is sent back, with a code (RFC 6749, 4.1.2)."""
        self.logins += 1
        code = 'demo-code-%d' % self.logins
        self.codes[code] = asked
        return '%s?%s' % (asked['redirect_uri'], urllib.parse.urlencode({'code': code, 'state': asked['state']}))

    def granted(self, form: Form) -> dict[str, Any]:
        """The token of a request. Refused where it has none."""
        grant = form.get('grant_type')
        if grant == 'client_credentials':
            return self.token(has_refresh=False)
        if grant == 'authorization_code':
            return self.of_code(self.codes.pop(form.get('code', ''), None), form)
        if grant == 'refresh_token':
            if form.get('refresh_token') not in self.refresh_tokens:
                raise Refused('invalid_grant')
            self.refresh_tokens.remove(form['refresh_token'])
            return self.token(has_refresh=True)
        if grant == DEVICE_GRANT:
            self.polls += 1
            if self.polls <= MOST_POLLS:
                raise Refused('authorization_pending')
            return self.token(has_refresh=True)
        raise Refused('unsupported_grant_type')

    def of_code(self, asked: Optional[Form], form: Form) -> dict[str, Any]:
        """The token of a code, if its redirect URI and its verifier fit the request (RFC 7636, 4.6)."""
        if not asked or asked['redirect_uri'] != form.get('redirect_uri'):
            raise Refused('invalid_grant')
        digest = hashlib.sha256(form.get('code_verifier', '').encode()).digest()
        if base64.urlsafe_b64encode(digest).decode().rstrip('=') != asked.get('code_challenge'):
            raise Refused('invalid_grant')
        return self.token(has_refresh=True)

    def device(self) -> dict[str, Any]:
        """The codes of a device (RFC 8628, 3.2)."""
        self.polls = 0
        return {'device_code': 'demo-device', 'user_code': USER_CODE, 'verification_uri': self.url + '/activate',
                'expires_in': LIFE, 'interval': INTERVAL}


class Handler(http.server.BaseHTTPRequestHandler):
    server: Server
    server_version, sys_version = 'lifecrib-demo', ''

    def do_GET(self) -> None:
        """The authorization endpoint, whose user approves at once."""
        url = urllib.parse.urlsplit(self.path)
        asked = dict(urllib.parse.parse_qsl(url.query))
        is_request = url.path == '/authorize' and asked.get('client_id') == CLIENT
        if not is_request or not {'redirect_uri', 'state', 'code_challenge'} <= asked.keys():
            self.answer(400, PAGE, {'Content-Type': 'text/html'})
            return
        with self.server.turn:
            self.answer(302, b'', {'Location': self.server.code(asked)})

    def do_POST(self) -> None:
        """The token endpoint, and that of devices."""
        body = self.rfile.read(int(self.headers.get('Content-Length') or 0)).decode()
        form = dict(urllib.parse.parse_qsl(body))
        try:
            if self.headers.get('Authorization') != BASIC:
                raise Refused('invalid_client')
            with self.server.turn:
                found = self.server.device() if self.path == '/device' else self.server.granted(form)
            self.answer_json(200, found)
        except Refused as refused:
            self.answer_json(401 if str(refused) == 'invalid_client' else 400, {'error': str(refused)})

    def answer_json(self, status: int, found: Mapping[str, Any]) -> None:
        self.answer(status, text_of(found).encode(), {'Content-Type': 'application/json', 'Cache-Control': 'no-store'})

    def answer(self, status: int, body: bytes, headers: Mapping[str, str]) -> None:
        self.send_response(status)
        for name, value in {**headers, 'Content-Length': str(len(body))}.items():
            self.send_header(name, value)
        self.end_headers()
        self.wfile.write(body)

    def log_message(self, *_: Any) -> None:
        """Says nothing: the command shows its requests."""
