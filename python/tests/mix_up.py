"""Two authorization servers on this machine, one of which plays the mix-up attack (RFC 9700, 4.4).

The attacker's authorization endpoint sends the browser on to the honest server, with the client's id there. The user
agrees there, and the code of the honest server comes back with the state of a login at the attacker.
"""
import http.server
import json
import threading
import urllib.error
import urllib.parse
import urllib.request

TOKEN = {'access_token': 't1', 'token_type': 'Bearer', 'expires_in': 3600}
METADATA = '/.well-known/oauth-authorization-server'
CODE = 'code-of-honest'


def pairs(query):
    return dict(urllib.parse.parse_qsl(query))


class Handler(http.server.BaseHTTPRequestHandler):
    def do_GET(self):
        path, _, query = self.path.partition('?')
        if path == METADATA:
            self.send(200, {}, self.server.metadata())
        elif path == '/auth':
            found = self.server.place(pairs(query))
            self.send(302 if found else 400, {'Location': found} if found else {}, {})
        else:
            self.send(404, {}, {})

    def do_POST(self):
        body = self.rfile.read(int(self.headers['Content-Length'])).decode()
        self.server.codes.append(pairs(body)['code'])
        self.send(200, {}, TOKEN)

    def send(self, status, headers, body):
        text = json.dumps(body).encode()
        self.send_response(status)
        for name, value in {'Content-Type': 'application/json', 'Content-Length': str(len(text)), **headers}.items():
            self.send_header(name, value)
        self.end_headers()
        self.wfile.write(text)

    def log_message(self, *_):
        """Says nothing."""


class Server(http.server.ThreadingHTTPServer):
    """An authorization server. It notes each code that comes to its token endpoint."""

    block_on_close = False

    def __init__(self, names_itself):
        super().__init__(('127.0.0.1', 0), Handler)
        self.names_itself, self.codes = names_itself, []
        self.url = 'http://127.0.0.1:%d' % self.server_port

    def __enter__(self):
        threading.Thread(target=self.serve_forever, args=[0.02], daemon=True).start()
        return self

    def __exit__(self, *_):
        self.shutdown()
        self.server_close()

    def handle_error(self, *_):
        """Says nothing: a client may have gone."""

    def metadata(self):
        return {'issuer': self.url, 'authorization_endpoint': self.url + '/auth', 'token_endpoint': self.url + '/token',
                'response_types_supported': ['code'],
                'authorization_response_iss_parameter_supported': self.names_itself}


class Honest(Server):
    """It gives a code to its client at the client's redirect URI alone, or at any port of one on this machine."""

    def __init__(self, redirect, names_itself):
        super().__init__(names_itself)
        self.redirect = redirect

    def is_registered(self, redirect):
        known, asked = urllib.parse.urlsplit(self.redirect), urllib.parse.urlsplit(redirect)
        return redirect == self.redirect or (
            known.hostname == '127.0.0.1' and asked.hostname == '127.0.0.1'
            and (known.scheme, known.path, known.query) == (asked.scheme, asked.path, asked.query))

    def place(self, asked):
        """Where the browser is sent; None if the request is refused."""
        if asked['client_id'] != 'at-honest' or not self.is_registered(asked['redirect_uri']):
            return None
        said = {'code': CODE, 'state': asked['state'], **({'iss': self.url} if self.names_itself else {})}
        mark = '&' if '?' in asked['redirect_uri'] else '?'
        return asked['redirect_uri'] + mark + urllib.parse.urlencode(said)


class Attacker(Server):
    """It sends the browser on to the honest server, in the name of the client that is registered there."""

    def __init__(self, honest, names_itself):
        super().__init__(names_itself)
        self.honest = honest

    def place(self, asked):
        if not self.honest.is_registered(asked['redirect_uri']):
            asked['redirect_uri'] = self.honest.redirect
        return self.honest.url + '/auth?' + urllib.parse.urlencode({**asked, 'client_id': 'at-honest'})


class NoRedirect(urllib.request.HTTPRedirectHandler):
    def redirect_request(self, *_):
        return None


def browsed(url):
    """The URL of the application to which a browser comes that begins at this authorization URL."""
    opener = urllib.request.build_opener(NoRedirect, urllib.request.ProxyHandler({}))
    while urllib.parse.urlsplit(url).path == '/auth':
        try:
            opener.open(url, timeout=30)
        except urllib.error.HTTPError as reply:
            with reply:
                url = reply.headers['Location']
    return url
