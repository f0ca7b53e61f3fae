"""A command-line tool: it signs its user in with a browser, keeps the token in a file, and calls an API.

    ISSUER=https://as.example CLIENT_ID=aaa API=https://api.example/me python3 command_line.py

The registered redirect is http://127.0.0.1/back: a server takes any port there (RFC 8252, 7.3). With one that does
not, set PORT.
"""
import fcntl
import http.server
import os
import sys
import time
import urllib.request
import webbrowser

from lifecrib import Client, ErrorResponse, RefusedRedirect, Token

FILE = os.environ.get('TOKEN_FILE') or os.path.expanduser('~/.command_line.token')
SCOPES = os.environ.get('SCOPES', '')
MOST_SECONDS = 600  # for which a user is awaited


class Back(http.server.BaseHTTPRequestHandler):
    """Receives the redirect of the browser."""

    timeout = 5  # seconds for what is sent; a browser may connect and say nothing

    def do_GET(self):
        if self.path.startswith('/back?'):
            self.server.url = self.path
        self.send_response(200)
        self.send_header('Content-Type', 'text/plain')
        self.end_headers()
        self.wfile.write(b'Back to the terminal.')

    def log_message(self, *_):
        """Writes nothing: the path has the code."""


def sign_in(client):
    """A token of the user, who signs in with a browser on this machine (RFC 8252)."""
    with http.server.HTTPServer(('127.0.0.1', int(os.environ.get('PORT', 0))), Back) as server:
        here, end = 'http://127.0.0.1:%d' % server.server_port, time.monotonic() + MOST_SECONDS
        login = client.login(scopes=SCOPES, redirect=here + '/back')
        print('If no browser opens, open', login.url, file=sys.stderr, flush=True)
        webbrowser.open(login.url)
        while time.monotonic() < end:
            server.url, server.timeout = None, end - time.monotonic()
            server.handle_request()
            if server.url is None:  # what came is no redirect, or nothing came
                continue
            try:
                return login.finish(here + server.url)
            except RefusedRedirect as error:
                if error.error:  # the user said no
                    raise
                print('Not the browser of this login:', error, file=sys.stderr)
    sys.exit('nobody signed in')


def load():
    """The token of the file, if there is one."""
    try:
        with open(FILE, encoding='utf-8') as f:
            return Token.from_json(f.read())
    except FileNotFoundError:
        return None


def save(token):
    """Puts the token into a new file, which nobody else can read, and that in the place of the old one."""
    with open(os.open(FILE + '.new', os.O_WRONLY | os.O_CREAT | os.O_TRUNC, 0o600), 'w', encoding='utf-8') as f:
        f.write(token.to_json())
    os.replace(FILE + '.new', FILE)


def good_token():
    """The kept token while it is good; else it is renewed, or the user signs in. One run does that at a time."""
    with open(FILE + '.lock', 'w') as lock:
        fcntl.flock(lock, fcntl.LOCK_EX)
        token = load()
        if token and not token.is_expired():
            return token
        client = Client.discover(os.environ['ISSUER'], os.environ['CLIENT_ID'], os.environ.get('CLIENT_SECRET'))
        try:
            token = client.refresh(token) if token and token.refresh_token else sign_in(client)
        except ErrorResponse as error:
            if error.error != 'invalid_grant':
                raise
            token = sign_in(client)
        save(token)
        return token


def main():
    request = urllib.request.Request(os.environ['API'])
    request.add_unredirected_header('Authorization', good_token().headers['Authorization'])
    with urllib.request.urlopen(request, timeout=30) as reply:
        print(reply.read().decode())


if __name__ == '__main__':
    main()
