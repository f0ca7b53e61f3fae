"""A single-page application's back end: it signs users in, keeps their tokens, and calls an API for the page.

    ISSUER=https://as.example CLIENT_ID=aaa CLIENT_SECRET=bbb API=https://api.example/orders \
        BASE=https://app.example python3 web_backend.py 8000

BASE is where browsers reach it, through a server that speaks TLS; BASE/back is the registered redirect. Any WSGI
server can run `app`, in one process with threads: the sessions are in its memory.
"""
import collections
import functools
import json
import os
import secrets
import sys
import urllib.request
import wsgiref.simple_server
from typing import NamedTuple

from lifecrib import Client, Ended, ErrorResponse, Keeper, LifecribError, Login

BASE, API = os.environ['BASE'], os.environ['API']
SCOPES = ['openid', *os.environ.get('SCOPES', '').split()]
COOKIE = '__Host-session'
MOST_LOGINS = 10_000  # that have begun and not ended
LOGINS, SESSIONS = collections.OrderedDict(), {}
PAGE = b"""<!doctype html><title>Orders</title><a href="/login">Sign in</a><pre id="orders"></pre>
<script>fetch('/orders').then(it => it.text()).then(it => { orders.textContent = it })</script>"""


class Session(NamedTuple):
    user: str
    keeper: Keeper


@functools.lru_cache(maxsize=None)
def client():
    return Client.discover(os.environ['ISSUER'], os.environ['CLIENT_ID'], os.environ['CLIENT_SECRET'],
                           redirect=BASE + '/back')


def login(name, _query):
    """Sends the browser to the authorization server. The login is kept here, under the name in the cookie."""
    SESSIONS.pop(name, None)  # which the cookie names no more
    begun, name = client().login(scopes=SCOPES), secrets.token_urlsafe()
    LOGINS[name] = begun.to_json()
    if len(LOGINS) > MOST_LOGINS:
        LOGINS.popitem(last=False)  # the oldest
    return redirect(begun.url, name)


def back(name, query):
    """The browser comes back. A login is used once, and the session has a new name."""
    kept = LOGINS.pop(name, None)
    if kept is None:
        return answer('403 Forbidden', 'this browser has begun no login')
    token = Login.from_json(kept, client()).finish('%s/back?%s' % (BASE, query))
    name = secrets.token_urlsafe()
    SESSIONS[name] = Session(token.claims.sub, Keeper(client(), token))
    return redirect('/', name)


def orders(name, _query):
    """Calls the API for the page, by the user's token, which is renewed in time."""
    session = SESSIONS.get(name)
    if session is None:
        return answer('401 Unauthorized', 'sign in')
    try:
        header = session.keeper.token().headers['Authorization']
    except (Ended, ErrorResponse):  # the server has ended the login
        SESSIONS.pop(name, None)
        return answer('401 Unauthorized', 'sign in again')
    request = urllib.request.Request(API)
    request.add_unredirected_header('Authorization', header)  # not to where the API sends on
    with urllib.request.urlopen(request, timeout=30) as reply:
        return answer('200 OK', json.dumps({'user': session.user, 'orders': json.load(reply)}), 'application/json')


def logout(name, _query):
    """Ends the session, and revokes its refresh token if there is one."""
    session = SESSIONS.pop(name, None)
    if session and session.keeper.refresh_token:
        client().revoke(session.keeper.refresh_token, kind='refresh')
    return redirect('/', '')


def redirect(url, name):
    """Sends the browser on, with a cookie that no script can read and no other site's form sends."""
    cookie = '%s=%s; Path=/; Secure; HttpOnly; SameSite=Lax' % (COOKIE, name)
    return '303 See Other', [('Location', url), ('Set-Cookie', cookie)], b''


def answer(status, text, kind='text/plain'):
    return status, [('Content-Type', kind), ('Cache-Control', 'no-store')], text.encode()


ROUTES = {('GET', '/'): lambda *_: ('200 OK', [('Content-Type', 'text/html')], PAGE), ('GET', '/login'): login,
          ('GET', '/back'): back, ('GET', '/orders'): orders, ('POST', '/logout'): logout}


def app(environ, start_response):
    cookies = (it.strip().partition('=') for it in environ.get('HTTP_COOKIE', '').split(';'))  # also those of others
    name = next((value for cookie, _, value in cookies if cookie == COOKIE), '')
    route = ROUTES.get((environ['REQUEST_METHOD'], environ['PATH_INFO']))
    try:
        status, headers, body = (route(name, environ.get('QUERY_STRING', '')) if route
                                 else answer('404 Not Found', 'not here'))
    except LifecribError as error:  # whose text has no token and no secret
        status, headers, body = answer('502 Bad Gateway', str(error))
    start_response(status, headers)
    return [body]


class Handler(wsgiref.simple_server.WSGIRequestHandler):
    def log_message(self, *_):
        """Writes nothing: the path of a redirect has the code."""


if __name__ == '__main__':
    with wsgiref.simple_server.make_server('127.0.0.1', int(sys.argv[1]), app, handler_class=Handler) as server:
        print('http://127.0.0.1:%d' % server.server_port, flush=True)
        server.serve_forever()
