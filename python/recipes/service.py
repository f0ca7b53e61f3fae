"""A service that calls another one: `/report` by a token of its own, and `/orders` for the user who calls it.

    TOKEN_URL=https://as.example/token CLIENT_ID=orders CLIENT_SECRET=bbb \
        AUDIENCE=https://stock.example/ API=https://stock.example/api python3 service.py 8001

It leaves to the other service whether the user may; what checks the token of a caller is resource_server.py. Whoever
reaches its port gets `/report`.
"""
import os
import sys
import urllib.request
import wsgiref.simple_server

from lifecrib import Client, ErrorResponse, Keeper, LifecribError

AUDIENCE, API = os.environ['AUDIENCE'], os.environ['API']
CLIENT = Client(os.environ['CLIENT_ID'], os.environ['CLIENT_SECRET'], token_url=os.environ['TOKEN_URL'])
OWN = Keeper(CLIENT, scopes=os.environ.get('SCOPES', ''), retry_after=5)


def report(_authorization):
    """Calls for itself: a token by client credentials (RFC 6749, 4.4), used until it ends."""
    return called(OWN.token())


def orders(authorization):
    """Calls for its caller: the token of the caller is exchanged for one of the other service (RFC 8693)."""
    kind, _, token = authorization.partition(' ')
    if kind.lower() != 'bearer' or not token:
        return '401 Unauthorized', b'a bearer token is needed'
    try:
        return called(CLIENT.exchange_token(token, audience=AUDIENCE))
    except ErrorResponse as error:
        if error.error in ('invalid_request', 'invalid_grant'):  # the caller's token (RFC 8693, 2.2.2)
            return '401 Unauthorized', b'this token is not taken'
        raise


def called(token):
    request = urllib.request.Request(API)
    request.add_unredirected_header('Authorization', token.headers['Authorization'])  # not to where the API sends on
    with urllib.request.urlopen(request, timeout=30) as reply:
        return '200 OK', reply.read()


ROUTES = {'/report': report, '/orders': orders}


def app(environ, start_response):
    route = ROUTES.get(environ['PATH_INFO'])
    try:
        status, body = route(environ.get('HTTP_AUTHORIZATION', '')) if route else ('404 Not Found', b'not here')
    except LifecribError as error:  # also while a keeper waits after a failure
        print(error, file=environ['wsgi.errors'])  # it may tell of this client, which is nothing for a caller
        status, body = '503 Service Unavailable', b'not now'
    start_response(status, [('Content-Type', 'text/plain')])
    return [body]


if __name__ == '__main__':
    with wsgiref.simple_server.make_server('127.0.0.1', int(sys.argv[1]), app) as server:
        print('http://127.0.0.1:%d' % server.server_port, flush=True)
        server.serve_forever()
