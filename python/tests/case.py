"""What the tests share: a library, a transport that answers in order, and a server on this machine."""
import asyncio
import functools
import http.server
import json
import os
import ssl
import subprocess
import sys
import tempfile
import threading
import unittest

ROOM = tempfile.TemporaryDirectory()  # of keys, which take a while to make
HERE = os.path.dirname(os.path.abspath(__file__))
sys.path.insert(0, os.path.dirname(HERE))
IS_STAND_IN = not (os.environ.get('LIFECRIB_PROGRAM') or os.environ.get('LIFECRIB_LIBRARY'))
if IS_STAND_IN:
    os.environ['LIFECRIB_PROGRAM'] = os.path.join(HERE, 'stand_in.py')

import lifecrib  # noqa: E402, behind the setting of its library
from lifecrib import AsyncClient, Client, Reply  # noqa: E402

URLS = {name: 'https://as.example/' + name for name in (
    'auth_url', 'token_url', 'device_url', 'introspection_url', 'revocation_url', 'push_url')}
TOKEN = {'access_token': 't1', 'token_type': 'Bearer', 'expires_in': 3600, 'refresh_token': 'r1',
         'scope': 'read write'}
JSON = 'application/json'


class Server:
    """A transport that gives replies in order, each a status and a body or an exception, and keeps the requests."""

    def __init__(self, *replies):
        self.replies, self.requests = list(replies), []

    def __call__(self, request):
        self.requests.append(request)
        it = self.replies.pop(0)
        if isinstance(it, BaseException):
            raise it
        status, body, content_type = (*it, JSON)[:3]
        return Reply(status, content_type, body if isinstance(body, bytes) else json.dumps(body).encode())

    @property
    def bodies(self):
        return [it.body.decode() for it in self.requests]


def later(transport):
    """The same transport, async."""
    async def send(request):
        await asyncio.sleep(0)
        return transport(request)
    return send


def client(*replies, **settings):
    """A client with a secret and all endpoints, and the server that it asks."""
    server = Server(*replies)
    known = {**URLS, 'redirect': 'https://app.example/back', 'transport': server}
    return Client('aaa', 'bbb', **{**known, **settings}), server


def async_client(*replies, **settings):
    server = Server(*replies)
    return AsyncClient('aaa', 'bbb', **{**URLS, 'redirect': 'https://app.example/back', 'transport': later(server),
                                        **settings}), server


class Case(unittest.TestCase):
    def fails(self, kind, call, *args, **words):
        """The error of a call that has to fail with this kind."""
        with self.assertRaises(kind) as caught:
            call(*args, **words)
        self.assertIsInstance(caught.exception, lifecrib.LifecribError)
        return caught.exception


class Handler(http.server.BaseHTTPRequestHandler):
    """Answers as the server's function of the path says: a status, headers and a body."""

    protocol_version = 'HTTP/1.1'

    def do_POST(self):
        body = self.rfile.read(int(self.headers.get('Content-Length', 0)))
        self.server.seen.append((self.command, self.path, dict(self.headers), body))
        status, headers, body = self.server.answer(self.path)
        self.send_response(status)
        for name, value in {'Content-Type': JSON, 'Content-Length': str(len(body)), **headers}.items():
            self.send_header(name, value)
        self.end_headers()
        self.wfile.write(body)
        self.close_connection = 'Content-Length' in headers  # of a reply that is cut

    do_GET = do_POST

    def log_message(self, *_):
        pass


class Listener(http.server.ThreadingHTTPServer):
    block_on_close = False

    def handle_error(self, *_):  # of a client that has gone
        pass


class Local:
    """A server on this machine, with TLS by a certificate of its own if asked."""

    def __init__(self, answer, tls=False):
        self.server = Listener(('127.0.0.1', 0), Handler)
        self.server.answer, self.server.seen = answer, []
        self.url = '%s://localhost:%d' % ('https' if tls else 'http', self.server.server_address[1])
        if tls:
            self.certificate = certificate()
            context = ssl.SSLContext(ssl.PROTOCOL_TLS_SERVER)
            context.load_cert_chain(self.certificate)
            self.server.socket = context.wrap_socket(self.server.socket, server_side=True)
        self.thread = threading.Thread(target=self.server.serve_forever, args=[0.02], daemon=True)

    @property
    def seen(self):
        return self.server.seen

    def __enter__(self):
        self.thread.start()
        return self

    def __exit__(self, *_):
        self.server.shutdown()
        self.server.server_close()
        self.thread.join()


@functools.lru_cache(maxsize=None)
def certificate():
    """A certificate for localhost with its key, in one file."""
    path = os.path.join(ROOM.name, 'both.pem')
    words = ['openssl', 'req', '-x509', '-newkey', 'rsa:2048', '-nodes', '-days', '2', '-subj', '/CN=localhost',
             '-addext', 'subjectAltName=DNS:localhost', '-keyout', path, '-out', path + '.crt']
    subprocess.run(words, check=True, capture_output=True)
    with open(path, 'a') as f, open(path + '.crt') as crt:
        f.write(crt.read())
    return path
