"""How `login --listen` receives the redirect: a server on this machine (RFC 8252, 7.3)."""
from __future__ import annotations

import errno
import http.server
import os
import queue
import socket
import socketserver
import subprocess
import sys
import threading
import time
import urllib.parse
from typing import Any, Callable

from .endings import BAD_SETTING, Stop, tell
from .settings import LOOPBACK

ADDRESSES = {'localhost': ('127.0.0.1', '::1'), '127.0.0.1': ('127.0.0.1',), '::1': ('::1',)}
NO_FAMILY = (errno.EAFNOSUPPORT, errno.EPROTONOSUPPORT, errno.EADDRNOTAVAIL)  # where a machine has no IPv6
PAGE = b'''<!doctype html><meta charset="utf-8"><title>Back to the terminal</title>
<p>The answer of the sign-in has arrived. The terminal says whether it was taken. This page can be closed.
'''
OTHER_PAGE = b'''<!doctype html><meta charset="utf-8"><title>Another sign-in</title>
<p>This is not the answer of the sign-in for which the terminal waits. It was not taken, and
the terminal goes on waiting.
'''
HEADERS = {'Content-Type': 'text/html; charset=utf-8', 'Cache-Control': 'no-store', 'Referrer-Policy': 'no-referrer',
           'Content-Security-Policy': "default-src 'none'", 'Connection': 'close'}


class Visit:
    """A request for the path of the redirect. Once it is judged, .is_ours says whether it is of the login that
    waits."""

    def __init__(self, path: str) -> None:
        self.path, self.is_ours, self.judged, self.answered = path, False, threading.Event(), threading.Event()


class Handler(http.server.BaseHTTPRequestHandler):
    """Answers the path of the redirect by a page, and any other by 404."""
    timeout = 30
    server_version, sys_version = 'oauth2', ''
    server: Server

    def do_GET(self) -> None:
        if self.path.partition('?')[0] != self.server.path:
            self.answer(404, b'')
            return
        visit = Visit(self.path)
        self.server.found.put(visit)
        visit.judged.wait(self.timeout)
        try:
            self.answer(*((200, PAGE) if visit.is_ours else (400, OTHER_PAGE)))
        finally:
            visit.answered.set()

    def answer(self, status: int, page: bytes) -> None:
        self.send_response(status)
        for name, value in {**HEADERS, 'Content-Length': str(len(page))}.items():
            self.send_header(name, value)
        self.end_headers()
        self.wfile.write(page)
        self.wfile.flush()

    def log_message(self, *_: Any) -> None:
        """Says nothing: the request has the code."""


class Server(http.server.ThreadingHTTPServer):
    block_on_close = False

    def __init__(self, address: str, port: int, path: str, found: queue.Queue[Visit]) -> None:
        self.address_family = socket.AF_INET6 if ':' in address else socket.AF_INET
        self.path, self.found = path, found
        super().__init__((address, port), Handler)

    def server_bind(self) -> None:
        socketserver.TCPServer.server_bind(self)  # without asking for the name of this machine

    def handle_error(self, *_: Any) -> None:
        """Says nothing: a browser may end a connection as it likes."""


def servers_at(addresses: tuple[str, ...], port: int, path: str, found: queue.Queue[Visit]) -> list[Server]:
    """A server at each address, all at one port. Stops where one of them can't be had: a browser may go to any of the
    addresses, so another program at one of them would get the code."""
    servers: list[Server] = []
    for address in addresses:
        at = servers[0].server_address[1] if servers else port
        try:
            servers.append(Server(address, at, path, found))
        except OSError as error:
            if servers and error.errno in NO_FAMILY:
                continue
            for it in servers:
                it.server_close()
            then = '--listen 0 takes a free one' if port else 'run it again, and it takes another one'
            raise Stop('%s can not be listened at, port %d: %s; %s' % (address, at, error.strerror, then))
    return servers


class Listener:
    """Waits on this machine for a redirect; .redirect is the URL that the authorization server is given."""

    def __init__(self, redirect: str, port: int) -> None:
        url = urllib.parse.urlsplit(redirect)
        if url.scheme != 'http' or url.hostname not in LOOPBACK or url.fragment or '@' in url.netloc:
            raise Stop('--listen waits on this machine, so the redirect has to be as http://127.0.0.1/path, and not %s'
                       % redirect,
                       BAD_SETTING)
        self.found: queue.Queue[Visit] = queue.Queue()
        path = url.path or '/'
        self.servers = servers_at(ADDRESSES[url.hostname], port, path, self.found)
        port = self.servers[0].server_address[1]
        host = '[::1]' if url.hostname == '::1' else url.hostname
        self.base = 'http://%s:%d' % (host, port)
        self.redirect: str = self.base + path + ('?' + url.query if url.query else '')
        for it in self.servers:
            threading.Thread(target=it.serve_forever, kwargs={'poll_interval': 0.05}, daemon=True).start()

    def received(self, seconds: float, is_ours: Callable[[str], bool]) -> str:
        """The whole URL to which the browser was sent, once one comes that is_ours takes."""
        end = time.monotonic() + seconds
        try:
            while True:
                visit = self.found.get(timeout=max(0, end - time.monotonic()))
                url = self.url_of(visit.path)
                try:
                    visit.is_ours = is_ours(url)
                finally:
                    visit.judged.set()
                if visit.is_ours:
                    visit.answered.wait(Handler.timeout)
                    return url
                tell('a redirect came that has not the state of this login, so it was not taken; waiting on')
        except queue.Empty:
            raise Stop('no browser was sent to %s within %g seconds (--wait)' % (self.redirect, seconds))
        finally:
            self.close()

    def url_of(self, path: str) -> str:
        # the request's line is read byte by byte, so that each letter past ASCII is a byte of the URL
        return self.base + urllib.parse.quote(path, safe=''.join(map(chr, range(0x21, 0x7f))), encoding='latin-1')

    def close(self) -> None:
        for it in self.servers:
            it.shutdown()
            it.server_close()


# Opens a URL; the status is 1 where no browser does.
OPEN = 'import sys, webbrowser; sys.exit(not webbrowser.open(sys.argv[1]))'


def open_browser(url: str) -> None:
    """Opens a URL in a browser, where the environment has one, and tells where that fails. What that writes is not
    shown."""
    if url.startswith(('https://', 'http://')) and any(os.environ.get(it)
                                                       for it in ('BROWSER', 'DISPLAY', 'WAYLAND_DISPLAY')):
        # No secret goes to the browser. -I, or else a webbrowser.py of the working directory would run.
        env = {name: value for name, value in os.environ.items() if not name.startswith('OAUTH2_')}
        run = subprocess.Popen([sys.executable, '-I', '-c', OPEN, url], env=env, start_new_session=True,
                               stdin=subprocess.DEVNULL, stdout=subprocess.DEVNULL, stderr=subprocess.DEVNULL)

        def watch() -> None:
            if run.wait():
                tell('the browser did not start, or ended with an error: open the address yourself')
        threading.Thread(target=watch, daemon=True).start()
