"""How a request is sent, and what of the reply is handed to the library."""
from __future__ import annotations

import base64
import contextlib
import http.client
import socket
import ssl
import time
import urllib.parse
import urllib.request
from typing import Any, Mapping, NamedTuple, Optional

from lifecrib import Request

from . import tls, wire_log
from .addresses import shown
from .renewal import Renewal
from .settings import LOOPBACK
from .time_limits import in_time

MOST_BYTES = 1 << 20  # of a reply's body
PORTS = {'http': 80, 'https': 443}  # where a URL has none
RETRIED = (429, *range(500, 600))  # the HTTP statuses of a server that another try may find better
LONGEST_DATE = 40  # characters of a Retry-After that are shown
FAILED: Mapping[str, Any] = {'fail': True}  # a request without a reply, as a script has it
NOT_TAKEN = "the server does not take the client's certificate (--client-cert)"
# What a server says about the client's certificate, by the names of OpenSSL for the alerts of TLS (RFC 8446, 6.2).
NO_CERTIFICATE = {'TLSV13_ALERT_CERTIFICATE_REQUIRED':
                  "the server asks for the client's certificate: give --client-cert",
                  **dict.fromkeys(('TLSV1_ALERT_UNKNOWN_CA', 'SSLV3_ALERT_BAD_CERTIFICATE',
                                   'SSLV3_ALERT_CERTIFICATE_UNKNOWN',
                                   'SSLV3_ALERT_CERTIFICATE_EXPIRED', 'SSLV3_ALERT_UNSUPPORTED_CERTIFICATE'),
                                  NOT_TAKEN)}
Connection = http.client.HTTPConnection


class Unanswered(Exception):
    """Why a request has no reply that a script can hold; and whether another try may have one."""

    def __init__(self, why: str, may_retry: bool = False) -> None:
        super().__init__(why)
        self.may_retry = may_retry


class Reply(NamedTuple):
    """What the script says of a request, its reply or that it failed; what the user should know of that; whether
    another try may have another result, as where the network was at fault; and when, by the server's Retry-After."""

    reply: Optional[Mapping[str, Any]]
    note: Optional[str] = None
    may_retry: bool = False
    later: Optional[str] = None


def get(url: str, authorization: Optional[str] = None) -> Request:
    """A request of this command itself, which no script shows."""
    headers = [('accept', 'application/json')]
    if authorization:
        headers.append(('authorization', authorization))
    return Request('GET', url, tuple(headers), b'')


def reply_to(request: Request, limit: float, renewal: Optional[Renewal] = None) -> Reply:
    """The Reply to a request that is sent now. limit is how many seconds it may take; renewal is told of one that has a
    refresh token."""
    try:
        return sent(request, limit, renewal)
    except (TimeoutError, socket.timeout):
        why, may_retry = out_of_time(renewal.limit if renewal and renewal.limit else limit), True
    except ssl.SSLError as error:
        why, may_retry = why_no_tls(error), False
    except (OSError, http.client.HTTPException) as error:
        why, may_retry = why_of(error), True
    except (ValueError, Unanswered) as error:
        why, may_retry = why_of(error), getattr(error, 'may_retry', False)
    return Reply(FAILED, '%s %s: %s' % (request.method, request.url, why), may_retry)


def why_of(error: Exception) -> str:
    return getattr(error, 'strerror', None) or str(error) or type(error).__name__


def why_no_tls(error: ssl.SSLError) -> str:
    if isinstance(error, ssl.SSLCertVerificationError):
        others = 'those of --cacert are' if tls.cacert else '--cacert names others'
        return ("the server's certificate is not one that is trusted here (%s): %s"
                % (others, error.verify_message))
    if error.reason in NO_CERTIFICATE:
        return NO_CERTIFICATE[error.reason]
    if isinstance(error, ssl.SSLEOFError):
        return ('the server has closed the connection; it may want a certificate of the client, or another one '
                '(--client-cert)')
    if error.reason in ('WRONG_VERSION_NUMBER', 'HTTP_REQUEST', 'RECORD_LAYER_FAILURE'):
        return 'the server speaks no TLS at this port, so it is not one for https'
    return 'no TLS connection: %s' % (error.reason or why_of(error)).replace('_', ' ').lower()


def out_of_time(limit: float) -> str:
    return 'no whole reply within %g seconds (--timeout)' % limit


def connection_to(target: urllib.parse.SplitResult, limit: float) -> Connection:
    """A connection to the server of a URL, as the standard library reads the environment: direct, or by the proxy for
    it."""
    # The port is always given: without one http.client looks for it in the name, as behind the last ":" of ::1.
    hostname, port = target.hostname or '', target.port or PORTS.get(target.scheme)
    if target.scheme == 'http' and hostname in LOOPBACK:
        return connected(http.client.HTTPConnection(hostname, port, timeout=limit))
    if target.scheme != 'https':
        raise Unanswered('not sent, since it would not be encrypted: give an https URL')
    context, host = tls.context(), target.netloc.rpartition('@')[2]
    proxy = urllib.request.getproxies().get('https')
    if not proxy or urllib.request.proxy_bypass(host):
        return connected(http.client.HTTPSConnection(hostname, port, timeout=limit, context=context))
    by, at = proxy_at(proxy if '://' in proxy else 'http://' + proxy)
    connection, headers = http.client.HTTPSConnection(by.hostname or '', at, timeout=limit, context=context), {}
    if by.username is not None:
        login = urllib.parse.unquote_to_bytes(by.username) + b':' + urllib.parse.unquote_to_bytes(by.password or '')
        headers['Proxy-Authorization'] = 'Basic ' + base64.b64encode(login).decode()
    connection.set_tunnel(hostname, port, headers)
    return connected(connection, 'the proxy %s:%d (HTTPS_PROXY): ' % (by.hostname, at))


def proxy_at(text: str) -> tuple[urllib.parse.SplitResult, int]:
    """The parts of a proxy's URL, and its port. What is wrong with one is not shown, since it may have a password."""
    try:
        by = urllib.parse.urlsplit(text)
        port = by.port or 80
        is_it = by.scheme == 'http' and bool(by.hostname)
    except ValueError:
        is_it = False
    if not is_it:
        raise Unanswered('HTTPS_PROXY is no URL of a proxy that this tool can use: it has to be http://HOST:PORT')
    return by, port


def connected(connection: Connection, proxy: str = '') -> Connection:
    """The connection, opened. A fault is the server's, or that of the proxy that is named."""
    try:
        connection.connect()
        return connection
    except (TimeoutError, socket.timeout, ssl.SSLError, Unanswered):
        raise
    except OSError as error:
        raise Unanswered(proxy + why_of(error), may_retry=True)


def sent(request: Request, limit: float, renewal: Optional[Renewal]) -> Reply:
    """A reply, which has to be there in so many seconds: the look-up of the server's name and the connection are in
    them."""
    target, begun = urllib.parse.urlsplit(request.url), time.monotonic()
    connection = in_time(lambda: connection_to(target, limit), limit)
    lent: socket.socket = connection.sock  # which the connection lets go once there is a reply
    wire_log.connected(target.netloc, lent.version() if isinstance(lent, ssl.SSLSocket) else None)
    left = begun + limit - time.monotonic()
    if renewal:
        left = renewal.sending(limit)
        lent.settimeout(left)
    try:
        return in_time(lambda: exchanged(connection, request, renewal), left)
    except TimeoutError:
        with contextlib.suppress(OSError):
            socket.socket.shutdown(lent, socket.SHUT_RDWR)  # so that the other thread ends
        raise


def headers_of(request: Request) -> dict[str, str]:
    """The headers of a request, and that the connection ends with its reply."""
    found = {'-'.join(it.capitalize() for it in name.split('-')): value for name, value in request.headers}
    accept = {name: found.pop(name) for name in ('Accept',) if name in found}
    return {**accept, 'Connection': 'close', **found}


def exchanged(connection: Connection, request: Request, renewal: Optional[Renewal]) -> Reply:
    """What comes of a request over a connection, which is closed then."""
    headers, body = headers_of(request), request.body if request.method == 'POST' else None
    where = '/' + ''.join(request.url.partition('#')[0].split('/', 3)[3:])
    with contextlib.closing(connection):
        wire_log.sending(request.method, request.url, headers, body)
        send(connection, request.method, where, body, headers)
        reply = connection.getresponse()
        got, error = body_of(reply)
        if renewal:  # first, since standard error may take nothing for as long as it likes
            renewal.received(reply.status, got)
        wire_log.received(reply.status, reply.reason, reply.getheaders(), got)
        if error:
            raise error
        return in_script(request.method, reply.status, reply.headers, got)


def send(connection: Connection, method: str, where: str, body: Optional[bytes], headers: Mapping[str, str]) -> None:
    """Sends a request. Where the server has closed the connection, what it has said before is the error."""
    try:
        connection.request(method, where, body, headers)
    except (ConnectionError, ssl.SSLEOFError):
        with contextlib.suppress(ConnectionError, ssl.SSLEOFError):
            connection.sock.recv(1)
        raise


def body_of(reply: http.client.HTTPResponse) -> tuple[bytes, Optional[Unanswered]]:
    """The bytes of a reply's body, up to one more than it may have; and why there are no more, if it is cut off."""
    cut = Unanswered('the reply is cut off', may_retry=True)
    try:
        got = reply.read(MOST_BYTES + 1)
    except http.client.IncompleteRead as error:
        return error.partial, cut
    # .length is how many bytes of its Content-Length are missing
    return got, cut if reply.length and len(got) <= MOST_BYTES else None


def in_script(method: str, status: int, headers: http.client.HTTPMessage, body: bytes) -> Reply:
    """A reply as a script holds it, and what the user should know of it."""
    content_type, location = headers.get('Content-Type'), headers.get('Location')
    if len(body) > MOST_BYTES:
        raise Unanswered('the reply has more than %d bytes' % MOST_BYTES)
    if content_type and any(it < ' ' and it != '\t' or it == '\x7f' for it in content_type):
        raise Unanswered('the reply has a Content-Type with control characters')
    try:
        reply = {'status': status, 'body': body.decode('utf-8')}
    except ValueError:
        raise Unanswered('the reply has HTTP status %d and a body that is not UTF-8' % status)
    if content_type is not None:
        reply['content_type'] = content_type
    later = headers.get('Retry-After') if status in RETRIED else None
    return Reply(reply, elsewhere(method, status, location), status in RETRIED, later)


def status_text(status: int, later: Optional[str]) -> str:
    """What is said of a reply's status, and of its Retry-After (RFC 9110, 10.2.3), as far as one is long."""
    return 'HTTP status %d%s' % (status, '; Retry-After: ' + later[:LONGEST_DATE] if later else '')


def elsewhere(method: str, status: int, location: Optional[str]) -> Optional[str]:
    """That a reply is a redirect; None where it is none."""
    if not 300 <= status < 400:
        return None
    to = ' to ' + shown(location.partition('?')[0]) if location else ''
    return ('the server sends elsewhere%s (HTTP status %d), which is not followed: give the URL of the %s itself'
            % (to, status, 'endpoint' if method == 'POST' else 'issuer'))
