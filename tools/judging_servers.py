"""Real servers of HTTP/1.1 on this machine, with what they have to reply, and the connections to them; for tools/compare-connections.

nginx, Apache and HAProxy pass a part of their paths on to a server of Go's net/http, which is judged itself too.
"""
import collections
import contextlib
import os
import re
import select
import shutil
import socket
import subprocess
import tempfile
import time

import other_clients
from kept_client import Request
from made_connections import Connection

MOST = 7  # so many requests nginx and Apache take on one connection
SECONDS = 10  # for a server to start, and to reply
FILES = {'a.txt': b'a', 'empty.txt': b'', 'big.txt': b'0123456789' * 3000, 'page.shtml': b'<!--#echo var="NONE" -->of chunks'}
AGENT = b'judged/1.0'
# What a path gives: the status of the reply to a GET, and its body, None where it is not told here.
Page = collections.namedtuple('Page', 'target status body')
CUT = None  # the status where the connection ends within the reply, or before it
PASSED_ON = [Page('/bytes/%d' % it, 200, b'x' * it) for it in (0, 1, 4095, 4096, 4097, 20000)] + [
    Page('/chunked/%d' % it, 200, b'y' * it) for it in (0, 1, 6, 7, 100, 1500)] + [
    Page('/status/%d' % it, it, b'' if it in (204, 304) else b'status %d' % it) for it in (
        200, 201, 204, 301, 302, 304, 307, 400, 401, 403, 404, 418, 429, 500, 503)] + [
    Page('/closing', 200, b'closing')]
HINTS = [Page('/hints', 200, b'hinted')]  # nginx waits for another reply of the server behind it
ODD = [Page('/cut', CUT, None), Page('/gone', 200, b'gone'), Page('/old', 200, b'old'), Page('/silent', CUT, None)]
OWN = [Page('/here/redirect', 302, None), Page('/here/none', 204, b''), Page('/here/error', 403, None)]
STATIC = [Page('/' + name, 200, body) for name, body in FILES.items() if name != 'page.shtml'] + [Page('/missing', 404, None)]
SSI = [Page('/page.shtml', 200, None)]

NGINX = '''
daemon off; master_process off; pid %(folder)s/nginx.pid; error_log %(folder)s/nginx.log;
events {}
http {
  access_log off; types { text/plain txt; text/html shtml; }
  client_body_temp_path %(folder)s/1; proxy_temp_path %(folder)s/2; fastcgi_temp_path %(folder)s/3; uwsgi_temp_path %(folder)s/4;
  scgi_temp_path %(folder)s/5;
  server {
    listen 127.0.0.1:%(port)d; root %(folder)s/pages; keepalive_requests %(most)d; keepalive_timeout 60s;
    location ~ ^/(echo|bytes|chunked|status|hints|closing|cut|gone|old|silent) {
      proxy_pass http://127.0.0.1:%(behind)d; proxy_http_version 1.1; proxy_set_header Connection "";
    }
    location = /page.shtml { ssi on; ssi_silent_errors on; }
    location = /here/redirect { return 302 /a.txt; }
    location = /here/none { return 204; }
    location = /here/error { return 403; }
  }
}
'''
APACHE = '''
ServerRoot /etc/apache2
ServerName localhost
Listen 127.0.0.1:%(port)d
PidFile %(folder)s/apache.pid
ErrorLog %(folder)s/apache.log
LoadModule mpm_event_module /usr/lib/apache2/modules/mod_mpm_event.so
LoadModule authz_core_module /usr/lib/apache2/modules/mod_authz_core.so
LoadModule mime_module /usr/lib/apache2/modules/mod_mime.so
LoadModule alias_module /usr/lib/apache2/modules/mod_alias.so
LoadModule rewrite_module /usr/lib/apache2/modules/mod_rewrite.so
LoadModule include_module /usr/lib/apache2/modules/mod_include.so
LoadModule proxy_module /usr/lib/apache2/modules/mod_proxy.so
LoadModule proxy_http_module /usr/lib/apache2/modules/mod_proxy_http.so
User www-data
Group www-data
TypesConfig /dev/null
AddType text/plain .txt
AddType text/html .shtml
AddOutputFilter INCLUDES .shtml
DocumentRoot %(folder)s/pages
KeepAlive On
MaxKeepAliveRequests %(most)d
KeepAliveTimeout 60
<Directory %(folder)s/pages>
  Options +Includes
</Directory>
Redirect 302 /here/redirect /a.txt
RewriteEngine On
RewriteRule ^/here/none$ - [R=204,L]
RewriteRule ^/here/error$ - [F]
ProxyPassMatch ^(/(echo|bytes|chunked|status|hints|closing|cut|gone|old|silent).*)$ http://127.0.0.1:%(behind)d$1
'''
HAPROXY = '''
defaults
  mode http
  timeout client 60s
  timeout server 60s
  timeout connect 20s
  timeout http-keep-alive 60s
frontend judged
  bind 127.0.0.1:%(port)d
  http-request redirect location /a.txt code 302 if { path /here/redirect }
  http-request return status 204 if { path /here/none }
  http-request deny deny_status 403 if { path /here/error }
  http-after-response set-header Connection close if { status 429 }
  default_backend behind
backend behind
  server one 127.0.0.1:%(behind)d
'''


class Server(collections.namedtuple('Server', 'name program version text pages')):
    """A server that may be installed: its program, the words that ask for its version, its settings, and its pages."""

    def command(self, folder):
        path = os.path.join(folder, self.name + '.conf')
        return {'nginx': ['nginx', '-p', folder, '-c', path], 'Apache': ['apache2', '-X', '-f', path],
                'HAProxy': ['haproxy', '-db', '-f', path]}[self.name]

    def version_here(self):
        told = subprocess.run([self.program, self.version], stdout=subprocess.PIPE, stderr=subprocess.STDOUT, text=True).stdout
        return re.search(r'[0-9]+(?:\.[0-9]+)+', told).group()


SERVERS = [Server('nginx', 'nginx', '-v', NGINX, PASSED_ON + ODD[:1] + OWN + STATIC + SSI),
           Server('Apache', 'apache2', '-v', APACHE, PASSED_ON + HINTS + OWN + STATIC + SSI),
           Server('HAProxy', 'haproxy', '-v', HAPROXY, PASSED_ON + HINTS + ODD[:1] + OWN)]
GO = Server('net/http', 'go', 'version', None, PASSED_ON + HINTS + ODD)


def free_port():
    with socket.create_server(('127.0.0.1', 0)) as it:
        return it.getsockname()[1]


def wait_for(port, run):
    """Waits until a server takes connections."""
    end = time.monotonic() + SECONDS
    while True:
        try:
            socket.create_connection(('127.0.0.1', port), 1).close()
            return
        except OSError:
            if time.monotonic() > end or run.poll() is not None:
                raise RuntimeError('%s does not start' % run.args[0])
            time.sleep(0.05)


@contextlib.contextmanager
def running(command, port, **streams):
    """A server while it runs."""
    with subprocess.Popen(command, stdout=subprocess.DEVNULL, stderr=subprocess.DEVNULL, **streams) as run:
        try:
            wait_for(port, run)
            yield
        finally:
            run.terminate()
            run.wait(SECONDS)


@contextlib.contextmanager
def started():
    """Those servers that are installed, each with its port, while they run. Go's net/http is the last."""
    with contextlib.ExitStack() as ends:
        folder = ends.enter_context(tempfile.TemporaryDirectory(prefix='lifecrib-'))
        os.chmod(folder, 0o755)
        os.mkdir(os.path.join(folder, 'pages'))
        for name, body in FILES.items():
            with open(os.path.join(folder, 'pages', name), 'wb') as f:
                f.write(body)
        behind, found = free_port(), []
        ends.enter_context(running([other_clients.go_program('server')[0], str(behind)], behind, stdin=subprocess.PIPE))
        for it in SERVERS:
            if shutil.which(it.program):
                port = free_port()
                with open(os.path.join(folder, it.name + '.conf'), 'w') as f:
                    f.write(it.text % dict(folder=folder, port=port, behind=behind, most=MOST))
                ends.enter_context(running(it.command(folder), port))
                found.append((it, port))
        yield [*found, (GO, behind)]


class Network:
    """Connections to a server, whose bytes come in random pieces and are recorded."""

    def __init__(self, rng, port):
        self.rng, self.port, self.connections, self.sockets, self.written = rng, port, {}, {}, {}

    def open(self, _place):
        number = len(self.connections) + 1
        self.connections[number], self.written[number] = Connection(), b''
        self.sockets[number] = socket.create_connection(('127.0.0.1', self.port), SECONDS)
        return number

    def write(self, number, octets):
        method, closes = octets.partition(b' ')[0].decode(), b'\r\nconnection: close\r\n' in octets
        self.connections[number].requests.append((method, closes))
        self.written[number] += octets
        try:
            self.sockets[number].sendall(octets)
        except OSError:
            return None
        return len(octets)

    def read(self, number, most):
        try:
            piece = self.sockets[number].recv(min(most, self.rng.choice([1, 5, 60, 1000, 4096, 4096, 4096])))
        except OSError:
            return None
        self.connections[number].read += [piece] * bool(piece)
        return piece

    def is_silent(self, number):
        return not select.select([self.sockets[number]], [], [], 0)[0]

    def close(self, number):
        self.sockets.pop(number).close()


def request(rng, server, port, number):
    """A request, and the page that it is for; None where the server tells what it has understood."""
    place = 'http://127.0.0.1:%d' % port
    fields = [('connection', b'close')] if rng.random() < .03 else []
    if rng.random() < .35:
        method = rng.choice(['GET', 'POST', 'POST', 'PUT', 'DELETE', 'PATCH', 'OPTIONS'])
        body = rng.randbytes(rng.choice([0, 1, 10, 5000])) if method in ('POST', 'PUT', 'PATCH') else b''
        return Request(method, place, '/echo/%d?a=b%%20c&d' % number, fields, body), None
    page, method = rng.choice(server.pages), rng.choice(['GET'] * 4 + ['HEAD'])
    if page in STATIC and page.status == 200 and rng.random() < .3:
        fields, page = [*fields, ('if-none-match', b'*')], page._replace(status=304, body=b'')
    return Request(method, place, page.target, fields, b''), page
