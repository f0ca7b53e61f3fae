"""What tools/try-servers tries of the programs in python/recipes, which call an API that is here."""
import http.server
import json
import os
import subprocess
import sys
import threading
import urllib.error
import urllib.parse
import urllib.request

import program
import repository
import tool_tries

PYTHON = os.path.join(repository.ROOT, 'python')
BASE = 'https://localhost'  # where browsers reach the back end: the servers know BASE/back as a redirect
MACHINES, JOBS = 3, 2
# How long a token of the fleet has to be good: so long that each job renews it.
MARGIN = 1000000


class ApiHandler(http.server.BaseHTTPRequestHandler):
    def do_GET(self):
        self.rfile.read(int(self.headers.get('Content-Length', 0)))
        body = json.dumps({'by': self.headers.get('Authorization')}).encode()
        self.send_response(200)
        self.send_header('Content-Length', str(len(body)))
        self.end_headers()
        self.wfile.write(body)

    do_POST = do_GET

    def log_message(self, *_):
        """Says nothing."""


class NoRedirect(urllib.request.HTTPRedirectHandler):
    def redirect_request(self, *_):
        return None


def visit(url, **headers):
    """The status, headers and text of a reply."""
    opener = urllib.request.build_opener(urllib.request.ProxyHandler({}), NoRedirect)
    try:
        with opener.open(urllib.request.Request(url, headers=headers), timeout=60) as reply:
            return reply.status, reply.headers, reply.read().decode()
    except urllib.error.HTTPError as reply:
        with reply:
            return reply.code, reply.headers, reply.read().decode()


class Recipes:
    """Runs of these programs at one server."""

    def __init__(self, tries):
        self.tries, self.server = tries, tries.server
        self.api = http.server.ThreadingHTTPServer(('127.0.0.1', 0), ApiHandler)
        threading.Thread(target=self.api.serve_forever, daemon=True).start()
        path = os.environ.get('OAUTH2_PROGRAM') or (program.path_of(program.NAME) if program.is_proved() else program.unproved(lambda: None))
        self.env = {'PATH': os.environ['PATH'], 'HOME': self.server.folder, 'PYTHONPATH': PYTHON, 'PYTHONDONTWRITEBYTECODE': '1',
                    'LIFECRIB_PROGRAM': os.path.abspath(path), 'SSL_CERT_FILE': os.path.join(self.server.folder, 'cert.pem'),
                    'API': 'http://127.0.0.1:%d/' % self.api.server_port, 'SCOPES': self.server.scope, 'BROWSER': 'true', 'BASE': BASE,
                    'CLIENT_ID': 'code', 'CLIENT_SECRET': self.server.secret}
        self.env.update((name.upper(), self.server.base + it) for name, it in self.server.urls.items())
        if getattr(self.server, 'issuer', None):
            self.env['ISSUER'] = self.server.base + self.server.issuer

    def start(self, name, *words, without=(), **env):
        """A run of a program."""
        env = {it: value for it, value in {**self.env, **env}.items() if it not in without}
        pipes = dict.fromkeys(('stdin', 'stdout', 'stderr'), subprocess.PIPE)
        return subprocess.Popen([sys.executable, os.path.join(PYTHON, 'recipes', name), *words], env=env, text=True, **pipes)

    def row(self, name, tried, result, well):
        self.tries.row('%s: %s' % (name, tried), result, well)

    def end(self, name, tried, run, given, lines):
        """Notes what came of a run that has to print so many lines of the API."""
        out, err = run.communicate(given, timeout=120)
        called = [it for it in out.splitlines() if '"by": "Bearer ' in it]
        well = run.returncode == 0 and len(called) == lines
        self.row(name, tried, '%d calls of the API' % lines if well else (err or out).strip().split('\n')[-1], well)

    def serving(self, name, check, without=(), **env):
        """Lets a program serve while something is tried at its address."""
        run = self.start(name, '0', without=without, **env)
        try:
            check(run.stdout.readline().strip())
        finally:
            run.kill()
            run.communicate()

    def asked(self, name, tried, url, wanted, **headers):
        """Notes the status of a reply."""
        status, _, text = visit(url, **headers)
        self.row(name, tried, 'HTTP status %d' % status + ('' if status == 200 else ': ' + text), status == wanted)

    def web_backend(self, base):
        name = 'web_backend.py'
        _, headers, _ = visit(base + '/login')
        first, back = headers['Set-Cookie'].partition(';')[0], self.server.agreed(headers['Location'])
        query = '/back?' + urllib.parse.urlsplit(back).query
        self.asked(name, "another browser's redirect", base + query, 403)
        status, headers, text = visit(base + query, Cookie=first)
        self.row(name, 'a login', text or 'a session', status == 303)
        if status == 303:
            self.asked(name, 'the API for the page', base + '/orders', 200, Cookie=headers['Set-Cookie'].partition(';')[0])

    def command_line(self):
        name, path = 'command_line.py', os.path.join(self.server.folder, 'command_line.token')
        run = self.start(name, TOKEN_FILE=path, PORT=str(self.server.listen_port))
        tool_tries.visit(self.server.agreed(run.stderr.readline().split()[-1]))
        self.end(name, 'a login', run, '', 1)
        self.end(name, 'a later run', self.start(name, TOKEN_FILE=path), '', 1)

    def device(self):
        run = self.start('device.py')
        words = run.stdout.readline().split()
        self.server.entered(words[1], words[-1])
        self.end('device.py', 'a user who enters the code', run, '12\n13\n', 2)

    def service(self, base):
        self.asked('service.py', 'by a token of its own', base + '/report', 200)

    def exchanging_service(self, base):
        self.service(base)
        for tried, token, status in ("by its caller's token, which is exchanged", 'a-token-of-Authlib', 200), ('by another token', 'x', 401):
            self.asked('service.py', tried, base + '/orders', status, Authorization='Bearer ' + token)

    def token(self, *flags, **env):
        """A token by client credentials."""
        return json.loads(self.tries.start('token', *flags, **env).communicate()[0])['access_token']

    def resource_server(self, base, how, token):
        name = 'resource_server.py'
        self.asked(name, 'a good token, ' + how, base, 200, Authorization='Bearer ' + token)
        self.asked(name, 'another text, ' + how, base, 401, Authorization='Bearer x' + token)
        self.asked(name, 'no token, ' + how, base, 401)

    def fleet(self):
        """Machines at once, of which each job renews the token; the refresh token is taken once."""
        place, command = 'file://%s/fleet' % self.server.folder, os.path.join(self.server.folder, 'renewing')
        os.mkdir(os.path.join(self.server.folder, 'fleet'))
        with open(command, 'w', encoding='utf-8') as f:
            f.write("#!/bin/sh\nexec '%s' \"$@\" --margin %d\n" % (self.tries.tool, MARGIN))
        os.chmod(command, 0o755)
        run, url = self.tries.login_begun('--cache', place)
        self.tries.end('fleet.py: somebody signs in', run, self.server.agreed(url) + '\n', 'access_token')
        settings = {**{it: self.tries.env[it] for it in self.tries.env if it.startswith(('OAUTH2_', 'XDG_'))},
                    'OAUTH2_CLIENT_SECRET': self.server.secret, 'CACHE': place, 'LIFECRIB': command}
        runs = [self.start('fleet.py', **settings) for _ in range(MACHINES)]
        for number, run in enumerate(runs, 1):
            self.end('fleet.py', 'machine %d of %d at once' % (number, MACHINES), run, 'job\n' * JOBS, JOBS)
        run = self.tries.start('token', '--cache', place, '--margin', str(MARGIN), OAUTH2_CLIENT_ID='')  # so that it is the login's client
        self.tries.end('fleet.py: the token is renewed once more', run, '', 'access_token')


def at_server(tries):
    """All that needs a server with logins and introspection; a login by an issuer, where it has metadata."""
    it = Recipes(tries)
    if 'ISSUER' in it.env:
        it.serving('web_backend.py', it.web_backend)
        it.command_line()
        it.device()
        by_issuer = {**dict.fromkeys(('OAUTH2_' + name.upper() for name in it.server.urls), ''), 'OAUTH2_ISSUER': it.env['ISSUER']}
        jwt = it.token(**by_issuer)  # whose audience is the scope, at this server
        it.serving('resource_server.py', lambda base: it.resource_server(base, 'by keys', jwt), without=['INTROSPECTION_URL'],
                   AUDIENCE=it.server.scope)
    it.serving('service.py', it.service, CLIENT_ID=it.server.clients.get('token', 'code'), AUDIENCE='-')
    token = it.token()
    it.serving('resource_server.py', lambda base: it.resource_server(base, 'by introspection', token))
    it.fleet()


def at_authlib(tries):
    """The service, whose calls for others are exchanges."""
    it = Recipes(tries)
    it.serving('service.py', it.exchanging_service, AUDIENCE='https://api.example/', CLIENT_ID='service',
               CLIENT_SECRET=it.server.service_secret)
