"""Tests of tools/try-connector without the kit: the repositories that it makes, and its servers and proxies, by a program in Python."""
import contextlib
import io
import os
import stat
import sys
import tempfile
import unittest

import tool

sys.path.insert(0, tool.TOOLS)
try_connector = tool.load('try-connector')

# A client in place of the program: as it should be, or one that shows the proxy the credentials of its request.
STAND_IN = '''#!%s
import base64, http.client, json, os, sys, urllib.parse
def basic(credentials):
    return 'Basic ' + base64.b64encode(credentials.encode()).decode()
url, own = urllib.parse.urlsplit(sys.argv[1]), basic(sys.argv[2] + ':' + os.environ['CLIENT_SECRET'])
connection = http.client.HTTPConnection(os.environ.get('PROXY', url.netloc), timeout=5)
if 'PROXY' in os.environ:
    headers = {'Proxy-Authorization': basic(os.environ['PROXY_CREDENTIALS'])}
    connection.set_tunnel(url.hostname, url.port, headers=dict(headers, **%r))
try:
    connection.request('POST', url.path, 'grant_type=client_credentials', {'Authorization': own})
    print(json.load(connection.getresponse())['access_token'])
except OSError as error:
    sys.exit(str(error))
'''
LEAK = {'Authorization': try_connector.basic(try_connector.CLIENT, try_connector.SECRET)}


# A resource server in place of the program. Its faults: `opens` a connection for each request, `asks` about each token, `keeps` an answer
# whatever is said, `repeats` a request that was not answered on a new connection, or `takes` a token for any server, of any type.
RESOURCE_SERVER = '''#!%s
import base64, http.client, json, os, sys, time, urllib.parse
url, fault = urllib.parse.urlsplit(sys.argv[1]), %r
basic = base64.b64encode((sys.argv[2] + ':' + os.environ['CLIENT_SECRET']).encode()).decode()
headers = {'Authorization': 'Basic ' + basic, 'Content-Type': 'application/x-www-form-urlencoded'}
connection, kept = http.client.HTTPConnection(url.netloc, timeout=5), {}
def asked(token):
    if fault == 'opens':
        connection.close()
    for _ in range(2):
        is_used = connection.sock or fault == 'repeats'
        try:
            connection.request('POST', url.path, urllib.parse.urlencode({'token': token}), headers)
            return json.load(connection.getresponse())
        except (OSError, http.client.HTTPException):
            connection.close()
        if not is_used:
            break
    return {'error': 'no reply'}
def judged(found):
    if not found['active']:
        return 'the token is not active'
    if found.get('exp', 1 << 40) <= time.time():
        return 'the token has expired'
    if fault == 'takes':
        return ''
    if sys.argv[3] not in (found['aud'] or []):
        return 'the resource server is not in the audience'
    if found.get('token_type', 'Bearer') != 'Bearer':
        return 'the token is of another type'
    return 'the token is bound to a key that was not proven' if found.get('cnf') else ''
for line in sys.stdin:
    verb, _, name = line.strip().rpartition(' ')
    if verb:
        if fault != 'keeps':
            kept.pop(name, None)
        continue
    found = kept.get(name)
    if not found or fault == 'asks' or fault != 'keeps' and found.get('exp', 1 << 40) <= time.time():
        found = asked(name)
        kept.pop(name, None)
        if found.get('active'):
            kept[name] = found
    print(found.get('error') or judged(found) or 'authorized', flush=True)
'''


class Repositories(unittest.TestCase):
    def test_each(self):
        for name, made in try_connector.PROGRAMS.items():
            with self.subTest(name), tempfile.TemporaryDirectory() as room:
                try_connector.make_repository(name, room)
                with open(os.path.join(room, 'HANDLES')) as f:
                    self.assertEqual(f.read(), 'Handles allowed: %s.\n' % made.handle)
                with open(os.path.join(room, 'crates.txt')) as f:
                    rows = f.read().splitlines()
                self.assertEqual(rows[-1], '%s: %s' % (name, made.uses))
                names = [row.partition(':')[0] for row in rows]
                self.assertEqual(sorted(names), sorted(os.listdir(os.path.join(room, 'crates'))))
                for at, row in enumerate(rows):  # a crate stands below those that use it
                    ours = set(row.partition(':')[2].split()) & set(try_connector.repository.lines())
                    self.assertLessEqual(ours, set(names[:at]))
                self.assertEqual(set(os.listdir(os.path.join(room, 'crates', name, 'src'))), set(made.files.values()))

    def test_a_program_is_short(self):
        for name, made in try_connector.PROGRAMS.items():
            file = next(file for file, target in made.files.items() if target == 'main.rt')
            with open(os.path.join(try_connector.SOURCES, file)) as f:
                self.assertLessEqual(len(f.readlines()), 60, name)


class Rows(unittest.TestCase):
    def program(self, text):
        """The path of a program with this text, in a folder of its own."""
        room = tempfile.TemporaryDirectory()
        self.addCleanup(room.cleanup)
        path = os.path.join(room.name, 'program')
        with open(path, 'w') as f:
            f.write(text)
        os.chmod(path, stat.S_IRWXU)
        return path

    def tries(self, leak):
        path = self.program(STAND_IN % (sys.executable, leak))
        return try_connector.Tries({'token': path}, os.path.dirname(path))

    def test_a_client(self):
        tries = self.tries({})
        for row in (tries.ipv4, tries.no_server, tries.proxy, tries.proxy_unwilling):
            with self.subTest(row.__name__):
                self.assertEqual(row(), '')

    def test_a_client_that_leaks(self):
        tries = self.tries(LEAK)
        self.assertEqual(tries.ipv4(), '')
        self.assertEqual(tries.proxy(), 'the proxy got the fields authorization')

    ASKING = ('many_tokens', 'asked_again', 'forgotten', 'expired', 'not_active', 'not_meant', 'closed_between', 'taken_and_closed',
              'closed_each')

    def test_a_resource_server(self):
        for fault, failed in ('', ()), ('opens', ('many_tokens', 'taken_and_closed')), ('asks', ('asked_again', 'forgotten')), \
                ('keeps', ('forgotten', 'expired')), ('repeats', ('closed_each',)), ('takes', ('not_meant',)):
            path = self.program(RESOURCE_SERVER % (sys.executable, fault))
            tries = try_connector.Tries({'resource_server': path}, os.path.dirname(path))
            for row in failed or self.ASKING:
                with self.subTest(row, fault=fault):
                    self.assertEqual(bool(getattr(tries, row)()), row in failed)

    def test_runs(self):
        def run(status=0, out='', said='', seconds=0.0):
            return try_connector.Run(status, out, said, seconds)
        with try_connector.TokenServer() as server:
            for found, why in (run(out=server.token), ''), (run(out='other'), 'status 0: other'), (run(1, said='no'), 'status 1: no'):
                self.assertEqual(try_connector.Tries.got(found, server), why)
        for found, why in (run(1, said='timed out', seconds=10.0), ''), (run(1, said='timed out'), 'it took 0.0 seconds'), \
                (run(1, said='timed out', seconds=16.0), 'it took 16.0 seconds'), (run(out='token'), 'status 0: token'), \
                (run(1, said='other', seconds=10.0), 'status 1: other'):
            self.assertEqual(try_connector.Tries.failed(found, 'timed out', 9), why)

    def test_table(self):
        printed = io.StringIO()

        def lacks(_):
            raise FileNotFoundError('no openssl')
        with contextlib.redirect_stdout(printed):
            failed = try_connector.try_each(None, [('one', lambda _: ''), ('two', lambda _: 'why'), ('three', lacks)])
        self.assertEqual(failed, 2)
        self.assertEqual(printed.getvalue(), 'passed  one\nfailed  two: why\nfailed  three: no openssl\n1 passed, 2 failed\n')


if __name__ == '__main__':
    unittest.main()
