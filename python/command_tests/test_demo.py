"""Tests of `tools/oauth2 demo`: what its server takes and refuses, how its steps are run, and the whole of it in a terminal.
tools/readme runs the whole of it too."""
import base64
import hashlib
import json
import os
import re
import shlex
import shutil
import subprocess
import sys
import time
import unittest
import urllib.error
import urllib.parse
import urllib.request
from unittest import mock

import stand_in
import where

from lifecrib_command import answers, demo, demo_server, endings

BACK, VERIFIER = 'http://127.0.0.1:1/back', 'v' * 43
CHALLENGE = base64.urlsafe_b64encode(hashlib.sha256(VERIFIER.encode()).digest()).decode().rstrip('=')


class NoRedirect(urllib.request.HTTPRedirectHandler):
    def redirect_request(self, *_):
        return None


OPENER = urllib.request.build_opener(urllib.request.ProxyHandler({}), NoRedirect)


class Server(unittest.TestCase):
    def setUp(self):
        self.server = demo_server.Server()
        self.addCleanup(self.server.server_close)
        self.addCleanup(self.server.shutdown)

    def opened(self, request):
        """The status, the headers and the body of a reply."""
        try:
            with OPENER.open(request, timeout=30) as reply:
                return reply.status, reply.headers, reply.read()
        except urllib.error.HTTPError as reply:
            with reply:
                return reply.code, reply.headers, reply.read()

    def post(self, path='/token', authorization=demo_server.BASIC, **form):
        """The status of a request, and the JSON of its reply."""
        data = urllib.parse.urlencode(form).encode()
        status, _, body = self.opened(urllib.request.Request(self.server.url + path, data, {'Authorization': authorization}))
        return status, json.loads(body)

    def code(self, **more):
        """The code of a login."""
        asked = {'client_id': 'aaa', 'redirect_uri': BACK, 'state': 's', 'code_challenge': CHALLENGE, **more}
        status, headers, _ = self.opened(self.server.url + '/authorize?' + urllib.parse.urlencode(asked))
        found = dict(urllib.parse.parse_qsl(urllib.parse.urlsplit(headers['Location'] or '').query))
        return status, found.get('code'), found.get('state')

    def test_a_code_is_good_once_for_its_verifier(self):
        grant = {'grant_type': 'authorization_code', 'redirect_uri': BACK}
        for changes, wanted in (({}, 200), ({'code_verifier': 'w' * 43}, 400), ({'redirect_uri': BACK + 'x'}, 400)):
            status, code, state = self.code()
            self.assertEqual((status, state), (302, 's'))
            form = {**grant, 'code': code, 'code_verifier': VERIFIER, **changes}
            self.assertEqual([self.post(**form)[0] for _ in range(2)], [wanted, 400])
        self.assertEqual(self.code(client_id='other')[:2], (400, None))

    def test_a_refresh_token_is_good_once(self):
        _, code, _ = self.code()
        _, token = self.post(grant_type='authorization_code', redirect_uri=BACK, code=code, code_verifier=VERIFIER)
        renewal = {'grant_type': 'refresh_token', 'refresh_token': token['refresh_token']}
        self.assertEqual([self.post(**renewal)[0] for _ in range(2)], [200, 400])

    def test_a_device(self):
        self.assertEqual(self.post('/device')[1]['user_code'], demo_server.USER_CODE)
        found = [self.post(grant_type=demo_server.DEVICE_GRANT, device_code='demo-device') for _ in range(3)]
        self.assertEqual([it[0] for it in found], [400, 400, 200])
        self.assertEqual(found[0][1], {'error': 'authorization_pending'})

    def test_other_requests(self):
        self.assertEqual(self.post(authorization='Basic eDp5', grant_type='client_credentials'), (401, {'error': 'invalid_client'}))
        self.assertEqual(self.post(grant_type='password'), (400, {'error': 'unsupported_grant_type'}))
        status, token = self.post(grant_type='client_credentials')
        self.assertEqual((status, token['access_token'], token.get('refresh_token')), (200, 'demo-token-1', None))


class Steps(stand_in.Case):
    def test_the_first_step_and_one_that_fails(self):
        """The program here runs the first step alone; nothing is left."""
        with open(self.program, encoding='utf-8') as f:
            text = f.read()
        with open(self.program, 'w', encoding='utf-8') as f:
            f.write(text.replace('import ', 'import os\nimport ', 1).replace("if client.get('id') == 'bad':", """\
if command == 'authorize':
    os._exit(1)
if client.get('id') == 'bad':"""))
        env = {**self.env, 'TMPDIR': self.room, 'OAUTH2_TOKEN_URL': 'https://as.example/not-asked'}
        run = subprocess.run([sys.executable, where.OAUTH2, 'demo'], env=env, stdin=subprocess.DEVNULL, capture_output=True,
                             text=True, timeout=300)
        self.assertEqual(run.stdout, '1. client credentials: demo-token-1\n')
        self.assertNotEqual(run.returncode, 0)
        self.assertRegex(run.stderr, r'the demo ends here: its step "login in a browser" has the exit status \d+\n\Z')
        self.assertRegex(run.stderr, r'(?m)^\$ tools/oauth2 token --client-id aaa --token-url http://127.0.0.1:\d+/token$')
        self.assertRegex(run.stderr, r'(?m)^> grant_type=client_credentials')
        self.assertEqual([it for it in os.listdir(self.room) if it.startswith('lifecrib-demo')], [])

    def test_all_steps(self):
        tokens = iter(['t1', 't2', 't2', 't3', 't4'])
        with mock.patch.object(demo, 'token_of', lambda *_: next(tokens)), mock.patch.object(demo, 'say'), \
                mock.patch.object(answers, 'put') as put, mock.patch.object(endings, 'command', 'tools/oauth2'):
            self.assertEqual(demo.run(), 0)
        written = ''.join(it.args[0] for it in put.call_args_list).splitlines()
        self.assertEqual(written[3:], ['4. the renewed token: t3', '5. sign-in on a device: t4', '5 steps, and the server is gone'])


@unittest.skipUnless(shutil.which('tmux'), 'there is no tmux here')
class Terminal(stand_in.ByProgram, stand_in.Case):
    """The demo in a terminal of tmux, where a user types the command."""

    def tmux(self, *words):
        """What a command of tmux prints, by a server for this test alone."""
        command = ['tmux', '-f', '/dev/null', '-S', os.path.join(self.room, 'tmux'), *words]
        env = {**self.env, 'TMPDIR': self.room, 'LC_ALL': 'C.UTF-8', 'PS1': '> '}
        return subprocess.run(command, env=env, stdin=subprocess.DEVNULL, capture_output=True, text=True, timeout=60, check=True).stdout

    def shown(self):
        """All lines of the terminal, each as long as it was written."""
        return self.tmux('capture-pane', '-p', '-J', '-S', '-')

    def test_each_step_and_the_end(self):
        self.tmux('new-session', '-d', '-x', '100', '-y', '40', 'sh')
        self.addCleanup(self.tmux, 'kill-server')
        self.tmux('send-keys', '-l', '%s %s demo; echo "status=$?"' % (shlex.quote(sys.executable), shlex.quote(where.OAUTH2)))
        self.tmux('send-keys', 'Enter')
        until = time.monotonic() + 120
        while not re.search(r'(?m)^status=\d+ *$', self.shown()):
            self.assertLess(time.monotonic(), until, self.shown())
            time.sleep(0.2)
        shown = self.shown()
        self.assertEqual(re.findall(r'(?m)^(?:\d\. |\d steps).*\S', shown),
                         ['1. client credentials: demo-token-1', '2. login in a browser: demo-token-2', '3. the kept token: demo-token-2',
                          '4. the renewed token: demo-token-3', '5. sign-in on a device: demo-token-4', '5 steps, and the server is gone'])
        self.assertEqual(re.findall(r'(?m)^\$ tools/oauth2 (\w+) ', shown), ['token', 'login', 'token', 'token', 'device'])
        grants = ['client_credentials', 'authorization_code', 'refresh_token', *3 * ['urn%3Aietf%3Aparams%3Aoauth%3Agrant-type%3Adevice_code']]
        self.assertEqual(re.findall(r'(?m)^> .*grant_type=([^&\s]+)', shown), grants)
        self.assertRegex(shown, r'(?m)^status=0 *$')
        self.assertEqual([it for it in os.listdir(self.room) if it.startswith('lifecrib-demo')], [])


if __name__ == '__main__':
    unittest.main()
