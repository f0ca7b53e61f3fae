"""Tests of tools/try-c-examples: what it leaves out, and that it finds an example that gets no token. A program in Python stands for the library."""
import os
import shutil
import subprocess
import sys
import tempfile
import unittest

import tool

PATH = os.path.join(tool.TOOLS, 'try-c-examples')
# Takes any script for one of client credentials, and each reply with the status 200 for a token.
STAND_IN = '''#!%s
import base64, json, sys

script = json.load(sys.stdin)
client, replies = script['client'], script['replies']
basic = base64.b64encode(('%%s:%%s' %% (client['id'], client['secret'])).encode()).decode()
headers = [['accept', 'application/json'], ['content-type', 'application/x-www-form-urlencoded'], ['authorization', 'Basic ' + basic]]
request = {'method': 'POST', 'url': client['token_url'], 'headers': headers, 'body': 'grant_type=client_credentials'}
end = {'event': 'fault', 'kind': 'request_failed', 'text': 'Request failed'}
if replies and replies[0].get('status') == 401:
    end['text'] = 'Server returned error response: invalid_client'
if replies and replies[0].get('status') == 302:
    end['text'] = 'server returned empty error response'
if replies and replies[0].get('status') == 200:
    try:
        end = {'event': 'answer', 'answer': json.loads(base64.b64decode(replies[0]['body_base64']))}
    except ValueError:
        end['text'] = 'Failed to parse server response'
print(json.dumps({'events': [{'event': 'exchange', 'request': request, 'reply': replies[0] if replies else None}, end]}))
''' % sys.executable


class TryCExamples(unittest.TestCase):
    def run_tool(self, *words, **env):
        return subprocess.run([sys.executable, PATH, *words], env=dict(os.environ, **env), capture_output=True, text=True)

    def program(self, text):
        room = tempfile.TemporaryDirectory()
        self.addCleanup(room.cleanup)
        path = os.path.join(room.name, 'program')
        with open(path, 'w') as f:
            f.write(text)
        os.chmod(path, 0o755)
        return path

    def test_what_is_left_out_is_named(self):
        run = self.run_tool(PATH='/none')
        self.assertEqual(run.returncode, 0, run.stderr)
        self.assertIn('go    left out, since there is no cc, no go, no pkg-config\n', run.stdout)
        self.assertTrue(run.stdout.endswith('0 passed, 0 failed\n'), run.stdout)

    def test_what_was_asked_for_fails_if_it_is_left_out(self):
        self.assertEqual(self.run_tool('go', PATH='/none').returncode, 1)
        self.assertEqual(self.run_tool('perl').returncode, 2)

    @unittest.skipUnless(shutil.which('cc') and shutil.which('pkg-config') and not
                         subprocess.run(['pkg-config', '--exists', 'libcurl', 'json-c'], capture_output=True).returncode,
                         'there is no C compiler, or no libcurl or json-c')
    def test_the_example_in_c(self):
        run = self.run_tool('--program', self.program(STAND_IN), 'c')
        self.assertEqual((run.returncode, run.stdout.splitlines()[-1]), (0, '6 passed, 0 failed'), run.stdout + run.stderr)
        run = self.run_tool('--program', self.program(STAND_IN.replace("'Basic ' + basic", "'Basic'")), 'c')
        self.assertEqual((run.returncode, run.stdout.splitlines()[-1]), (1, '5 passed, 1 failed'), run.stdout + run.stderr)


if __name__ == '__main__':
    unittest.main()
