"""Tests of what tools/try-servers leaves out where a program is not there, and of the JWTs that it signs."""
import base64
import contextlib
import io
import json
import os
import shutil
import subprocess
import sys
import tempfile
import unittest
from unittest import mock

import tool

sys.path.insert(0, tool.TOOLS)
try_servers = tool.load('try-servers')


class Examples(unittest.TestCase):
    def found(self, is_proved, is_installed, **env):
        """The path of oauth2_examples, and what is said."""
        said = io.StringIO()
        with mock.patch.object(try_servers.program, 'is_proved', lambda _: is_proved), contextlib.redirect_stderr(said), \
                mock.patch.object(try_servers, 'installed', lambda *_: is_installed), mock.patch.dict(os.environ, env, clear=True):
            return try_servers.examples(False), said.getvalue()

    def test_each(self):
        built = try_servers.program.path_of(try_servers.EXAMPLES)
        self.assertEqual(self.found(True, '1'), (built, ''))
        self.assertEqual(self.found(False, '1', OAUTH2_EXAMPLES='/some/program'), ('/some/program', ''))
        for is_proved, is_installed, why in (False, '1', 'has not built it'), (True, None, 'socat is not installed'):
            path, said = self.found(is_proved, is_installed)
            self.assertIsNone(path)
            self.assertIn('the rows "over a connection" are left out: ', said)
            self.assertIn(why, said)


class Jwts(unittest.TestCase):
    @unittest.skipUnless(shutil.which('openssl'), 'there is no openssl here')
    def test_openssl_takes_the_signature(self):
        with tempfile.TemporaryDirectory() as room:
            paths = [os.path.join(room, it) for it in ('a.key', 'a.pem', 'signature')]
            for words in (['genrsa', '-out', paths[0], '2048'], ['rsa', '-in', paths[0], '-pubout', '-out', paths[1]]):
                subprocess.run(['openssl', *words], check=True, capture_output=True)
            jwt = try_servers.tool_tries.signed(room, 'a', iss='x', exp=1)
            self.assertNotIn('=', jwt)
            head, claims, signature = (base64.urlsafe_b64decode(it + '==') for it in jwt.split('.'))
            self.assertEqual((json.loads(head)['alg'], json.loads(claims)), ('RS256', {'iss': 'x', 'exp': 1}))
            with open(paths[2], 'wb') as f:
                f.write(signature)
            words = ['openssl', 'dgst', '-sha256', '-verify', paths[1], '-signature', paths[2]]
            subprocess.run(words, input=jwt.rpartition('.')[0].encode(), check=True, capture_output=True)


if __name__ == '__main__':
    unittest.main()
