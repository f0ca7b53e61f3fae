"""Tests of tools/repository.py: a tool without the kit ends with a sentence."""
import os
import subprocess
import sys
import tempfile
import unittest

TOOLS = os.path.dirname(os.path.dirname(os.path.abspath(__file__)))
SAID = 'tools/%s: the command rt of the Rattle kit does not run here; README.md names the kit\n'


class NoKit(unittest.TestCase):
    def end_of(self, tool, path):
        run = subprocess.run([sys.executable, '-B', os.path.join(TOOLS, tool)], env={**os.environ, 'PATH': path}, stdin=subprocess.DEVNULL,
                             capture_output=True, text=True)
        return run.returncode, run.stdout, run.stderr

    def test_without_the_command(self):
        with tempfile.TemporaryDirectory() as empty:
            for tool in ('prove', 'test'):
                with self.subTest(tool):
                    self.assertEqual(self.end_of(tool, empty), (125, '', SAID % tool))

    def test_a_command_that_fails(self):
        with tempfile.TemporaryDirectory() as room:
            path = os.path.join(room, 'rt')
            with open(path, 'w') as f:
                f.write('#!/bin/sh\nexit 1\n')
            os.chmod(path, 0o755)
            self.assertEqual(self.end_of('prove', room), (125, '', SAID % 'prove'))


if __name__ == '__main__':
    unittest.main()
