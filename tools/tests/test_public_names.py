"""Tests of tools/public-names --check: a list that lacks a name, or has one too many, is refused."""
import os
import subprocess
import sys
import tempfile
import unittest

sys.dont_write_bytecode = True
sys.path.insert(0, os.path.dirname(os.path.dirname(os.path.abspath(__file__))))
import sources
import tool


class Check(unittest.TestCase):
    def run_on(self, names):
        """The status and the output of a check of a list of names."""
        with tempfile.NamedTemporaryFile('w', suffix='.txt') as f:
            f.write(''.join(it + '\n' for it in names))
            f.flush()
            run = subprocess.run([os.path.join(tool.TOOLS, 'public-names'), '--check', f.name], capture_output=True, text=True)
        return run.returncode, run.stdout

    def test_lists(self):
        names = sorted(sources.public_names())
        self.assertEqual(self.run_on(names), (0, ''))
        status, diff = self.run_on(names[1:])
        self.assertEqual(status, 1)
        self.assertIn('\n+%s\n' % names[0], diff)
        status, diff = self.run_on(names + ['zzz'])
        self.assertEqual(status, 1)
        self.assertIn('\n-zzz\n', diff)

    def test_no_such_file(self):
        run = subprocess.run([os.path.join(tool.TOOLS, 'public-names'), '--check', '/no/such/file'], capture_output=True)
        self.assertEqual(run.returncode, 2)


if __name__ == '__main__':
    unittest.main()
