"""Tests of tools/recorder.py: which processes it follows, and what it writes of one."""
import json
import os
import subprocess
import sys
import tempfile
import time
import unittest
from unittest import mock

sys.dont_write_bytecode = True
sys.path.insert(0, os.path.dirname(os.path.dirname(os.path.abspath(__file__))))
import recorder

# A process that takes three tenths of a second of its processor, and then waits for its end.
BUSY = 'import sys, time\nwhile time.process_time() < 0.3: pass\nprint(flush=True)\nsys.stdin.read()'


class Processes(unittest.TestCase):
    def test_below(self):
        parents = {1: 0, 10: 1, 20: 10, 30: 20, 40: 1}
        self.assertEqual(recorder.below(parents, 10), {20, 30})
        self.assertEqual(recorder.below(parents, 40), set())

    def test_of_the_kit(self):
        self.assertTrue(all(map(recorder.is_of_the_kit, ['rattle', 'rattle-link', 'clang-20', 'ld.lld'])))
        self.assertFalse(any(map(recorder.is_of_the_kit, ['python3', 'oauth2_run', 'sh'])))

    def test_arguments_without_libraries(self):
        args = ['rattle', 'build', '--extern', 'url=/kit/rlibs/url.rlib', '-L', 'dependency=/kit/rlibs', '--jobs', '1']
        self.assertEqual(recorder.without_libraries(args), ['rattle', 'build', '--jobs', '1'])


class Recording(unittest.TestCase):
    def lines(self, during):
        """What is logged while a function runs, which samples for itself, with every process taken for one of the kit's."""
        every = mock.patch('recorder.is_of_the_kit', lambda comm: True)
        with tempfile.TemporaryDirectory() as room, every, mock.patch('recorder.SECONDS_BETWEEN', 3600):
            path = os.path.join(room, 'new', 'log')
            with recorder.Recorder(path) as it:
                during(it)
            with open(path) as f:
                return list(map(json.loads, f))

    def test_process(self):
        def during(it):
            with subprocess.Popen([sys.executable, '-c', BUSY], stdin=subprocess.PIPE, stdout=subprocess.PIPE, cwd='/') as run:
                run.stdout.readline()
                it.sample()
                run.stdin.close()
        line, = self.lines(during)
        self.assertEqual((line['cwd'], line['ppid'], line['args'][1]), ('/', os.getpid(), '-c'))
        self.assertGreaterEqual(line['cpu'], 0.25)
        self.assertLess(line['start'], line['end'])
        self.assertGreater(line['peak_kb'], 1000)

    def test_part(self):
        begun = time.time()
        line, = self.lines(lambda it: it.part('rt ci', begun, failed=0))
        self.assertEqual((line['part'], line['start'], line['failed']), ('rt ci', begun, 0))
        self.assertGreaterEqual(line['end'], begun)


if __name__ == '__main__':
    unittest.main()
