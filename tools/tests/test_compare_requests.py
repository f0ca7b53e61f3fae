"""Tests of tools/compare-requests: what urllib says of its targets, and that a request to a place that a target does not name is seen."""
import contextlib
import io
import os
import sys
import unittest
from unittest import mock

sys.dont_write_bytecode = True
sys.path.insert(0, os.path.dirname(os.path.dirname(os.path.abspath(__file__))))
import tool

TOOL = tool.load('compare-requests')


class Targets(unittest.TestCase):
    def test_urllib(self):
        for url, wanted in TOOL.TARGETS:
            with self.subTest(url):
                if url not in TOOL.LENIENT:
                    self.assertEqual(TOOL.host_by_urllib(url), wanted)

    def differences(self, host_of):
        """How many targets a program has another Host for that writes a request with this one, or nothing where it is None."""
        def written(_, settings, *__):
            host = host_of(settings['url'])
            return b'' if host is None else b'GET / HTTP/1.1\r\nhost: %s\r\n\r\n' % host.encode()
        with mock.patch.object(TOOL, 'written', written), contextlib.redirect_stdout(io.StringIO()):
            return TOOL.compare_targets('/program', '/folder')

    def test_programs(self):
        wanted = dict(TOOL.TARGETS)
        self.assertEqual(self.differences(wanted.get), 0)
        self.assertEqual(self.differences(TOOL.host_by_urllib), len(TOOL.LENIENT))
        self.assertEqual(self.differences(lambda url: 'h' if url in TOOL.NO_PORT else wanted[url]), len(TOOL.NO_PORT))
        self.assertEqual(self.differences(lambda url: '' if url in TOOL.NO_HOST else wanted[url]), len(TOOL.NO_HOST))
        self.assertGreater(self.differences(lambda url: None), 20)


if __name__ == '__main__':
    unittest.main()
