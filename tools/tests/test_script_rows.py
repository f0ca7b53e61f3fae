"""Tests of how tools/refusals judges a script's run whose growth was refused: one that shows a request and then a URL."""
import sys
import unittest

import tool

sys.path.insert(0, tool.TOOLS)
refusals = tool.load('refusals')

REQUEST = b'request POST https://as.example/par\nauthorization none\nbody "client_id=a"\nbasic none\npair "client_id" "a"\n'
URL = b'url "https://as.example/auth?client_id=a&request_uri=u"\n'
WHOLE = REQUEST + URL + b'answer ok {"expires_in":60,"request_uri":"u"}\n'


class Push(unittest.TestCase):
    def end(self, status, out):
        return refusals.of_a_script(lambda _: (0, WHOLE), b'', (status, out))

    def test_where_memory_may_run_out(self):
        for lines in b'', REQUEST, REQUEST + URL:
            self.assertEqual(self.end(1, lines + refusals.OUT_OF_MEMORY), 'out of memory inside a call')
        self.assertEqual((self.end(3, b''), self.end(0, WHOLE)), ('wrote nothing', 'undisturbed'))

    def test_where_it_may_not(self):
        for lines in REQUEST[:-20], REQUEST.partition(b'body')[0], URL, REQUEST + URL[:-2], WHOLE:
            self.assertIsNone(self.end(1, lines + refusals.OUT_OF_MEMORY))
        for status, out in (0, REQUEST + refusals.OUT_OF_MEMORY), (3, REQUEST), (1, WHOLE), (1, b''):
            self.assertIsNone(self.end(status, out))


if __name__ == '__main__':
    unittest.main()
