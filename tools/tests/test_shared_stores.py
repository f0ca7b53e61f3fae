"""Tests of the stores of shared tokens and of the judge of tools/try-shared-keepers: what a store does, and histories that break a law."""
import os
import sys
import tempfile
import types
import unittest

import tool

sys.path.insert(0, tool.TOOLS)
TOOL = tool.load('try-shared-keepers')
shared_stores = TOOL.shared_stores

# The history of a store, what the server gave for which refresh token, and what the processes said; and how a broken law begins, if one is.
# Tokens are 1:a, 1:b and so on; 1:x is of a new login.
A, B = 'rest 1:a', 'rest 1:b'
MARK = 'mark 7 1:a'
ANSWER = {'answers': 'unfinished', 'mark': '7', 'version': '2', 'token': '1:x'}
JUDGED = [
    ([(1, A), (2, MARK), (3, B)], {'a': '1:b'}, [{'good': '1:b'}], ''),
    ([(1, A), (2, MARK)], {'a': '1:b'}, [], ''),
    ([(1, A), (2, MARK), (3, 'rest 1:x')], {'a': '1:b'}, [ANSWER], ''),
    ([(1, A), (2, MARK), (3, 'rest 1:x')], {}, [], 'a mark on version 2'),
    ([(1, A), (3, MARK)], {}, [], 'version 3 follows'),
    ([(1, A), (2, 'mark 7 1:c')], {}, [], 'the mark on version 1'),
    ([(1, A), (2, B)], {'a': '1:b'}, [], 'a was sent without a mark'),
    ([(1, A)], {}, [{'good': '1:z'}], '1:z was handed out'),
]


class Stores(unittest.TestCase):
    def test_a_file(self):
        with tempfile.TemporaryDirectory() as folder:
            store = shared_stores.FileStore(os.path.join(folder, 'store'), history=True)
            self.assertEqual(store.load('mail'), (0, 'none'))
            self.assertIs(store.replace('mail', 1, A), False)
            self.assertIs(store.replace('mail', 0, A), True)
            self.assertIs(store.replace('mail', 0, B), False)
            self.assertEqual(store.load('mail'), (1, A))
            self.assertIs(store.replace('mail', 1, MARK), True)
            self.assertEqual(store.values('mail'), [(1, A), (2, MARK)])
            self.assertEqual(store.load('calendar'), (0, 'none'))

    def test_a_file_that_cannot_be_read_is_silence(self):
        with tempfile.TemporaryDirectory() as folder:
            store = shared_stores.FileStore(folder)
            with open(os.path.join(folder, 'mail'), 'w') as f:
                f.write('no version')
            self.assertIsNone(store.load('mail'))
            self.assertIsNone(store.replace('mail', 0, A))

    def test_what_no_store_keeps(self):
        for version, text in ((0, 'two\nlines'), (shared_stores.LAST, A)):
            with self.assertRaises(ValueError):
                shared_stores.line_of(version, text)
        with tempfile.TemporaryDirectory() as folder:
            for name in ('', '.', '../x', 'a/b'):
                with self.assertRaises(ValueError):
                    shared_stores.FileStore(folder).load(name)


class Judge(unittest.TestCase):
    def test_histories(self):
        for values, given, said, wanted in JUDGED:
            server = types.SimpleNamespace(twice=[], given=given)
            broken = TOOL.judge([(0, 'none')] + values, server, said)
            with self.subTest(values=values, given=given):
                self.assertEqual([it[:len(wanted)] for it in broken], [wanted] if wanted else [])

    def test_a_refresh_token_that_came_twice(self):
        server = TOOL.TokenServer()
        with server:
            token = server.answer(['login']).split()[1]
            self.assertTrue(server.answer(['refresh', token]).startswith('new '))
            self.assertEqual(server.answer(['refresh', token]), 'refused')
            self.assertEqual(len(TOOL.judge([(0, 'none')], types.SimpleNamespace(twice=server.twice, given={}), [])), 1)


if __name__ == '__main__':
    unittest.main()
