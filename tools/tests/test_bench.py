"""Tests of tools/bench: the names of functions, what is said of growth, the parts of the page, and other HTTP clients' exchanges."""
import os
import sys
import tempfile
import unittest
from unittest import mock

sys.dont_write_bytecode = True
sys.path.insert(0, os.path.dirname(os.path.abspath(__file__)))
sys.path.insert(0, os.path.dirname(os.path.dirname(os.path.abspath(__file__))))
import other_clients
import repository
import tool

bench = tool.load('bench')


class Names(unittest.TestCase):
    def test_short(self):
        for symbol, name in [
            ('core::fmt::formatter::Formatter::write_raw::<#bf264aed5fa78656>', '`core` `write_raw`'),
            ('<http::request::Builder>::and_then::<http::request::Builder::header::{closure#0}>', '`http` `and_then`'),
            ('<&mut serde_json::de::Deserializer<X> as serde::de::Deserializer>::deserialize_map::<x>', '`serde_json` `deserialize_map`'),
            ("a::b'2", '`a` `b`'), ('__memcpy_avx512_unaligned_erms', '`memcpy`'), ('_int_free', '`_int_free`'), ('malloc', '`malloc`'),
        ]:
            with self.subTest(symbol):
                self.assertEqual(bench.short(symbol), name)


class Page(unittest.TestCase):
    def test_growth(self):
        rows = [('(e) 64 KB', '', 1, 2, 64), ('(e) 1 MB', '', 1, 2, 1024)]
        costs = [([2, 4], [10, 20]), ([80, 64], [150, 320])]
        with mock.patch.object(bench, 'measured', lambda *_: iter((row, *it) for row, it in zip(rows, costs))):
            said = list(bench.growth(['here', 'there'], rows))
        self.assertEqual(said[-3], '| (e) 1 MB | 80 | 64 | 150 | 320 | 0 | 0 |')
        self.assertEqual(' '.join(said[-1].split()), '- (e) 1 MB beside 64 KB: 16 times the input; the instructions are 15.0 times here '
                                                     'and 16.0 times there; the time is 40.0 times here and 16.0 times there.')

    def test_part(self):
        page = 'one\n<!-- bench: times -->\n\nold\n\n<!-- end -->\ntwo\n<!-- bench: growth -->\n\nold\n\n<!-- end -->\n'
        self.assertEqual(bench.with_part(page, 'times', 'new'), page.replace('old', 'new', 1))
        self.assertRaises(SystemExit, bench.with_part, page, 'memories', 'new')

    def test_parts_of_the_page(self):
        with open(os.path.join(repository.ROOT, 'docs', 'PERFORMANCE.md'), encoding='utf-8') as f:
            page = f.read()
        with mock.patch.object(bench, 'HAS_VALGRIND', True):
            for name in [*bench.parts(['here', 'there'], None), 'others', 'exchange']:
                self.assertIn('new', bench.with_part(page, name, 'new'), name)


class Times(unittest.TestCase):
    def test_medians_of_runs_in_turn(self):
        runs, took = [], {'one': [3, 1, 2], 'two': [90, 10, 20]}

        def nanoseconds(command, iterations):
            runs.append(command[0])
            return took[command[0]][(len(runs) - 1) // 2] * iterations
        with mock.patch.object(bench, 'TURNS', 3), mock.patch.object(bench, 'nanoseconds', nanoseconds), \
                mock.patch.object(bench, 'iterations_of', lambda command: {'one': 5, 'two': 7}[command[0]]):
            self.assertEqual(bench.medians([['one'], ['two']]), [2, 20])
        self.assertEqual(runs, ['one', 'two'] * 3)


class Others(unittest.TestCase):
    def test_table(self):
        sides = [bench.Side('here', ['here'], {'x', 'y'}, 1), bench.Side('Go', ['go'], {'x'}, 50), bench.Side('A', ['a'], {'x', 'y'}, 1)]
        counted = lambda command, few, many: {'here': 100, 'go': many, 'a': 2000}[command[0]]
        with mock.patch.object(bench, 'instructions', counted), mock.patch.object(bench, 'medians', lambda it: [30, 60, 90][:len(it)]):
            said = list(bench.others(sides, [('(x)', 'x', 2, 22), ('(y)', 'y', 2, 22)]))
        self.assertEqual(said[2:], ['| (x) | instructions | 100 | 1,100 (11.0) | 2,000 (20.0) |', '| (x) | ns | 30 | 60 (2.0) | 90 (3.0) |',
                                    '| (y) | instructions | 100 |  | 2,000 (20.0) |', '| (y) | ns | 30 |  | 60 (2.0) |'])

    def test_other_work(self):
        def clients(line):
            return lambda: [(other_clients.Client('other', ['printf', line]), 1)]
        here = tempfile.NamedTemporaryFile('w', suffix='.sh')
        with here:
            here.write('#!/bin/sh\necho x 1 2\necho y 0 3\n')
            here.flush()
            os.chmod(here.name, 0o700)
            here.file.close()
            with mock.patch.object(other_clients, 'operations', clients('y 0 3')):
                self.assertEqual([it.operations for it in bench.sides([here.name])], [{'x', 'y'}, {'y'}])
            with mock.patch.object(other_clients, 'operations', clients('y 0 4')):
                self.assertRaises(SystemExit, bench.sides, [here.name])


class Exchange(unittest.TestCase):
    def test_table(self):
        clients = [other_clients.Client(name, [name]) for name in ('one', 'two')]
        with mock.patch.object(bench, 'instructions', lambda command, *_: {'one': 2000, 'two': 5100}[command[0]]):
            said = list(bench.exchange(clients))
        self.assertEqual(said[2:], ['| one | 2,000 | 1.0 |', '| two | 5,100 | 2.5 |'])

    def test_same_exchange(self):
        one, *others = [other_clients.exchange_of(it) for it in (
            b'GET / HTTP/1.1\r\nhost: a\r\nx: B\r\n\r\nbody\nreply\n', b'GET / HTTP/1.1\r\nX: B\r\nHost: a\r\n\r\nbody\nreply\n',
            b'GET / HTTP/1.1\r\nhost: a\r\nx: b\r\n\r\nbody\nreply\n', b'GET / HTTP/1.1\r\nhost: a\r\nx: B\r\n\r\nbody\n\n',
            b'GET / HTTP/1.1\r\nhost: a\r\n\r\nbody\nreply\n', b'PUT / HTTP/1.1\r\nhost: a\r\nx: B\r\n\r\nbody\nreply\n')]
        self.assertEqual([it == one for it in others], [True] + [False] * 4)


if __name__ == '__main__':
    unittest.main()
