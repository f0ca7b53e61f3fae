"""Tests of tools/costs.py and of the tables of tools/gate-costs: which check a process is, and in what time lanes do the checks."""
import json
import os
import sys
import tempfile
import unittest
from unittest import mock

sys.dont_write_bytecode = True
sys.path.insert(0, os.path.dirname(os.path.dirname(os.path.abspath(__file__))))
import costs
import tool
from costs import Check

# A library that two others use, of which one has tests and edits.
BELOW = {'low': [], 'high': ['low'], 'tests': ['low']}
LINES = {'low': 10, 'high': 20, 'tests': 5}


def process(start, cpu, words, cwd='/tmp/repo/crates/low', comm='rattle', peak_kb=1000):
    """A line of a log."""
    return {'pid': 7, 'ppid': 1, 'comm': comm, 'args': ['/kit/bin/rattle', *words.split()], 'cwd': cwd, 'start': start, 'end': start + cpu,
            'cpu': cpu, 'user': cpu, 'peak_kb': peak_kb}


PROOF = 'build --crate-name low src/lib.rt --jobs 1 --statements -o out/rlib/low.rlib --empty-contracts'
TESTS = 'build --crate-name low src/lib.rt --jobs 1 --test --backend llvm -o out/low_tests.o --empty-contracts'
PROGRAM = 'check --crate-name high src/main.rt --jobs 1 -o /tmp/rt-proved-1-a/checked --empty-contracts'
BUILD = 'build --crate-name high src/main.rt --crate-checked /tmp/rt-proved-1-a/checked --backend rattle -o out/high.o'
SEED = 'check --crate-name low src/lib.rt --jobs 1 --incremental /tmp/rt-edits-1-a/seed'
EDIT = 'check --crate-name low src/lib.rt --jobs 1 --incremental /tmp/rt-edits-1-a/%d'
ALONE = 'check --crate-name low src/lib.rt --jobs 1'
IN_TURN = 'check --crate-name low src/lib.rt --jobs 1 --incremental /tmp/rt-edits-1-a'
OTHER_CHECK = 'check --crate-name low src/lib.rt --jobs 2 --incremental out/incremental'


class KindOf(unittest.TestCase):
    def test_each_kind(self):
        for words, wanted in [
            (PROOF, ('low', 'proof', 0)),
            (TESTS, ('low', 'tests', 0)),
            (PROGRAM, ('high', 'proof', 0)),
            (BUILD, ('high', 'build', 'rattle')),
            (SEED, ('low', 'seed', 0)),
            (EDIT % 3, ('low', 'edit', 3)),
            (IN_TURN, ('low', 'in turn', 0)),
            (OTHER_CHECK, None),
            (ALONE, None),
            ('fmt --check src/lib.rt', None),
        ]:
            with self.subTest(words):
                self.assertEqual(costs.kind_of(process(0, 1, words)), wanted)

    def test_edit_without_seed(self):
        self.assertEqual(costs.kind_of(process(0, 1, ALONE, cwd='/tmp/rt-edit-1-a')), ('low', 'edit', 0))

    def test_other_processes(self):
        self.assertIsNone(costs.kind_of(process(0, 1, PROOF, comm='clang')))


class ChecksOf(unittest.TestCase):
    def test_second_proof_of_a_seed(self):
        lines = [process(0, 9, SEED), process(10, 2, EDIT % 0), process(12, 3, EDIT % 1), process(15, 1, SEED)]
        self.assertEqual([(it.kind, it.number, it.seconds) for it in costs.checks_of(lines)],
                         [('seed', 0, 9), ('edit', 0, 2), ('edit', 1, 3), ('sound', 0, 1)])

    def test_edits_in_turn(self):
        lines = [process(0, 9, IN_TURN), process(10, 2, IN_TURN), process(12, 1, IN_TURN)]
        self.assertEqual([(it.kind, it.number, it.seconds) for it in costs.checks_of(lines)],
                         [('edit', 0, 9), ('edit', 1, 2), ('sound', 0, 1)])

    def test_log_that_begins_among_the_edits(self):
        lines = [process(10, 2, EDIT % 4), process(15, 1, SEED)]
        self.assertEqual([it.kind for it in costs.checks_of(lines)], ['edit', 'sound'])

    def test_check_of_two_runs_counts_once(self):
        lines = [process(0, 9, PROOF), process(100, 7, PROOF, peak_kb=3)]
        self.assertEqual(costs.checks_of(lines), [Check('low', 'proof', 0, 7, 3072)])

    def test_lines_of_several_logs_by_their_beginning(self):
        with tempfile.TemporaryDirectory() as room:
            paths = [os.path.join(room, name) for name in 'ab']
            for path, start in zip(paths, (5, 2)):
                with open(path, 'w') as f:
                    f.write(json.dumps(process(start, 1, PROOF)) + '\n')
            self.assertEqual([it['start'] for it in costs.lines_of(paths)], [2, 5])

    def test_parts(self):
        part = {'part': 'rt ci', 'start': 1, 'end': 61}
        self.assertEqual(costs.parts_of([process(0, 1, PROOF), part]), {'rt ci': part})
        self.assertEqual(costs.checks_of([part]), [])


CHECKS = [Check('low', 'proof', 0, 10, 0), Check('low', 'seed', 0, 9, 0), Check('low', 'edit', 0, 4, 0), Check('low', 'edit', 1, 6, 0),
          Check('low', 'sound', 0, 1, 0), Check('high', 'proof', 0, 20, 0), Check('high', 'build', 'llvm', 2, 0),
          Check('tests', 'proof', 0, 1, 0), Check('tests', 'tests', 0, 30, 0)]


@mock.patch('repository.below', lambda: BELOW)
@mock.patch('costs.lines_in', LINES.get)
class Lanes(unittest.TestCase):
    def test_longest_chain_ends_with_tests(self):
        self.assertEqual(costs.longest_chain(CHECKS), (40, ['low', 'tests']))

    def test_longest_chain_ends_with_a_proof(self):
        self.assertEqual(costs.longest_chain(CHECKS[:7]), (32, ['low', 'high']))

    def test_order(self):
        order = costs.in_order(costs.tasks_of(CHECKS))
        self.assertEqual(order[0], ('low', 'proof'))
        self.assertEqual([it[1] for it in order[-3:]], ['seed', 'edit', 'edit'])

    def test_lone_edit_has_no_seed(self):
        tasks = costs.tasks_of([Check('low', 'edit', 0, 4, 0)])
        self.assertEqual(tasks['low', 'edit', 0].waits, [('low', 'proof'), ('low', 'tests')])
        self.assertNotIn(('low', 'seed'), tasks)

    def test_edits_in_turn_wait_for_each_other(self):
        tasks = costs.tasks_of([Check('low', 'edit', 0, 4, 0), Check('low', 'edit', 1, 2, 0), Check('low', 'sound', 0, 1, 0)])
        self.assertIn(('low', 'edit', 0), tasks['low', 'edit', 1].waits)
        self.assertNotIn(('low', 'seed'), tasks)

    def test_one_lane_takes_the_sum(self):
        self.assertEqual(costs.seconds_in_lanes(costs.tasks_of(CHECKS), 1), sum(it.seconds for it in CHECKS))

    def test_many_lanes_take_the_longest_chain(self):
        self.assertEqual(costs.seconds_in_lanes(costs.tasks_of(CHECKS), 9), 40)

    def test_two_lanes(self):
        # low's proof beside its seed to 10; then high's to 32, and beside it the proof and the tests of `tests` to 41; the edits come
        # last, from 32 to 36 and from 36 to 42, and then a look at the seed
        self.assertEqual(costs.seconds_in_lanes(costs.tasks_of(CHECKS), 2), 43)


class Table(unittest.TestCase):
    def test_row(self):
        row = tool.load('gate-costs').row('`low`', [it._replace(peak=2_500 << 20) for it in CHECKS[:5]])
        self.assertEqual(row, '| `low` | 10 |  | 10 | 2 | 10 | 2,500 |')

    def test_crates_without_a_row(self):
        page = '<!-- gate costs: so -->\n| `low` | 10 |\n<!-- end -->\n\n<!-- crates without a row -->\n%s<!-- end -->\n\n| `high` | 1 |\n'
        with_list = tool.load('gate-costs').with_list
        self.assertEqual(with_list(page % '`old`.\n', ['low', 'high', 'tests']), page % '`high`, `tests`.\n')
        self.assertEqual(with_list(page % '', ['low']), page % 'none.\n')


if __name__ == '__main__':
    unittest.main()
