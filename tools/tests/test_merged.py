"""Tests of tools/merged.py: which crates can be modules of one, how their sources look there, and which crates a run shows to pass."""
import os
import shutil
import sys
import tempfile
import unittest
from unittest import mock

sys.dont_write_bytecode = True
sys.path.insert(0, os.path.dirname(os.path.dirname(os.path.abspath(__file__))))
import merged
import program
import quick_checks
import repository

ROWS = {'low': 'low: url', 'one': 'one: low url', 'two': 'two: low hex', 'run': 'run: low', 'walk': 'walk: low'}
MODULE = '#![tactic(auto)]\n\n#[cfg(test)]\nmod rows;\n'
ROW = 'use crate::support::{self, check};\nuse low::Low;\n\n#[test]\nfn row() {}\n'
FILES = {
    'crates/low/src/lib.rt': 'pub struct Low;\n',
    'crates/one/src/lib.rt': '//! Tests of one.\n\n' + MODULE,
    'crates/one/src/rows.rt': ROW + '#[test]\nfn other() {}\n',
    'crates/two/src/lib.rt': '//! Tests of two.\n\n' + MODULE,
    'crates/two/src/rows/mod.rt': ROW,
    'crates/run/src/main.rt': '//! Runs.\n\n#![tactic(auto)]\n\nfn main(rt: HostRuntime) -> io::Result<()> {\n    Ok(())\n}\n',
    'crates/run/stdin': 'given\n',
    'crates/run/stdout': 'one\n',
    'crates/run/data/deep/file': 'text\n',
    'crates/walk/src/main.rt': '//! Walks.\n\n#![tactic(auto)]\n\nfn main(rt: HostRuntime) -> ExitCode {\n    ExitCode::from(3)\n}\n',
    'crates/walk/stdout': '',
    'crates/walk/args': '--flag\nword\n',
    'crates/walk/status': '3\n',
    'HANDLES': 'Handles allowed: none.\n',
}


class Case(unittest.TestCase):
    """Crates in a folder, which stand in the place of the repository's."""

    def setUp(self):
        self.room, self.top = tempfile.mkdtemp(), tempfile.mkdtemp()
        for it in (self.room, self.top):
            self.addCleanup(shutil.rmtree, it)
        for path, text in FILES.items():
            self.write(path, text)
        below = {it: ['low'] * (it != 'low') for it in ROWS}
        here = {'ROOT': self.room, 'CRATES': os.path.join(self.room, 'crates'), 'lines': lambda: ROWS, 'below': lambda: below}
        for name, value in here.items():
            patch = mock.patch.object(repository, name, value)
            patch.start()
            self.addCleanup(patch.stop)

    def write(self, path, text):
        merged.write(os.path.join(self.room, path), text)

    def read(self, path):
        with open(os.path.join(self.top, path), encoding='utf-8') as f:
            return f.read()


class Tests(Case):
    def test_a_crate_of_modules(self):
        made = merged.Tests(['one', 'two'])
        at, command = made.command_in(self.top)
        self.assertEqual((at, command), (os.path.join(self.top, 'crates', merged.NAME), ['rt', 'try', '--test']))
        self.assertEqual(self.read('crates.txt'), 'low: url\n%s: low url hex\n' % merged.NAME)
        self.assertEqual(self.read('HANDLES'), FILES['HANDLES'])
        self.assertEqual(self.read('crates/low/src/lib.rt'), FILES['crates/low/src/lib.rt'])
        src = os.path.join('crates', merged.NAME, 'src')
        self.assertTrue(self.read(os.path.join(src, 'lib.rt')).endswith('\n#![tactic(auto)]\n\nmod one;\nmod two;\n'))
        self.assertEqual(self.read(os.path.join(src, 'one', 'mod.rt')), FILES['crates/one/src/lib.rt'].replace('#![tactic(auto)]', ''))
        self.assertEqual(self.read(os.path.join(src, 'two', 'rows', 'mod.rt')), ROW.replace('crate::', 'crate::two::'))

    def test_which_pass(self):
        made = merged.Tests(['one', 'two'])
        lines = ['tests: 3\n', *('test %s ... ok\n' % it for it in ('one::rows::row', 'one::rows::other', 'two::rows::row'))]
        said, of_one, failed = ''.join(lines), ''.join(lines[:-1]), lines[-1].replace('ok', 'FAILED')
        for status, out, wanted in [(0, said, ['one', 'two']), (1, of_one + failed, ['one']), (4, of_one, ['one']),
                                    (0, ''.join(lines[:2]), []), (1, said, []), (1, '', [])]:
            with self.subTest(status=status, out=out):
                self.assertEqual(made.passed(status, out, ''), wanted)

    def test_forms_that_do_not_fit(self):
        for path, text in [('rows.rt', 'fn f() { crate::support::f() }\n'), ('rows.rt', '#[path = "a.rt"]\nmod a;\n'),
                           ('rows.rt', 'macro_rules! m { () => {} }\n'), ('lib.rt', '#![no_std]\n'), ('rows.rt', 'use hex::encode;\n'),
                           ('rows.rt', 'fn f() { two::f() }\n'), ('rows.rt', '// crate::support\n')]:
            with self.subTest(text):
                self.write('crates/one/src/' + path, text)
                self.assertEqual(merged.Tests(['one', 'two']).crates, ['two'])
                self.write('crates/one/src/' + path, FILES['crates/one/src/' + path])

    def test_a_comment_may_name_a_library(self):
        self.write('crates/one/src/rows.rt', '// as hex::encode does\n' + ROW)
        self.assertEqual(merged.Tests(['one']).crates, ['one'])


class Programs(Case):
    def test_a_program_of_programs(self):
        made = merged.Programs(['run', 'walk'])
        at, command = made.command_in(self.top)
        cases = os.path.join(self.top, 'cases')
        file = os.path.join(self.room, 'crates', 'run', 'data', 'deep', 'file')
        self.assertEqual(command, ['rt', 'try', '--cases', cases, '--data', 'deep/file=' + file])
        self.assertEqual({it: self.read(os.path.join(cases, it)) for it in os.listdir(cases)},
                         {'run': 'run\ngiven\n', 'run.stdout': 'one\n', 'walk': 'walk\n', 'walk.stdout': '', 'walk.args': '--flag\nword\n'})
        text = self.read(os.path.join(at, 'src', 'main.rt'))
        self.assertIn('        "run" => status_of(run::main(rt)),\n        "walk" => walk::main(rt),\n', text)
        self.assertIn('pub fn main(rt: HostRuntime) -> io::Result<()> {', self.read(os.path.join(at, 'src', 'run', 'mod.rt')))

    def test_which_pass(self):
        made = merged.Programs(['run', 'walk'])
        line = 'case=%s run=ended status=%d runners=2 output=%s proved=no\n'
        for run, walk, wanted in [((0, 'expected'), (3, 'expected'), ['run', 'walk']), ((0, 'differs'), (3, 'expected'), ['walk']),
                                  ((1, 'expected'), (0, 'expected'), []), ((0, 'expected'), (125, 'expected'), ['run'])]:
            with self.subTest(run=run, walk=walk):
                self.assertEqual(made.passed(0, '', line % ('run', *run) + line % ('walk', *walk)), wanted)
        self.assertEqual(made.passed(6, '', 'case=run run=none proved=no\n'), [])

    def test_programs_that_do_not_fit(self):
        self.write('crates/walk/data/deep/file', 'other\n')
        self.assertEqual(merged.Programs(['run', 'walk']).crates, ['run'])
        self.write('crates/run/src/main.rt', 'fn main(rt: HostRuntime) -> Result<(), MyError> {\n}\n')
        self.assertEqual(merged.Programs(['run', 'walk']).crates, ['walk'])


class Repository(unittest.TestCase):
    def test_most_crates_are_compiled_as_one(self):
        """Each that is not takes a minute or two of its own in tools/test."""
        crates = list(repository.lines())
        programs, tested = [it for it in crates if program.is_program(it)], [it for it in crates if quick_checks.has_tests(it)]
        alone = set(programs) - set(merged.Programs(programs).crates) | set(tested) - set(merged.Tests(tested).crates)
        self.assertLessEqual(len(alone), 4, sorted(alone))


if __name__ == '__main__':
    unittest.main()
