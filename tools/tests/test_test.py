"""Tests of tools/test: which parts the gate has, in which order, and that none runs after one in which something failed."""
import contextlib
import io
import json
import os
import sys
import tempfile
import unittest
from unittest import mock

import tool

sys.path.insert(0, tool.TOOLS)
test = tool.load('test')

# The gate's parts, and the functions of tools/test that run them.
PARTS = {'pages and tools': 'quick', 'rt ci': 'gate', 'tools/stored-scripts': 'scripts', 'tools/refusals': 'refusals',
         'tools/try-c-examples': 'c_examples', 'tools/readme': 'readme'}


def gate(failing=None):
    """What the gate's parts come to if this one fails: the counts, which parts ran, what is recorded, and what is printed."""
    ran, said = [], io.StringIO()

    def part(name):
        def run(*_):
            ran.append(name)
            return (2, 1) if PARTS[name] == failing else (3, 0)
        return run
    with tempfile.TemporaryDirectory() as room, contextlib.ExitStack() as stack, contextlib.redirect_stdout(said), \
            contextlib.redirect_stderr(io.StringIO()):
        stack.enter_context(mock.patch.dict(os.environ))
        stack.enter_context(mock.patch.object(test.quick_checks, 'run', part('pages and tools')))
        for name in list(PARTS)[1:]:
            stack.enter_context(mock.patch.object(test, PARTS[name], part(name)))
        log = os.path.join(room, 'gate.jsonl')
        counts = test.proved(log)
        with open(log) as f:
            lines = [json.loads(line) for line in f]
    return counts, ran, [it['part'] for it in lines if 'part' in it], said.getvalue()


class Gate(unittest.TestCase):
    def test_parts(self):
        counts, ran, recorded, said = gate()
        self.assertEqual((counts, ran, recorded, said), ((18, 0), list(PARTS), list(PARTS), ''))

    def test_a_part_that_fails(self):
        counts, ran, recorded, said = gate('refusals')
        self.assertEqual((counts, ran, recorded), ((11, 1), list(PARTS)[:4], list(PARTS)[:4]))
        self.assertEqual(said, ''.join('tools/test: %s is not run, since something failed before it\n' % it for it in list(PARTS)[4:]))

    def test_scripts_run_by_both_builds(self):
        with mock.patch.object(test, 'counts_of') as counts:
            test.scripts()
        (command,), _ = counts.call_args
        self.assertEqual(command[1:], ['--program', test.program.PROGRAM, '--program', test.program.PROGRAM + '.by-rattle'])

    def test_readme_is_one_check(self):
        with mock.patch.object(test.quick_checks, 'run') as run:
            test.readme()
        (checks, lanes), _ = run.call_args
        self.assertEqual(([it.name for it in checks], lanes), (['tools/readme'], 1))


if __name__ == '__main__':
    unittest.main()
