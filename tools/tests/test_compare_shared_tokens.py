"""Tests of tools/compare-shared-tokens: rows of its model, by the README.md of oauth2_shared_token; that its judge refuses runs that break
a law; and that its runs show a program that is wrong, and a law that the program and the model break alike."""
import contextlib
import io
import sys
import unittest
from unittest import mock

import tool

sys.path.insert(0, tool.TOOLS)
import shared_token_model as model  # noqa: E402, of the folder above
import shared_token_scripts as scripts  # noqa: E402

TOOL = tool.load('compare-shared-tokens')

# Runs, and what has to be printed of them: a renewal from its look to its end; a lost reply to its mark, and to what it keeps; in use; its
# mark given back; a login over a mark and a logout; a mark that comes too late.
ROWS = [
    ('l0 d0 a0 d0', '0:mark.0.0|0=0 0:send.0.0|1=0*0 0:keep.0.1|1=0*0 0:end|2=1'),
    ('l4 x4 l4', '4:mark.0.0|0=0 4:look|1=0*4 4:send.0.0|1=0*4'),
    ('l0 d0 a0 x0 d0', '0:mark.0.0|0=0 0:send.0.0|1=0*0 0:keep.0.1|1=0*0 0:repeat|2=1 0:repeat|2=1'),
    ('l0 d0 l1 n0', '0:mark.0.0|0=0 0:send.0.0|1=0*0 1:use.0.0|1=0*0 0:end|1=0*0'),
    ('l0 x0 s0 l0 d0', '0:mark.0.0|0=0 0:look|1=0*0 0:look|1=0*0 0:back.0.0|1=0*0 0:end|2=0'),
    ('l0 d0 i q l1', '0:mark.0.0|0=0 0:send.0.0|1=0*0 2=1 3=- 1:out|3=-'),
    ('l0 n0 g t0 l0', '0:mark.0.0|0=0 0:look|0=0 1=1 1=1 0:end|1=1'),
    ('d0 a0 t0 i w o0.1 z', '? ? ? ? ? ? ?'),
]
# Runs that no program may print, each with the law that it breaks: a token that two renewals send; another token in the place of the
# one that was allowed again; a version that is left out; the old token in the place of the one that the server gave; a logout that keeps
# the token.
BROKEN = [
    ('l0 l1 d0 d1', '0:mark.0.0|0=0 1:mark.0.0|0=0 0:send.0.0|1=0*0 1:send.0.0|1=0*0', 'EachSendingWasStored'),
    ('l0 d0 w', '0:mark.0.0|0=0 0:send.0.0|1=0*0 2=1', 'WhatIsStoredIsTheNewest'),
    ('l0 d0 i', '0:mark.0.0|0=0 0:send.0.0|1=0*0 3=1', 'WhatIsStoredIsTheNewest'),
    ('l0 d0 a0 d0', '0:mark.0.0|0=0 0:send.0.0|1=0*0 0:back.0.0|1=0*0 0:end|2=0', 'NoneIsLostUntold'),
    ('q', '1=0', 'WhatIsStoredIsTheNewest'),
]


# Words, and what the command `shared_keeper` has to print of them but for the lines of requests: a renewal is killed, and a lost reply.
SCRIPTS = [
    ('l0 d0 l2 l1', ['load 0 rest "r0"', 'replace 0 mark 0 "r0" done', 'killed', 'load 1 mark 0 "r0"', 'in_use 0 "r0"', 'load 1 mark 0 "r0"',
                     'in_use 0 "r0"']),
    ('l0 x0 l0 s0', ['load 0 rest "r0"', 'replace 0 mark 0 "r0" lost', 'load 1 mark 0 "r0"', 'stopped', 'over']),
]


def printed(edit):
    """What takes the place of a run of the program: the model, and an edit of what it prints of a run."""
    return lambda _, lines: [edit(model.run(line)).split(' ') for line in lines]


class SharedTokens(unittest.TestCase):
    def test_rows_of_the_model(self):
        for words, items in ROWS:
            self.assertEqual(model.run(words), items)
            self.assertEqual(model.broken_laws(words, items), [])

    def test_rows_of_scripts(self):
        for words, lines in SCRIPTS:
            run = scripts.run_of(words.split(), 2)
            self.assertEqual([line.split(' ', 2)[2] for line in run.output() if line.startswith('keeper ')], lines)

    def test_a_script_that_prints_something_else(self):
        words = ['l0', 'd0']
        right = scripts.run_of(words, 2).output()
        for lines, status, count in ((right[:-1], 0, 0), (right[:-1], 1, 1), ([], 0, 1), ([], -6, 1)):
            comparison = TOOL.Comparison('')
            ended = TOOL.program.Run(status, ''.join(it + '\n' for it in lines).encode(), b'')
            with mock.patch.object(TOOL.program, 'runs', lambda _, given, ended=ended: [ended for _ in given]):
                TOOL.compare_scripts(comparison, [(words, 2)])
            self.assertEqual(sum(comparison.differences.values()), count)

    def test_a_copy_goes_its_own_way(self):
        fleet = model.Fleet()
        fleet.apply('l0')
        other = fleet.copy()
        self.assertEqual(other.state(), fleet.state())
        self.assertEqual(other.apply('d0'), '0:send.0.0|1=0*0')
        self.assertNotEqual(other.state(), fleet.state())
        self.assertEqual(fleet.apply('q'), '1=-')

    def test_runs_that_break_a_law(self):
        for words, items, law in BROKEN:
            self.assertEqual(model.broken_laws(words, items), [law], items)

    def compared(self, told, states=150, runs=60):
        """What was compared with such a program, and what was printed."""
        comparison, said = TOOL.Comparison('/program'), io.StringIO()
        with mock.patch.object(TOOL, 'told', told), contextlib.redirect_stdout(said):
            TOOL.walk(comparison, states)
            TOOL.random_runs(comparison, runs, 1)
            is_fine = comparison.summed()
        return is_fine, comparison, said.getvalue().splitlines()

    def test_a_program_that_is_right(self):
        is_fine, comparison, said = self.compared(printed(lambda items: items))
        self.assertTrue(is_fine)
        self.assertGreater(comparison.transitions, 1500)
        self.assertEqual(said[-1], '150 states, %d transitions, 60 runs, 0 broken laws, 0 differences' % comparison.transitions)

    def test_a_program_that_is_wrong(self):
        for old, new in (('repeat', 'end'), ('?', '0=0'), ('2=1', '2=0'), (' ', '  '), ('=-', '=0'), ('0:use.1.', '0:use.0.')):
            is_fine, comparison, said = self.compared(printed(lambda items, old=old, new=new: items.replace(old, new)))
            self.assertFalse(is_fine)
            self.assertRegex(said[-1], r' runs, \d+ broken laws, [1-9]\d* differences$')

    def test_a_program_that_breaks_a_law_alone(self):
        _, comparison, _ = self.compared(printed(lambda items: items.replace('=-', '=0')))
        self.assertIn('WhatIsStoredIsTheNewest', comparison.broken)

    def test_a_program_that_stops_or_says_more(self):
        self.assertFalse(self.compared(lambda _, lines: [[TOOL.NOTHING]] * len(lines), 10, 10)[0])
        self.assertFalse(self.compared(printed(lambda items: items + ' 0=0'), 10, 10)[0])

    def test_a_law_that_both_break(self):
        """Told nothing of its mark, a renewal sends; and it gives the old token back when it was given one."""
        def nothing(own, stop):
            return model.Renewal('send', own.first, own.second) if own.step == 'mark' and not stop else right(own, stop)

        def nothing_kept(own, stop):
            version = own.asked.version if own.step == 'keep' else 0
            old = model.Renewal('back', version - 1, 0, model.Request(version, model.Value(0, None)))
            return old if own.step == 'keep' and not stop else right(own, stop)
        right = model.after_nothing
        for wrong, law in ((nothing, 'EachSendingWasStored'), (nothing_kept, 'NoneIsLostUntold')):
            with mock.patch.object(model, 'after_nothing', wrong):
                is_fine, comparison, said = self.compared(printed(lambda items: items))
            self.assertFalse(is_fine)
            self.assertIn(law, comparison.broken)
            self.assertRegex(said[-1], r' runs, [1-9]\d* broken laws, 0 differences$')

    def test_the_end_of_the_walk(self):
        """With one renewal each, and no callers, all states are gone through."""
        with mock.patch.object(TOOL, 'KEEPERS', ((0,), (1,))), mock.patch.object(TOOL, 'OF_CALLERS', ''):
            _, comparison, said = self.compared(printed(lambda items: items), None, 0)
        self.assertFalse(any('not gone on from' in line for line in said))
        self.assertGreater(comparison.states, 400)


if __name__ == '__main__':
    unittest.main()
