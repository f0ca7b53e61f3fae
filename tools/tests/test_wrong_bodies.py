"""Tests of tools/wrong-bodies: what it reads, judges, keeps and takes, with no prover. A small `rt` of their own plays the kit's."""
import contextlib
import io
import json
import os
import shutil
import subprocess
import sys
import tempfile
import types
import unittest
import unittest.mock

sys.dont_write_bytecode = True
TOOLS = os.path.dirname(os.path.dirname(os.path.abspath(__file__)))
sys.path.insert(0, TOOLS)
import edits
import kept
import repository

LOW = 'pub fn one() -> u32 {\n    1\n}\n\npub fn two() -> u32 {\n    2\n}\n'
FILES = {
    'crates.txt': 'low: url\nmiddle: low url\nother: url\n',
    'HANDLES': 'Handles allowed: none.\n',
    '.gitignore': 'out/\n',
    'crates/low/src/lib.rt': LOW,
    'crates/low/specs/Low.antt': 'spec',
    'crates/low/proofs/Low.antt': 'proof',
    'crates/low/wrong-bodies/one.edit': 'file: src/lib.rt\nold:     1\nnew:     wrong\n',
    'crates/low/wrong-bodies/two.edit': 'file: src/lib.rt\nold:     2\nnew:     wrong\n',
    'crates/low/must-fail/late.edit': 'file: src/lib.rt\nold:     2\nnew:     wrong wrong\n',
    'crates/middle/src/lib.rt': 'pub fn three() -> u32 {\n    3\n}\n',
    'crates/middle/wrong-bodies/three.edit': 'file: src/lib.rt\nold:     3\nnew:     wrong\n',
    'crates/other/src/lib.rt': 'pub fn four() -> u32 {\n    4\n}\n',
}
# A kit whose check proves each function but those with the word wrong in it, and whose libraries are a file each.
KIT = r'''#!/usr/bin/env python3
import os, re, sys, types
KIT = os.path.dirname(os.path.dirname(os.path.realpath(__file__)))
rtlib = types.SimpleNamespace()
class Crate:
    allowed = ()
    def __init__(self, folder):
        self.folder, self.name = folder, os.path.basename(folder)
    def is_built(self):
        return os.path.isfile(self.folder + '/out/rlib/stamp')
    def stamp(self):
        return 'stamp'
class Kept:
    def __init__(self, crates): pass
    def key(self, crate): return crate.name
    def is_built(self, crate): pass
    def give(self, crate, tests, key):
        os.makedirs(crate.folder + '/out/rlib', exist_ok=True)
        return os.path.isfile(KIT + '/kept-' + key)
def handles_of(root): return ()
def crates_below(folder):
    root = os.path.dirname(os.path.dirname(folder))
    names = [line.split(':')[0] for line in open(root + '/crates.txt')]
    return [Crate(root + '/crates/' + it) for it in names]
rtlib.crates_below = crates_below
def check():
    here, says, status = Crate(os.getcwd()), [], 0
    with open(KIT + '/checks', 'a') as log:
        log.write(here.name + ' ' + str(open('src/lib.rt').read().count('wrong')) + '\n')
    for it in crates_below(here.folder)[:-1] * (here.name == 'middle'):
        if not it.is_built():
            print('src/lib.rt:1:1: error: a goal of the library\nfn low::one: not proved\nlogic=not-proved')
            print('rt: the library low did not build, so nothing above it was checked')
            return 1
    for name, body in re.findall(r'(?ms)^pub fn (\w+).*?\{\n(.*?)^\}', open('src/lib.rt').read()):
        if 'wrong' in body:
            says += ['src/lib.rt:2:5: error: the goal of ' + name, 'fn %s::%s: not proved' % (here.name, name)]
            status = 1
        else:
            says += ['fn %s::%s: proved' % (here.name, name)]
    print('\n'.join(says + ['logic=' + ('not-proved' if status else 'proved')]))
    return status
if __name__ == '__main__':
    if sys.argv[1] == 'doc':
        print(KIT + '/START-HERE.md')
    elif sys.argv[1] == 'version':
        print(open(KIT + '/sum').read())
    else:
        sys.exit(check())
'''


def write(root, file, text):
    path = os.path.join(root, file)
    os.makedirs(os.path.dirname(path), exist_ok=True)
    with open(path, 'w', encoding='utf-8') as f:
        f.write(text)


def git(root, *words):
    subprocess.run(['git', '-C', root, '-c', 'user.name=t', '-c', 'user.email=t@localhost', *words], check=True, stdout=subprocess.DEVNULL)


class InAFolder(unittest.TestCase):
    """A test with a small repository in a folder that goes with it."""

    def setUp(self):
        self.top = tempfile.mkdtemp(prefix='lifecrib-test-')
        self.addCleanup(shutil.rmtree, self.top)
        self.root = os.path.join(self.top, 'repository')
        for file, text in FILES.items():
            write(self.root, file, text)

    def committed(self):
        git(self.root, 'init', '-q')
        git(self.root, 'add', '-A')
        git(self.root, 'commit', '-qm', 'first')


class Reading(InAFolder):
    """What an edit changes."""

    def edited(self, text):
        return edits.edited(text, os.path.join(self.root, 'crates', 'low'))

    def test_pairs_are_made_in_their_order(self):
        text = 'file: src/lib.rt\nold:     1\nnew:     7\nold:     2\nnew:\n'
        self.assertEqual(self.edited(text), {'src/lib.rt': LOW.replace('    1', '    7').replace('    2', '')})

    def test_what_cannot_be_made_says_why(self):
        rows = [
            ('', 'it changes nothing'),
            ('file: specs/Low.antt\nold: spec\nnew: x\n', 'specs/Low.antt is no file of src/'),
            ('file: src/../specs/Low.antt\n', 'src/../specs/Low.antt is no file of src/'),
            ('file: src/none.rt\nold: a\nnew: b\n', 'there is no file src/none.rt'),
            ('old: 1\nnew: 2\n', 'a new text with no file or no old text before it'),
            ('file: src/lib.rt\nnew: 2\n', 'a new text with no file or no old text before it'),
            ('file: src/lib.rt\nold: u32\nnew: u8\n', 'src/lib.rt has its old text 2 times: u32'),
            ('file: src/lib.rt\nold: u64\nnew: u8\n', 'src/lib.rt has its old text 0 times: u64'),
        ]
        for text, why in rows:
            with self.subTest(text), self.assertRaises(ValueError) as raised:
                self.edited(text)
            self.assertEqual(str(raised.exception), why)

    def test_an_edit_knows_its_function(self):
        folder, functions = os.path.join(self.root, 'crates', 'low'), ['low::one', 'low::two']
        made = edits.Edit('x/one.edit', FILES['crates/low/wrong-bodies/one.edit'], folder, functions)
        self.assertEqual((made.name, made.functions, made.lines), ('one', {'low::one'}, {('src/lib.rt', 1): '    wrong'}))
        self.assertEqual(edits.Edit('x/one.edit', FILES['crates/low/wrong-bodies/one.edit'], folder, []).functions, set())


class Methods(unittest.TestCase):
    """The verdicts' names of methods."""

    def test_words_of_an_impl(self):
        self.assertEqual(edits.words_of('impl Form '), {'Form'})
        self.assertEqual(edits.words_of('impl<T: Copy> fmt::Debug for Form<T> where T: Eq '), {'FormDebug'})
        self.assertEqual(edits.words_of('impl PartialEq<Pair> for Form '), {'FormPartialEq', 'FormPartialEqPair'})

    def test_a_method_is_told_by_its_impl(self):
        functions = ['low::form::Form::new', 'low::form::Pair::new', 'low::new']
        self.assertEqual(edits.function_named(functions, 'low', 'src/form.rt', 'impl Pair ', 'new'), 'low::form::Pair::new')
        self.assertIsNone(edits.function_named(functions, 'low', 'src/form.rt', 'impl Other ', 'new'))


class Stand:
    """An edit as far as rounds read it."""

    def __init__(self, functions, lines, apart=()):
        self.functions, self.lines, self.apart = set(functions), dict.fromkeys(lines), set(apart)
        self.spans = {(file, line, line) for file, line in lines}

    goes_with = edits.Edit.goes_with


class Rounds(unittest.TestCase):
    """Which edits one check tries, and what it says of each."""

    def test_one_of_each_function(self):
        a, same, b, none = Stand('f', [('x', 1)]), Stand('f', [('x', 2)]), Stand('g', [('x', 3)]), Stand('', [('x', 4)])
        self.assertEqual(edits.next_round([a, same, b, none]), [a, b])
        self.assertEqual(edits.next_round([same, none]), [same])

    def test_no_line_twice_and_none_that_are_kept_apart(self):
        a, line, apart = Stand('f', [('x', 1)]), Stand('g', [('x', 1)]), Stand('h', [('x', 2)], apart='f')
        self.assertEqual(edits.next_round([a, line, apart]), [a])
        self.assertEqual(edits.next_round([apart, a]), [apart])

    def test_who_waits_for_a_refused_function_is_kept_apart(self):
        low, high = Stand('f', [('x', 1)]), Stand('g', [('x', 2)])
        said = 'src/x.rt:1:1: error: a goal\nfn f: not proved\nfn g: no proof: it calls `f`, which is not proved\n'
        self.assertEqual(edits.judged_in_round([low, high], said), {low: (edits.REFUSED, 'src/x.rt:1:1: error: a goal')})
        self.assertEqual(high.apart, {'f'})

    def test_each_edit_is_found_once_or_left(self):
        low, high, proved, other = [Stand(it, [('x', number)]) for number, it in enumerate('fghk')]
        nowhere, rounds, found = Stand('', [('x', 9)]), [], []

        def tries(batch, number):
            rounds.append(batch)
            return 1, ('src/x.rt:1:1: error: low\nfn f: not proved\nfn g: no proof: it calls `f`, which is not proved\nfn h: proved\n'
                       'src/x.rt:5:1: error: other\nfn k: not proved\n')
        left = edits.in_rounds([low, high, proved, nowhere, other], tries, lambda edit, *it: found.append(edit))
        # high waits for a round without low, and is alone in that one
        self.assertEqual((rounds, found, left), ([[low, high, proved, other]], [low, other], [high, proved, nowhere]))

    def test_a_round_that_did_not_compile_goes_on_without_the_edit_to_blame(self):
        a, b, c = Stand('f', [('src/x.rt', 1)]), Stand('g', [('src/x.rt', 5)]), Stand('h', [('src/x.rt', 9)])
        batches, found = [], []

        def tries(batch, number):
            batches.append(batch)
            return 1, 'src/x.rt:6:3: error[E]: no such name\n' if b in batch else ''.join(
                'src/x.rt:1:1: error: goal\nfn %s: not proved\n' % it for one in batch for it in one.functions)
        self.assertEqual(edits.in_rounds([a, b, c], tries, lambda edit, *it: found.append(edit)), [b])
        self.assertEqual((batches, found), ([[a, b, c], [a, c]], [a, c]))


class Judging(unittest.TestCase):
    """What a check says of an edit that was tried alone."""

    def test_verdicts(self):
        goal = 'src/x.rt:3:5: error: a goal\n'
        rows = [
            (0, 'logic=proved', edits.PASSED),
            (1, goal + 'fn a: not proved\nlogic=not-proved\n', edits.REFUSED),
            (1, 'fn a: not proved\nlogic=not-proved\n', edits.REFUSED),
            (1, 'logic=not-proved\n', edits.BAD),
            (1, 'src/x.rt:3:5: error[E]: no such function\n', edits.BAD),
            (1, 'proofs/a/Answers.antt:3:5: error: `x` is not in scope\nlogic=not-proved\n', edits.BAD),
            (1, 'src/x.rt:3:5: error: `x` is not in scope\nlogic=not-proved\n', edits.BAD),
            (3, 'rattle: no verdict: the step limit\n', edits.BAD),
            (-9, goal + 'logic=not-proved\n', edits.BAD),
            (137, goal + 'logic=not-proved\n', edits.BAD),
        ]
        for status, said, verdict in rows:
            with self.subTest(said):
                self.assertEqual(edits.judged(status, said)[0], verdict)

    def test_a_stored_proof_speaks_of_its_own_function(self):
        gone = './proofs/x/b/Answers.antt:3:5: error: record `R` (nearest: .c)\n  has no field `d`\n'
        lemma = './proofs/Lemmas.antt:3:5: error: two types differ\n'
        said = gone + lemma + 'fn low::x::a: proved\nsrc/x.rt:9:1: note: it is not proved that a goal holds\nfn low::x::c: not proved\n'
        said += 'fn low::x::b: not proved\nlogic=not-proved\n'
        found = edits.verdicts(said)
        self.assertEqual([found[it][1] for it in ('low::x::a', 'low::x::c')],
                         [[], ['src/x.rt:9:1: note: it is not proved that a goal holds']])
        self.assertEqual(len(found['low::x::b'][1]), 1)
        self.assertEqual(edits.judged_by(found['low::x::b'][1])[0], edits.BAD)

    def test_an_edit_that_only_answers_stop_is_judged_by_its_clauses(self):
        gone = 'proofs/x/b/Answers.antt:3:5: error: record `R`\n  has no field `d`\nfn low::x::b: not proved\nlogic=not-proved\n'
        needs = 'src/x.rt:3:1: note: it is not proved that a clause holds (`returns`)\nlogic=not-proved\n'
        other = needs.replace('returns', 'loop')
        rows = [(needs, edits.BAD), (needs + other, edits.REFUSED)]
        for without, verdict in rows:
            answers = {(True, False): gone, (False, True): needs, (True, True): without}
            def tried(room, crate, made, jobs, log, left_out=()):
                self.assertLessEqual(set(left_out), {'proofs/x/b/Answers.antt'})
                return 1, answers[bool(made), bool(left_out)]
            with self.subTest(verdict), unittest.mock.patch.object(edits, 'tried', tried):
                self.assertEqual(edits.tried_alone('room', 'low', types.SimpleNamespace(name='b'), lambda name: None)[0], verdict)

    def test_a_missing_library_refuses_nothing(self):
        goal = 'src/x.rt:3:5: error: a goal of the library\nfn low::a: not proved\nlogic=not-proved\n'
        for line in ('rt: the library low did not build, so nothing above it was checked',
                     'rt: the kept work of low cannot be used: remove x/out, and run this again',
                     'error: module `Rattle-low-specs` is old. Run the lower steps again'):
            with self.subTest(line), self.assertRaises(edits.NoLibrary):
                edits.of_the_crate(1, goal + line + '\n')
        killed = edits.of_the_crate(1, 'rt: killed again: once more, over libraries built from nothing\n' + goal)
        self.assertEqual(edits.judged(*killed)[0], edits.BAD)
        self.assertEqual(edits.of_the_crate(1, goal), (1, goal))


class Changed(InAFolder):
    """Which crates differ from a revision, and which sums."""

    def test_crates_that_differ_from_a_revision(self):
        self.committed()
        parts, changed = repository.PARTS + ('wrong-bodies',), lambda: repository.changed('HEAD', parts, self.root)
        self.assertEqual(changed(), [])
        write(self.root, 'crates/low/must-fail/late.edit', 'changed')
        write(self.root, 'crates/low/out/made', 'new')
        write(self.root, 'crates/low/stdin', 'new')
        self.assertEqual(changed(), [])
        self.assertEqual(repository.changed('HEAD', parts + ('must-fail',), self.root), ['low'])
        write(self.root, 'crates/other/specs/new.antt', 'untracked')
        self.assertEqual(changed(), ['other'])
        git(self.root, 'mv', 'crates/low/wrong-bodies/one.edit', 'crates/middle/wrong-bodies/one.edit')
        self.assertEqual(changed(), ['low', 'middle', 'other'])
        git(self.root, 'add', '-A')
        git(self.root, 'commit', '-qm', 'second')
        self.assertEqual(changed(), [])
        self.assertEqual(repository.changed('HEAD~1', parts, self.root), ['low', 'middle', 'other'])

    def test_a_line_of_the_list_counts_and_a_comment_does_not(self):
        self.committed()
        write(self.root, 'crates.txt', FILES['crates.txt'].replace('other: url', 'other: url json').replace('low url', 'low url  # why'))
        self.assertEqual(repository.changed('HEAD', root=self.root), ['other'])

    def test_no_such_revision(self):
        self.committed()
        for base in ('nothing', '--output=x'):
            with self.assertRaisesRegex(ValueError, base):
                repository.changed(base, root=self.root)

    def test_a_sum_is_of_the_crate_and_those_below(self):
        sums = lambda: {it: repository.sum_of_sources(it, self.root) for it in ('low', 'middle', 'other')}
        before = sums()
        self.assertEqual(before, sums())
        rows = [('crates/low/src/lib.rt', {'low', 'middle'}), ('crates/low/specs/Low.antt', {'low', 'middle'}),
                ('crates/low/proofs/deep/new.antt', {'low', 'middle'}), ('crates/middle/src/lib.rt', {'middle'}),
                ('crates/low/wrong-bodies/one.edit', set()), ('crates/low/out/made', set()), ('HANDLES', set())]
        for file, differ in rows:
            with self.subTest(file):
                write(self.root, file, 'other text')
                after = sums()
                self.assertEqual({it for it in after if after[it] != before[it]}, differ)
                before = after
        write(self.root, 'crates.txt', FILES['crates.txt'].replace('low: url', 'low: url json'))
        self.assertEqual({it for it, one in sums().items() if one != before[it]}, {'low', 'middle'})

    def test_a_copy_has_the_same_sum(self):
        with repository.copy('middle', keeps=True, root=self.root) as room:
            self.assertEqual(repository.sum_of_sources('middle', room), repository.sum_of_sources('middle', self.root))
            with repository.copy('middle', keeps=True, root=room) as other:
                self.assertEqual(repository.sum_of_sources('middle', other), repository.sum_of_sources('middle', self.root))


class Results(InAFolder):
    """The kept results."""

    def setUp(self):
        super().setUp()
        self.folder = os.path.join(self.top, 'results')

    def test_what_is_kept_is_found_by_its_sum(self):
        results = kept.Results(self.folder)
        self.assertIsNone(results.refused('a'))
        results.keep('a', 'src/x.rt:1:1: error: a goal')
        self.assertEqual(kept.Results(self.folder).refused('a'), 'src/x.rt:1:1: error: a goal')
        self.assertIsNone(results.refused('b'))
        self.assertIsNone(kept.Results(self.folder, anew=True).refused('a'))
        self.assertEqual(os.stat(self.folder).st_mode & 0o777, 0o700)
        self.assertEqual(os.listdir(self.folder), ['a'])

    def test_a_damaged_result_is_none(self):
        results = kept.Results(self.folder)
        for text in ('', '{', '[]', '{"sum": "b", "goal": "x"}', '{"sum": "a"}', json.dumps({'sum': 'a', 'goal': None})):
            write(self.folder, 'a', text)
            self.assertIsNone(results.refused('a'), text)

    def test_without_a_folder_nothing_is_kept(self):
        write(self.top, 'results', 'a file')
        with contextlib.redirect_stderr(io.StringIO()) as said:
            results = kept.Results(self.folder)
        self.assertIn('results are not kept', said.getvalue())
        results.keep('a', 'goal')
        self.assertIsNone(results.refused('a'))
        results.shrink()

    def test_the_results_that_were_not_used_go_first(self):
        results = kept.Results(self.folder)
        for number, name in enumerate(['a', 'b', 'c', 'new-cut']):
            results.keep(name, 'goal')
            os.utime(os.path.join(self.folder, name), (number, number))
        self.assertEqual(results.refused('a'), 'goal')
        results.shrink(most=2)
        self.assertEqual(sorted(os.listdir(self.folder)), ['a', 'c'])


class Whole(InAFolder):
    """Whole runs of the tool in a small repository, with a kit that proves by a word."""

    def setUp(self):
        super().setUp()
        self.committed()
        for name in ('wrong-bodies', 'edits.py', 'kept.py', 'machine.py', 'repository.py'):
            os.makedirs(os.path.join(self.root, 'tools'), exist_ok=True)
            shutil.copy(os.path.join(TOOLS, name), os.path.join(self.root, 'tools'))
        self.kit = os.path.join(self.top, 'kit')
        write(self.kit, 'bin/rt', KIT)
        write(self.kit, 'sum', 'first')
        os.chmod(os.path.join(self.kit, 'bin', 'rt'), 0o755)

    def run_tool(self, *words):
        """The exit status, the lines that it printed, and the checks that it made: the crate, and how many wrong words it had."""
        log = os.path.join(self.kit, 'checks')
        write(self.kit, 'checks', '')
        path = os.path.join(self.kit, 'bin') + os.pathsep + os.environ['PATH']
        run = subprocess.run([sys.executable, os.path.join(self.root, 'tools', 'wrong-bodies'), '--jobs', '1', *words], text=True,
                             stdout=subprocess.PIPE, stderr=subprocess.STDOUT, env={**os.environ, 'PATH': path})
        with open(log) as f:
            return run.returncode, run.stdout.splitlines(), f.read().splitlines()

    def test_a_second_run_tries_nothing(self):
        status, said, checks = self.run_tool('low')
        self.assertEqual((status, said[-1]), (0, '2 refused (0 of them kept), 0 not refused, 0 bad'))
        self.assertEqual(checks, ['low 0', 'low 2'])
        status, said, checks = self.run_tool('low')
        self.assertEqual((status, said[-1], checks), (0, '2 refused (2 of them kept), 0 not refused, 0 bad', []))
        self.assertEqual(said[0], 'low/wrong-bodies/one.edit: refused (kept): src/lib.rt:2:5: error: the goal of one')
        self.assertEqual(self.run_tool('--anew', 'low')[2], ['low 0', 'low 2'])

    def test_what_changed_is_tried_again(self):
        self.run_tool('low')
        write(self.root, 'crates/low/wrong-bodies/one.edit', FILES['crates/low/wrong-bodies/one.edit'].replace('wrong', 'more wrong'))
        self.assertEqual(self.run_tool('low')[1:], (
            ['low/wrong-bodies/two.edit: refused (kept): src/lib.rt:2:5: error: the goal of two',
             'low/wrong-bodies/one.edit: refused: src/lib.rt:2:5: error: the goal of one',
             '2 refused (1 of them kept), 0 not refused, 0 bad'], ['low 0', 'low 1']))
        write(self.root, 'crates/low/src/lib.rt', LOW + '\n')
        self.assertEqual(self.run_tool('low')[2], ['low 0', 'low 2'])
        write(self.root, 'crates/low/src/lib.rt', LOW)
        self.assertEqual(self.run_tool('low')[2], [])
        write(self.kit, 'sum', 'second')
        self.assertEqual(self.run_tool('low')[2], ['low 0', 'low 2'])

    def test_what_is_not_refused_is_tried_again(self):
        write(self.root, 'crates/low/wrong-bodies/right.edit', 'file: src/lib.rt\nold:     1\nnew:     1 + 0\n')
        write(self.root, 'crates/low/wrong-bodies/bad.edit', 'file: src/lib.rt\nold:     9\nnew:     1\n')
        for checks in (['low 0', 'low 2', 'low 0'], ['low 0', 'low 0']):
            status, said, made = self.run_tool('low')
            self.assertEqual((status, said[-1].partition(')')[2], made), (1, ', 1 not refused, 1 bad', checks))
            self.assertIn('low/wrong-bodies/right.edit: NOT REFUSED: the crate is still proved', said)

    def test_a_library_is_taken_or_nothing_is_judged(self):
        write(self.kit, 'kept-low', '')
        status, said, checks = self.run_tool('middle')
        self.assertEqual((status, said[-1], checks), (0, '1 refused (0 of them kept), 0 not refused, 0 bad', ['middle 0', 'middle 1']))
        os.remove(os.path.join(self.kit, 'kept-low'))
        status, said, checks = self.run_tool('--anew', 'middle')
        self.assertEqual((status, checks), (2, ['middle 0']))
        self.assertEqual(said[1], 'middle is not proved as it stands, so its wrong bodies say nothing:')
        write(self.root, 'crates/low/out/rlib/stamp', 'stamp')
        self.assertEqual(self.run_tool('--anew', 'middle')[2], ['middle 0', 'middle 1'])

    def test_crates_that_changed(self):
        write(self.root, 'crates/low/must-fail/late.edit', FILES['crates/low/must-fail/late.edit'] + '\n')
        status, said, checks = self.run_tool('--changed', 'HEAD')
        self.assertEqual((status, said[0], checks), (0, 'changed since HEAD: no crate', []))
        self.assertEqual(self.run_tool('--changed', 'HEAD', '--all')[1][0], 'changed since HEAD: low')
        write(self.root, 'crates/low/src/lib.rt', LOW + '\n')
        status, said, checks = self.run_tool('--changed', 'HEAD')
        self.assertEqual((status, said[0], checks), (0, 'changed since HEAD: low', ['low 0', 'low 2']))

    def test_wrong_arguments(self):
        rows = [(['--changed', 'HEAD', 'low'], '--changed takes no names of crates beside it'),
                (['--changed', 'nothing'], 'git has no revision nothing'), (['none'], 'no crate none'), (['--jobs', '0'], '--jobs takes a number above 0')]
        for words, why in rows:
            status, said, _ = self.run_tool(*words)
            self.assertEqual((status, said[-1]), (2, 'tools/wrong-bodies: error: ' + why))

    def test_a_kit_whose_code_is_another(self):
        """Its documented commands are enough: results are kept, and no fault of its code is shown."""
        for changed in (KIT.replace('class Kept', 'class Other'), KIT.replace('def give(', 'def gives(')):
            write(self.kit, 'bin/rt', changed)
            for kept_before in (0, 2):
                status, said, _ = self.run_tool(*['--anew'] * (not kept_before), 'low')
                self.assertEqual((status, said[-1]), (0, '2 refused (%d of them kept), 0 not refused, 0 bad' % kept_before))
                self.assertNotIn('attribute', '\n'.join(said))


@unittest.skipUnless(repository.has_kit(), 'there is no kit here')
class KitAtHand(unittest.TestCase):
    """What is used of the kit that is here."""

    def test_its_commands(self):
        self.assertRegex(kept.said_by('version'), r'\A\S+ logic \w+\Z')
        self.assertTrue(os.path.isfile(os.path.join(kept.folder_of_kit(), 'bin', 'rt')))

    def test_its_code_is_used_or_done_without(self):
        said = io.StringIO()
        with repository.copy('lru_laws', keeps=False, built=False) as room, contextlib.redirect_stderr(said):
            has_all = kept.has_libraries(kept.kit(), room, 'lru_laws')
        self.assertTrue(has_all or kept.kit() is None, said.getvalue())
        self.assertEqual(said.getvalue(), '')


if __name__ == '__main__':
    unittest.main()
