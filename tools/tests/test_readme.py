"""Tests of tools/readme: which commands, files and programs a page has, and when one is not as the page says."""
import contextlib
import io
import os
import sys
import tempfile
import unittest
from unittest import mock

sys.dont_write_bytecode = True
sys.path.insert(0, os.path.dirname(os.path.abspath(__file__)))
sys.path.insert(0, os.path.dirname(os.path.dirname(os.path.abspath(__file__))))
import tool

readme = tool.load('readme')
programs = readme.shown_programs
PAGE = '''# A page

    not a command

<!-- tried by tools/readme -->
```rust
// folder/main.rt
fn main() {}
```

Then run it:

    $ cat folder/main.rt
    fn main() {}
    $ test -t 1 && echo one \\
        two
    one two
    $ tools/test --proved   # the gate

<!-- example folder/other.rt
-->
```rust
// folder/other.rt
fn other() {}
```
'''

PROGRAM = '''<!-- tried by tools/readme -->
```rust
// crates/first/src/main.rt
// crates.txt: first: oauth2 anyhow
mod canned_client;

fn main() {}
```
'''
# What `rt try --cases` says of two runs.
ENDED = 'case=0 run=ended status=%d runners=1 proved=no\ncase=1 run=ended status=%d runners=1 proved=no\ncases=2 ended=2 fault=0\n'


def text_of(*path):
    with open(os.path.join(*path)) as f:
        return f.read()


def taken(page):
    """Whether a page holds, and what is said of it."""
    said = io.StringIO()
    with tempfile.TemporaryDirectory() as top, contextlib.redirect_stdout(said):
        return readme.holds(readme.steps_of(page), top, 'http://127.0.0.1:1'), said.getvalue()


class Scripts(unittest.TestCase):
    def test_runs_of_a_program(self):
        with tempfile.TemporaryDirectory() as folder:
            path = os.path.join(folder, 'program')
            with open(path, 'w') as f:
                f.write('#!/bin/sh\nread -r it; echo "read $it"; exit 1\n')
            os.chmod(path, 0o755)
            for lines, wanted in (('read {}\n', 'docs/A.md'), ('read\n', None)):
                said = io.StringIO()
                with contextlib.redirect_stdout(said):
                    holds = readme.holds_scripts([('docs/A.md', readme.shown_scripts.Shown('{}\n', 1, lines))], path)
                self.assertEqual(holds, wanted is not None)
                self.assertEqual('docs/A.md: {}: line 1' in said.getvalue(), not holds)


class Programs(unittest.TestCase):
    def test_programs_of_a_page(self):
        found = programs.programs_on('docs/A.md', PROGRAM + '\nOther text.\n\n' + PROGRAM.replace('first', 'second'))
        self.assertEqual([it.name for it in found], ['first', 'second'])
        self.assertEqual(found[0], programs.Shown('docs/A.md', 'first', 'first: oauth2 anyhow', 'mod canned_client;\n\nfn main() {}\n'))

    def test_a_mark_above_something_else(self):
        for old, new in (('// crates.txt: first: oauth2 anyhow\n', ''), ('crates.txt: first', 'crates.txt: other'),
                         ('```rust', '```python'), ('```rust', '\n```rust')):
            with self.subTest(new), self.assertRaisesRegex(ValueError, 'docs/A.md: below <!-- tried by tools/readme -->'):
                programs.programs_on('docs/A.md', PROGRAM.replace(old, new))

    def test_the_pages(self):
        names = [it.name for it in programs.all_shown()]
        self.assertEqual(names, ['first_example', 'check_access_token'])
        self.assertNotIn('hello', names)  # which README.md's commands run

    def test_no_indented_block_is_a_program(self):
        for name in readme.repository.pages():
            self.assertNotRegex(readme.sources.read(os.path.join(readme.repository.ROOT, name)), r'(?m)^    (?:pub )?fn main\(', name)

    def test_what_is_written_into_the_copy(self):
        shown = programs.programs_on('docs/A.md', PROGRAM)[0]
        with tempfile.TemporaryDirectory() as top:
            for path, text in (('crates.txt', 'oauth2:\n'), (os.path.join(programs.MODULES, 'canned_client.rt'), '// a client\n')):
                readme.write(readme.File(path, text), top)
            programs.put(shown, top)
            self.assertEqual(text_of(top, 'crates.txt'), 'oauth2:\nfirst: oauth2 anyhow\n')
            self.assertEqual(text_of(top, 'crates', 'first', 'src', 'main.rt'), shown.text)
            self.assertEqual(text_of(top, 'crates', 'first', 'src', 'canned_client.rt'), '// a client\n')

    def test_the_command(self):
        with tempfile.TemporaryDirectory() as room:
            command = programs.command_of(programs.Tries({'keys.json': '{}'}, [('one\n', ''), ('two\n', '')]), room)
            cases, data = os.path.join(room, 'cases'), os.path.join(room, 'keys.json')
            self.assertEqual(command, ['rt', 'try', '--cases', cases, '--data', 'keys.json=' + data])
            self.assertEqual([text_of(cases, it) for it in ('0', '1')], ['one\n', 'two\n'])
            self.assertEqual(text_of(data), '{}')

    def test_differences(self):
        tries = programs.Tries({}, [('', 'a+\n'), ('', 'b\n')])
        for out, err, wanted in [
            ('== 0\naa\n== 1\nb\n', ENDED % (0, 0), None),
            ('== 0\naa\n== 1\nc\n', ENDED % (0, 0), "run 1 prints 'c\\n', and not 'b\\n'"),
            ('== 0\naa\n', ENDED % (0, 0), "run 1 prints '', and not 'b\\n'"),
            ('== 0\naa\n== 1\nb\n', ENDED % (0, 1), 'run 1 does not end with status 0\n== 0\naa\n== 1\nb\n' + (ENDED % (0, 1)).rstrip()),
            ('', 'error: it does not compile\n', 'run 0 does not end with status 0\nerror: it does not compile'),
        ]:
            with self.subTest(out=out, err=err):
                self.assertEqual(programs.difference(tries, out, err), wanted)

    def test_what_is_said_of_programs(self):
        shown = programs.programs_on('docs/A.md', PROGRAM)
        for fault, wanted in ((None, 'docs/A.md, first: as it has to be\n'), ('why', 'docs/A.md, first: why\n')):
            said = io.StringIO()
            with mock.patch.object(programs, 'fault_of', lambda *_: fault), contextlib.redirect_stdout(said):
                self.assertEqual(readme.holds_programs(shown, '/'), fault is None)
            self.assertEqual(said.getvalue(), wanted)


    def test_a_script(self):
        self.assertEqual(programs.programs_on('docs/A.md', programs.MARK + '```json\n{}\n```\n'), [])


class AccessTokens(unittest.TestCase):
    def test_a_signature(self):
        """The example of RFC 7515, A.2."""
        signed = b'eyJhbGciOiJSUzI1NiJ9.eyJpc3MiOiJqb2UiLA0KICJleHAiOjEzMDA4MTkzODAsDQogImh0dHA6Ly9leGFtcGxlLmNvbS9pc19yb290Ijp0cnVlfQ'
        signature = programs.encoded(programs.signature_of(signed))
        self.assertTrue(signature.startswith('cC4hiUPoj9Eetdgtv3hF80EGrhuB__dzERat0XF9g2VtQgr9PJbu3XO'))
        self.assertTrue(signature.endswith('hWkWywlVmtVrBp0igcN_IoypGlUPQGe77Rw'))

    def test_a_changed_signature(self):
        good, bad = (programs.access_token(programs.CLAIMS, changes).split('.') for changes in (0, 1))
        self.assertEqual(good[:2], bad[:2])
        self.assertEqual((good[2] == bad[2], len(good[2]), len(bad[2])), (False, 342, 342))

    def test_tries(self):
        printed = [it for _, it in programs.tries_of('check_access_token').runs]
        self.assertEqual(printed[:2], ['may read: true\n', 'may read: false\n'])
        self.assertTrue(printed[2].startswith('refused: '))
        self.assertEqual(programs.tries_of('another').runs, [('', '(?s).*')])


class Builds(unittest.TestCase):
    def test_proved_or_not(self):
        proved = readme.program.PROGRAM
        for is_proved, wanted in ((True, (proved, proved + '.proved')), (False, ('/b', '/b.made_of'))):
            with mock.patch('program.is_proved', lambda: is_proved), mock.patch('program.unproved', lambda _: '/b'):
                self.assertEqual(readme.build(), wanted)


class Steps(unittest.TestCase):
    def test_files_and_commands(self):
        self.assertEqual(list(readme.steps_of(PAGE)), [
            readme.File('folder/main.rt', 'fn main() {}\n'),
            readme.Command('cat folder/main.rt', 'fn main() {}\n'),
            readme.Command('test -t 1 && echo one \\\n    two', 'one two\n'),
            readme.Command('tools/test --proved   # the gate', ''),
        ])

    def test_a_page_that_holds(self):
        is_so, said = taken(PAGE)
        self.assertTrue(is_so, said)
        self.assertNotIn('tools/test', said)

    def test_a_command_that_asks_for_the_secret(self):
        is_so, said = taken('    $ printf "secret: " >&2; read -r it; echo "$it" # --ask-secret\n    bbb\n')
        self.assertTrue(is_so, said)

    def test_another_output(self):
        is_so, said = taken('    $ echo one\n    two\n')
        self.assertFalse(is_so)
        self.assertIn('it prints something else', said)
        self.assertIn('\n-two\n+one\n', said)

    def test_a_command_that_fails(self):
        is_so, said = taken('    $ echo why >&2; exit 3\n')
        self.assertFalse(is_so)
        self.assertIn('it ends with status 3\nwhy\nand the page has\n', said)

    def test_a_command_that_does_not_end(self):
        with mock.patch.object(readme, 'LIMIT', 0.1):
            is_so, said = taken('    $ sleep 60 & sleep 60\n')
        self.assertFalse(is_so)
        self.assertIn('it had not ended after 0.1 seconds, its time limit', said)

    def test_the_server_of_the_page_is_replaced(self):
        self.assertTrue(taken('    $ echo https://as.example/token\n    http://127.0.0.1:1/token\n')[0])


if __name__ == '__main__':
    unittest.main()
