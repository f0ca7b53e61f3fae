"""Tests of tools/stored-scripts: which scripts are stored, how two files that do not fit each other are refused, and that the tool finds a
program that writes something else, of which a stand-in is run here."""
import contextlib
import io
import os
import shutil
import sys
import tempfile
import unittest
from unittest import mock

import tool

sys.path.insert(0, tool.TOOLS)
import program  # noqa: E402, of the folder above
import stored_scripts  # noqa: E402
from program import Run  # noqa: E402
from stored_scripts import Stored  # noqa: E402

TOOL = tool.load('stored-scripts')
SCRIPTS = '# one\n{"a":1}\n{}\n# two: \u00e9\n{"b":"#"}\n'
LINES = '# one\nx\ny\nexit 0\nexit 2\n# two: \u00e9\nz\nexit 1\n'
STORED = [Stored('one', 2, b'{"a":1}', Run(0, b'x\ny\n', b'')), Stored('one', 3, b'{}', Run(2, b'', b'')),
          Stored('two: \u00e9', 5, b'{"b":"#"}', Run(1, b'z\n', b''))]
# Writes what it has to of each script, by the script's first letter in quotes.
PROGRAM = '''#!/bin/sh
case "$(cat)" in
    *a*) printf 'x\\ny\\n' ;;
    *b*) printf 'z\\n'; exit 1 ;;
    *) exit 2 ;;
esac
'''


class Case(unittest.TestCase):
    def setUp(self):
        self.room = tempfile.mkdtemp()
        self.addCleanup(shutil.rmtree, self.room)

    def written(self, name, text):
        path = os.path.join(self.room, name)
        with open(path, 'w', encoding='utf-8') as f:
            f.write(text)
        os.chmod(path, 0o700)
        return path


class Files(Case):
    def stored(self, scripts, lines):
        self.written('stdin', scripts)
        self.written('stdout', lines)
        return stored_scripts.all_stored(self.room)

    def test_scripts_with_what_they_have_to_be(self):
        self.assertEqual(self.stored(SCRIPTS, LINES), STORED)

    def test_files_that_do_not_fit(self):
        for scripts, lines, why in [
            ('{}\n' + SCRIPTS, LINES, 'line 1 is above the first heading'),
            (SCRIPTS, LINES.replace('# one', '# 1'), 'the same headings'),
            (SCRIPTS + '# three\n', LINES, 'the same headings'),
            (SCRIPTS.replace('{}\n', ''), LINES, 'below "one" stdin has 1 scripts, and stdout 2 runs'),
            (SCRIPTS, LINES.replace('exit 1\n', ''), 'below "two: \u00e9" no `exit N`'),
        ]:
            with self.subTest(why), self.assertRaisesRegex(ValueError, why):
                self.stored(scripts, lines)

    def test_those_of_the_repository(self):
        stored = stored_scripts.all_stored()
        self.assertGreater(len(stored), 2000)
        self.assertEqual({it.run.status for it in stored}, {0, 1, 2})


class Faults(unittest.TestCase):
    def test_each(self):
        wanted = Run(1, b'one\ntwo\n', b'')
        for run, fault in [
            (wanted, None), (Run(0, wanted.out, b''), 'it ends with status 0, and not 1'),
            (Run(program.KILLED, b'', b''), 'it had not ended after 60 seconds'),
            (Run(1, wanted.out, b'x'), "it writes b'x' to standard error"),
            (Run(1, b'one\n2\n', b''), "line 2 is b'2', and not b'two'"), (Run(1, b'one\n', b''), "line 2 is b'', and not b'two'"),
            (Run(1, b'one\ntwo', b''), "line 3 is None, and not b''"), (Run(1, wanted.out + b'3', b''), "line 3 is b'3', and not b''"),
        ]:
            with self.subTest(run):
                self.assertEqual(stored_scripts.fault_of(wanted, run), fault)


class Tool(Case):
    def ended(self, *words):
        """The status of the tool with these words, and what it prints."""
        said = io.StringIO()
        with mock.patch.object(sys, 'argv', ['stored-scripts', *words]), mock.patch.object(stored_scripts, 'all_stored', lambda: STORED), \
                contextlib.redirect_stdout(said), contextlib.redirect_stderr(io.StringIO()):
            return TOOL.main(), said.getvalue()

    def test_a_program_that_is_right(self):
        path = self.written('right', PROGRAM)
        self.assertEqual(self.ended('--program', path), (0, '3 passed, 0 failed\n'))
        self.assertEqual(self.ended('--program', path, '--program', path), (0, '3 passed, 0 failed\n'))

    def test_a_program_that_is_wrong(self):
        """A script that fails by one of two programs has failed, and counts once."""
        texts = {'right': PROGRAM, 'wrong': PROGRAM.replace('z', 'Z'), 'odd': '#!/bin/sh\n'}
        right, wrong, odd = (self.written(*it) for it in texts.items())
        line = 'crates/oauth2_run/scripts/stdin:5, "two: \u00e9", by wrong: line 1 is b\'Z\', and not b\'z\'\n'
        self.assertEqual(self.ended('--program', right, '--program', wrong), (1, line + '2 passed, 1 failed\n'))
        self.assertEqual(self.ended('--program', wrong, '--program', odd)[1].splitlines()[-1], '0 passed, 3 failed')

    def test_no_program(self):
        self.assertEqual(self.ended('--program', '/none'), (2, ''))

    def test_one_that_does_not_end(self):
        path = self.written('slow', '#!/bin/sh\necho x\nexec sleep 60\n')
        with mock.patch.object(program, 'SECONDS_A_RUN', 0.2):
            self.assertEqual(program.run(path, b''), Run(program.KILLED, b'x\n', b''))


if __name__ == '__main__':
    unittest.main()
