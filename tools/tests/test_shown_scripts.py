"""Tests of tools/shown_scripts.py: which scripts a page shows, and that those which are stored too print there what the page says."""
import json
import os
import sys
import unittest

sys.dont_write_bytecode = True
sys.path.insert(0, os.path.dirname(os.path.dirname(os.path.abspath(__file__))))
import repository
import shown_scripts
import sources
import stored_scripts
from shown_scripts import Shown

PAGE = '''A script:

    {"command": "a"}

prints, with exit 1,

    one
    tw
        o

Another one is

    {"command": "b",
     "params": {}}

and it prints

    three

    {"a": 1}

is none.

    four

```json
{
    "command": "c"
}
```

prints, with exit 0,

    five
'''


class Pages(unittest.TestCase):
    def test_scripts_of_a_page(self):
        self.assertEqual(list(shown_scripts.scripts_on(PAGE)), [
            Shown('{"command": "a"}\n', 1, 'one\ntwo\n'), Shown('{"command": "b",\n "params": {}}\n', None, 'three\n'),
            Shown('{\n    "command": "c"\n}\n', 0, 'five\n')])

    def test_the_first_example(self):
        """docs/SCRIPT.md lays out the script that is the program's stored run."""
        first, folder = shown_scripts.all_shown()[0][1], os.path.join(repository.CRATES, 'oauth2_run')
        self.assertEqual(json.loads(first.script), json.loads(sources.read(os.path.join(folder, 'stdin'))))
        self.assertIsNone(shown_scripts.difference(first, 0, sources.read(os.path.join(folder, 'stdout'))))

    def test_differences(self):
        shown = Shown('', 1, 'one\ntwo\n')
        for status, lines, wanted in ((1, 'one\ntwo\n', None), (0, 'one\ntwo\n', 'it ends with status 0, and on the page with 1'),
                                      (1, 'one\n2\n', "line 2 is '2', and on the page 'two'"),
                                      (1, 'one\n', "line 2 is '', and on the page 'two'")):
            with self.subTest(lines):
                self.assertEqual(shown_scripts.difference(shown, status, lines), wanted)


class Stored(unittest.TestCase):
    """The scripts of the pages that crates/oauth2_run/scripts has too, with what the proved program writes of them."""

    def test_lines_of_stored_scripts(self):
        stored = {it.script.decode(): it.run for it in stored_scripts.all_stored()}
        found = [(it, stored[it.script.rstrip()]) for _, it in shown_scripts.all_shown() if it.script.rstrip() in stored]
        self.assertGreater(len(found), 9)
        for shown, run in found:
            with self.subTest(shown.script):
                self.assertIsNone(shown_scripts.difference(shown, run.status, run.out.decode()))


if __name__ == '__main__':
    unittest.main()
