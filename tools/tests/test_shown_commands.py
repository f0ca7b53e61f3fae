"""Tests of tools/shown_commands.py: which commands a page shows, and what is wrong with them."""
import os
import sys
import unittest

sys.dont_write_bytecode = True
sys.path.insert(0, os.path.dirname(os.path.dirname(os.path.abspath(__file__))))
import shown_commands


class Commands(unittest.TestCase):
    def test_words_of_a_command(self):
        for text, wanted in (
                ('tools/oauth2 token --show | docker login --username a', [('oauth2', 'token --show')]),
                ('a=$(tools/oauth2 token --show) && tools/prove b', [('oauth2', 'token --show'), ('prove', 'b')]),
                ("'!/path/to/tools/oauth2 git-credential --host h'", [('oauth2', 'git-credential --host h')]),
                ('tools/test --proved   # the gate', [('test', '--proved')]),
                ('tools/definitions FUNCTION ..', [('definitions', 'FUNCTION')]),
                ('tools/names.txt and other-tools/test, tools/rust/x', [])):
            with self.subTest(text):
                found = [it for part in text.split('&&') for it in shown_commands.commands_in(part)]
                self.assertEqual(found, wanted)

    def test_blocks_and_spans(self):
        page = 'A:\n\n    one \\\n        two\n    three\n\n`four\nfive` <!-- `six` -->\n```\n    seven `eight`\n```\n'
        self.assertEqual(shown_commands.blocks_of(page), ['    one two\n    three\n'])
        self.assertEqual(shown_commands.spans_of(page), ['four five'])


class Faults(unittest.TestCase):
    def faults(self, page):
        return shown_commands.faults_of(page)

    def test_commands_as_they_are(self):
        self.assertEqual(self.faults('`tools/examples --write`, `tools/bench --rust F`, `--write`\n'), [])
        self.assertEqual(self.faults('A:\n\n    tools/oauth2 login --listen 8400 \\\n        --openid | cat --no-flag\n'), [])
        self.assertEqual(self.faults('`tools/oauth2 COMMAND --help`, `docs/GATE.md`, `crates/NAME/none`\n'), [])

    def test_what_went(self):
        for page, wanted in (
                ('`tools/exemples`', 'no tools/exemples'),
                ('`tools/examples --rewrite`', 'tools/examples has no flag --rewrite'),
                ('`tools/examples`, `--rewrite A`', 'no tool of the page has the flag --rewrite'),
                ('\n    tools/oauth2 token --listen 8400\n', 'tools/oauth2 token has no --listen'),
                ('\n    tools/oauth2 token \\\n        --output coin\n', 'tools/oauth2 token --output coin: argument --output: invalid'),
                ('`docs/NONE.md`', 'no docs/NONE.md')):
            with self.subTest(page):
                found = self.faults(page + '\n')
                self.assertEqual([it[:len(wanted)] for it in found], [wanted])


if __name__ == '__main__':
    unittest.main()
