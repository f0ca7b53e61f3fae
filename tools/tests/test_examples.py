"""Tests of tools/examples: what each kind of mark shows of a file, and which blocks need none."""
import os
import re
import shutil
import sys
import tempfile
import textwrap
import unittest
from unittest import mock

sys.dont_write_bytecode = True
sys.path.insert(0, os.path.dirname(os.path.abspath(__file__)))
sys.path.insert(0, os.path.dirname(os.path.dirname(os.path.abspath(__file__))))
import tool

examples = tool.load('examples')
SOURCE = '''//! A file.

ghost use Rattle.std.specs.Prelude.{codes};

use std::fmt;

/// Asks once.
pub fn asked(
    client: &Client,
) -> Answer
    requires { is_ready client }
    ensures { result ≡ 1 }
{
    client.ask()
}

pub fn one() -> u8
    ensures { result ≡ 1 }
{
    1
}
'''


class Marks(unittest.TestCase):
    def setUp(self):
        self.room = tempfile.mkdtemp()
        self.addCleanup(shutil.rmtree, self.room)
        with open(os.path.join(self.room, 'a.rt'), 'w', encoding='utf-8') as f:
            f.write(SOURCE)
        it = mock.patch('repository.ROOT', self.room)
        it.start()
        self.addCleanup(it.stop)

    def shows(self, kind, beginnings, wanted):
        mark = '<!-- %s a.rt\n%s-->\n' % (kind, ''.join(it + '\n' for it in beginnings))
        page = examples.filled(mark)
        self.assertEqual(page, mark + '```rust\n// a.rt\n%s```\n' % textwrap.dedent(wanted))
        self.assertEqual(examples.filled(page), page)

    def test_an_item(self):
        self.shows('example', ['pub fn one'], '''\
            pub fn one() -> u8
                ensures { result ≡ 1 }
            {
                1
            }
            ''')

    def test_the_head_of_a_function(self):
        self.shows('head', ['pub fn one'], '''\
            pub fn one() -> u8
                ensures { result ≡ 1 }
            ''')

    def test_code_without_what_it_promises(self):
        self.shows('code', ['pub fn asked', 'pub fn one'], '''\
            /// Asks once.
            pub fn asked(
                client: &Client,
            ) -> Answer
                requires { is_ready client }
            {
                client.ask()
            }

            pub fn one() -> u8 {
                1
            }
            ''')

    def test_a_whole_file(self):
        self.shows('file', [], SOURCE.replace('ghost use Rattle.std.specs.Prelude.{codes};\n\n', '')
                   .replace('    ensures { result ≡ 1 }\n', '').replace('-> u8\n{', '-> u8 {'))

    def test_items_of_python(self):
        with open(os.path.join(self.room, 'b.py'), 'w', encoding='utf-8') as f:
            f.write('import os\n\n\n@cached\ndef one():\n    a = 1\n\n    return a\n\n\nclass Two:\n    pass\n')
        mark = '<!-- example b.py\ndef one\nclass Two\n-->\n'
        self.assertEqual(examples.filled(mark), mark + '```python\n# b.py\n@cached\ndef one():\n    a = 1\n\n    return a\n\n'
                         'class Two:\n    pass\n```\n')

    def test_a_block_of_python(self):
        block = '```python\nimport os\n```\n'
        self.assertEqual((examples.without_mark(block), examples.without_mark(block, is_run=True)), ([1], []))

    def test_a_mark_that_names_nothing(self):
        for mark in ('<!-- code a.rt\npub fn two\n-->\n', '<!-- code b.rt\npub fn one\n-->\n', '<!-- shown a.rt\n-->\n'):
            with self.subTest(mark), self.assertRaises(examples.BadMark):
                examples.filled(mark)

    def test_blocks_without_a_file(self):
        block = '```rust\nfn main() {}\n```\n'
        for mark, lines in (('<!-- not built here: REASON -->\n', []), ('<!-- tried by tools/readme -->\n', []), ('', [1])):
            with self.subTest(mark):
                self.assertEqual(examples.filled(mark + block), mark + block)
                self.assertEqual(examples.without_mark(mark + block), lines)

    def test_links(self):
        with open(os.path.join(self.room, 'b.md'), 'w', encoding='utf-8') as f:
            f.write('# One `b`: two\n')
        page = '## A part\n[a](a.rt), [b](b.md#one-b-two), [c](#a-part), [d](https://h/x#y)\n```rust\n[e](f)\n```\n'
        self.assertEqual(list(examples.dead_links('page.md', page)), [])
        page += '[f](c.rt), [g](b.md#two), [h](#b-part)\n'
        self.assertEqual(list(examples.dead_links('page.md', page)), ['c.rt', 'b.md#two', '#b-part'])


class Pages(unittest.TestCase):
    def test_what_the_program_on_errors_prints(self):
        page, stored = (examples.sources.read(os.path.join(examples.repository.ROOT, *path))
                        for path in (('docs', 'ERRORS.md'), ('crates', 'oauth2_programs', 'stdout')))
        shown = re.search(r'It prints:\n\n((?:    .*\n)+)', page).group(1)
        self.assertIn('\n' + textwrap.dedent(shown), stored)


if __name__ == '__main__':
    unittest.main()
