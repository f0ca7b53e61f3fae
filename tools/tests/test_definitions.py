"""Tests of tools/definitions: which definitions a text names that its functions do not rest on, and the parts of a page."""
import os
import sys
import unittest

sys.dont_write_bytecode = True
sys.path.insert(0, os.path.dirname(os.path.abspath(__file__)))
sys.path.insert(0, os.path.dirname(os.path.dirname(os.path.abspath(__file__))))
import tool

definitions = tool.load('definitions')
ALL = {'token_reading', 'compact_token_reading', 'answer', 'Holds'}


class Strays(unittest.TestCase):
    def strays(self, text):
        return definitions.strays(text, ALL, {'compact_token_reading', 'Holds'})

    def test_names_of_the_section(self):
        self.assertEqual(self.strays('By `Holds`, a text reads to `compact_token_reading`: an answer of `check`.'), [])

    def test_a_definition_of_another_section(self):
        self.assertEqual(self.strays('A text reads to `token_reading`, twice `token_reading`.'), ['token_reading'])

    def test_a_file_of_that_name(self):
        self.assertEqual(self.strays('In `answer.rt` and `crates/answer/specs/answer.antt`.'), [])


class Promises(unittest.TestCase):
    def test_a_section_begins_with_what_is_ruled_out(self):
        self.assertTrue(definitions.rules_out('\n\nA code is sent once. Ruled\nout, for example: a second\nrequest.\n\nMore.\n'))
        self.assertFalse(definitions.rules_out('\n\n`f` sends a code once.\n\nRuled out, for example: a second request.\n'))


class Parts(unittest.TestCase):
    def test_what_is_ahead_is_counted_in_each_part(self):
        empty = '<!-- overview -->\n<!-- end -->\n'
        parts = [[('A', (9, 30), (9, 30)), ('B', (12, 40), (3, 10))], [('C', (10, 35), (1, 5))]]
        rows = [line for line in definitions.with_overviews(empty * 2, parts).split('\n') if 'lines' in line]
        self.assertEqual(rows, ['| A | 9, 30 lines | 9, 30 | 3, 10 |', '| B | 12, 40 lines | 3, 10 | 0, 0 |', '| C | 10, 35 lines | 1, 5 | 0, 0 |'])


if __name__ == '__main__':
    unittest.main()
