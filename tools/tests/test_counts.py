"""Tests of tools/counts.py: what each mark counts, how a number is written, and which marks are wrong."""
import os
import shutil
import sys
import tempfile
import unittest
from unittest import mock

sys.dont_write_bytecode = True
sys.path.insert(0, os.path.dirname(os.path.dirname(os.path.abspath(__file__))))
import counts

FILES = {
    'a/one.rt': 'fn one() {}\nfn two() {}\n',
    'a/b/two.rt': 'fn three() {}\nconst MOST: usize = 1_024;\n',
    'table.md': '| one | 12 |\n| two | 3 |\n',
    counts.SCRIPTS: '{}\n# first\n{"a": 1}\n{}\n# second\n{}\n# third\n{}\n',
}


class Counts(unittest.TestCase):
    def setUp(self):
        self.room = tempfile.mkdtemp()
        self.addCleanup(shutil.rmtree, self.room)
        for name, text in FILES.items():
            os.makedirs(os.path.dirname(os.path.join(self.room, name)), exist_ok=True)
            with open(os.path.join(self.room, name), 'w') as f:
                f.write(text)
        it = mock.patch('repository.ROOT', self.room)
        it.start()
        self.addCleanup(it.stop)

    def becomes(self, mark, before, after):
        self.assertEqual(counts.filled('There are %s%s functions.' % (mark, before)), 'There are %s%s functions.' % (mark, after))

    def test_count(self):
        for files, wanted in (('a/one.rt', '2'), ('a/**/*.rt', '3'), ('a/*/*.rt', '1')):
            self.becomes('<!-- count %s: ^fn \\w+ -->' % files, '7', wanted)

    def test_value(self):
        self.becomes('<!-- value a/b/two.rt: MOST: usize = ([\\d_]+) -->', '7', '1,024')
        self.becomes('<!-- value table.md: ^. one . (\\d+) -->', '', '12')

    def test_scripts(self):
        self.becomes('<!-- scripts first .. second -->', '', '3')
        self.becomes('<!-- scripts second .. second -->', '', '1')

    def test_how_a_number_is_written(self):
        self.becomes('<!-- count a/one.rt: fn -->', 'seven', 'two')
        self.becomes('<!-- value a/b/two.rt: = (\\S+); -->', '1000', '1024')
        self.becomes('<!-- value a/b/two.rt: = (\\S+); -->', '1,000', '1,024')
        self.becomes('<!-- count a/one.rt: fn -->', '2, or', '2, or')

    def test_wrong_marks(self):
        for mark in ('<!-- count a/three.rt: fn -->', '<!-- count a/one.rt: ( -->', '<!-- value table.md: (\\d+) -->',
                     '<!-- value table.md: (\\w+) . 3 -->', '<!-- scripts first .. fourth -->'):
            with self.subTest(mark), self.assertRaises(counts.BadCount):
                counts.filled('There are %s3.' % mark)

    def test_marks_that_a_page_would_show_otherwise(self):
        for page in 'There are\n  <!-- count a/one.rt: fn -->2.\n', 'There are <!-- count a/one.rt: (?:--)?fn -->2.\n':
            with self.subTest(page), self.assertRaises(counts.BadCount):
                counts.filled(page)


if __name__ == '__main__':
    unittest.main()
