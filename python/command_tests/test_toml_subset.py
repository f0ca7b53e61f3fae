"""Tests of the reader of the file of profiles, beside Python's reader of TOML where there is one."""
import importlib
import importlib.util
import unittest

import where

from lifecrib_command import toml_subset

# Texts of which each is read. What they mean is what Python's reader says.
READ = ('', '\n# only a comment', 'a = "b"', 'a="b" # c\r\nd = \'e\\n\'\r\n', 'a = "\\"\\\\\\u00e9\\U0001F600\\t"',
        'a-b_1 = -12',
        'a = 1_000', 'a = 0', 'a = +7', 'a = true\nb = false', 'a = []', 'a = ["x", "y",]',
        "a = [ # first\n 'x',\n\n \"y\" # last\n]",
        '[p]\na = "1"\n[p.q]\na = "2"', '[ p . q ]\na = "#"', '[p]\n[p.q]\n[p.r]', 'a = "\t"', "a = ''", '1 = "x"')
# Texts that are refused, each with the number of the line.
REFUSED = (('a', 1), ('a = ', 1), ('\na = b', 2), ('a = "b', 1), ('a = "b\nc"', 1), ("a = 'b", 1), ('a = "\\x"', 1),
           ('a = "\\ud800"', 1),
           ('a = "\\u12"', 1), ('a = 01', 1), ('a = 1.5', 1), ('a = 1979-05-27', 1), ('a = 0x10', 1), ('a = truex', 1),
           ('a = "b" c = "d"', 1), ('a = {b = "c"}', 1), ('a.b = "c"', 1), ('"a" = "b"', 1), ('[[a]]', 1), ('[a', 1),
           ('[]', 1),
           ('# x\n[a] b', 2), ('a = "1"\na = "2"', 2), ('[a]\n[b]\n[a]', 3), ('a = """b"""', 1), ("a = '''b'''", 1),
           ('a = [1]', 1),
           ('a = ["b"\n"c"]', 2), ('a = ["b"', 1), ('a = [,]', 1), ('a = "\x01"', 1), ('= "a"', 1), ('a = 1__0', 1))


def tree(tables):
    """The tables as Python's reader has them."""
    found = {}
    for table in tables:
        at = found
        for part in table.name:
            at = at.setdefault(part, {})
        at.update((name, it.value) for name, it in table.keys.items())
    return found


class Subset(unittest.TestCase):
    @unittest.skipUnless(importlib.util.find_spec('tomllib'), 'this Python has no tomllib')
    def test_what_it_reads_means_what_toml_says(self):
        tomllib = importlib.import_module('tomllib')
        for text in READ:
            with self.subTest(text):
                self.assertEqual(tree(toml_subset.read(text)), tomllib.loads(text))

    def test_lines(self):
        tables = toml_subset.read('# x\na = "1"\n\n[p.q]\nb = [\n"x",\n]\nc = 2')
        self.assertEqual([(it.name, it.line, {name: value.line for name, value in it.keys.items()}) for it in tables],
                         [((), 1, {'a': 2}), (('p', 'q'), 4, {'b': 5, 'c': 8})])

    def test_what_it_refuses(self):
        for text, line in REFUSED:
            with self.subTest(text), self.assertRaises(toml_subset.Fault) as found:
                toml_subset.read(text)
            self.assertEqual(found.exception.line, line)


if __name__ == '__main__':
    unittest.main()
