"""Tests of what all tools share: each one's docstring is its help, and a row of CONTRIBUTING.md begins with it."""
import ast
import os
import re
import subprocess
import sys
import unittest

sys.dont_write_bytecode = True
sys.path.insert(0, os.path.dirname(os.path.dirname(os.path.abspath(__file__))))
import repository
import tool


def can_run(name):
    path = os.path.join(tool.TOOLS, name)
    return os.path.isfile(path) and os.access(path, os.X_OK)


# What has the help of a tool that is a few lines which start something else.
ELSEWHERE = {'oauth2': os.path.join(repository.PYTHON, 'lifecrib_command', 'help_texts.py')}
NAMES = sorted(filter(can_run, os.listdir(tool.TOOLS)))


def text_of(*path):
    with open(os.path.join(*path), encoding='utf-8') as f:
        return f.read()


def tools_of_rows(page):
    """The tools that rows of the page's tables begin with."""
    return re.findall(r'^\| `tools/([\w-]+)', page, re.M)


class Help(unittest.TestCase):
    def test_docstring(self):
        for name in NAMES:
            with self.subTest(name):
                path = ELSEWHERE.get(name, os.path.join(tool.TOOLS, name))
                about, _, more = ast.get_docstring(ast.parse(text_of(path)), clean=False).partition('\n\n')
                run = subprocess.run([os.path.join(tool.TOOLS, name), '--help'], capture_output=True, text=True, check=True)
                self.assertIn(about.partition(': ')[2], run.stdout)
                self.assertTrue(run.stdout.rstrip().endswith(more.rstrip()))

    def test_listed_for_contributors(self):
        rows = set(tools_of_rows(text_of(repository.ROOT, 'CONTRIBUTING.md')))
        self.assertEqual(sorted(rows), NAMES)

    def test_rows(self):
        page = '`tools/a` in a text\n| `tools/b --all` | `tools/c` |\n| `tools/d` | 1 |\n| `rt check` | 1 |\n'
        self.assertEqual(tools_of_rows(page), ['b', 'd'])


if __name__ == '__main__':
    unittest.main()
