"""Tests of tools/new-repository: what is in the folder that it makes, and which folders and names it refuses."""
import contextlib
import io
import os
import sys
import tempfile
import unittest
from unittest import mock

import tool

sys.path.insert(0, tool.TOOLS)
new_repository = tool.load('new-repository')


def text_of(*path):
    with open(os.path.join(*path)) as f:
        return f.read()


def run(*words):
    """The status with which the tool ends, and what it writes to standard error."""
    said = io.StringIO()
    with mock.patch('sys.argv', ['tools/new-repository', *words]), contextlib.redirect_stderr(said):
        try:
            return new_repository.main(), said.getvalue()
        except SystemExit as end:
            return end.code, said.getvalue()


class NewRepository(unittest.TestCase):
    def setUp(self):
        room = tempfile.TemporaryDirectory()
        self.addCleanup(room.cleanup)
        self.folder = os.path.join(room.name, 'me', 'mine')

    def test_files(self):
        self.assertEqual(run('token', self.folder), (0, ''))
        self.assertEqual(text_of(self.folder, 'HANDLES'), 'Handles allowed: Net.\n')
        rows = text_of(self.folder, 'crates.txt').splitlines()
        self.assertEqual(rows[-1].partition(':')[0], 'token')
        self.assertEqual(sorted(row.partition(':')[0] for row in rows), sorted(os.listdir(os.path.join(self.folder, 'crates'))))
        self.assertEqual(sorted(os.listdir(os.path.join(self.folder, 'crates', 'token', 'src'))), ['main.rt', 'tcp.rt'])
        self.assertTrue(os.path.exists(os.path.join(self.folder, 'crates', 'oauth2', 'src', 'lib.rt')))

    def test_a_folder_that_is_there(self):
        os.makedirs(self.folder)
        status, said = run('token', self.folder)
        self.assertEqual((status, said), (1, 'tools/new-repository: %s is there already\n' % self.folder))
        self.assertEqual(os.listdir(self.folder), [])

    def test_a_folder_that_cannot_be_made(self):
        file = os.path.dirname(self.folder)
        open(file, 'w').close()
        status, said = run('token', self.folder)
        self.assertEqual(status, 1)
        self.assertTrue(said.startswith('tools/new-repository: '))

    def test_a_strange_name(self):
        self.assertEqual(run('other', self.folder)[0], 2)
        self.assertFalse(os.path.exists(self.folder))


if __name__ == '__main__':
    unittest.main()
