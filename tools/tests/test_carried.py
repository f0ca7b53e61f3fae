"""Tests of tools/carried.py and of `tools/run --build`: a stand-in of the program is packed, and taken only where its sums fit."""
import os
import shutil
import subprocess
import sys
import tempfile
import unittest
from unittest import mock

sys.dont_write_bytecode = True
sys.path.insert(0, os.path.dirname(os.path.abspath(__file__)))
sys.path.insert(0, os.path.dirname(os.path.dirname(os.path.abspath(__file__))))
import carried
import packages
import program
import repository
import tool

BUILD = b'#!/bin/sh\necho answered\n'


class Carried(unittest.TestCase):
    def setUp(self):
        self.room = tempfile.mkdtemp()
        self.addCleanup(shutil.rmtree, self.room)
        self.path = os.path.join(self.room, 'stand_in')
        with open(self.path, 'wb') as f:
            f.write(BUILD)
        proved = os.path.join(self.room, 'out', program.NAME)
        for it in (mock.patch.object(program, 'PROGRAM', proved), mock.patch.object(program, 'UNPROVED', proved + '.unproved')):
            it.start()
            self.addCleanup(it.stop)

    def archive(self, proved=None):
        return carried.write(packages.Program(program.NAME, self.path, proved), self.room)

    def test_one_without_proofs(self):
        carried.take(self.archive())
        self.assertTrue(program.is_compiled(program.UNPROVED, program.NAME))
        self.assertFalse(os.path.exists(program.PROGRAM))
        self.assertEqual(subprocess.run([program.UNPROVED], capture_output=True).stdout, b'answered\n')

    def test_a_proved_one(self):
        carried.take(self.archive(carried.record_of(repository.sum_of_sources, BUILD)))
        self.assertTrue(program.is_recorded(program.PROGRAM, program.PROGRAM + '.proved', program.NAME))
        self.assertFalse(os.path.exists(program.UNPROVED))

    def test_the_same_files_make_the_same_archive(self):
        found = []
        for _ in range(2):
            with open(self.archive(), 'rb') as f:
                found.append(f.read())
        self.assertEqual(found[0], found[1])

    def test_other_sources(self):
        path = self.archive()
        with mock.patch.object(repository, 'sum_of_code', lambda _: 'other'), \
                self.assertRaisesRegex(ValueError, 'other sources than those of this checkout'):
            carried.take(path)
        self.assertFalse(os.path.exists(program.UNPROVED))

    def test_another_program_than_the_recorded_one(self):
        path = self.archive(carried.record_of(repository.sum_of_sources, BUILD + b'# changed\n'))
        with self.assertRaisesRegex(ValueError, 'not the one that its record is of'):
            carried.take(path)

    def test_what_is_no_archive(self):
        for text in (b'', b'PK', carried.packed({'other': b''}), carried.packed({program.NAME: BUILD}), carried.packed({})[:-9]):
            with self.subTest(text[:9]), self.assertRaisesRegex(ValueError, 'no archive of tools/package'):
                with open(os.path.join(self.room, 'archive'), 'wb') as f:
                    f.write(text)
                carried.take(f.name)

    def test_the_tool_says_why(self):
        run = subprocess.run([os.path.join(tool.TOOLS, 'run'), '--build', self.path], input=b'', capture_output=True)
        self.assertEqual((run.returncode, run.stdout), (125, b''))
        self.assertEqual(run.stderr.decode(), 'tools/run: %s is not taken: it is no archive of tools/package\n' % self.path)


class Sums(unittest.TestCase):
    def test_a_proof_edit_makes_no_new_build(self):
        """What is compiled without proofs is made of src and crates.txt alone."""
        with tempfile.TemporaryDirectory() as root:
            for part in ('src', 'specs', 'proofs'):
                os.makedirs(os.path.join(root, 'crates', 'one', part))
            with open(os.path.join(root, 'crates.txt'), 'w') as f:
                f.write('one: anyhow\n')

            def sums():
                return repository.sum_of_code('one', root), repository.sum_of_sources('one', root)
            found = [sums()]
            for part in ('specs', 'proofs', 'src'):
                with open(os.path.join(root, 'crates', 'one', part, 'it'), 'w') as f:
                    f.write(part)
                found.append(sums())
            code, sources = zip(*found)
            self.assertEqual((code[0] == code[1] == code[2], code[2] == code[3], len(set(sources))), (True, False, 4))


if __name__ == '__main__':
    unittest.main()
