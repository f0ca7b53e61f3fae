"""Tests of tools/machine.py: how many checks a machine takes at once."""
import os
import sys
import unittest
from unittest import mock

sys.dont_write_bytecode = True
sys.path.insert(0, os.path.dirname(os.path.dirname(os.path.abspath(__file__))))
import machine

GB = 1 << 30


class Lanes(unittest.TestCase):
    def test_processors_and_memory(self):
        for processors, memory, wanted in [(4, 16 * GB, 4), (4, 15 * GB, 4), (4, 13 * GB, 3), (2, 64 * GB, 2), (8, GB, 1)]:
            with self.subTest(processors=processors, memory=memory):
                self.assertEqual(machine.lanes_for(processors, memory), wanted)

    def test_fixed_number(self):
        with mock.patch.dict(os.environ, RT_JOBS='3'):
            self.assertEqual(machine.lanes(), 3)

    def test_no_fixed_number(self):
        for text in ('', '0', 'many'):
            with mock.patch.dict(os.environ, RT_JOBS=text), mock.patch('machine.free_memory', lambda: GB):
                self.assertEqual(machine.lanes(), 1)


if __name__ == '__main__':
    unittest.main()
