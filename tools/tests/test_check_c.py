"""Tests of tools/check-c: that it finds a library that differs from the program, that writes where it may not, and that keeps memory. A library
in C and a script of the shell stand for the real ones."""
import os
import shutil
import subprocess
import sys
import tempfile
import unittest

import tool

sys.path.insert(0, tool.TOOLS)

LIBRARY = '''
#include <stdlib.h>
#include <string.h>
#include "lifecrib.h"

int32_t lifecrib_run(const uint8_t *script, size_t script_length, uint8_t *output, size_t output_length, size_t *length) {
    char *result = malloc(script_length + 20);
    *length = 0;
    if (!result) return 3;
    memcpy(result, script, script_length);
    strcpy(result, "bad script\\n");
    *length = strlen(result);
    if (*length <= output_length) memcpy(output, result, *length);
    free(result);
    return 2;
}
'''
TEXTS = LIBRARY + '''
static void put(const char *text, uint8_t *output, size_t output_length, size_t *length) {
    *length = strlen(text);
    if (*length <= output_length) memcpy(output, text, *length);
}

void lifecrib_version(uint8_t *output, size_t output_length, size_t *length) { put("%s", output, output_length, length); }
void lifecrib_kinds(uint8_t *output, size_t output_length, size_t *length) { put("%s", output, output_length, length); }
''' % (tool.load('version.py').VERSION, ''.join(it + '\\n' for it in tool.load('check-c').shown_kinds()))
PROGRAM = '#!/bin/sh\ncat > /dev/null\necho bad script\nexit 2\n'


@unittest.skipUnless(shutil.which('cc') and shutil.which('rt'), 'there is no C compiler, or no kit')
class CheckC(unittest.TestCase):
    def setUp(self):
        room = tempfile.TemporaryDirectory()
        self.addCleanup(room.cleanup)
        self.room = room.name

    def written(self, name, text):
        path = os.path.join(self.room, name)
        with open(path, 'w') as f:
            f.write(text)
        os.chmod(path, 0o755)
        return path

    def run_tool(self, part, old='', new=''):
        """The status and the lines of a part with the stand-in, in which one text is another."""
        library = TEXTS if part == 'texts' else LIBRARY
        self.assertIn(old, library)
        source, built = self.written('library.c', library.replace(old, new, 1) if old else library), os.path.join(self.room, 'library.o')
        subprocess.run(['cc', '-O1', '-I', os.path.join(os.path.dirname(tool.TOOLS), 'c'), '-c', source, '-o', built], check=True)
        archive = os.path.join(self.room, 'liblibrary.a')
        subprocess.run(['ar', 'rc', archive, built], check=True)
        words = ['--library', archive, '--program', self.written('program', PROGRAM), '--scripts', '60', part]
        run = subprocess.run([sys.executable, os.path.join(tool.TOOLS, 'check-c'), *words], capture_output=True, text=True)
        self.assertEqual(run.stderr, '')
        return run.returncode, run.stdout

    def test_what_is_right(self):
        self.assertEqual(self.run_tool('same'), (0, 'same     60 scripts, 0 with a result as JSON; 60 end with 2\n1 passed, 0 failed\n'))
        status, said = self.run_tool('texts')
        self.assertEqual((status, said[-19:]), (0, '1 passed, 0 failed\n'), said)
        status, said = self.run_tool('memory')
        self.assertEqual((status, said[-19:]), (0, '1 passed, 0 failed\n'), said)
        self.assertIn(' wrote nothing', said)

    def test_what_is_wrong(self):
        for part, old, new, wanted in (
                ('same', 'return 2', 'return 1', 'by the library, and'),
                ('same', 'memcpy(output, result, *length)', 'memcpy(output, result, output_length > *length ? *length + 1 : *length)',
                 'as the header says'),
                ('same', 'if (*length <= output_length) ', 'if (output_length && *length > output_length) output[0] = 1; else ', 'as the header says'),
                ('texts', 'bad_push\\n', '', 'where'),
                ('texts', '*length = strlen(text);', '*length = strlen(text); void *volatile room = malloc(1); free(room);', 'a text takes memory'),
                ('texts', 'memcpy(output, text, *length)', 'strcpy((char *)output, text)', 'as the header says'),
                ('memory', 'free(result);', '', 'a call keeps memory'),
                ('memory', 'return 3', 'return 2', 'FAILED'),
                ('memory', 'if (!result) return 3;', 'if (!result) { output[0] = 1; return 3; }', 'as the header says')):
            with self.subTest(new):
                status, said = self.run_tool(part, old, new)
                self.assertEqual(status, 1)
                self.assertIn(wanted, said)


if __name__ == '__main__':
    unittest.main()
