"""Tests of tools/package-c, and of the header and the example that it packs. The library is a stand-in in C, so nothing is proved."""
import ctypes
import hashlib
import os
import re
import shutil
import subprocess
import sys
import tarfile
import tempfile
import unittest

import tool

sys.path.insert(0, tool.TOOLS)
import c_library
import repository
import version

C = os.path.join(repository.ROOT, 'c')
CRATE = os.path.join(repository.CRATES, 'oauth2_c', 'src')
# What C has in place of each type of a parameter of the crate; a slice is a pointer and a length.
TYPES = {'&[u8]': 'const uint8_t *{0}, size_t {0}_length', '&mut [u8]': 'uint8_t *{0}, size_t {0}_length',
         '&mut usize': 'size_t *{0}', 'i32': 'int32_t', '': 'void'}
STAND_IN = '''
#include <string.h>
#include "lifecrib.h"

/* The result is the script three times. */
int32_t lifecrib_run(const uint8_t *script, size_t script_length, uint8_t *output, size_t output_length, size_t *length) {
    *length = 3 * script_length;
    for (int at = 0; at < 3 && *length <= output_length; at++) memcpy(output + at * script_length, script, script_length);
    return LIFECRIB_FAULT;
}

static void put(const char *text, uint8_t *output, size_t output_length, size_t *length) {
    *length = strlen(text);
    if (*length <= output_length) memcpy(output, text, *length);
}

void lifecrib_version(uint8_t *output, size_t output_length, size_t *length) {
    put(LIFECRIB_VERSION, output, output_length, length);
}

void lifecrib_kinds(uint8_t *output, size_t output_length, size_t *length) {
    put("bad_push\\n", output, output_length, length);
}
'''


def text_of(*path):
    with open(os.path.join(*path), encoding='utf-8') as f:
        return f.read()


def bytes_in(path):
    with open(path, 'rb') as f:
        return f.read()


def joined(text):
    return ' '.join(text.split())


def exports():
    """The exported functions of the crate, as C declares them."""
    source = text_of(CRATE, 'lib.rt')
    for name, parameters, result in re.findall(r'extern "C" fn (\w+)\((.*?)\)(?: -> (\w+))?\n', source, re.S):
        taken = [it.strip().split(': ') for it in parameters.split(',') if it.strip()]
        words = [TYPES[kind].format(it) for it, kind in taken if kind != 'Global']
        yield name, '%s %s(%s);' % (TYPES[result], name, ', '.join(words))


@unittest.skipUnless(shutil.which('cc'), 'there is no C compiler')
class PackageC(unittest.TestCase):
    def setUp(self):
        room = tempfile.TemporaryDirectory()
        self.addCleanup(room.cleanup)
        self.room = room.name

    def compiled(self, *words, compiler='cc'):
        run = subprocess.run([compiler, '-Wall', '-Wextra', '-pedantic', '-Werror', '-I', C, *words], capture_output=True, text=True)
        self.assertEqual(run.returncode, 0, run.stderr)

    def stand_in(self):
        """A static library that stands for the proved one."""
        source, built = os.path.join(self.room, 'stand_in.c'), os.path.join(self.room, 'stand_in.o')
        with open(source, 'w') as f:
            f.write(STAND_IN)
        self.compiled('-std=c99', '-fPIC', '-c', source, '-o', built)
        archive = os.path.join(self.room, 'libstand_in.a')
        subprocess.run(['ar', 'rc', archive, built], check=True)
        return archive

    def test_the_header_declares_what_the_crate_exports(self):
        header = text_of(C, 'lifecrib.h')
        found = dict(exports())
        for declared in found.values():
            self.assertIn(declared, joined(header))
        self.assertEqual(re.findall(r'^\w[\w ]* \*?(\w+)\(', header, re.M), list(found))
        self.assertEqual(re.findall(r'global: (.*);', text_of(C, 'exports.map')), ['; '.join(found)])
        self.assertEqual(list(c_library.EXPORTS), list(found))
        self.assertIn('put("%s"' % version.VERSION, text_of(CRATE, 'lib.rt'))
        self.assertIn('#define LIFECRIB_VERSION "%s"' % version.VERSION, header)

    def test_the_pages_have_the_function_and_the_version(self):
        for declared in dict(exports()).values():
            self.assertIn(declared, joined(text_of(repository.ROOT, 'docs', 'C.md')))
        for page in repository.pages():
            found = re.findall(r'\blifecrib[-_](?:c-)?(\d+\.\d+\.\d+)', text_of(repository.ROOT, page))
            self.assertLessEqual(set(found), {version.VERSION}, page)

    def test_the_page_begins_with_the_end_of_the_example(self):
        page, example = text_of(repository.ROOT, 'docs', 'C.md'), text_of(C, 'examples', 'token.c')
        shown = re.search(r'\n\n((?: {4}.*\n)+)', page).group(1)
        self.assertEqual(re.sub('(?m)^ {4}', '', shown), example[example.index('int main('):])
        self.assertLessEqual(shown.count('\n'), 16)

    def test_the_header_has_the_numbers_of_the_crate(self):
        source = text_of(CRATE, 'run.rt')
        numbers = dict(re.findall(r'RunStatus::(\w+) => (\d)', source))
        numbers['NoMemory'] = re.search(r'NO_MEMORY: i32 = (\d)', source).group(1)
        names = {it: 'LIFECRIB' + re.sub(r'(?=[A-Z])', '_', it).upper() for it in numbers}
        declared = dict(re.findall(r'(LIFECRIB_[A-Z_]+) = (\d)', text_of(C, 'lifecrib.h')))
        self.assertEqual({names[it]: number for it, number in numbers.items()}, declared)

    def test_the_header_is_one_of_c_and_of_cpp(self):
        source = os.path.join(self.room, 'one.c')
        with open(source, 'w') as f:
            f.write('#include "lifecrib.h"\n#include "lifecrib.h"\nint one(void);\nint one(void) { return LIFECRIB_FAULT; }\n')
        for compiler in filter(shutil.which, ('cc', 'clang')):
            for language, standard in (('c', 'c99'), ('c', 'c17'), ('c++', 'c++11'), ('c++', 'c++20')):
                self.compiled('-std=' + standard, '-x', language, '-c', source, '-o', os.path.join(self.room, 'one.o'), compiler=compiler)

    def test_the_example_makes_room_for_a_long_result(self):
        program = os.path.join(self.room, 'run')
        self.compiled('-std=c99', os.path.join(C, 'examples', 'run.c'), self.stand_in(), '-o', program)
        for size in (0, 1, 1365, 1366, 4095, 4096, 100000):
            given = bytes(at % 251 for at in range(size))
            run = subprocess.run([program], input=given, capture_output=True)
            self.assertEqual((run.returncode, run.stdout, run.stderr), (1, given * 3, b''), size)

    def package(self, kind, archive):
        """The paths of the packages, which are made twice, as the same bytes."""
        bytes_of = []
        for umask in (0o022, 0o077):
            to = tempfile.mkdtemp(dir=self.room)
            words = [sys.executable, os.path.join(tool.TOOLS, 'package-c'), '--library', archive, '--to', to, kind]
            run = subprocess.run(words, capture_output=True, text=True, preexec_fn=lambda: os.umask(umask) and None)
            self.assertEqual(run.returncode, 0, run.stderr)
            paths = run.stdout.splitlines()
            bytes_of.append([bytes_in(it) for it in paths])
        self.assertEqual(*bytes_of)
        return paths

    @unittest.skipUnless(shutil.which('rt'), 'there is no kit')
    def test_the_tar(self):
        path, = self.package('tar', self.stand_in())
        self.assertEqual(os.path.basename(path), 'lifecrib-c-%s-linux-x86_64.tar.xz' % version.VERSION)
        with tarfile.open(path) as archive:
            archive.extractall(self.room)
        base = os.path.join(self.room, 'lifecrib-c-' + version.VERSION)
        program = os.path.join(self.room, 'run')
        subprocess.run(['cc', os.path.join(base, 'share/doc/lifecrib/examples/run.c'), '-I', base + '/include', '-L', base + '/lib', '-llifecrib',
                        '-Wl,-rpath,' + base + '/lib', '-o', program], check=True)
        run = subprocess.run([program], input=b'abc', capture_output=True)
        self.assertEqual((run.returncode, run.stdout), (1, b'abcabcabc'))
        self.assertEqual(self.exported(base + '/lib/liblifecrib.so.0'), sorted(name for name, _ in exports()))
        if shutil.which('pkg-config'):
            env = dict(os.environ, PKG_CONFIG_PATH=base + '/lib/pkgconfig')
            run = subprocess.run(['pkg-config', '--modversion', 'lifecrib'], env=env, capture_output=True, text=True)
            self.assertEqual(run.stdout.strip(), version.VERSION, run.stderr)

    def test_the_tar_has_each_example(self):
        top = os.path.join(C, 'examples')
        found = {os.path.relpath(os.path.join(at, name), top) for at, _, names in os.walk(top) for name in names}
        source = text_of(tool.TOOLS, 'package-c')
        self.assertEqual(found, set(re.findall(r"'([^']+)'", re.search(r'EXAMPLES = \((.*)\)', source).group(1))))

    def exported(self, *words):
        """The functions that a library exports."""
        return re.findall(r' T (\w+)', subprocess.run(['nm', '-D', '--defined-only', *words], capture_output=True, text=True).stdout)

    @unittest.skipUnless(shutil.which('rt') and shutil.which('dpkg-deb'), 'there is no kit, or no dpkg-deb')
    def test_the_debs(self):
        paths = self.package('deb', self.stand_in())
        self.assertEqual([os.path.basename(it) for it in paths],
                         ['%s_%s_amd64.deb' % (it, version.VERSION) for it in ('liblifecrib0', 'liblifecrib-dev')])
        root = os.path.join(self.room, 'root')
        for path in paths:
            subprocess.run(['dpkg-deb', '-x', path, root], check=True)
            listed = subprocess.run(['dpkg-deb', '-c', path], capture_output=True, text=True).stdout.splitlines()
            self.assertEqual({it.split()[1] for it in listed}, {'root/root'})
            self.assertLessEqual({it[:10] for it in listed}, {'drwxr-xr-x', '-rw-r--r--', 'lrwxrwxrwx'})
            name, control = os.path.basename(path).partition('_')[0], self.control(path, 'md5sums')
            self.assertIn('usr/share/doc/%s/copyright' % name, control)
            for line in control.splitlines():
                self.assertEqual(hashlib.md5(bytes_in(os.path.join(root, line[34:]))).hexdigest(), line[:32])
        needed = 'liblifecrib0 (= %s)' % version.VERSION
        self.assertEqual([self.field(it, 'Depends').startswith(wanted) for it, wanted in zip(paths, ('libc6 (>= ', needed))], [True, True])
        self.check_use_of(root)
        if shutil.which('lintian'):
            # the names of the stand-in's own functions are not those of a hardened build
            words = ['lintian', '--fail-on', 'error,warning', '--suppress-tags', 'hardening-no-fortify-functions', *paths]
            run = subprocess.run(words, capture_output=True, text=True)
            self.assertEqual(run.returncode, 0, run.stdout + run.stderr)

    def check_use_of(self, root):
        """A program compiled with what the packages install, by the shared and by the static library."""
        lib = os.path.join(root, 'usr/lib/x86_64-linux-gnu')
        program, example = os.path.join(self.room, 'used'), os.path.join(root, 'usr/share/doc/liblifecrib-dev/examples/run.c')
        for library in (['-L', lib, '-llifecrib', '-Wl,-rpath,' + lib], [lib + '/liblifecrib.a']):
            subprocess.run(['cc', example, '-I', root + '/usr/include', *library, '-o', program], check=True)
            run = subprocess.run([program], input=b'abc', capture_output=True)
            self.assertEqual((run.returncode, run.stdout), (1, b'abcabcabc'))
        names = sorted(name for name, _ in exports())
        self.assertEqual(self.exported(lib + '/liblifecrib.so.0'), names)
        of_archive = subprocess.run(['nm', '-g', '--defined-only', lib + '/liblifecrib.a'], capture_output=True, text=True).stdout
        self.assertEqual(re.findall(r' T (\w+)', of_archive), names)
        if shutil.which('pkg-config'):
            env = dict(os.environ, PKG_CONFIG_PATH=lib + '/pkgconfig', PKG_CONFIG_SYSROOT_DIR=root)
            for flag, wanted in (('--modversion', version.VERSION), ('--libs', '-llifecrib')):
                run = subprocess.run(['pkg-config', flag, 'lifecrib'], env=env, capture_output=True, text=True)
                self.assertEqual(run.stdout.split()[-1:], [wanted], run.stderr)

    @unittest.skipUnless(shutil.which('rt') and shutil.which('dpkg-deb'), 'there is no kit, or no dpkg-deb')
    def test_the_symbols_of_the_deb(self):
        path = self.package('deb', self.stand_in())[0]
        version_node, = re.findall(r'^(\w+) \{', text_of(C, 'exports.map'), re.M)
        found = dict(re.findall(r'^ (\w+)@(\w+) %s$' % re.escape(version.VERSION), self.control(path, 'symbols'), re.M))
        self.assertEqual(found, {it: version_node for it in [version_node, *(name for name, _ in exports())]})
        self.assertEqual(self.control(path, 'shlibs'), 'liblifecrib 0 liblifecrib0 (>= %s)\n' % version.VERSION)
        self.assertEqual(self.control(path, 'triggers'), 'activate-noawait ldconfig\n')

    def control(self, path, name):
        """A file of a package's control."""
        return subprocess.run(['dpkg-deb', '-I', path, name], capture_output=True, text=True, check=True).stdout

    def field(self, path, name):
        return subprocess.run(['dpkg-deb', '-f', path, name], capture_output=True, text=True, check=True).stdout.strip()

    def test_a_library_that_runs_the_program_beside_it(self):
        """What --unproved packs, with a stand-in of the program; it may be moved, and has the kinds of docs/SCRIPT.md."""
        folder = os.path.join(self.room, 'moved')
        os.mkdir(folder)
        library, program = os.path.join(folder, 'liblifecrib.so'), os.path.join(folder, 'oauth2_run')
        c_library.library_by_program(library)
        with open(program, 'w', encoding='utf-8') as f:
            f.write('#!/bin/sh\n/bin/cat; exit 1\n')
        os.chmod(program, 0o755)
        self.assertEqual(self.exported(library), sorted(name for name, _ in exports()))
        used = os.path.join(self.room, 'used')
        subprocess.run(['cc', os.path.join(C, 'examples', 'run.c'), '-I', C, library, '-Wl,-rpath,' + folder, '-o', used], check=True)
        os.symlink(library, os.path.join(folder, c_library.SONAME))
        run = subprocess.run([used], input=b'abc', capture_output=True)
        self.assertEqual((run.returncode, run.stdout), (1, b'abc'), run.stderr)
        loaded, length = ctypes.CDLL(library), ctypes.c_size_t()
        for call, wanted in ((loaded.lifecrib_version, version.VERSION), (loaded.lifecrib_kinds, 'missing_endpoint\n')):
            output = ctypes.create_string_buffer(4096)
            call(output, ctypes.c_size_t(4096), ctypes.byref(length))
            self.assertTrue(output.raw[:length.value].decode().startswith(wanted))

    def test_unproved_makes_tar_alone(self):
        for words in (['deb'], ['--library', '/none.a']):
            run = subprocess.run([os.path.join(tool.TOOLS, 'package-c'), '--unproved', *words], capture_output=True, text=True)
            self.assertEqual(run.returncode, 2)
            self.assertIn('--unproved makes tar alone', run.stderr)

    def test_a_kind_that_is_none(self):
        run = subprocess.run([sys.executable, os.path.join(tool.TOOLS, 'package-c'), 'rpm'], capture_output=True, text=True)
        self.assertEqual(run.returncode, 2)
        self.assertIn('a package is one of tar, deb', run.stderr)


if __name__ == '__main__':
    unittest.main()
