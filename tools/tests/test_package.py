"""Tests of tools/package, whose packages have the stand-in of the program here."""
import base64
import hashlib
import importlib.util
import os
import shutil
import subprocess
import sys
import unittest
import zipfile

import tool

sys.path.insert(0, tool.TOOLS)
import packages
import program
import repository
import version

COMMAND_TESTS = os.path.join(repository.PYTHON, 'command_tests')
sys.path.append(COMMAND_TESTS)
import stand_in
from lifecrib_command import programs


class Packages(stand_in.Case):
    def setUp(self):
        super().setUp()
        self.to = self.folder()
        self.env = {'HOME': '/none', 'PATH': '/usr/bin:/bin'}

    def package(self, kind, *which):
        """The path of a package with the stand-in, unless words say which program."""
        words = [os.path.join(tool.TOOLS, 'package'), *(which or ('--program', self.program)), '--to', self.to, kind]
        run = subprocess.run(words, capture_output=True, text=True, timeout=900)
        self.assertEqual(run.returncode, 0, run.stderr)
        return run.stdout.strip()

    def installed(self, path):
        """The command of a wheel that is installed in an empty environment."""
        room = self.folder()
        subprocess.run([sys.executable, '-m', 'venv', room], check=True, capture_output=True)
        subprocess.run([room + '/bin/pip', 'install', '--quiet', '--no-index', '--no-deps', path], check=True, capture_output=True)
        self.assertTrue(os.path.exists(room + '/share/man/man1/lifecrib.1'))
        return room + '/bin/lifecrib'

    def gets_a_token(self, *command):
        """A run of what is installed gets a token at a server."""
        words = [*command, 'token', '--client-id', 'aaa', '--token-url', self.server.url + '/token', '--output', 'token']
        run = subprocess.run(words, env=self.env, cwd='/', capture_output=True, text=True, timeout=300)
        self.assertEqual((run.returncode, run.stdout, run.stderr),
                         (0, 't1\n', 'lifecrib: the program that runs here is not proved\n'))
        run = subprocess.run([*command, '--help'], env=self.env, cwd='/', capture_output=True, text=True, timeout=300)
        self.assertEqual(run.returncode, 0)
        self.assertNotIn('tools/', run.stdout.replace('tools/prove', '').replace('tools/test', ''))

    def keeps_a_token(self, command, said):
        """A run of what is installed that keeps a token on a stand-in of Redis; standard error says this."""
        modules, store = self.folder(), self.folder()
        shutil.copy(os.path.join(COMMAND_TESTS, 'fake_redis.py'), os.path.join(modules, 'redis.py'))
        words = [command, 'token', '--client-id', 'aaa', '--token-url', self.server.url + '/token', '--cache', 'redis://cache.example']
        env = dict(self.env, PYTHONPATH=modules, FAKE_REDIS=store, XDG_STATE_HOME=store)
        run = subprocess.run(words, env=env, cwd='/', capture_output=True, text=True, timeout=300)
        self.assertIn(said, run.stderr)
        return run.returncode

    def test_a_wheel(self):
        path = self.package('wheel')
        self.assertEqual(os.path.basename(path), 'lifecrib-%s-py3-none-any.whl' % version.VERSION)
        with zipfile.ZipFile(path) as f:
            files = {it.filename: f.read(it) for it in f.infolist()}
            modes = {it.filename: it.external_attr >> 16 & 0o777 for it in f.infolist()}
            f.extractall(self.folder())
        info = 'lifecrib-%s.dist-info/' % version.VERSION
        rows = [it.split(',') for it in files[info + 'RECORD'].decode().splitlines()]
        self.assertEqual(sorted(it[0] for it in rows), sorted(files))
        for name, digest, length in rows[:-1]:
            found = base64.urlsafe_b64encode(hashlib.sha256(files[name]).digest()).decode().rstrip('=')
            self.assertEqual((digest, length), ('sha256=' + found, str(len(files[name]))))
        self.assertEqual([name for name, mode in modes.items() if mode != 0o644], ['lifecrib_command/' + program.NAME])
        self.assertTrue({info + 'licenses/' + it for it in packages.LICENSES} <= set(files))
        with open(path, 'rb') as f:
            before = f.read()
        with open(self.package('wheel'), 'rb') as f:
            self.assertEqual(f.read(), before)

    @unittest.skipUnless(importlib.util.find_spec('ensurepip'), 'this Python has no pip for a virtual environment')
    def test_an_installed_wheel(self):
        command = self.installed(self.package('wheel'))
        self.gets_a_token(command)
        self.assertEqual(self.keeps_a_token(command, 'this package has no keeper, which --cache redis:// needs'), 125)

    @unittest.skipUnless(importlib.util.find_spec('ensurepip') and repository.has_kit(), 'no pip for a virtual environment, or no kit')
    def test_an_installed_wheel_of_the_program(self):
        command = self.installed(self.package('wheel', '--unproved'))
        self.gets_a_token(command)
        self.assertEqual(self.keeps_a_token(command, 'the keeper that runs here is not proved'), 0)

    def test_the_keeper_is_packed_too(self):
        for words, names in ((['--keeper', self.program], {program.NAME, program.KEEPER}), ([], {program.NAME})):
            with zipfile.ZipFile(self.package('wheel', '--program', self.program, *words)) as f:
                found = {it.filename for it in f.infolist() if it.external_attr >> 16 & 0o777 == 0o755}
                self.assertIn('lifecrib_command/shared_cache.py', f.namelist())
            self.assertEqual(found, {'lifecrib_command/' + it for it in names})

    @unittest.skipUnless(importlib.util.find_spec('ensurepip'), 'this Python has no pip for a virtual environment')
    def test_the_python_package(self):
        library = os.path.join(self.folder(), 'liblifecrib.so.0')
        with open(library, 'wb') as f:
            f.write(b'no library')
        program = os.path.join(repository.ROOT, 'python', 'tests', 'stand_in.py')
        for words in ([], ['--library', library]):
            path = self.package('wheel', '--program', program, *words)
            with zipfile.ZipFile(path) as f:
                self.assertEqual('lifecrib/liblifecrib.so' in f.namelist(), bool(words))
                self.assertNotIn('lifecrib/liblifecrib.so.proved', f.namelist())
                self.assertIn('lifecrib/py.typed', f.namelist())
            python = os.path.join(os.path.dirname(self.installed(path)), 'python')
            get = ("import lifecrib; it = lifecrib.Client('a', token_url='https://as.example/t', transport=lambda _: lifecrib.Reply("
                   "200, None, b'{\"access_token\":\"t1\",\"token_type\":\"bearer\"}')); print(it.fetch_token().access_token)")
            for command in (['-m', 'lifecrib', '--version'], ['-c', get], ['-m', 'lifecrib', '--help']):
                run = subprocess.run([python, *command], env=self.env, cwd='/', capture_output=True, text=True, timeout=300)
                if words and command[0] == '-c':
                    self.assertIn('file too short', run.stderr)
                else:
                    self.assertEqual(run.returncode, 0, run.stderr)
                    self.assertIn({'--version': 'lifecrib ' + version.VERSION, get: 't1', '--help': 'git-credential'}[command[-1]], run.stdout)

    @unittest.skipUnless(shutil.which('dpkg-deb'), 'there is no dpkg-deb here')
    def test_a_deb(self):
        room, path = self.folder(), self.package('deb')
        subprocess.run(['dpkg-deb', '-x', path, room], check=True)
        for name in ('usr/bin/lifecrib', 'usr/share/man/man1/lifecrib.1.gz', 'usr/share/bash-completion/completions/lifecrib',
                     'usr/share/zsh/vendor-completions/_lifecrib', 'usr/share/doc/lifecrib/copyright'):
            self.assertTrue(os.path.exists(os.path.join(room, name)), name)
        for at, folders, _ in os.walk(room):
            self.assertTrue(all(os.stat(os.path.join(at, it)).st_mode & 0o777 == 0o755 for it in folders))
        control = self.folder()
        subprocess.run(['dpkg-deb', '-e', path, control], check=True)
        for name in packages.SCRIPTS:
            subprocess.run(['sh', '-n', os.path.join(control, name)], check=True)
            self.assertEqual(os.stat(os.path.join(control, name)).st_mode & 0o777, 0o755)
        start = os.path.join(room, 'usr/bin/lifecrib')
        with open(start, encoding='utf-8') as f:
            text = f.read()
        with open(start, 'w', encoding='utf-8') as f:
            f.write(text.replace('/usr/lib', room + '/usr/lib'))
        self.gets_a_token(sys.executable, '-I', start)

    def test_without_a_program(self):
        words = [os.path.join(tool.TOOLS, 'package'), '--program', '/none', '--to', self.to]
        run = subprocess.run(words, capture_output=True, text=True, timeout=60)
        self.assertEqual((run.returncode, run.stderr), (1, 'tools/package: /none is no program\n'))


class Proved(unittest.TestCase):
    def test_the_record_of_a_packed_program(self):
        case = stand_in.Case('run')
        room = case.folder()
        self.addCleanup(case.doCleanups)
        path = os.path.join(room, program.NAME)
        for text, record, is_proved in (b'x', None, False), (b'x', 'sum ' + hashlib.sha256(b'x').hexdigest(), True), (b'y', None, False):
            with open(path, 'wb') as f:
                f.write(text)
            if record:
                with open(path + '.proved', 'w') as f:
                    f.write(record)
            self.assertEqual(programs.is_proved(path), is_proved)


class Manuals(unittest.TestCase):
    def setUp(self):
        self.man_page, self.bash, self.zsh = (it.decode() for it in packages.manuals())

    def test_each_flag_is_there(self):
        parser, commands = packages.flags.parser_of('x: y.\n\nz')
        self.assertIn('token', commands)
        for name, it in commands.items():
            self.assertIn('COMMAND ' + name.replace('-', '\\-'), self.man_page)
            for flag in (it.option_strings[-1] for it in packages.manual.actions_of(it)):
                for text in self.man_page.replace('\\-', '-'), self.bash, self.zsh:
                    self.assertIn(flag, text)
        for text in self.man_page, self.bash, self.zsh:
            self.assertNotIn('tools/oauth2', text)

    @unittest.skipUnless(shutil.which('groff'), 'there is no groff here')
    def test_the_man_page_is_read_without_a_warning(self):
        run = subprocess.run(['groff', '-man', '-ww', '-Tutf8'], input=self.man_page.encode(), capture_output=True)
        self.assertEqual((run.returncode, run.stderr), (0, b''))

    @unittest.skipUnless(shutil.which('bash'), 'there is no bash here')
    def test_completion(self):
        for words, wanted in (('lo', 'login logout'), ('token --output he', 'header'), ('status --output t', 'text'),
                              ('status --pro', '--profile'), ('revoke --kind ', 'access refresh'), ('token --client-s', '--client-secret-file')):
            line = self.bash + 'COMP_WORDS=(lifecrib %s); COMP_CWORD=%d; _lifecrib; echo ${COMPREPLY[@]}'
            given = words.split() + ['""'] * words.endswith(' ')
            run = subprocess.run(['bash', '-c', line % (' '.join(given), len(given))], capture_output=True, text=True)
            self.assertEqual((run.stdout.strip(), run.stderr), (wanted, ''))


class Programs(unittest.TestCase):
    def test_the_libc_that_a_program_needs(self):
        for text, wanted in ((b'#!/bin/sh', None), (b'\x7fELF\0GLIBC_2.4\0GLIBC_2.34\0GLIBC_2.2.5\0', (2, 34)), (b'\x7fELF', (2, 17))):
            self.assertEqual(packages.glibc_of(text), wanted)


if __name__ == '__main__':
    unittest.main()
