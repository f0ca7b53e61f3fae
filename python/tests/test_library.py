"""What runs scripts: a shared library by ctypes, or a program; and the version."""
import json
import os
import re
import shutil
import subprocess
import sys
import tempfile
import unittest

from case import HERE, Case
import lifecrib
from lifecrib import _json, _library

PACKAGE = os.path.dirname(HERE)
# Answers with as many letters as the script has bytes, with no memory for one that has "none", and else with nonsense.
STAND_IN = r'''
#include <stddef.h>
#include <stdint.h>
#include <string.h>

static int has(const uint8_t *script, size_t length, const char *word) {
    for (size_t at = 0; at + strlen(word) <= length; at++) if (!memcmp(script + at, word, strlen(word))) return 1;
    return 0;
}

int32_t lifecrib_run(const uint8_t *script, size_t script_length, uint8_t *output, size_t output_length,
                     size_t *length) {
    const char *head = "{\"events\":[{\"event\":\"answer\",\"answer\":\"", *tail = "\"}]}\n";
    size_t letters = 50 * script_length;
    *length = 0;
    if (has(script, script_length, "\"none\"")) return 3;
    if (has(script, script_length, "\"nonsense\"")) { head = tail = ""; letters = 7; }
    *length = strlen(head) + letters + strlen(tail);
    if (*length > output_length) return 0;
    memcpy(output, head, strlen(head));
    memset(output + strlen(head), 'x', letters);
    memcpy(output + strlen(head) + letters, tail, strlen(tail));
    return 0;
}
'''


def script(command):
    return {'client': {'id': 'a'}, 'command': command}


@unittest.skipUnless(shutil.which('cc'), 'there is no C compiler')
class Loaded(Case):
    @classmethod
    def setUpClass(cls):
        cls.room = tempfile.TemporaryDirectory()
        cls.addClassCleanup(cls.room.cleanup)
        cls.path = os.path.join(cls.room.name, 'liblifecrib.so')
        source = os.path.join(cls.room.name, 'stand_in.c')
        with open(source, 'w') as f:
            f.write(STAND_IN)
        subprocess.run(['cc', '-shared', '-fPIC', '-o', cls.path, source], check=True)

    def setUp(self):
        before = {name: os.environ.pop(name, None) for name in ('LIFECRIB_PROGRAM', 'LIFECRIB_LIBRARY')}
        os.environ['LIFECRIB_LIBRARY'] = self.path
        _library.library.cache_clear()

        def back():
            os.environ.pop('LIFECRIB_LIBRARY')
            os.environ.update({name: it for name, it in before.items() if it is not None})
            _library.library.cache_clear()
        self.addCleanup(back)

    def test_a_result_that_does_not_fit_at_first(self):
        for padding in (1, 1000, 100000):
            given = {**script('code'), 'padding': 'y' * padding}
            length = len(_json.text_of({**given, 'result': 'json'}))
            self.assertEqual(_library.run_script(given).answer(), 'x' * (50 * length))

    def test_no_memory(self):
        self.assertEqual(self.fails(lifecrib.OutOfMemory, _library.run_script, script('none')).kind, 'out_of_memory')
        with self.assertRaises(MemoryError):
            _library.run_script(script('none'))

    def test_no_result(self):
        with self.assertRaisesRegex(RuntimeError, 'no result'):
            _library.run_script(script('nonsense'))

    def test_another_library(self):
        def runs(text):
            seen.append(json.loads(text))
            return 1, b'{"events":[{"event":"fault","kind":"other_error","text":"x","error":null,"unread":null}]}'
        seen = []
        run = lifecrib.run_script(script('code'), _library.Library('x', runs))
        self.assertEqual(seen, [{**script('code'), 'result': 'json'}])
        self.assertIsInstance(run, lifecrib.Run)
        self.assertEqual(repr(run), 'Run(1 events, the last: fault)')  # a request has secrets
        self.assertEqual(run.last['kind'], 'other_error')
        self.fails(lifecrib.OtherError, run.answer)

    def test_none_there(self):
        os.environ['LIFECRIB_LIBRARY'] = '/none'
        with self.assertRaises(OSError):
            lifecrib.Client('aaa')
        os.environ['LIFECRIB_LIBRARY'] = ''
        if not os.path.exists(_library.LIBRARY) and not os.path.exists(_library.PROGRAM):
            with self.assertRaisesRegex(ImportError, 'LIFECRIB_LIBRARY'):
                lifecrib.Client('aaa')


class Json(unittest.TestCase):
    def test_numbers_keep_their_spelling(self):
        for text in ('0', '-1', '1.10', '1E+400', '1E-400', '123456789012345678901234567890', '1' * 5000):
            self.assertEqual(_json.text_of(_json.value_of('[%s]' % text)), '[%s]' % text)
        self.assertEqual(_json.value_of('1e-99999999999999999999'), 0)
        for text in ('NaN', '[Infinity]', '-Infinity', '', '1 1'):
            with self.assertRaises(ValueError):
                _json.value_of(text)

    def test_what_no_json_has(self):
        for it in (float('nan'), _json.decimal.Decimal('inf')):
            with self.assertRaises(ValueError):
                _json.text_of([it])


class Names(unittest.TestCase):
    def test_what_is_used_is_loaded_then(self):
        told = 'import lifecrib, sys; print(sorted(it for it in ("ssl", "asyncio", "ctypes") if it in sys.modules)); '
        for more, wanted in (('', '[]'), ('lifecrib.Token; lifecrib.run_script; ', '[]'),
                             ('lifecrib.Client; ', "['asyncio', 'ssl']")):
            run = subprocess.run([sys.executable, '-B', '-c', told.replace('; print', '; %sprint' % more)], cwd=PACKAGE,
                                 capture_output=True, text=True)
            self.assertEqual(run.stdout.strip(), wanted, run.stderr)

    def test_each_is_there(self):
        self.assertEqual([it for it in lifecrib.__all__ if not hasattr(lifecrib, it)], [])
        self.assertLessEqual(set(lifecrib.__all__), set(dir(lifecrib)))
        self.assertFalse(hasattr(lifecrib, 'TokenOfAnother'))


class Version(unittest.TestCase):
    def run_module(self, *words):
        return subprocess.run([sys.executable, '-B', '-m', 'lifecrib', *words], cwd=PACKAGE, capture_output=True,
                              text=True)

    def test_it_is_told(self):
        run = self.run_module('--version')
        self.assertEqual(run.returncode, 0, run.stderr)
        self.assertTrue(run.stdout.startswith('lifecrib %s (' % lifecrib.__version__), run.stdout)

    def test_another_word(self):
        if not os.path.exists(os.path.join(PACKAGE, 'lifecrib', '_command')):
            run = self.run_module('--nothing')
            self.assertEqual((run.returncode, run.stdout), (2, ''))

    def test_it_is_the_same_everywhere(self):
        with open(os.path.join(PACKAGE, 'pyproject.toml')) as f:
            self.assertIn('version = "%s"' % lifecrib.__version__, f.read())
        path = os.path.join(PACKAGE, '..', 'tools', 'version.py')
        if os.path.exists(path):
            with open(path) as f:
                self.assertEqual(re.search(r"VERSION = '(.*)'", f.read()).group(1), lifecrib.__version__)


@unittest.skipUnless(shutil.which('mypy'), 'there is no mypy')
class Types(unittest.TestCase):
    def test_the_types_hold(self):
        source = '''
import asyncio
from lifecrib import AsyncClient, Client, Keeper, Login, Reply, Request, Token, UrllibTransport

def send(request: Request) -> Reply:
    return Reply(200, 'application/json', b'')

client = Client('a', 'b', token_url='https://as.example/t', transport=send)
token: Token = client.fetch_token('c', verifier='v')
scopes: tuple[str, ...] = client.client_credentials(scopes=['a']).scopes
login: Login = client.login('openid')
done: Token = login.finish('https://app.example/')
kept: Token = Keeper(client, token, margin=10).token()
active: bool = client.introspect('t').active
nothing: None = client.revoke('t')
polled = client.device().poll()
reveal_type(polled)
client.fetch_token(1)
client.refresh()
Client('a', transport=3)

async def main() -> Token:
    it = AsyncClient('a')
    login = await it.login()
    await login.finish('x')
    return await it.fetch_token('c')
'''
        with tempfile.TemporaryDirectory() as room:
            path = os.path.join(room, 'uses.py')
            with open(path, 'w') as f:
                f.write(source)
            words = ['mypy', '--strict', '--cache-dir', room, os.path.join(PACKAGE, 'lifecrib'), path]
            env = dict(os.environ, MYPYPATH=PACKAGE)
            run = subprocess.run(words, cwd=PACKAGE, env=env, capture_output=True, text=True)
        said = re.findall(r'uses.py:(\d+): (\w+): (.*)', run.stdout)
        lines = source.split('\n')
        faults = [lines[int(line) - 1] for line, kind, _ in said if kind == 'error']
        self.assertEqual(faults, ['client.fetch_token(1)', 'client.refresh()', "Client('a', transport=3)"], run.stdout)
        self.assertIn('Union[lifecrib._data.Token, None]', run.stdout)
        # those of this file, and that a library which is left out here has no types
        others = re.sub(r'.*(uses\.py|library stub for module|#missing-imports).*', '', run.stdout)
        self.assertNotIn('lifecrib/', others)


if __name__ == '__main__':
    unittest.main()
