"""Tests of the shell commands of docs/TOOL.md that are more than one call of a tool: each runs as the page has it, with stand-ins for the
programs that it calls."""
import os
import re
import subprocess
import sys
import tempfile
import unittest

sys.dont_write_bytecode = True
sys.path.insert(0, os.path.dirname(os.path.dirname(os.path.abspath(__file__))))
import repository
import sources

# tools/oauth2: ends with the next status of the file `statuses`, and prints a header or a token where that is 0.
TOOL = '''#!/bin/sh
echo "$*" >> calls
read -r status < statuses && sed -i 1d statuses
[ "$status" = 0 ] || exit "$status"
case "$*" in *'--output header') echo 'Authorization: Bearer t1';; *) echo t1;; esac
'''
# curl and docker: print their arguments and what they read.
READER = '#!/bin/sh\necho "$*"\ncat\n'
SLEEP = 'sleep() { echo "$1" >> sleeps; }\n'


def block(beginning):
    """The lines of the page's indented block that begins so."""
    page = sources.read(os.path.join(repository.ROOT, 'docs', 'TOOL.md'))
    found = [it for it in re.findall(r'(?<=\n\n)(?:    .*\n)+', page) if it.startswith('    ' + beginning)]
    if len(found) != 1:
        raise ValueError('%d blocks begin with %r' % (len(found), beginning))
    return re.sub('(?m)^    ', '', found[0])


class Shell(unittest.TestCase):
    def setUp(self):
        room = tempfile.TemporaryDirectory()
        self.addCleanup(room.cleanup)
        self.top = room.name
        for path, text in (('tools/oauth2', TOOL), ('bin/curl', READER), ('bin/docker', READER)):
            os.chmod(self.written(path, text), 0o755)

    def written(self, path, text):
        path = os.path.join(self.top, path)
        os.makedirs(os.path.dirname(path), exist_ok=True)
        with open(path, 'w') as f:
            f.write(text)
        return path

    def lines(self, name):
        path = os.path.join(self.top, name)
        return sources.read(path).splitlines() if os.path.exists(path) else []

    def run_shell(self, words, *statuses):
        """The status with which a shell ends, and what it prints, where tools/oauth2 ends with these statuses."""
        for name in ('calls', 'sleeps'):
            self.written(name, '')
        self.written('statuses', ''.join('%d\n' % it for it in statuses))
        env = dict(os.environ, PATH=os.path.join(self.top, 'bin') + os.pathsep + os.environ['PATH'])
        run = subprocess.run(['bash', '-c', words], cwd=self.top, env=env, stdin=subprocess.DEVNULL, capture_output=True, text=True)
        return run.returncode, run.stdout

    def test_the_loop_that_asks_again(self):
        loop = SLEEP + block('for wait in') + 'echo "$token"\n'
        for statuses, wanted, sleeps in (((0,), (0, 't1\n'), []), ((9, 9, 0), (0, 't1\n'), ['1', '2']), ((9, 18), (18, ''), ['1']),
                                         ((9,) * 5, (9, ''), ['1', '2', '4', '8', '0'])):
            with self.subTest(statuses):
                self.assertEqual(self.run_shell(loop, *statuses), wanted)
                self.assertEqual((len(self.lines('calls')), self.lines('sleeps')), (len(statuses), sleeps))

    def test_where_tokens_are_used(self):
        header, token = block('header=$('), block('tools/oauth2 token --profile work --output token |\n        docker')
        self.assertEqual(self.run_shell(header, 0), (0, '-H @- https://api.example/\nAuthorization: Bearer t1\n'))
        self.assertEqual(self.run_shell(header, 5), (5, ''))
        self.assertEqual(self.run_shell(token, 0), (0, 'login --username oauth2 --password-stdin registry.example\nt1\n'))


if __name__ == '__main__':
    unittest.main()
