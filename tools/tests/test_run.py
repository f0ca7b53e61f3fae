"""Tests of tools/run: how it ends, by stand-ins of the program, and what it says of a script, with the stored scripts and definitions."""
import json
import os
import re
import shutil
import subprocess
import sys
import tempfile
import unittest

sys.dont_write_bytecode = True
sys.path.insert(0, os.path.dirname(os.path.abspath(__file__)))
sys.path.insert(0, os.path.dirname(os.path.dirname(os.path.abspath(__file__))))
import program
import repository
import script_faults
import sources
import stored_scripts
import tool

BAD_SCRIPT = 2
SPECS = os.path.join(repository.CRATES, 'oauth2_script', 'specs')
PAGE = sources.read(script_faults.PAGE)
# What is said of a script that is bad.
FAULTS = {
    '': ['the script is no JSON: it is empty'],
    '{"client": {"id": "a"},}': ['the script is no JSON: .*: line 1 column 2[34] .*'],
    '{"client": NaN}': ['the script is no JSON: NaN is no number of JSON'],
    '[' * 9999: ['the script is no JSON: maximum recursion depth exceeded.*'],
    '[]': ['the script is no object'],
    '{}': ['the script has no "client"', 'the script has no "command"'],
    '{"client": {}, "command": "revoke"}': ['"client" has no "id"', '"params" of "revoke" has no "token"'],
    '{"client": {"id": "a"}, "command": "refresh", "params": {"refresh-token": "r"}}':
        ['"params" of "refresh" has no "refresh_token"', '"params" of "refresh": "refresh-token" is ignored; is it "refresh_token"\\?'],
    '{"client": {"id": "a"}, "command": "code", "parms": {"code": "c"}}':
        ['"params" of "code" has no "code"', 'the script: "parms" is ignored; is it "params"\\?'],
    '{"client": {"id": "a"}, "command": "client_credential"}': ['there is no command "client_credential"; is it "client_credentials"\\?'],
    '{"client": 1, "command": ["code"], "replies": [{"fail": 1}, 2, {"status": 200}]}':
        ['"client" is no object', 'reply 2 is no object', 'reply 3 has no "body"'],
    '{"client": {"id": "a"}, "command": "client_credentials", "params": {"extra": {}}}': [re.escape(script_faults.ELSE)],
}


class Faults(unittest.TestCase):
    def test_of_bad_scripts(self):
        for script, wanted in FAULTS.items():
            with self.subTest(script[:90]):
                self.assertRegex('\n'.join(script_faults.told_of(script.encode(), True)), '^%s$' % '\n'.join(wanted))

    def test_of_bytes_that_are_no_text(self):
        self.assertRegex(script_faults.told_of(b'"\xff"', True)[0], 'no JSON: .*byte 0xff')

    def test_a_good_script_has_none(self):
        """Of the stored scripts that the program takes, some have members that it ignores; none has a fault."""
        ignored = []
        taken = [it.script for it in stored_scripts.all_stored() if it.run.status != BAD_SCRIPT]
        for script in [*taken, *program.examples().values()]:
            ignored += script_faults.told_of(script, False)
            self.assertIn(script_faults.ELSE, script_faults.told_of(script, True), script[:200])
        known = [('"params" of "authorize"', 'client_assertion')]
        known += [('"params" of "redirect"', it) for it in ('code', 'extra', 'scopes', 'verifier')]
        known += [('"params" of "refresh"', 'verifier'), ('the script', 'x')]
        self.assertEqual(sorted(set(ignored)), ['%s: "%s" is ignored' % it for it in known])


class Page(unittest.TestCase):
    def defined(self, name):
        """The members that a file of definitions reads, and those of them that it needs: of a command's parameters by its last definition,
        and by those that this one reads the same object by."""
        text = sources.read(os.path.join(SPECS, name + '.antt'))
        if name.endswith('Params'):
            parts = [it for it in re.findall(r'use Rattle\.oauth2_script\.specs\.(\w+)\.', text) if it == 'Sent' or it.endswith('Params')]
            parts = ''.join(sources.read(os.path.join(SPECS, it + '.antt')) for it in parts) + text[:text.rindex('\nunfoldable pub ')]
            text = text[text.rindex('\nunfoldable pub '):]
            text += self.parts_of(text, parts)
        return [re.findall(r'(?:%s)[ ()\w]* \(codes "(\w+)"\) (?:d|entry)\b' % kinds, text) for kinds in ('needed_part', 'needed_part|present_part|list_part|get')]

    def parts_of(self, text, parts):
        """The definitions of these parts by which a text reads an object, and those by which they do."""
        found = ''
        for part in re.findall(r'\nunfoldable pub .*?(?=\n\n|\Z)', parts, re.S):
            name = part.split()[2]
            if re.search(r"\b%s d\b" % name, text):
                found += part + self.parts_of(part, parts.replace(part, ''))
        return found

    def test_names_are_those_of_the_definitions(self):
        known, commands = script_faults.tables()
        files = {'Script': known['script'], 'Client': known['client'], 'Replies': known['replies']}
        files.update((''.join(it.title() for it in name.split('_')) + 'Params', names) for name, names in commands.items())
        for name, names in files.items():
            with self.subTest(name):
                self.assertEqual([sorted(it) for it in names], [sorted(it) for it in self.defined(name)])
        named = [sources.read(os.path.join(SPECS, it + '.antt')) for it in ('Command', 'ScriptCommand')]
        self.assertEqual([*commands], re.findall(r'name \(codes "(\w+)"\)', ''.join(named)))

    def test_the_example_is_the_stored_run(self):
        script, printed = re.search(r'```json\n(.*?)```\n.*?\n((?:    [^\n]*\n)+)', PAGE, re.S).groups()
        self.assertEqual(json.loads(script), json.loads(program.stored(program.NAME, 'stdin')))
        self.assertEqual(re.sub('(?m)^    ', '', printed).encode(), program.stored(program.NAME, 'stdout'))


class Run(unittest.TestCase):
    def setUp(self):
        self.room = tempfile.mkdtemp()
        self.addCleanup(shutil.rmtree, self.room)

    def run_tool(self, program_text, given='', words=()):
        """The status, standard output and standard error of a run of such a program; the words are run before the tool."""
        path = os.path.join(self.room, 'program')
        with open(path, 'w', encoding='utf-8') as f:
            f.write(program_text)
        os.chmod(path, 0o700)
        command, env = [*words, os.path.join(tool.TOOLS, 'run')], {**os.environ, 'OAUTH2_PROGRAM': path}
        run = subprocess.run(command, input=given, capture_output=True, text=True, env=env)
        return run.returncode, run.stdout, run.stderr

    def test_streams_and_status_are_those_of_the_program(self):
        for status in range(4):
            got, out, _ = self.run_tool('#!/bin/sh\ncat\nexit %d\n' % status, '{"client"')
            self.assertEqual((got, out), (status, '{"client"'))

    def test_why_a_script_is_bad(self):
        self.assertEqual(self.run_tool('#!/bin/sh\necho bad script\nexit 2\n', '[]'),
                         (2, 'bad script\n', 'tools/run: the script is no object\n'))

    def test_what_is_ignored(self):
        script = '{"client": {"id": "a", "token_uri": "https://as.example/"}, "command": "client_credentials", "reply": []}'
        self.assertEqual(self.run_tool('#!/bin/sh\nexit 1\n', script), (
            1, '', 'tools/run: the script: "reply" is ignored; is it "replies"?\n'
                   'tools/run: "client": "token_uri" is ignored; is it "token_url"?\n'))

    def test_no_answer(self):
        for text, why in {'#!/bin/sh\nkill -ABRT $$\n': 'the program stopped (signal 6)',
                          '#!/bin/sh\nexit 4\n': 'the program stopped (status 4)', 'no program': 'can not be run: [Errno 8]'}.items():
            with self.subTest(why):
                status, out, said = self.run_tool(text)
                self.assertEqual((status, out), (125, ''))
                self.assertIn(why, said)

    def test_standard_input_that_is_closed(self):
        """The program finds that."""
        closed = ('sh', '-c', 'exec "$0" <&-')
        self.assertEqual(self.run_tool('#!/bin/sh\ntest -e /dev/fd/0 || exit 3\n', words=closed), (3, '', ''))


if __name__ == '__main__':
    unittest.main()
