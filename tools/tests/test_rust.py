"""Tests of tools/rust: where the crate's sources are found, which scripts are made, what is expected, and the class of a difference."""
import itertools
import json
import os
import sys
import tempfile
import unittest

sys.dont_write_bytecode = True
sys.path.insert(0, os.path.dirname(os.path.dirname(os.path.abspath(__file__))))
from rust import classes, expected, workspace
from rust.scripts import COMMANDS, scripts

CLIENT = {'id': 'aaa', 'token_url': 'https://example.com/token'}
FAILED = 'answer fault "Failed to parse server response" '


def script(body, status=200, **more):
    return {'client': CLIENT, 'command': 'client_credentials', 'replies': [{'status': status, 'body': body}], **more}


def poll(replies, **params):
    device = {'device_code': 'd', 'user_code': 'u', 'verification_uri': 'https://example.com', 'expires_in': 60}
    return {'client': CLIENT, 'command': 'device_poll', 'params': {'device': device, 'max_polls': 3, **params}, 'replies': replies}


def class_of(script, theirs, ours, status=1):
    """The class of two answers to a request."""
    both = ['request POST https://example.com/token\n%s\nexit %d\n' % (it, status) for it in (theirs, ours)]
    return classes.class_of(*both, json.dumps(script))


class Sources(unittest.TestCase):
    def test_each_form_of_the_folder(self):
        for names in [('src/lib.rs', 'src/token/mod.rs', 'src/tests.rs', 'examples/x.rs', 'target/package/src/lib.rs'),
                      ('lib.rs', 'token/mod.rs', 'README.md'),
                      ('src--lib.rs.txt', 'src--token--mod.rs.txt', 'INDEX.md'),
                      ('src--src--lib.rs.txt', 'src--src--token--mod.rs.txt', 'src--tests--tests--part1.rs.txt')]:
            with self.subTest(names), tempfile.TemporaryDirectory() as room:
                for name in names:
                    os.makedirs(os.path.join(room, os.path.dirname(name)), exist_ok=True)
                    with open(os.path.join(room, name), 'w') as f:
                        f.write(name)
                found = workspace.sources(room)
                self.assertEqual(sorted(found), ['lib.rs', 'token/mod.rs'])
                self.assertEqual(found['lib.rs'].decode(), names[0])


class Scripts(unittest.TestCase):
    def test_same_seed_same_scripts(self):
        one, two = ([*itertools.islice(scripts(seed), 300)] for seed in (7, 7))
        self.assertEqual(one, two)
        commands = {json.loads(it).get('command') for it in one} & set(COMMANDS)
        self.assertEqual(commands, set(COMMANDS))


class Expected(unittest.TestCase):
    def test_answers(self):
        for body, status, answer in [
            ('{"access_token":"a","token_type":"Bearer","x":1}', 200, 'answer ok {"access_token":"a","token_type":"bearer"}'),
            ('{"token_type":"x"}', 200, FAILED + '"access_token" Missing'),
            ('{"access_token":"a","token_type":"x","expires_in":1.5}', 200, FAILED + '"expires_in" NotWhole'),
            ('{"access_token":"a"} x', 200, FAILED + '"" NotJson'),
            ('["x"]', 400, FAILED + '"" NotObject'),
            ('{"error":"e","error_uri":"u"}', 400, 'answer fault "Server returned error response: e (see u)"'),
            ('', 400, 'answer fault "Other error: server returned empty error response"'),
        ]:
            with self.subTest(body):
                lines = ['request POST https://example.com/token', answer]
                self.assertIsNone(expected.fault_of(script(body, status), lines))
                self.assertIsNotNone(expected.fault_of(script(body, status), [lines[0], answer + ' ']))

    def test_poll(self):
        pending = {'status': 400, 'body': '{"error":"authorization_pending"}'}
        slow = {'status': 400, 'body': '{"error":"slow_down"}'}
        lines = ['request', 'sleep 5.000000000', 'request', 'sleep 10.000000000', 'request', expected.LIMIT]
        self.assertIsNone(expected.fault_of(poll([pending, slow]), [it + ' ' * (it == 'request') for it in lines]))
        self.assertIsNone(expected.fault_of(poll([], timeout=2**63), [expected.NO_TIMEOUT]))


class Classes(unittest.TestCase):
    def test_of_one_reply(self):
        ok = 'answer ok {"access_token":"a","token_type":"%s"}'
        for body, theirs, ours, name in [
            ('{"token_type":"x"}', FAILED + '"" ?', FAILED + '"access_token" Missing', 'the cause of a fault, no path in the Rust crate'),
            ('{"access_token":"a","token_type":"Ä"}', ok % 'ä', ok % 'Ä', 'token type with letters past ASCII'),
            ('{"access_token":"a","token_type":"b"}', ok % 'b', ok % 'b', 'equal'),
            ('{"access_token":"a","token_type":"b"}', ok % 'c', ok % 'b', 'DIFFERENT'),
        ]:
            with self.subTest(body):
                self.assertEqual(class_of(script(body), theirs, ours), name)

    def test_two_that_agree_on_something_wrong(self):
        self.assertTrue(class_of(script('{}'), 'answer ok {}', 'answer ok {}').startswith('DIFFERENT: it should be '))

    def test_sleeps(self):
        text = 'request \nsleep %d.000000000\nrequest \nsleep %d.000000000\nrequest \n' + expected.LIMIT + '\nexit 1\n'
        failing = json.dumps(poll([{'fail': True}] * 3, cap=2))
        self.assertEqual(classes.class_of(text % (2, 2), text % (5, 5), failing), 'sleeps after a failed call')
        self.assertTrue(classes.class_of(text % (2, 2), text % (2, 2), failing).startswith('DIFFERENT'))


if __name__ == '__main__':
    unittest.main()
