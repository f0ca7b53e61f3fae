"""Tests of how tools/oauth2 writes an answer, over a stand-in of the program and a server on this machine."""
import calendar
import json
import os
import pty
import shutil
import subprocess
import sys
import time
import unittest

import stand_in
import where
from stand_in import OK

from lifecrib_command import answers, moments


class Answers(stand_in.Case):
    def test_every_member_of_a_reply_is_written_as_it_was_sent(self):
        body = '{"access_token":"t1", "id_token" : "a.b",\n "n": [1.50, 1e400 , {"x": "a b"}], "token_type":"Bearer","\\u00e9": "\u009b"}'
        self.server.reply = body
        status, out, _ = self.run_tool('token')
        self.assertEqual((status, out),
                         (0, '{"access_token":"t1","token_type":"Bearer","id_token":"a.b","n":[1.50,1e400,{"x":"a b"}],'
                                            '"\\u00e9":"\\u009b"}\n'))

    def test_introspection_shows_what_the_server_says(self):
        self.server.reply = {'active': True, 'tenant': 'x'}
        status, out, _ = self.run_tool('introspect', OAUTH2_TOKEN='t')
        self.assertEqual((status, json.loads(out)), (0, {'active': True, 'tenant': 'x'}))

    def test_forms_of_output(self):
        whole = json.dumps(OK, separators=(',', ':')) + '\n'
        for form, line in ('token', 't1\n'), ('header', 'Authorization: Bearer t1\n'), ('json', whole):
            with self.subTest(form):
                self.assertEqual(self.run_tool('token', '--output', form)[:2], (0, line))

    def test_the_moment_at_which_a_token_ends(self):
        for path in [], ['--cache', os.path.join(self.room, 'cache')], ['--cache', os.path.join(self.room, 'cache')]:
            begun = int(time.time())
            self.server.reply = {**OK, 'expires_at': 1}
            status, out, _ = self.run_tool('token', '--expires', *path)
            found = json.loads(out, object_pairs_hook=list)
            self.assertEqual((status, [name for name, _ in found].count('expires_at')), (0, 1))
            ends = calendar.timegm(time.strptime(dict(found)['expires_at'], '%Y-%m-%dT%H:%M:%SZ'))
            self.assertTrue(begun + 3590 <= ends <= begun + 3660)
        self.server.reply = {'access_token': 't', 'token_type': 'bearer'}
        self.assertIsNone(json.loads(self.run_tool('token', '--expires')[1])['expires_at'])
        self.assertIn('--expires goes with --output json', self.run_tool('token', '--expires', '--output', 'token')[2])

    def credential(self, asked=None):
        """The status of a run for kubectl, and the ExecCredential."""
        env = {} if asked is None else {'KUBERNETES_EXEC_INFO': asked}
        status, out, self.err = self.run_tool('token', '--output', 'exec-credential', **env)
        return status, json.loads(out or '{}')

    def test_what_kubectl_takes(self):
        status, found = self.credential()
        self.assertRegex(found['status'].pop('expirationTimestamp'), r'\A\d{4}-\d\d-\d\dT\d\d:\d\d:\d\dZ\Z')
        of_v1 = {'apiVersion': 'client.authentication.k8s.io/v1', 'kind': 'ExecCredential', 'status': {'token': 't1'}}
        self.assertEqual((status, found), (0, of_v1))
        self.server.reply = {'access_token': 't1', 'token_type': 'bearer'}
        self.assertEqual(self.credential(), (0, of_v1))
        beta = 'client.authentication.k8s.io/v1beta1'
        self.assertEqual(self.credential('{"apiVersion":"%s"}' % beta), (0, {**of_v1, 'apiVersion': beta}))
        for asked in '{"apiVersion":"client.authentication.k8s.io/v2"}', '{', '[]', '{}':
            self.assertEqual(self.credential(asked)[0], 2)
            self.assertIn('KUBERNETES_EXEC_INFO', self.err)
        self.server.reply = {**OK, 'token_type': 'mac'}
        self.assertEqual(self.credential()[0], 125)

    @unittest.skipUnless(shutil.which('kubectl'), 'there is no kubectl here')
    def test_kubectl_itself(self):
        server = self.by_tls()
        server.documents['/version'] = (200, {}, {'gitVersion': 'v0'})
        command = {'apiVersion': 'client.authentication.k8s.io/v1', 'command': where.OAUTH2,
                   'args': ['token', '--output', 'exec-credential'], 'interactiveMode': 'Never'}
        cluster = {'server': server.url, 'certificate-authority': self.env['SSL_CERT_FILE']}
        config = {'apiVersion': 'v1', 'kind': 'Config', 'current-context': 'x',
                  'clusters': [{'name': 'x', 'cluster': cluster}],
                  'users': [{'name': 'x', 'user': {'exec': command}}],
                  'contexts': [{'name': 'x', 'context': {'cluster': 'x', 'user': 'x'}}]}
        path = os.path.join(self.room, 'kubeconfig')
        with open(path, 'w', encoding='utf-8') as f:
            json.dump(config, f)
        words = ['kubectl', '--kubeconfig', path, 'get', '--raw', '/version']
        run = subprocess.run(words, env={**self.env, 'HOME': self.room}, capture_output=True, text=True, timeout=120)
        self.assertEqual((run.returncode, run.stdout), (0, '{"gitVersion": "v0"}'), run.stderr)
        self.assertEqual(server.looked_at[-1][1]['Authorization'], 'Bearer t1')

    def test_what_no_header_may_have_is_refused(self):
        for reply, form, said in (({**OK, 'access_token': 'a\r\nb'}, 'token', 'a character that no header may have'),
                                  ({**OK, 'token_type': 'mac'}, 'header', 'the token is of the type "mac"'),
                                  ({**OK, 'token_type': 'mac'}, 'token', 'the token is of the type "mac"')):
            self.server.reply = reply
            status, out, err = self.run_tool('token', '--output', form)
            self.assertEqual((status, out), (125, ''))
            self.assertIn(said, err)

    def test_an_output_that_can_not_be_written(self):
        with open('/dev/full', 'wb') as full:
            run = subprocess.run([sys.executable, where.OAUTH2, 'token'], env=self.env, stdin=subprocess.DEVNULL,
                                 stdout=full, stderr=subprocess.PIPE, text=True, timeout=60)
        self.assertEqual(run.returncode, 125)
        self.assertIn('can not be written to standard output', run.stderr)

    def on_terminal(self, *words):
        """What a run writes to a terminal, and what to standard error."""
        main, other = pty.openpty()
        try:
            run = subprocess.run([sys.executable, where.OAUTH2, *words], env=self.env, stdin=subprocess.DEVNULL,
                                 stdout=other, stderr=subprocess.PIPE, text=True, timeout=60)
            self.assertEqual(run.returncode, 0)
            return os.read(main, 10000).decode(), run.stderr
        finally:
            os.close(main)
            os.close(other)

    def test_a_terminal_gets_a_warning_first(self):
        self.assertEqual(self.on_terminal('token', '--output', 'token')[0], 't1\r\n')
        self.assertIn('what follows is secret', self.on_terminal('token')[1])
        self.assertEqual(self.on_terminal('token', '--show')[1], '')

    def test_a_revocation_answers_null(self):
        self.by_tls()
        status, out, _ = self.run_tool('revoke', OAUTH2_TOKEN='t')
        self.assertEqual((status, out), (0, 'null\n'))


class Moments(unittest.TestCase):
    def test_each(self):
        for seconds, text in ((0, '1970-01-01T00:00:00Z'), (1700000000, '2023-11-14T22:13:20Z'),
                              (1 << 64, '9999-12-31T23:59:59Z'),
                              (-5, '1970-01-01T00:00:00Z')):
            self.assertEqual(moments.moment(seconds), text)


class Members(unittest.TestCase):
    def test_no_object(self):
        for text in '', '[]', '{"a":1} x', '{"a" 1}', '{"a":1,}', '{"a":NaN}', '{a:1}', '{1:1}':
            with self.subTest(text), self.assertRaises(ValueError):
                answers.members_in(text)

    def test_members(self):
        self.assertEqual(answers.members_in(' {"a" : "x" , "b":[ 1 ] } '), [('a', '"x"'), ('b', '[ 1 ]')])
        self.assertEqual(answers.members_in('{ }'), [])

    def test_a_large_number_stays(self):
        text = '{"access_token":"t","token_type":"bearer","n":%s}' % ('1' * 5000)
        self.assertEqual(answers.with_others({'access_token': 't', 'token_type': 'bearer'}, text), text)
        self.assertEqual(answers.in_form(text, 'token'), 't')

    def test_the_program_counts_where_both_have_a_member(self):
        sent = '{"token_type":"BEARER","x":null}'
        self.assertEqual(answers.with_others({'token_type': 'bearer'}, sent), '{"token_type":"bearer","x":null}')
        self.assertEqual(answers.with_others(None, '{"x":1}'), 'null')


if __name__ == '__main__':
    unittest.main()
