"""How `login` of tools/oauth2 reads the redirect URL through the program, of which a stand-in is run here."""
import json
import os
import subprocess
import sys
import tempfile
import unittest

import where

# Notes each script. It takes no redirect but one of https and no issuer "bad", and ends that of a redirect with the
# event of the test.
STAND_IN = '''#!%s
import json, sys
script = json.load(sys.stdin)
with open(%r, 'a') as f:
    f.write(json.dumps(script) + '\\n')
params, status, events = script['params'], 0, [{'event': 'answer', 'answer': {'access_token': 't'}}]
if script['command'] == 'authorize':
    events = [{'event': 'url', 'url': 'https://as.example/auth'}, {'event': 'answer', 'answer': 's'}]
elif script['command'] == 'redirect':
    wrong = [it for it in ('redirect', 'issuer') if params.get(it, 'https:').partition(':')[0] != 'https']
    events, status = [%r], %r
    if wrong:
        events, status = [{'event': 'bad_script', 'member': 'params.' + wrong[0], 'why': 'bad_url'}], 2
if events[0]:
    print(json.dumps({'events': events}))
sys.exit(status)
'''
CODE = {'event': 'answer', 'answer': 'c'}
BACK = 'https://app.example/cb?code=c&state=s'
SETTINGS = {'OAUTH2_CLIENT_ID': 'aaa', 'OAUTH2_AUTH_URL': 'https://as.example/auth',
            'OAUTH2_TOKEN_URL': 'https://as.example/token',
            'OAUTH2_REDIRECT': 'https://app.example/cb'}


BOUND = {'client_id': 'aaa', 'token_url': 'https://as.example/token', 'redirect_uri': 'https://app.example/cb'}


class Login(unittest.TestCase):
    def login(self, event, status, *flags, redirect=BACK, **env):
        """A login where the run of the redirect has this event and status: how it ended, and the scripts that were
        run."""
        with tempfile.TemporaryDirectory() as room:
            program, notes = os.path.join(room, 'program'), os.path.join(room, 'scripts')
            with open(program, 'w', encoding='utf-8') as f:
                f.write(STAND_IN % (sys.executable, notes, event, status))
            os.chmod(program, 0o700)
            env = {'PATH': os.environ['PATH'], 'OAUTH2_PROGRAM': program, **SETTINGS, **env}
            pipes = dict.fromkeys(('stdin', 'stdout', 'stderr'), subprocess.PIPE)
            with subprocess.Popen([where.OAUTH2, 'login', *flags], env=env, text=True, **pipes) as run:
                self.assertIn('https://as.example/auth\n', iter(run.stderr.readline, ''))
                with open(notes, encoding='utf-8') as f:
                    state = json.loads(f.readline())['params']['state']
                out, err = run.communicate(redirect.replace('{}', state) + '\n', timeout=60)
            with open(notes, encoding='utf-8') as f:
                return subprocess.CompletedProcess([], run.returncode, out, err), [json.loads(it) for it in f]

    def test_the_code_is_exchanged_with_the_verifier_of_the_url(self):
        run, (asked, back, exchange) = self.login({**CODE, 'answer': 'a"b'}, 0)
        self.assertEqual((run.returncode, run.stdout), (0, '{"access_token":"t"}\n'))
        self.assertEqual(back['command'], 'redirect')
        self.assertEqual(back['params'], {'state': asked['params']['state'], 'redirect': BACK, 'login': BOUND})
        self.assertEqual(exchange['params'], {'code': 'a"b', 'verifier': asked['params']['verifier']})

    def test_an_issuer_is_expected_where_one_is_set(self):
        for flags, env in (('--issuer', 'https://as.example'), {}), ((), {'OAUTH2_ISSUER': 'https://as.example'}):
            run, scripts = self.login(CODE, 0, *flags, **env)
            self.assertEqual(run.returncode, 0)
            self.assertEqual(scripts[1]['params']['issuer'], 'https://as.example')

    def test_a_fault_of_the_redirect_ends_the_login(self):
        for query, code, text, status, said in (
                ('code=c&state=t', None, 'x', 1, 'has not the state of this login: do not use it'),
                ('code=c&state={}&iss=i', None, 'x', 1, 'does not name the issuer'),
                ('code=c&state={}', None, 'x', 1,
                 'does not name the issuer (--issuer) once: do not use it, and begin anew; or, if'),
                ('state={}&iss=https://as.example', None, 'x', 1, 'has no code, or several: paste the whole address'),
                ('state={}', 'access_denied', 'access_denied: no (see u)', 16,
                 'the server answers: access_denied: no (see u)'),
                ('state={}', 'odd', 'odd', 1, 'the server answers: odd')):
            error = code and {'error': code, 'error_description': None, 'error_uri': None}
            event = {'event': 'fault', 'kind': 'refused_redirect', 'text': text, 'error': error, 'unread': None}
            run, scripts = self.login(event, 1, '--issuer', 'https://as.example',
                                      redirect='https://app.example/cb?' + query)
            self.assertEqual((run.returncode, run.stdout), (status, ''))
            self.assertIn(said, run.stderr)
            self.assertEqual([it['command'] for it in scripts], ['authorize', 'redirect'])

    def test_a_redirect_to_another_place_ends_the_login(self):
        event = {'event': 'fault', 'kind': 'other_redirect_uri', 'text': 'x', 'error': None, 'unread': None}
        run, scripts = self.login(event, 1, redirect='https://other.example/cb?code=c&state={}')
        self.assertEqual((run.returncode, run.stdout), (1, ''))
        self.assertIn('is not at the redirect URI of this login, https://app.example/cb: do not use it', run.stderr)
        self.assertEqual([it['command'] for it in scripts], ['authorize', 'redirect'])

    def test_a_redirect_without_its_state_is_told_as_that(self):
        for redirect in ('https://app.example/cb?code=c', 'https://app.example/cb?code=c#state=s'):
            event = {'event': 'fault', 'kind': 'refused_redirect', 'text': 'x', 'error': None, 'unread': None}
            run, _ = self.login(event, 1, redirect=redirect)
            self.assertEqual(run.returncode, 1)
            self.assertIn('has no state, so it is not the whole address', run.stderr)

    def test_no_url_is_told_from_a_setting_that_the_program_refuses(self):
        run, _ = self.login(CODE, 0, redirect='code=c')
        self.assertEqual(run.returncode, 2)
        self.assertIn('that is no URL: paste the whole address', run.stderr)
        run, _ = self.login(CODE, 0, '--issuer', 'bad')
        self.assertEqual(run.returncode, 2)
        self.assertIn('the program does not take the "issuer" of the params', run.stderr)

    def test_a_program_without_an_answer_ends_the_login(self):
        run, scripts = self.login(None, 3)
        self.assertEqual(run.returncode, 3)
        self.assertIn('ended with 3 and no answer', run.stderr)
        self.assertEqual(len(scripts), 2)


if __name__ == '__main__':
    unittest.main()
