"""Tests of `tools/oauth2 login --listen` over a stand-in of the program: the listener, and what opens the browser."""
import errno
import http.client
import json
import os
import socket
import sys
import unittest
import urllib.parse
from unittest import mock

import stand_in

from lifecrib_command import loopback
from lifecrib_command.endings import Stop


class Listener(stand_in.Case):
    def begun(self, *words, **env):
        """A login that listens, and the parameters of the authorization URL that it shows."""
        run = self.start('login', '--listen', '0', *words, **env)
        for line in run.stderr:
            if line.startswith(self.server.url):
                return run, dict(urllib.parse.parse_qsl(urllib.parse.urlsplit(line.strip()).query))
        self.fail('login shows no URL')

    def visit(self, redirect, more, method='GET'):
        """The status, the headers and the page that a browser gets which is sent to a redirect."""
        url = urllib.parse.urlsplit(redirect)
        connection = http.client.HTTPConnection(url.hostname, url.port, timeout=30)
        try:
            connection.request(method, url.path + more)
            reply = connection.getresponse()
            return reply.status, reply.headers, reply.read().decode()
        finally:
            connection.close()

    def test_the_redirect_is_received_at_the_path_that_was_registered(self):
        run, asked = self.begun('--redirect', 'http://127.0.0.1/back?x=1')
        redirect = asked['redirect_uri']
        self.assertRegex(redirect, r'\Ahttp://127\.0\.0\.1:\d+/back\?x=1\Z')
        self.assertEqual(self.visit(redirect, 'er?code=c&state=' + asked['state'])[0], 404)
        self.assertEqual(self.visit(redirect, '?code=c', 'POST')[0], 501)
        status, headers, page = self.visit(redirect, '?x=1&code=a%2Fb&state=' + asked['state'])
        out, err = run.communicate(timeout=60)
        self.assertEqual((run.returncode, json.loads(out)), (0, stand_in.OK))
        self.assertEqual((status, headers['Content-Type'], headers['Cache-Control']),
                         (200, 'text/html; charset=utf-8', 'no-store'))
        self.assertIn('This page can be closed', page)
        self.assertNotIn('a%2Fb', page + err)
        scripts = {it['command']: it['params'] for it in self.scripts()}
        self.assertEqual(scripts['redirect']['redirect'], redirect + '&code=a%2Fb&state=' + asked['state'])
        self.assertEqual(scripts['code']['code'], 'a/b')
        with self.assertRaises(ConnectionRefusedError):
            self.visit(redirect, '')

    def test_without_a_redirect_it_is_the_root_of_this_machine(self):
        run, asked = self.begun()
        self.assertRegex(asked['redirect_uri'], r'\Ahttp://127\.0\.0\.1:\d+/\Z')
        self.visit(asked['redirect_uri'], '?code=c&state=' + asked['state'])
        run.communicate(timeout=60)
        self.assertEqual(run.returncode, 0)

    def test_a_port_that_was_registered_gives_way(self):
        for host in 'localhost', '127.0.0.1':
            run, asked = self.begun('--redirect', 'http://%s:5/back' % host)
            self.assertRegex(asked['redirect_uri'], r'\Ahttp://%s:\d{4,}/back\Z' % host)
            self.visit(asked['redirect_uri'], '?error=access_denied&state=' + asked['state'])
            err = run.communicate(timeout=60)[1]
            self.assertEqual(run.returncode, 16)
            self.assertIn('the server answers: access_denied', err)

    def test_a_port_need_not_be_given(self):
        run = self.start('login', '--listen', '--no-browser', '--wait', '0.1')
        self.assertRegex(run.communicate(timeout=60)[1], r'no browser was sent to http://127\.0\.0\.1:\d+/ within')

    def test_bytes_past_ascii_stay_bytes(self):
        run, asked = self.begun()
        url = urllib.parse.urlsplit(asked['redirect_uri'])
        with socket.create_connection((url.hostname, url.port)) as it:
            it.sendall(b'GET /?code=\xc3\xa9&state=%s HTTP/1.0\r\n\r\n' % asked['state'].encode())
            it.recv(10000)
        run.communicate(timeout=60)
        self.assertIn('?code=%C3%A9&', {it['command']: it['params'] for it in self.scripts()}['redirect']['redirect'])

    def test_a_connection_without_a_request_does_not_hold_it_up(self):
        run, asked = self.begun()
        url = urllib.parse.urlsplit(asked['redirect_uri'])
        with socket.create_connection((url.hostname, url.port)):
            self.visit(asked['redirect_uri'], '?code=c&state=' + asked['state'])
            run.communicate(timeout=10)
        self.assertEqual(run.returncode, 0)

    def test_another_state_is_refused_and_the_login_goes_on(self):
        run, asked = self.begun()
        for more in '?code=c&state=other', '?code=c', '', '?error=access_denied&state=other':
            status, _, page = self.visit(asked['redirect_uri'], more)
            self.assertEqual(status, 400)
            self.assertIn('the terminal goes on waiting', page)
        self.assertEqual(self.visit(asked['redirect_uri'], '?code=c&state=' + asked['state'])[0], 200)
        out, err = run.communicate(timeout=60)
        self.assertEqual((run.returncode, json.loads(out)), (0, stand_in.OK))
        self.assertEqual(err.count('a redirect came that has not the state of this login, so it was not taken'), 4)
        self.assertEqual(len(self.server.asked), 1)

    def test_another_state_does_not_end_the_wait_or_lengthen_it(self):
        run, asked = self.begun('--wait', '5')
        self.assertEqual(self.visit(asked['redirect_uri'], '?code=c&state=other')[0], 400)
        self.assertIn('within 5 seconds', run.communicate(timeout=60)[1])
        self.assertEqual((run.returncode, self.server.asked), (125, []))

    def test_nobody_comes(self):
        status, _, err = self.run_tool('login', '--listen', '0', '--wait', '0.1')
        self.assertEqual(status, 125)
        self.assertRegex(err, r'no browser was sent to http://127\.0\.0\.1:\d+/ within 0\.1 seconds')

    def test_what_can_not_be_listened_at(self):
        for redirect in 'https://localhost/back', 'http://app.example/back', 'app:/back', 'http://127.0.0.1/back#x':
            status, _, err = self.run_tool('login', '--listen', '0', '--redirect', redirect)
            self.assertEqual(status, 2)
            self.assertIn('--listen waits on this machine', err)
        port = str(self.server.server_port)
        status, _, err = self.run_tool('login', '--listen', port)
        self.assertEqual(status, 125)
        self.assertIn('can not be listened at, port %s' % port, err)

    def test_a_port_that_another_program_has_at_one_of_the_addresses(self):
        with socket.socket(socket.AF_INET6) as other:
            try:
                other.bind(('::1', 0))
            except OSError as error:
                self.skipTest('no IPv6 here: %s' % error.strerror)
            other.listen()
            port = str(other.getsockname()[1])
            words = ['login', '--redirect', 'http://localhost/back', '--listen', port, '--wait', '0.1']
            status, _, err = self.run_tool(*words)
        self.assertEqual((status, self.server.asked), (125, []))
        self.assertEqual(err, 'tools/oauth2: ::1 can not be listened at, port %s: Address already in use; '
                              '--listen 0 takes a free one\n' % port)

    def browser(self, seen):
        """The path of a browser that notes the address, and goes back with a code."""
        browser = os.path.join(self.room, 'browser')
        with open(browser, 'w', encoding='utf-8') as f:
            f.write('#!%s -IS\nimport sys, urllib.parse as u, urllib.request as r\nprint("noise")\nurl = sys.argv[1]\n'
                    'q = dict(u.parse_qsl(u.urlsplit(url).query))\nopen(%r, "w").write(url)\n'
                    'import os\nassert not [it for it in os.environ if it.startswith("OAUTH2_")]\n'
                    'r.urlopen(q["redirect_uri"] + "?code=c&state=" + q["state"]).read()\n' % (sys.executable, seen))
        os.chmod(browser, 0o700)
        return browser

    def test_the_browser_of_the_environment_is_opened(self):
        seen = os.path.join(self.room, 'seen')
        browser = self.browser(seen)
        run, _ = self.begun(BROWSER=browser, OAUTH2_CLIENT_SECRET='bbb')
        out = run.communicate(timeout=60)[0]
        self.assertEqual((run.returncode, json.loads(out)), (0, stand_in.OK))
        os.unlink(seen)
        run, _ = self.begun('--no-browser', '--wait', '1', BROWSER=browser)
        run.communicate(timeout=60)
        self.assertEqual((run.returncode, os.path.exists(seen)), (125, False))

    def test_no_module_of_the_folder_where_it_is_run_is_loaded(self):
        self.at, seen, browser = self.folder(), os.path.join(self.room, 'seen'), self.browser(os.devnull)
        for name in 'webbrowser', 'shlex', 'sitecustomize':
            with open(os.path.join(self.at, name + '.py'), 'w', encoding='utf-8') as f:
                f.write('open(%r, "w").close()\n' % seen)
        run, _ = self.begun('--wait', '10', BROWSER=browser)
        run.communicate(timeout=60)
        self.assertEqual((run.returncode, os.path.exists(seen)), (0, False))

    def test_a_browser_that_does_not_start_is_told(self):
        for browser in '/bin/false', '/nonexistent':
            run, _ = self.begun('--wait', '60', BROWSER=browser)
            self.assertTrue(any('tools/oauth2: the browser did not start' in line for line in run.stderr))
            run.kill()


class Addresses(unittest.TestCase):
    def listener(self, error):
        """A listener at localhost on a machine that has this error at ::1."""
        bind = loopback.Server.server_bind

        def server_bind(server):
            if server.address_family == socket.AF_INET6:
                raise OSError(error, os.strerror(error))
            bind(server)
        with mock.patch.object(loopback.Server, 'server_bind', server_bind):
            return loopback.Listener('http://localhost/back', 0)

    def test_a_machine_without_the_second_address(self):
        for error in errno.EADDRNOTAVAIL, errno.EAFNOSUPPORT:
            found = self.listener(error)
            self.addCleanup(found.close)
            self.assertEqual([it.server_address[0] for it in found.servers], ['127.0.0.1'])

    def test_any_other_error_of_the_second_address(self):
        for error in errno.EADDRINUSE, errno.EACCES:
            with self.assertRaises(Stop) as raised:
                self.listener(error)
            self.assertRegex(str(raised.exception), '^::1 can not be listened at, port .*: %s; run it again'
                             % os.strerror(error))


if __name__ == '__main__':
    unittest.main()
