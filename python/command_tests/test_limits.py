"""Tests of the time limits of tools/oauth2, and of Ctrl-C, where a server's name is not found."""
import contextlib
import os
import signal
import socket
import subprocess
import sys
import threading
import time
import unittest
from unittest import mock

import stand_in
import where

from lifecrib import Request
from lifecrib_command import http_requests
from lifecrib_command.time_limits import in_time

RESOLVER = '127.0.0.77'
# Puts another file in the place of /etc/resolv.conf for what runs then, and for nothing else.
ELSEWHERE = ['unshare', '-m', '/bin/sh', '-c', 'mount --bind "$0" /etc/resolv.conf && exec "$@"']


def can_mount():
    with contextlib.suppress(OSError):
        words = [*ELSEWHERE, '/etc/resolv.conf', 'true']
        return subprocess.run(words, capture_output=True).returncode == 0
    return False


class InTime(unittest.TestCase):
    def test_each_way_out(self):
        self.assertEqual(in_time(lambda: 1, 10), 1)
        self.assertRaises(ZeroDivisionError, in_time, lambda: 1 // 0, 10)
        self.assertRaises(TimeoutError, in_time, lambda: time.sleep(5), 0.1)

    def test_a_look_up_that_takes_too_long(self):
        request = Request('POST', 'https://as.invalid/token', (), b'')
        with mock.patch.object(socket, 'getaddrinfo', lambda *_: time.sleep(20)):
            begun = time.monotonic()
            reply, note, may_retry, _ = http_requests.reply_to(request, 0.3)
        self.assertLess(time.monotonic() - begun, 15)
        self.assertEqual((reply, may_retry), ({'fail': True}, True))
        self.assertIn('no whole reply within 0.3 seconds (--timeout)', note)


class Endless(stand_in.Case):
    def test_a_reply_that_never_ends(self):
        for head in b'HTTP/1.1 200 OK\r\n\r\n', b'HTTP/1.1 200 OK\r\nContent-Length: 99\r\n\r\n', b'HTTP/1.1 200', b'':
            with socket.create_server(('127.0.0.1', 0)) as server:
                server.settimeout(60)
                thread = threading.Thread(target=self.serve_slowly, args=(server, head))
                thread.start()
                url = 'http://127.0.0.1:%d/token' % server.getsockname()[1]
                status, out, err = self.run_tool('token', '--timeout', '1', '--token-url', url)
                thread.join()
            self.assertEqual((status, out), (9, ''))
            self.assertRegex(err,
                             r'\Atools/oauth2: POST \S* \(--token-url\): no whole reply within 1 seconds \(--timeout\)\n\Z')

    def serve_slowly(self, server, head):
        """Sends a head, and then a letter now and then until the other side has had enough."""
        with contextlib.suppress(OSError), server.accept()[0] as it:
            it.recv(10000)
            it.sendall(head)
            for _ in range(300 if head else 0):
                it.sendall(b' ')
                time.sleep(0.1)
            it.settimeout(30)
            while it.recv(10000):
                pass


@unittest.skipUnless(can_mount(), 'no other /etc/resolv.conf can be had')
class Resolver(stand_in.Case):
    """A resolver that gets the question and does not answer."""

    def setUp(self):
        super().setUp()
        self.resolver = socket.socket(socket.AF_INET, socket.SOCK_DGRAM)
        self.addCleanup(self.resolver.close)
        try:
            self.resolver.bind((RESOLVER, 53))
        except OSError as error:
            self.skipTest('no resolver can be had: %s' % error.strerror)
        self.resolver.settimeout(120)
        self.names = 0

    def begin(self, *words):
        """A run that has asked the resolver, and when it had."""
        path = os.path.join(self.room, 'resolv.conf')
        with open(path, 'w', encoding='utf-8') as f:
            f.write('nameserver %s\n' % RESOLVER)
        command = [*ELSEWHERE, path, sys.executable, '-S', where.OAUTH2]
        self.names += 1
        name = 'as%d' % self.names
        command += ['token', '--token-url', 'https://%s.example/token' % name, *words]
        run = subprocess.Popen(command, env=self.env, stderr=subprocess.PIPE, text=True)
        self.addCleanup(run.stderr.close)
        self.addCleanup(run.wait)
        self.addCleanup(run.kill)
        while name.encode() not in self.resolver.recv(1000):  # a question of an earlier run
            pass
        return run, time.monotonic()

    def test_the_time_limit(self):
        run, begun = self.begin('--timeout', '1')
        self.assertIn('no whole reply within 1 seconds (--timeout)', run.communicate()[1])
        self.assertLess(time.monotonic() - begun, 8)

    def test_signals(self):
        for number in signal.SIGTERM, signal.SIGINT:
            before = signal.signal(number, signal.SIG_DFL)  # a shell may have it ignored
            self.addCleanup(signal.signal, number, before)
            run, begun = self.begin()
            run.send_signal(number)
            self.assertIn('ended by the signal ' + number.name, run.communicate()[1])
            self.assertEqual(run.returncode, 128 + number)
            self.assertLess(time.monotonic() - begun, 8)


if __name__ == '__main__':
    unittest.main()
