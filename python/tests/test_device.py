"""Devices: polls, waits, and how they end."""
import json
import ssl
import unittest
import urllib.error

from case import TOKEN, Case, client
import lifecrib

CODES = {'device_code': 'd', 'user_code': 'U-1', 'verification_uri': 'https://v/', 'expires_in': 600, 'interval': 5}
PENDING, SLOW = (400, {'error': 'authorization_pending'}), (400, {'error': 'slow_down'})


class Devices(Case):
    def device(self, *replies, **codes):
        it, server = client((200, {**CODES, **codes}), *replies)
        return it.device(scopes='read'), server

    def test_the_codes(self):
        device, server = self.device(verification_uri_complete='https://v/?c=U-1', more=1)
        self.assertEqual((device.user_code, device.verification_uri, device.verification_uri_complete,
                          device.expires_in, device.interval, device.members['more']),
                         ('U-1', 'https://v/', 'https://v/?c=U-1', 600, 5, 1))
        self.assertEqual(server.requests[0].url, 'https://as.example/device_url')
        self.assertIn('scope=read', server.bodies[0])
        self.assertNotIn("'d'", repr(device))

    def test_it_waits_for_the_user(self):
        device, server = self.device(PENDING, SLOW, PENDING, (200, TOKEN))
        waits = []
        token = device.token(sleep=waits.append)
        self.assertEqual(token.access_token, 't1')
        self.assertEqual(waits, [5, 10, 10])
        self.assertEqual(len(server.requests), 5)
        self.assertIn('device_code=d', server.bodies[1])
        self.assertEqual(set(server.bodies[1:]), {server.bodies[1]})

    def test_it_is_polled_by_hand(self):
        device, server = self.device(PENDING, SLOW, (200, TOKEN))
        self.assertIsNone(device.poll())
        self.assertEqual((device.wait, len(server.requests)), (5, 2))
        self.assertIsNone(device.poll())
        self.assertEqual((device.wait, len(server.requests)), (10, 3))
        self.assertEqual(device.poll().access_token, 't1')

    def test_a_server_that_is_busy_is_asked_again(self):
        for reply in ((503, b'<html>'), (429, b''), ConnectionResetError()):
            device, server = self.device(reply, (200, TOKEN))
            waits = []
            self.assertEqual(device.token(sleep=waits.append).access_token, 't1')
            self.assertEqual(len(waits), 1)
            self.assertGreaterEqual(waits[0], 5)

    def test_the_user_says_no(self):
        device, _ = self.device(PENDING, (400, {'error': 'access_denied'}))
        error = self.fails(lifecrib.ErrorResponse, device.token, sleep=lambda _: None)
        self.assertEqual(error.error, 'access_denied')

    def test_the_codes_end(self):
        device, server = self.device(PENDING, PENDING, expires_in=100)
        self.assertIsNone(device.poll())
        device._readings = [it - 1000 for it in device._readings]  # as if it were later now
        self.assertEqual(self.fails(lifecrib.ErrorResponse, device.poll).error, 'expired_token')
        self.assertEqual(len(server.requests), 2)

    def test_the_codes_end_without_a_reply(self):
        for last, cause in ((OSError('down'), 'down'), (PENDING, 'None')):
            device, _ = self.device(OSError('first'), last, expires_in=100)
            for _ in range(2):
                self.assertIsNone(device.poll())
            device._readings = [it - 1000 for it in device._readings]
            self.assertEqual(str(self.fails(lifecrib.ErrorResponse, device.poll).__cause__), cause)

    def test_what_no_later_poll_mends(self):
        untrusted = ssl.SSLCertVerificationError('expired')
        for error in (untrusted, urllib.error.URLError(untrusted), TypeError('no async def')):
            device, server = self.device(error, PENDING, (200, TOKEN))
            self.assertIs(self.fails(lifecrib.RequestFailed, device.token, sleep=self.fail).__cause__, error)
            self.assertIsNone(device.poll())
            self.assertEqual((device.poll().access_token, len(server.requests)), ('t1', 4))

    def test_it_keeps_little_of_a_reply(self):
        long = {'error_description': 'x' * 10000}
        pending, slow = ((status, {**body, **long}) for status, body in (PENDING, SLOW))
        replies = [pending, slow, OSError(), pending, (503, b''), slow, pending, (200, TOKEN)]
        device, _ = self.device(*replies)
        waits = []
        device.token(sleep=waits.append)
        whole = [{'status': it[0], 'body': json.dumps(it[1])} if isinstance(it, tuple) and it[0] != 503 else
                 {'fail': True} for it in replies]
        run = device.client.run('device_poll', {'device': device._asked.answer, 'max_polls': 9}, whole)
        self.assertEqual(waits, [it['seconds'] for it in run.events if it['event'] == 'sleep'])
        self.assertEqual(len(waits), 7)
        self.assertLess(len(json.dumps(device._replies)), 1000)

    def test_another_reply(self):
        device, _ = self.device((200, {'access_token': 't'}))
        self.assertEqual(self.fails(lifecrib.UnreadReply, device.poll).member, 'token_type')


if __name__ == '__main__':
    unittest.main()
