"""Keepers: when a token is renewed, by what, and by one thread alone."""
import concurrent.futures
import itertools
import json
import random
import threading
import time
import unittest
from unittest import mock

from case import IS_STAND_IN, Case, client
import lifecrib
from lifecrib import Keeper, Token


def reply(number, **more):
    return 200, {'access_token': 't%d' % number, 'token_type': 'bearer', 'expires_in': 100, **more}


class Keepers(Case):
    def setUp(self):
        self.now = 1700000000
        patch = mock.patch('lifecrib._calls.now', lambda: self.now)
        patch.start()
        self.addCleanup(patch.stop)

    def keeper(self, *replies, token=None, **settings):
        it, server = client(*replies)
        return Keeper(it, token, **settings), server

    def test_it_gets_a_token_once(self):
        keeper, server = self.keeper(reply(1), reply(2), scopes=['read'], margin=10)
        self.assertEqual(keeper.token().access_token, 't1')
        self.now += 90
        self.assertEqual(keeper.token().access_token, 't1')
        self.assertEqual(len(server.requests), 1)
        self.now += 1
        token = keeper.token()
        self.assertEqual((token.access_token, token.asked_at), ('t2', self.now))
        self.assertEqual(server.bodies, ['grant_type=client_credentials&scope=read'] * 2)

    def test_it_renews_by_the_refresh_token(self):
        keeper, server = self.keeper(reply(1, refresh_token='r1'), reply(2), reply(3, refresh_token='r3'), reply(4))
        for number in (1, 2, 3, 4):
            self.assertEqual(keeper.token().access_token, 't%d' % number)
            self.now += 50
        self.assertEqual([it.partition('refresh_token=')[2] for it in server.bodies], ['', 'r1', 'r1', 'r3'])
        self.assertEqual(keeper.refresh_token, 'r3')

    def test_it_keeps_the_token_of_a_user(self):
        token = Token('t0', 'bearer', expires_in=100, refresh_token='r0', asked_at=self.now)
        keeper, server = self.keeper(reply(1), token=token)
        self.assertIs(keeper.token(), token)
        self.now += 41
        found = keeper.token()
        self.assertEqual((found.access_token, found.refresh_token), ('t1', 'r0'))
        self.assertTrue(server.bodies[0].startswith('grant_type=refresh_token&refresh_token=r0'))

    def test_it_does_not_replace_a_user_by_the_client(self):
        keeper, server = self.keeper(token=Token('t0', 'bearer', expires_in=100, asked_at=self.now))
        self.assertEqual(keeper.token().access_token, 't0')
        self.now += 100
        self.assertEqual(self.fails(lifecrib.Ended, keeper.token).kind, 'ended')
        self.assertEqual(server.requests, [])

    def test_a_failure_is_told_and_the_next_call_tries_again(self):
        keeper, server = self.keeper(reply(1, refresh_token='r1'), OSError('down'), (400, {'error': 'invalid_grant'}),
                                     reply(2))
        keeper.token()
        self.now += 100
        error = self.fails(lifecrib.RequestFailed, keeper.token)
        self.assertIsInstance(error.__cause__, OSError)
        self.assertEqual(self.fails(lifecrib.ErrorResponse, keeper.token).error, 'invalid_grant')
        self.assertEqual(keeper.token().access_token, 't2')
        self.assertEqual(len(server.requests), 4)
        self.assertEqual(set(server.bodies[1:]), {'grant_type=refresh_token&refresh_token=r1'})

    def test_it_waits_after_a_failure(self):
        keeper, server = self.keeper(OSError(), OSError(), reply(1), retry_after=30)
        self.fails(lifecrib.RequestFailed, keeper.token)
        self.now += 29
        self.assertEqual(self.fails(lifecrib.Waiting, keeper.token).until, self.now + 1)
        self.assertEqual(len(server.requests), 1)
        self.now += 1
        self.fails(lifecrib.RequestFailed, keeper.token)
        self.fails(lifecrib.Waiting, keeper.token)
        self.now += 30
        self.assertEqual(keeper.token().access_token, 't1')

    def test_it_hands_out_no_token_of_another_type(self):
        first = reply(1, refresh_token='r1', token_type='DPoP')
        keeper, server = self.keeper(first, OSError(), reply(3), retry_after=30)
        error = self.fails(lifecrib.OtherTokenType, keeper.token)
        self.assertEqual((error.kind, keeper.refresh_token), ('other_token_type', 'r1'))
        self.fails(lifecrib.Waiting, keeper.token)
        self.now += 30
        self.fails(lifecrib.RequestFailed, keeper.token)
        self.now += 30
        self.assertEqual((keeper.token().access_token, keeper.refresh_token), ('t3', 'r1'))
        self.assertEqual([it.partition('refresh_token=')[2] for it in server.bodies], ['', 'r1', 'r1'])

    def test_the_type_of_a_users_token(self):
        token = Token('t0', 'dpop', expires_in=100, refresh_token='r0', asked_at=self.now)
        keeper, server = self.keeper(reply(1, token_type='BEARER'), token=token)
        self.assertEqual((keeper.token().access_token, keeper.refresh_token), ('t1', 'r0'))
        self.assertEqual(len(server.requests), 1)

    def test_other_types_that_are_expected(self):
        for given in (['dpop', 'bearer'], 'Bearer DPoP', None):
            keeper, server = self.keeper(reply(1, token_type='DPoP'), token_types=given)
            self.assertEqual(keeper.token().access_token, 't1')

    def test_a_clock_that_is_set_back(self):
        keeper, server = self.keeper(OSError(), reply(1), retry_after=30)
        self.fails(lifecrib.RequestFailed, keeper.token)
        self.now -= 1000
        self.assertEqual(self.fails(lifecrib.Waiting, keeper.token).until, self.now + 30)
        self.now += 30
        self.assertEqual(keeper.token().access_token, 't1')

    def test_it_forgets(self):
        keeper, server = self.keeper(reply(1, refresh_token='r1'), reply(2), reply(3))
        keeper.token()
        keeper.forget_token()
        self.assertEqual(keeper.token().access_token, 't2')
        self.assertIn('refresh_token=r1', server.bodies[1])
        keeper.forget_refresh_token()
        self.assertEqual(keeper.token().access_token, 't2')
        self.now += 100
        self.assertEqual(keeper.token().access_token, 't3')
        self.assertEqual(server.bodies[2], 'grant_type=client_credentials')

    def test_it_forgets_one_token(self):
        keeper, server = self.keeper(reply(1), reply(2), reply(3))
        first = keeper.token()
        for _ in range(3):  # as each thread does whose token was refused
            keeper.forget_token(first)
            self.assertEqual(keeper.token().access_token, 't2')
        keeper.forget_token()
        self.assertEqual((keeper.token().access_token, len(server.requests)), ('t3', 3))

    def test_new_tokens_are_told(self):
        told = []
        keeper, _ = self.keeper(reply(1), reply(2), on_token=told.append)
        for _ in range(3):
            keeper.token()
        self.now += 100
        keeper.token()
        self.assertEqual([it.access_token for it in told], ['t1', 't2'])
        self.assertEqual(told[0].members['expires_in'], 100)

    def test_a_token_that_could_not_be_told_is_told_again(self):
        faults, told = [OSError(), OSError()], []

        def tell(token):
            if faults:
                raise faults.pop()
            told.append(keeper.token())  # on_token may ask
        keeper, server = self.keeper(reply(1, refresh_token='r1'), on_token=tell)
        for _ in range(2):
            with self.assertRaises(OSError):
                keeper.token()
        for _ in range(2):
            self.assertEqual(keeper.token().access_token, 't1')
        self.assertEqual(([it.refresh_token for it in told], len(server.requests)), (['r1'], 1))

    def test_a_life_that_is_not_told(self):
        keeper, _ = self.keeper((200, {'access_token': 't1', 'token_type': 'bearer'}), reply(2), life=100, margin=0)
        keeper.token()
        self.now += 100
        self.assertEqual(keeper.token().access_token, 't1')
        self.now += 1
        self.assertEqual(keeper.token().access_token, 't2')

    def test_threads_share_one_renewal(self):
        it, server = client(reply(1), reply(2))
        begun, answer = threading.Event(), server.__call__

        def slow(request):
            begun.set()
            time.sleep(0.1)
            return answer(request)
        it._transport = slow
        keeper = Keeper(it)
        with concurrent.futures.ThreadPoolExecutor(8) as pool:
            found = set(it.access_token for it in pool.map(lambda _: keeper.token(), range(16)))
        self.assertEqual((found, len(server.requests)), ({'t1'}, 1))

    def test_it_is_the_keeper_of_one_long_script(self):
        """Random calls: what comes of each, and what is sent, is as in one script that has all replies and readings."""
        rng = random.Random(7)
        for _ in range(2 if IS_STAND_IN else 60):
            replies, readings, came, self.now = [], [], [], 1700000000
            retry_after = rng.choice([None, 0, 30])
            given = {'margin': rng.choice([0, 10]), 'life': 50, 'scopes': ['read'], 'retry_after': retry_after}
            number = itertools.count()

            def answer(request):
                kind = rng.randrange(5)
                found = {'access_token': 't%d' % next(number), 'token_type': 'bearer',
                         **({'expires_in': rng.choice([0, 5, 100])} if rng.random() < 0.8 else {}),
                         **({'refresh_token': 'r%d' % len(replies)} if rng.random() < 0.5 else {})}
                status, body = [(200, found), (200, found), (400, {'error': 'e'}), (200, {}), (None, None)][kind]
                replies.append({'fail': True} if status is None else {'status': status, 'body': json.dumps(body)})
                came.append(request.body.decode())
                if status is None:
                    raise OSError
                return lifecrib.Reply(status, None, json.dumps(body).encode())
            it, _ = client()
            it._transport = answer
            keeper = Keeper(it, **given)
            for _ in range(10):
                self.now += rng.choice([0, 1, 29, 30, 40, 100, -50])
                readings.append(self.now)
                try:
                    came.append(keeper.token().access_token)
                except lifecrib.Waiting as error:
                    came.append(error.until)
                except lifecrib.LifecribError as error:
                    came.append(error.kind)
            whole = it.run('keeper', given, replies, readings)
            wanted = [it['request']['body'] if it['event'] == 'exchange' else
                      it.get('answer', it.get('until', it.get('kind'))) for it in whole.events]
            self.assertEqual(came, wanted)

    def test_it_does_not_grow(self):
        keeper, _ = self.keeper(*[reply(it, refresh_token='r%d' % it) for it in range(5)], *[OSError()] * 5)
        for _ in range(10):
            try:
                keeper.token()
            except lifecrib.RequestFailed:
                pass
            self.now += 100
        self.assertLessEqual(len(keeper._replies), 2)
        self.assertEqual(len(keeper._replies), len(keeper._readings))


if __name__ == '__main__':
    unittest.main()
