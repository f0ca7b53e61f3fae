"""The calls that are awaited: the same requests and results, and what only they have."""
import asyncio
import gc
import time
import unittest
from unittest import mock

from case import TOKEN, Case, async_client
import lifecrib
from lifecrib import AsyncClient, AsyncKeeper, AsyncLogin, Token

ENDED = Token('t0', 'bearer', expires_in=1, refresh_token='r0', asked_at=1)
CODES = {'device_code': 'd', 'user_code': 'U-1', 'verification_uri': 'https://v/', 'expires_in': 600, 'interval': 5}


class Async(Case, unittest.IsolatedAsyncioTestCase):
    async def asyncSetUp(self):
        asyncio.get_running_loop().slow_callback_duration = 60  # of a program that is started for each run

    async def fails_later(self, kind, call):
        with self.assertRaises(kind) as caught:
            await call
        return caught.exception

    async def test_the_names_are_those_of_a_client(self):
        def names(it):
            return {name for name in vars(it) if not name.startswith('_')}
        self.assertEqual(names(AsyncClient), names(lifecrib.Client))
        for name in names(AsyncClient):
            self.assertTrue(getattr(AsyncClient, name).__doc__, name)

    async def test_tokens(self):
        it, server = async_client(*[(200, TOKEN)] * 4, (200, {'active': True}), (200, {}))
        self.assertEqual((await it.fetch_token(scopes='read')).access_token, 't1')
        await it.exchange_code('c')
        await it.password('joe', 'p')
        await it.refresh('r')
        self.assertTrue((await it.introspect('t')).active)
        self.assertIsNone(await it.revoke('t'))
        self.assertEqual(len(server.requests), 6)
        self.assertEqual(server.bodies[0], 'grant_type=client_credentials&scope=read')

    async def test_errors(self):
        it, _ = async_client((400, {'error': 'invalid_grant'}), OSError('down'))
        self.assertEqual((await self.fails_later(lifecrib.ErrorResponse, it.fetch_token('c'))).error, 'invalid_grant')
        error = await self.fails_later(lifecrib.RequestFailed, it.fetch_token('c'))
        self.assertIsInstance(error.__cause__, OSError)

    async def test_a_login(self):
        it, server = async_client((200, TOKEN), (201, {'request_uri': 'urn:r', 'expires_in': 60}))
        login = await it.login(scopes='read')
        again = AsyncLogin.from_json(login.to_json(), it)
        token = await again.finish('https://app.example/back?code=c&state=' + login.state)
        self.assertEqual(token.access_token, 't1')
        self.assertIn('request_uri=urn%3Ar', (await it.login(push=True)).url)

    async def test_a_device(self):
        it, _ = async_client((200, CODES), (400, {'error': 'authorization_pending'}), (200, TOKEN))
        device, waits = await it.device(), []

        async def sleep(seconds):
            waits.append(seconds)
        self.assertEqual((await device.token(sleep=sleep)).access_token, 't1')
        self.assertEqual(waits, [5])

    async def test_discovery(self):
        issuer = 'https://as.example'
        metadata = {'issuer': issuer, 'token_endpoint': issuer + '/t'}
        _, server = async_client((200, metadata), (200, TOKEN))

        async def send(request):
            return server(request)
        it = await AsyncClient.discover(issuer, 'aaa', transport=send)
        await it.fetch_token()
        self.assertEqual(server.requests[1].url, issuer + '/t')

    async def test_tasks_share_one_renewal(self):
        it, server = async_client((200, TOKEN), (200, {**TOKEN, 'access_token': 't2'}))
        told = []

        async def tell(token):
            await asyncio.sleep(0)
            told.append(token.access_token)
        keeper = AsyncKeeper(it, on_token=tell)
        found = await asyncio.gather(*[keeper.token() for _ in range(8)])
        self.assertEqual(({it.access_token for it in found}, len(server.requests), told), ({'t1'}, 1, ['t1']))
        with mock.patch('lifecrib._calls.now', lambda: int(time.time()) + 4000):
            self.assertEqual((await keeper.token()).access_token, 't2')
        self.assertIn('refresh_token=r1', server.bodies[1])

    async def test_a_token_that_could_not_be_told_is_told_again(self):
        it, server = async_client((200, TOKEN))
        faults, told = [OSError()], []

        async def tell(token):
            await asyncio.sleep(0)
            if faults:
                raise faults.pop()
            told.append(token.access_token)
        keeper = AsyncKeeper(it, on_token=tell)
        with self.assertRaises(OSError):
            await keeper.token()
        for _ in range(2):
            await keeper.token()
        self.assertEqual((told, len(server.requests)), (['t1'], 1))

    async def test_a_call_is_cancelled(self):
        begun = asyncio.Event()

        async def never(_):
            begun.set()
            await asyncio.sleep(60)
        it = AsyncClient('aaa', token_url='https://as.example/t', transport=never)
        keeper = AsyncKeeper(it)
        task = asyncio.create_task(keeper.token())
        await begun.wait()
        task.cancel()
        with self.assertRaises(asyncio.CancelledError):
            await task
        it._transport = async_client((200, TOKEN))[0]._transport
        self.assertEqual((await keeper.token()).access_token, 't1')

    async def test_a_call_that_is_cancelled_loses_no_refresh_token(self):
        begun, go_on, sent, told = asyncio.Event(), asyncio.Event(), [], []
        it, _ = async_client((200, {**TOKEN, 'access_token': 't2', 'refresh_token': 'r2'}))
        answer = it._transport

        async def slow(request):
            sent.append(request.body)
            begun.set()
            await go_on.wait()
            return await answer(request)
        it._transport = slow
        keeper = AsyncKeeper(it, ENDED, on_token=told.append)
        first, second, third = (asyncio.create_task(keeper.token()) for _ in range(3))
        await begun.wait()
        for task in (first, second):
            task.cancel()
            with self.assertRaises(asyncio.CancelledError):
                await task
        go_on.set()
        self.assertEqual((await third).access_token, 't2')
        self.assertEqual((len(sent), [it.refresh_token for it in told]), (1, ['r2']))

    async def test_a_failure_reaches_each_who_waits(self):
        it, server = async_client(OSError('down'), OSError('down'), OSError('down'), (200, TOKEN))
        keeper, said = AsyncKeeper(it, ENDED), []
        asyncio.get_running_loop().set_exception_handler(lambda *them: said.append(them))
        found = await asyncio.gather(keeper.token(), keeper.token(), return_exceptions=True)
        self.assertEqual([type(it) for it in found], [lifecrib.RequestFailed] * 2)
        task = asyncio.create_task(keeper.token())
        while len(server.requests) < 3:
            await asyncio.sleep(0)
        task.cancel()
        self.assertEqual((await keeper.token()).access_token, 't1')
        del task
        gc.collect()
        self.assertEqual(said, [])

    async def test_on_token_may_ask(self):
        it, server = async_client((200, TOKEN))
        found = []

        async def tell(_):
            found.append(await keeper.token())
            found.append(await asyncio.wait_for(keeper.token(), 10))  # which may be another task
        keeper = AsyncKeeper(it, on_token=tell)
        found.append(await asyncio.wait_for(keeper.token(), 10))
        self.assertEqual(([it.access_token for it in found], len(server.requests)), (['t1'] * 3, 1))

    async def test_it_forgets_one_token(self):
        it, server = async_client((200, TOKEN), (200, {**TOKEN, 'access_token': 't2'}))
        keeper = AsyncKeeper(it)
        first = await keeper.token()
        for _ in range(2):
            keeper.forget_token(first)
            self.assertEqual((await keeper.token()).access_token, 't2')
        self.assertEqual(len(server.requests), 2)

    async def test_a_token_is_the_same_data(self):
        it, _ = async_client((200, TOKEN))
        token = await it.fetch_token()
        self.assertEqual(Token.from_json(token.to_json()), token)


class Loops(Case):
    def test_a_renewal_whose_loop_was_closed(self):
        it, _ = async_client((200, TOKEN))
        answer, begun = it._transport, []

        async def never(request):
            begun.append(request)
            await asyncio.sleep(60)

        async def wait():
            task = asyncio.create_task(keeper.token())
            while not begun:
                await asyncio.sleep(0)
            return task
        keeper, it._transport = AsyncKeeper(it, ENDED), never
        loop = asyncio.new_event_loop()
        loop.set_exception_handler(lambda *_: None)  # which would say that tasks were left
        task = loop.run_until_complete(wait())
        self.addCleanup(lambda: task)
        loop.close()
        it._transport = answer
        self.assertEqual(asyncio.run(asyncio.wait_for(keeper.token(), 5)).access_token, 't1')


if __name__ == '__main__':
    unittest.main()
