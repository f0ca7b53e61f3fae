"""The mix-up attack (RFC 9700, 4.4), played by two servers on this machine: no code comes to the one that attacks."""
import asyncio
import unittest

from case import Case
import lifecrib
from lifecrib import AsyncClient, AsyncLogin, Client, Login
from mix_up import CODE, Attacker, Honest, browsed

BACK = 'https://app.example/back'


def client(server, kind, is_discovered, redirect, id):
    """A client of a server. It knows the issuer only if it is discovered."""
    if is_discovered:
        return kind.discover(server.url, id, 'secret', redirect=redirect)
    return kind(id, 'secret', auth_url=server.url + '/auth', token_url=server.url + '/token', redirect=redirect)


class MixUp(Case):
    def attacked(self, kind, honest_names, attacker_names, is_discovered=True, place=BACK):
        """A login at the attacker whose redirect URI is place, and the honest server's code: the error of its end."""
        with Honest(BACK, honest_names) as honest, Attacker(honest, attacker_names) as attacker:
            it = client(attacker, Client, is_discovered, place, 'at-attacker')
            login = it.login()
            came = browsed(login.url)
            self.assertIn('code=' + CODE, came)
            error = self.fails(kind, Login.from_json(login.to_json(), it).finish, came)
            self.assertEqual((honest.codes, attacker.codes), ([], []))
        return error

    def test_the_honest_server_names_itself(self):
        for attacker_names in True, False:
            error = self.attacked(lifecrib.RefusedRedirect, True, attacker_names)
            self.assertEqual(error.text, 'redirect has another issuer')

    def test_the_honest_server_does_not_name_itself(self):
        error = self.attacked(lifecrib.RefusedRedirect, False, True)
        self.assertEqual(error.text, 'redirect has another issuer')

    def test_a_redirect_uri_for_each_server(self):
        """RFC 9700, 4.4.2.2, where no server names itself, also for clients that were not discovered."""
        for is_discovered in True, False:
            for place in BACK + '/attacker', BACK + '?at=attacker':
                self.attacked(lifecrib.OtherRedirectUri, False, False, is_discovered, place)

    def test_the_login_is_finished_by_the_other_client(self):
        """The application takes the client by the redirect, and the login by its state."""
        with Honest(BACK, True) as honest, Attacker(honest, True) as attacker:
            theirs = client(attacker, Client, True, BACK, 'at-attacker').login()
            ours = client(honest, Client, True, BACK, 'at-honest').login()
            for login, server, id, kind in (
                    (theirs, honest, 'at-honest', lifecrib.OtherClient),
                    (theirs, honest, 'at-attacker', lifecrib.OtherTokenEndpoint),
                    (ours, attacker, 'at-attacker', lifecrib.OtherClient),
                    (ours, attacker, 'at-honest', lifecrib.OtherTokenEndpoint)):
                again = Login.from_json(login.to_json(), client(server, Client, True, BACK, id))
                self.fails(kind, again.finish, browsed(login.url))
            self.assertEqual((honest.codes, attacker.codes), ([], []))

    def test_an_honest_login_ends(self):
        for names_itself in True, False:
            for is_discovered in True, False:
                with Honest(BACK, names_itself) as honest:
                    it = client(honest, Client, is_discovered, BACK, 'at-honest')
                    login = it.login()
                    again = Login.from_json(login.to_json(), it)
                    self.assertEqual(again.finish(browsed(login.url)).access_token, 't1')
                    self.assertEqual(honest.codes, [CODE])

    def test_async(self):
        async def run(honest, attacker):
            it = await client(attacker, AsyncClient, True, BACK, 'at-attacker')
            login = await it.login()
            again = AsyncLogin.from_json(login.to_json(), it)
            with self.assertRaisesRegex(lifecrib.RefusedRedirect, 'another issuer'):
                await again.finish(browsed(login.url))
            other = await client(honest, AsyncClient, True, BACK, 'at-honest')
            with self.assertRaises(lifecrib.OtherClient):
                await AsyncLogin.from_json(login.to_json(), other).finish(browsed(login.url))
        with Honest(BACK, True) as honest, Attacker(honest, True) as attacker:
            asyncio.run(run(honest, attacker))
            self.assertEqual((honest.codes, attacker.codes), ([], []))


if __name__ == '__main__':
    unittest.main()
