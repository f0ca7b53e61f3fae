"""The mix-up attack (RFC 9700, 4.4) on `tools/oauth2 login`, by two servers on this machine: no code comes to the one
that attacks."""
import os
import sys
import unittest
import urllib.request

import stand_in
import where

sys.path.append(os.path.join(where.PYTHON, 'tests'))
from mix_up import CODE, Attacker, Honest, browsed  # noqa: E402, behind the path of its folder

BACK = 'https://app.example/back'
LOOPBACK = 'http://127.0.0.1/back'


class MixUp(stand_in.Case):
    def login(self, server, id, redirect, *words, is_discovered=True):
        """The status and the standard error of a login at a server, whose user agrees wherever the browser is sent."""
        urls = {it: '' for it in self.env if it.endswith('_URL')}
        found = {'OAUTH2_ISSUER': server.url} if is_discovered else {
            'OAUTH2_AUTH_URL': server.url + '/auth', 'OAUTH2_TOKEN_URL': server.url + '/token'}
        env = {**urls, **found, 'OAUTH2_CLIENT_ID': id, 'OAUTH2_REDIRECT': redirect, 'OAUTH2_CLIENT_SECRET': 'secret'}
        run = self.start('login', *words, **env)
        came = browsed(next(it.strip() for it in run.stderr if it.startswith(server.url)))
        self.assertIn('code=' + CODE, came)
        if '--listen' in words:
            urllib.request.build_opener(urllib.request.ProxyHandler({})).open(came, timeout=30).close()
            came = ''
        err = run.communicate(came + '\n', timeout=60)[1]
        return run.returncode, err

    def attacked(self, said, honest_names, attacker_names, *words, redirect=BACK, place=BACK, is_discovered=True):
        """A login at the attacker, whose redirect URI is place, to which the honest server's code comes."""
        with Honest(redirect, honest_names) as honest, Attacker(honest, attacker_names) as attacker:
            status, err = self.login(attacker, 'at-attacker', place, *words, is_discovered=is_discovered)
            self.assertEqual((status, honest.codes, attacker.codes), (1, [], []))
            self.assertIn(said, err)

    def test_one_redirect_uri_for_both_servers(self):
        """RFC 9700, 4.4.2.1: the redirect names the honest server, or not the attacker, which said that its do."""
        for honest_names, attacker_names in (True, True), (True, False), (False, True):
            self.attacked('does not name the issuer', honest_names, attacker_names)

    def test_a_listener_for_both_servers(self):
        self.attacked('does not name the issuer', True, True, '--listen', '0', '--no-browser', redirect=LOOPBACK,
                      place=LOOPBACK)

    def test_a_redirect_uri_for_each_server(self):
        """RFC 9700, 4.4.2.2, where no server names itself."""
        for is_discovered in True, False:
            self.attacked('is not at the redirect URI of this login, ' + BACK + '/attacker', False, False,
                          place=BACK + '/attacker', is_discovered=is_discovered)

    def test_an_honest_login_ends(self):
        for names_itself in True, False:
            with Honest(BACK, names_itself) as honest:
                status, err = self.login(honest, 'at-honest', BACK)
                self.assertEqual((status, honest.codes), (0, [CODE]), err)


class MixUpByProgram(stand_in.ByProgram, MixUp):
    """The same by the program itself."""


if __name__ == '__main__':
    unittest.main()
