"""Tests of the certificates of `tools/oauth2`: of servers (--cacert), and of the client (RFC 8705)."""
import os
import shutil
import subprocess
import unittest

import stand_in
from stand_in import CERTIFICATE

# Of a key that no test trusts, encrypted by the password "x".
OPENSSL = shutil.which('openssl')


class Case(stand_in.Case):
    def setUp(self):
        super().setUp()
        self.path = self.certificate()

    def token(self, server, *words, **env):
        return self.run_tool('token', '--token-url', server.url + '/token', *words, **env)

    def file(self, name, text, mode=0o600):
        path = os.path.join(self.room, name)
        with open(path, 'w', encoding='utf-8') as f:
            f.write(text)
        os.chmod(path, mode)
        return path

    def openssl(self, *words):
        subprocess.run([OPENSSL, *words], cwd=self.room, check=True, capture_output=True)


class Servers(Case):
    def test_each_way_to_name_the_file(self):
        server = self.serve(self.path)
        self.assertEqual(self.token(server)[0], 1)
        config = self.file('settings.json', '{"cacert": "%s"}' % self.path)
        profile = self.file('x.toml', '[profile.a]\ncacert = "%s"\n' % os.path.relpath(self.path, self.room))
        for words, env in ((['--cacert', self.path], {}), ([], {'OAUTH2_CACERT': self.path}),
                           (['--config', config], {}),
                           (['--config', profile, '--profile', 'a', '--cache', self.room + '/cache'], {})):
            self.assertEqual(self.token(server, *words, **env)[0], 0)

    @unittest.skipUnless(OPENSSL, 'there is no openssl here')
    def test_no_other_certificate_is_trusted_then(self):
        self.openssl('req', '-x509', '-newkey', 'rsa:2048', '-nodes', '-subj', '/CN=other', '-keyout', 'key', '-out',
                     'other')
        status, _, err = self.token(self.serve(self.path), '--cacert', self.room + '/other', SSL_CERT_FILE=self.path)
        self.assertEqual(status, 1)
        self.assertIn("the server's certificate is not one that is trusted here (those of --cacert are)", err)

    def test_files_that_can_not_be_used(self):
        empty = self.file('empty', '')
        for words, said in ((['--cacert', '/none/x'], '--cacert is /none/x, which can not be read: No such file'),
                            (['--cacert', empty], '--cacert is %s, which has no certificates' % empty),
                            (['--client-cert', '/none/x'], '--client-cert is /none/x, which can not be read'),
                            (['--client-cert', self.path, '--client-key', '/none/x'],
                             '--client-key is /none/x, which can not be read'),
                            (['--client-cert', empty], 'there has to be a certificate and a key that is not encrypted'),
                            (['--client-key', self.path], '--client-key goes with --client-cert')):
            status, out, err = self.run_tool('token', *words, OAUTH2_PROGRAM='/none')
            self.assertEqual((status, out), (2, ''))
            self.assertRegex(err, r'\Atools/oauth2: .*\n\Z')
            self.assertIn(said, err)


class Clients(Case):
    """A server that asks the client for its certificate, and takes those of one file."""

    def test_a_certificate_of_the_client_itself(self):
        server = self.serve(self.path, self.path)
        trusts = ['--cacert', self.path]
        status, _, err = self.token(server, *trusts)
        self.assertIn(status, (1, 9))
        self.assertRegex(err, '--client-cert|reset')
        self.assertEqual(self.token(server, *trusts, '--client-cert', self.path), (0, stand_in_answer(), ''))
        key, _, certificate = CERTIFICATE.partition('-----BEGIN CERTIFICATE-----')
        words = ['--client-cert', self.file('cert', '-----BEGIN CERTIFICATE-----' + certificate), '--client-key',
                 self.file('key', key)]
        self.assertEqual(self.token(server, *trusts, *words)[0], 0)
        self.assertEqual(self.token(server, *trusts, OAUTH2_CLIENT_CERT=words[1], OAUTH2_CLIENT_KEY=words[3])[0], 0)
        os.chmod(words[3], 0o644)
        self.assertIn('others can read the key %s: chmod 600' % words[3], self.token(server, *trusts, *words)[2])
        self.assertEqual(server.asked[-1][1], {'grant_type': 'client_credentials'})
        self.assertNotIn('Authorization', server.asked[-1][2])

    @unittest.skipUnless(OPENSSL, 'there is no openssl here')
    def test_a_certificate_that_an_authority_has_signed(self):
        self.openssl('req', '-x509', '-newkey', 'rsa:2048', '-nodes', '-subj', '/CN=authority', '-keyout', 'ca.key',
                     '-out', 'ca')
        self.openssl('req', '-newkey', 'rsa:2048', '-nodes', '-subj', '/CN=client', '-keyout', 'key', '-out', 'request')
        self.openssl('x509', '-req', '-in', 'request', '-CA', 'ca', '-CAkey', 'ca.key', '-CAcreateserial', '-out',
                     'cert')
        self.openssl('pkey', '-in', 'key', '-aes256', '-passout', 'pass:x', '-out', 'encrypted')
        server = self.serve(self.path, os.path.join(self.room, 'ca'))
        words = ['--cacert', self.path, '--client-cert', self.room + '/cert', '--client-key']
        self.assertEqual(self.token(server, *words, self.room + '/key')[0], 0)
        for key, said in ('ca.key', 'is not that of the certificate'), ('encrypted', 'a key that is not encrypted'):
            status, _, err = self.token(server, *words, os.path.join(self.room, key))
            self.assertEqual(status, 2)
            self.assertIn(said, err)
        status, _, err = self.token(server, '--cacert', self.path, '--client-cert', self.path)
        self.assertIn(status, (1, 9))
        self.assertRegex(err, '--client-cert|reset')

    def test_the_endpoints_where_the_certificate_is_shown(self):
        plain, server = self.serve(self.path), self.serve(self.path, self.path)
        found = {'issuer': plain.url, 'token_endpoint': plain.url + '/token',
                 'mtls_endpoint_aliases': {'token_endpoint': server.url + '/mtls'}}
        plain.documents['/.well-known/oauth-authorization-server'] = (200, {}, found)
        words = ['token', '--issuer', plain.url, '--cacert', self.path]
        self.assertEqual(self.run_tool(*words, OAUTH2_TOKEN_URL='')[0], 0)
        self.assertEqual(self.run_tool(*words, '--client-cert', self.path, OAUTH2_TOKEN_URL='')[0], 0)
        self.assertEqual([[it[0] for it in one.asked] for one in (plain, server)], [['/token'], ['/mtls']])
        for aliases in {'token_endpoint': 'http://as.example/'}, {'token_endpoint': 1}:
            found['mtls_endpoint_aliases'] = aliases
            self.assertEqual(self.run_tool(*words, '--client-cert', self.path, OAUTH2_TOKEN_URL='')[0], 6)
        found['mtls_endpoint_aliases'] = [1]
        self.assertEqual(self.run_tool(*words, '--client-cert', self.path, OAUTH2_TOKEN_URL='')[0], 0)


def stand_in_answer():
    return '{"access_token":"t1","token_type":"Bearer","expires_in":3600}\n'


if __name__ == '__main__':
    unittest.main()
