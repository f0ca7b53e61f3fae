"""Tests of the servers that tools/oauth2 knows by name."""
import os
import re
import unittest

import stand_in
import where

from lifecrib_command import servers
from lifecrib_command.settings import ENDPOINTS

PAGES = os.path.join(where.ROOT, 'docs')


def page(name):
    with open(os.path.join(PAGES, name), encoding='utf-8') as f:
        return f.read()


class Table(unittest.TestCase):
    def test_the_page_has_each_server(self):
        rows = dict(re.findall(r'(?m)^\| `(\w+)` \| [a-zU(].*? \| (.*?) ?\|$',
                               page('TOOL.md').partition('## Servers by name')[2]
                               .partition('\n## ')[0]))
        self.assertEqual(rows,
                         {name: ', '.join('`%s`' % it for it in adapters) for name,
                          (_, adapters) in servers.SERVERS.items()})

    def test_each_endpoint_is_one_and_each_adapter_is_known(self):
        known = set(re.findall(r'(?m)^\| `(\w+)` \| ', page('SCRIPT.md').partition('## The adapters of a client')[2]
                               .partition('\n## ')[0]))
        for name, (endpoints, adapters) in servers.SERVERS.items():
            with self.subTest(name):
                self.assertLessEqual(endpoints.keys(), ENDPOINTS.keys())
                self.assertTrue(all(url.startswith('https://') for url in endpoints.values()))
                self.assertLessEqual(set(adapters), known)


class Requests(stand_in.Case):
    def test_a_server_sets_adapters_and_the_endpoints_that_nothing_sets(self):
        status, _, error = self.run_tool('token', '--server', 'github')
        self.assertEqual(status, 0, error)
        client = self.scripts()[-1]['client']
        self.assertEqual(client['adapters'], ['errors_at_status_200', 'commas_in_scopes'])
        self.assertTrue(client['token_url'].startswith(('http://127.0.0.1', 'http://localhost')))
        found = dict.fromkeys(ENDPOINTS, None) | {'server': 'github'}
        servers.fill(found)
        self.assertEqual(found['device_url'], 'https://github.com/login/device/code')
        self.assertIsNone(found['revocation_url'])

    def test_an_unknown_server(self):
        status, _, error = self.run_tool('token', '--server', 'other')
        self.assertEqual(status, 2)
        self.assertIn('--server is "other": it has to be one of bitbucket, facebook, github', error)


if __name__ == '__main__':
    unittest.main()
