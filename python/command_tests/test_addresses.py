"""Tests of how URLs are shown."""
import unittest

import where

from lifecrib_command.addresses import has_login, shown


class Shown(unittest.TestCase):
    def test_no_password_is_shown(self):
        for url in ('https://ann:ppp@h/x', 'https://ann:ppp/q@h/x', 'http://ann:ppp#q@h:1', '//ann:ppp@h',
                    'http://ann:ppp@[::1/',
                    'http://ann:p@ppp@h/', 'http://ppp@h'):
            with self.subTest(url):
                self.assertNotIn('ppp', shown(url))
                self.assertTrue(has_login(url))

    def test_what_has_none_is_shown_as_it_is(self):
        for url in 'https://h/a@b', 'https://h:80/?a=b@c', 'app:/back', 'https://h:0/#@', 'nonsense', '':
            self.assertEqual((shown(url), has_login(url)), (url, False))


if __name__ == '__main__':
    unittest.main()
