"""Tests of how secrets are masked, in whatever way they are written."""
import base64
import html
import json
import random
import unittest
import urllib.parse

import where

from lifecrib_command.secret_texts import Secrets

SECRETS = ('s3cret', 'a b&c=d+e/f', 'é€\U0001f600', '"quoted"\\', "it's <b>", '100%25', 'x', 'ab\ncd', '~*-._')


def twice(text):
    return urllib.parse.quote(urllib.parse.quote(text, safe=''), safe='')


def each_byte(text):
    """A text of which each byte is percent-encoded, as no encoder has to."""
    return ''.join('%%%02x' % it for it in text.encode())


WAYS = {'as it is': str, 'in a form': urllib.parse.quote_plus, 'in a path': urllib.parse.quote, 'twice': twice,
        'each byte': each_byte,
        'in lower case': lambda it: ''.join(c if c.isalnum() and c.isascii() else each_byte(c) for c in it),
        'in JSON': lambda it: json.dumps(it)[1:-1],
        'in JSON of UTF-8': lambda it: json.dumps(it, ensure_ascii=False)[1:-1],
        'in HTML': html.escape, 'a form in JSON': lambda it: json.dumps(urllib.parse.quote_plus(it))[1:-1],
        'JSON in a form': lambda it: urllib.parse.quote_plus(json.dumps(it)[1:-1])}


class Masks(unittest.TestCase):
    def test_each_way(self):
        for secret in SECRETS:
            for name, way in WAYS.items():
                with self.subTest(secret=secret, way=name):
                    known = Secrets()
                    known.add(secret)
                    self.assertEqual(known.masked('[%s] (%s)' % (way(secret), way(secret))), '[***] (***)')

    def test_the_header_of_a_client(self):
        known = Secrets()
        known.add_login('a b', 'c:d%')
        for way in (str, urllib.parse.quote_plus, urllib.parse.quote):
            value = base64.b64encode(('%s:%s' % (way('a b'), way('c:d%'))).encode()).decode()
            self.assertEqual(known.masked('Authorization: Basic ' + value), 'Authorization: Basic ***')
            self.assertEqual(known.masked(urllib.parse.quote('Basic ' + value)), 'Basic%20***')

    def test_what_is_no_secret_stays(self):
        known = Secrets()
        known.add('secret', None, '')
        for text in '', 'Secret secre t', '%73ecre', 'a%zz\\u12 &none; &#99999999;', 'é\U0001f600':
            self.assertEqual(known.masked(text), text)

    def test_secrets_that_overlap(self):
        known = Secrets()
        known.add('abc', 'bcd', 'ab')
        self.assertEqual(known.masked('xabcdx abc'), 'x***x ***')

    def test_a_text_that_is_cut(self):
        known = Secrets()
        known.add('secret')
        for secret in 'secret', each_byte('secret'):
            for at in range(2, 20):
                self.assertTrue('ab***'.startswith(known.masked('ab%scd' % secret, at)[:5]))
        self.assertEqual(known.masked('ab secret cd', 11), 'ab *** c')

    def test_no_part_of_a_secret_is_left_in_any_text(self):
        chance = random.Random(1)
        for _ in range(300):
            secret = ''.join(chance.choice('ab%&+ "\\é1') for _ in range(chance.randrange(4, 9)))
            known = Secrets()
            known.add(secret)
            text = ''.join(chance.choice(list(WAYS.values()))(secret) + chance.choice('|;,') for _ in range(3))
            self.assertRegex(known.masked(text), r'\A\*\*\*[|;,]\*\*\*[|;,]\*\*\*[|;,]\Z', (secret, text))


if __name__ == '__main__':
    unittest.main()
