"""Tests of tools/compare-replies: the reader in Python, the facts of a reply, and the classes of differences."""
import os
import sys
import unittest

sys.dont_write_bytecode = True
sys.path.insert(0, os.path.dirname(os.path.dirname(os.path.abspath(__file__))))
import tool

replies = tool.load('compare-replies')
OK = b'HTTP/1.1 200 OK\r\n'
READ = replies.Read(200, None, b'hello')


def refused(why):
    return replies.Refused('reply cannot be read: ' + why)


class Replies(unittest.TestCase):
    def test_made_alike(self):
        first = replies.replies(1500, 1)
        self.assertEqual(first, replies.replies(1500, 1))
        self.assertEqual(len(first), len(set(first)))
        self.assertNotEqual(first, replies.replies(1500, 2))


class Python(unittest.TestCase):
    def test_read(self):
        for reply, wanted in [(OK + b'Content-Length: 5\r\n\r\nhello', READ),
                              (OK + b'Transfer-Encoding: chunked\r\n\r\n5\r\nhello\r\n0\r\n\r\n', READ),
                              (b'HTTP/1.1 100 Go on\r\n\r\n' + OK + b'Content-Type: a/b\r\n\r\nhello', READ._replace(content_type='a/b'))]:
            with self.subTest(reply):
                self.assertEqual(replies.read_by_python(reply), wanted)

    def test_refused(self):
        for reply in b'', b'HTTP/2.0 200\r\n\r\n', OK + b'Content-Length: 9\r\n\r\nhello':
            with self.subTest(reply):
                self.assertIsInstance(replies.read_by_python(reply), replies.Refused)


class Facts(unittest.TestCase):
    def test_last_head(self):
        facts = replies.Facts(b'HTTP/1.1 103 Hints\r\nA: b\r\n\r\n' + OK + b'Transfer-Encoding: gzip,  Chunked \r\nA\r\n\r\nbody')
        self.assertEqual(facts.statuses, [b'103', b'200'])
        self.assertEqual(facts.codings(), [b'gzip', b'chunked'])
        self.assertEqual(facts.body, b'body')
        self.assertTrue(facts.is_whole)
        self.assertTrue(facts.has(rb'^A\Z'))

    def test_cut(self):
        self.assertFalse(replies.Facts(OK + b'Content-Length: 5\r\n').is_whole)
        self.assertFalse(replies.Facts(b'').is_whole)


class Classes(unittest.TestCase):
    def rows(self, rows):
        for reply, ours, word in rows:
            with self.subTest(reply):
                found = replies.class_of(reply, ours, replies.read_by_python(reply))
                self.assertIn(word, replies.CLASSES[found][0])

    def test_classes(self):
        self.rows([
            (b'HTTP/1.1 103 Hints\r\n\r\n' + OK + b'\r\nhello', READ, 'a response of 1xx'),
            (b'HTTP/1.1 101 Other\r\n\r\n', refused('it was not asked for'), '101'),
            (OK + b'Content-Ty', refused('the connection closed before its end'), 'the end of a head'),
            (OK + b'Transfer-Encoding: chunked\r\n\r\n0\r\n', refused('the connection closed before its end'), 'behind the last chunk'),
            (OK + b'Content-Length: +5\r\n\r\nhello', refused('its fields give its body no one end'), 'none that is digits'),
            (OK + b'Content-Length: 5\r\nTransfer-Encoding: chunked\r\n\r\n0\r\n\r\n', refused('its fields give its body no one end'),
             'both framing fields'),
            (OK.replace(b'\r', b'') + b'\nhello', refused('a line ends in a line feed alone'), 'a line feed alone'),
            (OK + b'A: b\r\n c\r\n\r\nhello', refused('its head or its trailers do not parse'), 'folded'),
            (OK + b'Transfer-Encoding: gzip\r\n\r\nhello', replies.Refused(replies.CODING), 'not undone'),
        ])

    def test_none(self):
        reply = OK + b'Content-Length: 5\r\n\r\nhello'
        for ours in (READ._replace(body=b'hell'), refused('a chunk of its body does not parse'),
                     refused('its head or its trailers do not parse')):
            with self.subTest(ours):
                self.assertIsNone(replies.class_of(reply, ours, READ))


if __name__ == '__main__':
    unittest.main()
