"""Tests of tools/compare-http1: its replies, their parts, the grammar, h11's reader, and each class of differences."""
import contextlib
import io
import os
import sys
import tempfile
import unittest
from unittest import mock

sys.dont_write_bytecode = True
sys.path.insert(0, os.path.dirname(os.path.dirname(os.path.abspath(__file__))))
import h11_reader
import made_replies
import pythons
import tool
from http_replies import CHUNK, FRAMING, LINE_FEED, NO_PARSE, TOO_LARGE, Read, Refused, read_by_program
from reply_parts import Reply, follows_grammar

TOOL = tool.load('compare-http1')
OK = b'HTTP/1.1 200 OK\r\n'
FIVE = b'Content-Length: 5\r\n\r\nhello'
CHUNKED = b'Transfer-Encoding: chunked\r\n'
CHUNKS = CHUNKED + b'\r\n5\r\nhello\r\n0\r\n\r\n'
HELLO = Read(200, None, b'hello')
LONG = b'A: ' + b'b' * 17000 + b'\r\n'
# The class, a reply that is of it alone, and the one that it leaves; with the fault of this program where h11 alone reads it.
ROWS = [
    ('line feed', b'HTTP/1.1 200 OK\nA: b\r\nContent-Length: 5\r\n\nhello', OK + b'A: b\r\n' + FIVE, LINE_FEED),
    ('fold', OK + b'A: b\r\n \tc\r\n' + FIVE, OK + b'A: b c\r\n' + FIVE, NO_PARSE),
    ('fold', OK + CHUNKED + b'\r\n0\r\nA: b\r\n c\r\n\r\n', OK + CHUNKED + b'\r\n0\r\nA: b c\r\n\r\n', NO_PARSE),
    ('control byte', b'HTTP/1.1 200 \x01\r\nA: b\x7f\r\n' + FIVE, b'HTTP/1.1 200 x\r\nA: bx\r\n' + FIVE, NO_PARSE),
    ('control byte', OK + CHUNKED + b'\r\n5;\x01\r\nhello\r\n0\r\n\r\n', OK + CHUNKED + b'\r\n5;x\r\nhello\r\n0\r\n\r\n', CHUNK),
    ('minor version', b'HTTP/1.1 100 A\r\n\r\nHTTP/1.2 200 OK\r\n' + FIVE, b'HTTP/1.1 100 A\r\n\r\n' + OK + FIVE, NO_PARSE),
    ('major version', b'HTTP/2.0 200 OK\r\n' + FIVE, OK + FIVE, NO_PARSE),
    ('old chunks', b'HTTP/1.0 200 OK\r\n' + CHUNKS, OK + CHUNKS, FRAMING),
    ('both frames', OK + b'Content-Length: 5\r\n' + CHUNKS, OK + CHUNKS, FRAMING),
    ('list of a length', OK + b'Content-Length: 5, 5\r\n\r\nhello', OK + FIVE, FRAMING),
    ('bytes', OK + LONG + FIVE, b'HTTP/1.1 200 \r\n' + FIVE, TOO_LARGE),
    ('extensions', OK + CHUNKED + b'\r\n5;' + b'a' * 17000 + b'\r\nhello\r\n0\r\n\r\n', OK + CHUNKS, CHUNK),
    ('fields', OK + b'A: b\r\n' * 101 + FIVE, OK + FIVE, NO_PARSE),
    ('list of codings', OK + b'Transfer-Encoding: , chunked\r\n\r\n0\r\n\r\n', OK + CHUNKED + b'\r\n0\r\n\r\n', None),
    ('zeros of a length', OK + b'Content-Length: 05\r\n' + FIVE, OK + b'Content-Length: 05\r\n\r\nhello', None),
    ('digits', OK + CHUNKED + b'\r\n' + b'0' * 20 + b'5\r\nhello\r\n0\r\n\r\n', OK + CHUNKS, None),
    ('blank in a chunk', OK + CHUNKED + b'\r\n5 ;a\r\nhello\r\n0\r\n\r\n', OK + CHUNKED + b'\r\n5;a\r\nhello\r\n0\r\n\r\n', None),
    ('no body', b'HTTP/1.1 103 A\r\nContent-Length: x\r\n\r\n' + OK + FIVE, b'HTTP/1.1 103 A\r\n\r\n' + OK + FIVE, None),
    ('no body', b'HTTP/1.1 204 A\r\nTransfer-Encoding: gzip\r\n\r\n', b'HTTP/1.1 204 A\r\n\r\n', None),
    ('trailers', OK + CHUNKED + b'\r\n0\r\nContent-Length: x\r\n\r\n', OK + CHUNKED + b'\r\n0\r\n\r\n', None),
    ('no blank', b'HTTP/1.1 200\r\n' + FIVE, b'HTTP/1.1 200 \r\n' + FIVE, None),
    ('blanks of a size', OK + CHUNKED + b'\r\n5 \r\nhello\r\n0\t\r\n\r\n', OK + CHUNKS, None),
    ('odd extension', OK + CHUNKED + b'\r\n5;=\r\nhello\r\n0\r\n\r\n', OK + CHUNKS, None)]
BOTH = ('no blank', 'blanks of a size', 'odd extension')


def read_as(reply, wanted):
    """Reads `wanted` of one reply by both, and nothing of any other."""
    return lambda it: (wanted, wanted) if it == reply else (Refused('ours'), Refused('theirs'))


class Replies(unittest.TestCase):
    def test_made_alike(self):
        first = made_replies.replies(1500, 1)
        self.assertEqual(first, made_replies.replies(1500, 1))
        self.assertEqual(len(first), len({it.reply for it in first}))
        self.assertNotEqual(first, made_replies.replies(1500, 2))
        for it in first:
            self.assertEqual(b''.join(it.pieces), it.reply)
            self.assertTrue(all(it.pieces))

    def test_good_ones(self):
        rng = made_replies.Replies(1)
        for reply, wanted in (rng.good() for _ in range(500)):
            self.assertTrue(follows_grammar(reply), reply)
            self.assertEqual(Reply(reply).head.status, wanted.status)

    def test_parts(self):
        for it in made_replies.replies(4000, 3):
            self.assertEqual(bytes(Reply(it.reply)), it.reply)

    def test_grammar(self):
        good = [OK + FIVE, OK + CHUNKS, b'HTTP/1.0 204 \r\n\r\n', b'HTTP/1.1 103 A\r\nA:\r\n\r\n' + OK + b'A: \xe9\tb \r\n\r\n',
                OK + CHUNKED + b'\r\n05 ; a = "\\"" ;b\r\nhello\r\n00;a=b\r\nA: b\r\n\r\n']
        of_form = ('line feed', 'fold', 'control byte', 'minor version', 'major version', *BOTH)
        bad = [OK + b'A : b\r\n\r\n', OK + b'A\r\n\r\n', OK + b': b\r\n\r\n', OK + b'A: b\r\n', OK + CHUNKED + b'\r\n5\r\nhello',
               b'\r\n' + OK + FIVE]
        for reply in good + [changed for _, _, changed, _ in ROWS]:
            self.assertTrue(follows_grammar(reply), reply)
        for reply in bad + [reply for name, reply, _, _ in ROWS if name in of_form]:
            self.assertFalse(follows_grammar(reply), reply)


class Classes(unittest.TestCase):
    def readings(self, name, fault):
        """What this program and h11 read of a reply of a class."""
        if fault:
            return Refused(fault), HELLO
        return HELLO, HELLO if name in BOTH else Refused('theirs')

    def test_each(self):
        self.assertEqual({it.name for it in TOOL.CLASSES}, {name for name, *_ in ROWS})
        for name, reply, changed, fault in ROWS:
            with self.subTest(name):
                ours, theirs = self.readings(name, fault)
                found = TOOL.classes_of(reply, ours, theirs, read_as(changed, HELLO))
                self.assertEqual([it.name for it in found or []], [name])

    def test_another_reason(self):
        for name, reply, changed, fault in ROWS:
            ours, theirs = self.readings(name, fault)
            with self.subTest(name):
                self.assertIsNone(TOOL.classes_of(reply, ours, theirs, read_as(changed, HELLO._replace(body=b'hell'))))
                self.assertIsNone(TOOL.classes_of(reply, ours, theirs, lambda it: (Refused(NO_PARSE), Refused('theirs'))))
                if fault:
                    self.assertIsNone(TOOL.classes_of(reply, Refused('another'), theirs, read_as(changed, HELLO)))

    def test_several(self):
        reply = b'HTTP/1.1 200\r\n' + CHUNKED + b'\r\n5 ;a\r\nhello\r\n0\r\nContent-Length: x\r\n\r\n'
        left = CHUNKED + b'\r\n5;a\r\nhello\r\n0\r\n\r\n'
        def read(it):
            return HELLO, HELLO if it in (b'HTTP/1.1 200\r\n' + left, b'HTTP/1.1 200 \r\n' + left) else Refused('theirs')
        found = TOOL.classes_of(reply, HELLO, Refused('theirs'), read)
        self.assertEqual([it.name for it in found], ['blank in a chunk', 'trailers', 'no blank'])

    def test_other_content_is_of_no_class(self):
        for other in HELLO._replace(body=b'hell'), HELLO._replace(status=201), HELLO._replace(content_type='a/b'):
            for name, reply, changed, _ in ROWS:
                with self.subTest(name):
                    self.assertIsNone(TOOL.classes_of(reply, other, HELLO, read_as(changed, HELLO)))

    def test_alike(self):
        self.assertEqual(TOOL.classes_of(OK + FIVE, HELLO, HELLO, None), [])
        self.assertEqual(TOOL.classes_of(b'', Refused('ours'), Refused('theirs'), None), [])


@unittest.skipUnless(h11_reader.python(), h11_reader.MISSING)
class H11(unittest.TestCase):
    def setUp(self):
        self.reader = h11_reader.Reader()
        self.addCleanup(self.reader.close)

    def test_read(self):
        whole = b'HTTP/1.1 103 A\r\n\r\n' + OK + b'Content-Type: a/\xe9\r\nContent-Type: c/d\r\n' + CHUNKS + b'more'
        for pieces in [whole], [bytes([it]) for it in whole]:
            self.assertEqual(self.reader.read(*pieces), Read(200, 'a/\xe9', b'hello'))

    def test_refused(self):
        for pieces in [], [b'HTTP/1.1'], [OK + b'Content-Length: 9\r\n\r\nhello'], [b'\r\n' + OK + FIVE], [b'HTTP/1.1 101 A\r\n\r\n']:
            self.assertIsInstance(self.reader.read(*pieces), Refused)

    def test_each_class(self):
        for name, reply, changed, fault in ROWS:
            with self.subTest(name):
                self.assertEqual(isinstance(self.reader.read(reply), Read), bool(fault) or name in BOTH)
                self.assertIsInstance(self.reader.read(changed), Read)

    def compared(self, bug, number=300):
        """How many replies are unexplained where both read what the grammar has and h11 takes, this program with a bug, and what was
        printed."""
        def read(readers, *pieces):
            reply = b''.join(pieces)
            theirs = readers.h11().read(*pieces) if follows_grammar(reply) else Refused('no reply')
            return bug(reply, theirs), theirs
        said = io.StringIO()
        with mock.patch.object(TOOL.Readers, 'read', read), mock.patch.object(made_replies, 'CUT', 1), contextlib.redirect_stdout(said):
            return TOOL.compare('/program', number, 1), said.getvalue().splitlines()

    def test_without_a_bug(self):
        unexplained, said = self.compared(lambda reply, it: it)
        self.assertEqual(unexplained, 0, said)
        self.assertIn('300 replies beside h11', said[-1])
        self.assertIn(' 0 unexplained', said[-1])

    def test_with_a_bug(self):
        for bug in (lambda reply, it: it._replace(body=it.body[1:]) if isinstance(it, Read) else it,
                    lambda reply, it: it._replace(status=200) if isinstance(it, Read) else it,
                    lambda reply, it: Refused(NO_PARSE) if b'\xff' in reply else it,
                    lambda reply, it: HELLO if b'gzip' in reply and isinstance(it, Refused) else it, lambda reply, it: Refused(CHUNK)):
            unexplained, said = self.compared(bug)
            self.assertGreater(unexplained, 0)
            self.assertIn(' %d unexplained' % unexplained, said[-1])


# Tells how often it read before the connection was closed, and what; or, with another file of settings, reads once and refuses that.
PROGRAM = '''#!%s
import json, os, sys
found = [os.read(0, 4096)]
if sys.argv[2] == 'once':
    sys.stderr.write(json.dumps({'error': found[0].decode()}))
    sys.exit(1)
while found[-1]:
    found.append(os.read(0, 4096))
sys.stderr.write(json.dumps({'status': len(found) - 1, 'content_type': None, 'body': b''.join(found).decode()}))
''' % sys.executable


class Program(unittest.TestCase):
    def setUp(self):
        folder = tempfile.TemporaryDirectory()
        self.addCleanup(folder.cleanup)
        self.path = os.path.join(folder.name, 'program')
        with open(self.path, 'w', encoding='utf-8') as f:
            f.write(PROGRAM)
        os.chmod(self.path, 0o755)

    def test_pieces_stay_apart(self):
        for pieces, reads in ([], 0), ([b'ab', b'c', b'd'], 3), ([b'a' * 5000, b'b'], 3), ([b'a'] * 500, 500):
            self.assertEqual(read_by_program(self.path, 'all', *pieces), Read(reads, None, b''.join(pieces)))

    def test_a_program_that_reads_no_further(self):
        self.assertEqual(read_by_program(self.path, 'once', b'ab', *[b'a' * 4096] * 500), Refused('ab'))


class Missing(unittest.TestCase):
    def test_a_line_says_what_to_install(self):
        said = io.StringIO()
        with mock.patch.object(h11_reader, 'PYTHONS', ('/none/python3',)), mock.patch.object(sys, 'argv', ['compare-http1']), \
                contextlib.redirect_stderr(said):
            self.assertEqual(TOOL.main(), 2)
        self.assertEqual(said.getvalue(), 'tools/compare-http1: %s\n' % h11_reader.MISSING)

    def test_which_python_has_it(self):
        self.assertEqual(pythons.that_has('json', ('/none/python3', sys.executable)), sys.executable)
        self.assertIsNone(pythons.that_has('no_such_module', (sys.executable,)))


if __name__ == '__main__':
    unittest.main()
