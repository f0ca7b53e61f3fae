"""Tests of tools/compare-connections: its streams, the rule for idle connections, what is judged, and the readers beside it."""
import contextlib
import io
import itertools
import os
import sys
import tempfile
import unittest
from unittest import mock

sys.dont_write_bytecode = True
sys.path.insert(0, os.path.dirname(os.path.dirname(os.path.abspath(__file__))))
import h11_reader
import judging_servers
import kept_client
import made_connections
import tool
from http_replies import Read, Refused

TOOL = tool.load('compare-connections')
ONE = b'HTTP/1.1 200 OK\r\nContent-Type: a/b\r\nContent-Length: 1\r\n\r\n1'
CHUNKS = b'HTTP/1.1 201 OK\r\nTransfer-Encoding: chunked\r\n\r\n1\r\n2\r\n0\r\n\r\n'
HEAD = b'HTTP/1.1 200 OK\r\nContent-Length: 9\r\n\r\n'
GET = kept_client.Request('GET', 'http://as.example', '/a')
# A program in place of the proved one, which reads by h11. Some of its lines are changed below.
PROGRAM = '''#!%s
import sys
import h11

def ask(*words):
    print(*words, flush=True)
    return sys.stdin.readline().strip()

def ended(idle):
    for number in idle:
        print('close', number)

def read(it, number):
    head, body = None, b''
    while not isinstance(event := it.next_event(), h11.EndOfMessage):
        if event is h11.NEED_DATA:
            came = ask('read', number, 4096)
            it.receive_data(bytes.fromhex(came.replace('-', '')))
        elif isinstance(event, h11.Response):
            kind = [value.hex() or '-' for name, value in event.headers if name == b'content-type']
            head = ['reply', event.status_code]
        elif isinstance(event, h11.Data):
            body += event.data
        elif not isinstance(event, h11.InformationalResponse):
            raise h11.RemoteProtocolError('no reply')
    return [*head, body.hex() or '-', *kind[:1]]

def call(method, url, _, *fields):
    place, _, target = url.partition('.example')
    place, target = place + target.partition('/')[0], '/' + target.partition('/')[2]
    found = idle.pop(place, None)
    if found and ask('look', found[0]) != 'silent':
        print('close', found[0])
        found = None
    number, it = found or (ask('open', place), h11.Connection(h11.CLIENT, max_incomplete_event_size=1 << 30))
    sent = [('Host', 'a')] + [('connection', 'close')] * bool(fields)
    ask('write', number, (method + ' / HTTP/1.1' + '\\r\\nconnection: close' * bool(fields) + '\\r\\n\\r\\n').encode().hex())
    it.send(h11.Request(method=method, target=target, headers=sent))
    it.send(h11.EndOfMessage())
    try:
        told = read(it, number)
    except h11.RemoteProtocolError:
        told = ['failed', 'x']
    keeps = it.states == {h11.CLIENT: h11.DONE, h11.SERVER: h11.DONE} and it.trailing_data == (b'', False)
    if keeps:
        it.start_next_cycle()
        idle[place] = number, it
    while len(idle) > most or not keeps:
        print('close', number if not keeps else idle.pop(next(iter(idle)))[0])
        keeps = True
    return told

idle, most = {}, 1
for line in sys.stdin:
    words = line.split()
    if words[0] == 'client':
        ended([number for number, _ in idle.values()])
        idle, most = {}, int(words[1])
        print('= client', flush=True)
    else:
        print('=', *call(*words[1:]), flush=True)
'''


class Streams(unittest.TestCase):
    def test_made_alike(self):
        def made(seed):
            runs = made_connections.Runs(seed)
            return [(it.requests, list(it.network.first.left)) for it in itertools.islice(runs.at_each_place(), 400)]
        self.assertEqual(made(1), made(1))
        self.assertNotEqual(made(1), made(2))

    def test_what_is_damaged(self):
        runs, messages = made_connections.Runs(1), [made_connections.Message(it, it, True) for it in (ONE, CHUNKS)]
        for at in range(len(ONE + CHUNKS)):
            first = at < len(ONE)
            for edit, length in (runs.cut, None), (runs.changed, 0), (runs.put_in, 1), (runs.taken_out, -1):
                found = edit(messages, at)
                stream = b''.join(it.octets for it in found)
                self.assertEqual(stream[:at], (ONE + CHUNKS)[:at])
                self.assertEqual([it.wanted for it in found], [None, CHUNKS][:len(found)] if first else [ONE, None][:len(found)])
                if length is not None:
                    self.assertEqual(len(stream), len(ONE + CHUNKS) + length)

    def test_a_head_alone(self):
        rng = made_connections.Replies('1')
        for _ in range(300):
            octets, wanted, _ = rng.message('HEAD')
            self.assertEqual((octets[-4:], wanted.body), (b'\r\n\r\n', b''))

    def test_what_persists(self):
        rng, rows = made_connections.Replies('1'), {'HTTP/1.1': 0, 'HTTP/1.0': 0}
        for _ in range(500):
            octets, _, keeps = rng.message('GET')
            rows[rng.version] += keeps
            self.assertFalse(keeps and rng.frame == 'close')
        self.assertEqual(rows['HTTP/1.0'], 0)
        self.assertGreater(rows['HTTP/1.1'], 300)


class Rule(unittest.TestCase):
    def test_the_last_one_first(self):
        kept = TOOL.Kept(2)
        self.assertIsNone(kept.take('a'))
        for place, number, keeps, closed in ('a', 1, True, []), ('b', 2, True, []), ('c', 3, False, [3]), ('c', 4, True, [1]):
            self.assertEqual(kept.hold(place, number, keeps), closed)
        self.assertEqual([kept.take(it) for it in 'abcc'], [None, 2, 4, None])


class Lines(unittest.TestCase):
    def test_what_a_call_returned(self):
        for line, wanted in (
                ('reply 200 31 612f62', (Read(200, 'a/b', b'1'), None)), ('reply 204 -', (Read(204, None, b''), None)),
                ('reply 200 - -', (Read(200, '', b''), None)), ('failed it is so', (Refused('it is so'), None)),
                ('unanswered true it is so', (Refused('it is so'), True)), ('unanswered false x', (Refused('x'), False))):
            self.assertEqual(kept_client.result_of(line.split(' ')), wanted)


class Servers(unittest.TestCase):
    def test_http_client(self):
        requests = [('GET', False), ('HEAD', False), ('GET', False), ('GET', False)]
        found = TOOL.by_http_client(requests, ONE + HEAD + b'HTTP/1.1 103 A\r\n\r\n' + CHUNKS + ONE[:-1])
        self.assertEqual(found[:3], [Read(200, 'a/b', b'1'), Read(200, None, b''), Read(201, None, b'2')])
        self.assertIsInstance(found[3], Refused)

    def test_what_was_understood(self):
        page = judging_servers.Page('/a', 200, b'1')
        def told(result, page, request=GET, again=None):
            return TOOL.understood(kept_client.Call(request, result, again, 1, False, [], [], []), page)
        self.assertIsNone(told(Read(200, None, b'1'), page))
        self.assertIsNone(told(Read(200, None, b''), page, GET._replace(method='HEAD')))
        self.assertIsNone(told(Refused('x'), page, again=True))
        for result in Read(200, None, b'2'), Read(201, None, b'1'), Refused('x'):
            self.assertIsNotNone(told(result, page))
        echo = b'{"method":"GET","target":"%s","body":"","agent":"judged/1.0","coding":["identity"]}'
        self.assertIsNone(told(Read(200, None, echo % b'/a'), None))
        self.assertIsNotNone(told(Read(200, None, echo % b'/b'), None))


@unittest.skipUnless(h11_reader.python(), h11_reader.MISSING)
class Judged(unittest.TestCase):
    def test_h11(self):
        reader = h11_reader.Reader()
        self.addCleanup(reader.close)
        found = reader.read_replies([('GET', False), ('HEAD', False), ('POST', False), ('GET', False)], [ONE, HEAD, CHUNKS, ONE + b'x'])
        self.assertEqual([(it.length, it.beyond, it.keeps) for it in found], [
            (len(ONE), 0, True), (len(HEAD), 0, True), (len(CHUNKS), 0, True), (len(ONE), 1, True)])
        closing = b'HTTP/1.1 200 OK\r\nConnection: close\r\nContent-Length: 1\r\n\r\n1'
        for stream in b'HTTP/1.0 200 OK\r\nContent-Length: 0\r\n\r\n', b'HTTP/1.1 200 OK\r\n\r\n1', closing:
            self.assertEqual([it.keeps for it in reader.read_replies([('GET', False)] * 2, [stream])], [False])

    def judged(self, *changes):
        """How many calls are not explained of a program with these changes, and the last line."""
        text = PROGRAM % h11_reader.python()
        for old, new in changes:
            self.assertIn(old, text)
            text = text.replace(old, new)
        said = io.StringIO()
        with tempfile.TemporaryDirectory() as folder, contextlib.redirect_stdout(said), mock.patch.object(TOOL, 'LANES', 1), \
                mock.patch.object(made_connections.Runs, 'all', lambda self: iter(self.good, None)), \
                mock.patch.object(TOOL, 'classes_of', lambda *_: []):
            path = os.path.join(folder, 'program')
            with open(path, 'w', encoding='utf-8') as f:
                f.write(text)
            os.chmod(path, 0o755)
            return TOOL.compare(path, 40, 1), said.getvalue().splitlines()

    def test_without_a_bug(self):
        unexplained, said = self.judged()
        self.assertEqual(unexplained, 0, said)
        self.assertIn(' 0 unexplained', said[-1])

    def test_with_a_bug(self):
        for bug in (("if found and ask('look', found[0]) != 'silent':", 'if False:'), ("it.trailing_data == (b'', False)", 'True'),
                    ("body.hex() or '-'", "body.hex() + '00'"), ('event.status_code]', '200]')):
            with self.subTest(bug):
                self.assertGreater(self.judged(bug)[0], 0)


class Missing(unittest.TestCase):
    def test_a_line_says_what_to_install(self):
        said = io.StringIO()
        with mock.patch.object(h11_reader, 'PYTHONS', ('/none/python3',)), mock.patch.object(sys, 'argv', ['compare-connections']), \
                contextlib.redirect_stderr(said):
            self.assertEqual(TOOL.main(), 2)
        self.assertEqual(said.getvalue(), 'tools/compare-connections: %s\n' % h11_reader.MISSING)


if __name__ == '__main__':
    unittest.main()
