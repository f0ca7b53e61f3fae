"""Replies of HTTP/1.1 that are good, or damaged at any place, and the pieces in which they arrive; for tools/compare-http1."""
import collections
import random
import re

from http_replies import Read, field, joined, size

CUT = 16  # so many replies are cut behind every byte

Made = collections.namedtuple('Made', 'reply pieces wanted')  # wanted is None where the reply may be damaged

CODES = [200] * 8 + [201, 202, 205, 206, 299, 300, 302, 400, 401, 403, 404, 418, 499, 500, 503, 599]
BODILESS = [204, 304]
TYPES = ['text/plain', 'application/json', 'application/json; charset=utf-8', 'text/html;charset="a b"', 'x/y', 'a/b;c="\\"\t"']
OTHER_FIELDS = [('Cache-Control', 'no-store'), ('Date', 'Thu, 26 Nov 2026 10:00:00 GMT'), ('X-A', 'a:b, "c"'), ('Set-Cookie', 'a=b; c'),
                ('X-Empty', ''), ('Connection', 'close'), ('Connection', 'keep-alive, x'), ('X-Text', 'caf\xe9 \x80\xff'),
                ('!#$%&\'*+-.^_`|~0', 'a'), ('Content-Encoding', 'gzip'), ('Trailer', 'X-Sum'), ('Te', 'trailers'),
                ('Content-Lengths', '5'), ('Transfer-Encodin', 'x')]
BODIES = [b'{"access_token":"t","token_type":"bearer"}', b'{}', b'', b'hello', b'\xff\x00\x80', 'caf\u00e9 \u65e5'.encode(),
          b'a\r\nb: c\r\n\r\n', b'0\r\n\r\n', b'\r\n', b'\n', b'HTTP/1.1 200 OK\r\nContent-Length: 0\r\n\r\n']
SHORT = BODIES[:6]
STARTS = ['HTTP/1.1', 'HTTP/1.1 ', '', 'HTTP/1.1  200 OK', 'HTTP/1.1\t200 OK', 'HTTP/1.1 200  OK', 'HTTP/1.1 +200 OK', 'HTTP/1.1 2 00', ' ',
          'HTTP/1.1 200OK', 'HTTP/1.1 200\tOK', 'http/1.1 200 OK', 'Http/1.1 200 OK', 'HTTP/1.10 200 OK', 'HTTP/11 200 OK', 'HTTP/1 200 OK',
          'HTTP/1,1 200 OK', 'HTTP/ 1.1 200 OK', ' HTTP/1.1 200 OK', 'ICY 200 OK', 'HTTPS/1.1 200 OK', '200 OK', 'GET / HTTP/1.1',
          'HTTP/1.1 \xb2\xb2\xb2 OK', 'HTTP/1.1 0x1 OK', 'HTTP/1.1 -20 OK', 'HTTP/1.1 200 O\rK', 'HTTP/1.1 200 \0', 'HTTP/1.1 200\0']
GOOD_REASONS = [' OK', ' ', ' Not a usual reason', ' caf\xe9 \xff', ' a\tb']
VERSIONS = ['HTTP/1.2', 'HTTP/1.9', 'HTTP/2.0', 'HTTP/0.9', 'HTTP/3.0', 'HTTP/1.0', 'HTTP/2', 'HTTP/01.1', 'HTTP/1.01', 'HTTP/-1.1']
ANY_CODES = ['099', '100', '199', '101', '600', '700', '999', '1000', '000', '20', '2000', '0200', '2e2', '20x', '', '204', '304', '205']
REASONS = ['', *GOOD_REASONS, ' \x01', ' \x7f', ' a\0b', ' \x0b', '\t', ' a\rb', '  ', ' OK ',
           ' ' + 'x' * 3000]
NO_NAMES = ['Content-Length : 5', 'Content-Length\t: 5', ' Content-Length: 5', 'Transfer-Encoding : chunked', ' Transfer-Encoding: chunked',
            'A : b', '\tA: b', ' A: b', ': b', ':', 'A', 'A b: c', '(A): b', 'A@: b', 'A\xe9: b', 'A\0: b', 'A\x7f: b', 'A{: b', 'A=: b',
            'A;: b', '"A": b', 'From me: a', 'Content-Type : a', ' : b', 'A\r: b']
FOLDED = ['\r\n c', '\r\n\tc', '\r\n  \t c', '\r\n ', '\r\n \r\n c', ' \r\n c', '\n c', '\r\n c\r\n d', '\r\n :c', '\r\n\x0bc']
ODD_BYTES = [*range(9), *range(11, 33), 127, 128, 133, 160, 194, 255]
SIZES = ['%x ', '%x  ', '%x\t', ' %x', '%x;', '%x;a', '%x;a=b', '%x ;a', '%x\t; a = b', '%x; a', '%x;a="b;c"', '%x;a="b', '%x;\x01',
         '%x;a=\xe9', '%x;\0', '%x;\x7f', '%x;\r', '%x,a', '%x a', '0x%x', '+%x', '-%x', '%x.0', '%xh', '0' * 14 + '%x', '0' * 19 + '%x',
         '0' * 40 + '%x', '1' + '0' * 16 + '%x', 'f' * 16, '1' + '0' * 15, '8' + '0' * 15, '', ';a', 'g', '%x;' + 'a' * 3000,
         '%x;' + 'a' * 17000]
ENDS = ['', '\n', '\r', '\r\r\n', '\n\r', '\r\n\r\n', 'xx', 'x\r\n', ' \r\n', '\0']
LASTS = ['', '00', '0' * 30, '0;a', '0;a=b', '0 ', '0 ;a', '-0', '0x0', '0;\x01', '0\r\n', '0,']
TRAILERS = ['A: b', 'A : b', 'A', ': b', ' A: b', 'A: b\r\n c', 'A: b\x01', 'A: b\x7f', 'A: \xe9', 'A: b\n', 'Content-Length: 5',
            'Content-Length: x', 'Content-Length: 5, 6', 'Transfer-Encoding: chunked', 'Transfer-Encoding: gzip', 'Content-Type: x/z',
            'A: ' + 'b' * 17000]
BEHIND = [b'more', b'\r\n', b'HTTP/1.1 400 No\r\n\r\n', b'\0']
LINE_ENDS = [b'\n', b'\n', b'\r', b'\r\r\n', b'\n\r', b'', b'\r\n\r\n', b' \r\n']
BYTES = b' \t\r\n\0:;,.0159afxAH/\x01\x7f\x80\xff"'


class Replies(random.Random):
    """Replies and the pieces in which they arrive, the same ones for the same seed."""

    def may(self, share):
        return self.random() < share

    def body(self):
        if self.may(.6):
            return self.choice(BODIES)
        return self.choice([self.randbytes(self.randint(1, 40)), b'x' * self.randint(1, 9000), self.randbytes(self.choice([1, 300, 300,
                                                                                                                           4096, 20000]))])

    def others(self):
        return [field(self, *self.choice(OTHER_FIELDS)) for _ in range(self.choice([0, 0, 1, 2, 3]))]

    def begin(self, bodies=None):
        """A good reply."""
        self.before, self.line, self.behind = '', None, b''
        self.interim = [['HTTP/1.1 %d Go on' % self.choice([100, 100, 102, 103,
                                                            199]), *self.others()] for _ in range(self.choice([0] * 7 + [1, 2]))]
        self.version, self.code = self.choice(['HTTP/1.1'] * 9 + ['HTTP/1.0']), self.choice(CODES)
        self.reason, self.type = self.choice(GOOD_REASONS), self.choice([None, *TYPES])
        self.content = self.choice(bodies) if bodies else self.body()
        self.fields = self.others() + ([] if self.type is None else [field(self, 'Content-Type', self.type)]) + self.others()
        self.chunks, self.last, self.trailers, self.end, at = [], self.size(0), [], '\r\n', 0
        while at < len(self.content):
            length = min(self.choice([1, 2, 3, 7, 16, 255, 4096, len(self.content)]), len(self.content) - at)
            self.chunks.append([self.size(length), '\r\n', self.content[at:at + length], '\r\n'])
            at += length
        if self.may(.2):
            self.trailers = self.choice([['X-Sum: 1'], ['A: b', 'C: d'], [field(self, *self.choice(OTHER_FIELDS[:6]))]])
        if self.may(.05):
            self.code, self.frame = self.choice(BODILESS), 'none'
            self.frames = [self.length(5)] if self.code == 304 and self.may(.5) else []
        else:
            self.frame = self.choice(['length', 'chunks', 'close'] if self.version == 'HTTP/1.1' else ['length', 'close'])
            self.frames = {'length': [self.length(len(self.content))], 'close': [],
                           'chunks': [field(self, 'Transfer-Encoding', self.choice(['chunked', 'Chunked']))]}[self.frame]
        if self.frame != 'close' and self.may(.15):
            self.behind = self.choice(BEHIND)

    def size(self, length):
        """The line of a chunk's size."""
        return size(self, length) + self.choice([''] * 8 + [';a', ';a=b', ';a="b c"', ';a=b;c=d'])

    def length(self, length):
        return field(self, 'Content-Length', self.choice(['', '', '', '0', '000']) + str(length))

    def wanted(self):
        """What has to be read of the reply as `begin` has made it."""
        return Read(self.code, self.type, b'' if self.frame == 'none' else self.content)

    def whole(self):
        """The bytes of the reply."""
        fields = list(self.fields)
        for it in self.frames:
            fields.insert(self.randint(0, len(fields)), it)
        line = '%s %s%s' % (self.version, self.code, self.reason) if self.line is None else self.line
        body = {'chunks': self.in_chunks(), 'none': b''}.get(self.frame, self.content)
        return self.before.encode() + b''.join(joined(it) for it in [*self.interim, [line, *fields]]) + body + self.behind

    def in_chunks(self):
        """The body in chunks, with the trailers."""
        chunks = b''.join(part if isinstance(part, bytes) else part.encode('latin-1') for it in self.chunks for part in it)
        return chunks + ''.join(it + '\r\n' for it in [self.last, *self.trailers]).encode('latin-1') + self.end.encode()

    def lines(self):
        """One of the lists that have fields: of the reply, mostly, of a response before it, or the trailers."""
        found = [self.fields] * 3 + self.interim + [self.trailers] * (self.frame == 'chunks')
        return self.choice(found)

    def put(self, line):
        """Puts a line among the fields of a head or the trailers."""
        lines = self.lines()
        lines.insert(self.randint(1 if lines in self.interim else 0, len(lines)), line)

    def some_chunk(self):
        """A chunk that is there, of a reply that is in chunks from now on."""
        if self.frame != 'chunks':
            self.frame, self.frames = 'chunks', ['Transfer-Encoding: chunked']
        if not self.chunks:
            self.chunks.append(['5', '\r\n', b'hello', '\r\n'])
        return self.choice(self.chunks)

    # ---- parts that are other than the grammar has them, or rare

    def other_line(self):
        self.line = self.choice(STARTS)

    def other_version(self):
        self.version = self.choice(VERSIONS)

    def other_code(self):
        self.code = self.choice(ANY_CODES)

    def other_reason(self):
        self.reason = self.choice(REASONS)

    def bodiless(self):
        """A code of no body, with fields and bytes of one, or with fields that contradict each other."""
        self.code = self.choice(BODILESS)
        if self.may(.4):
            self.other_lengths()

    def blank_before(self):
        self.before = self.choice(['\r\n', '\r\n\r\n', '\n', '\r', ' ', ' \r\n', '\n\r\n', '\0'])

    def more_interim(self):
        code = self.choice(['100', '101', '102', '103', '199', '104', '099'])
        fields = self.choice([[], [], ['Upgrade: x', 'Connection: upgrade'], ['Content-Length: 5'], ['Content-Length: x'],
                              ['Content-Length: 5, 6'], ['Transfer-Encoding: chunked'], ['Transfer-Encoding: gzip'],
                              [self.choice(NO_NAMES)], ['A: b\r\n c'], ['A: ' + 'b' * 17000], ['A: b'] * 101])
        line = ' '.join([self.choice(['HTTP/1.1', 'HTTP/1.1', 'HTTP/1.0', 'HTTP/1.2']), code]) + self.choice(GOOD_REASONS)
        self.interim += [[line + self.choice([''] * 9 + ['\r\n', '\n', '\x01']), *fields] for _ in range(self.choice([1, 1, 2, 5]))]

    def no_name(self):
        self.put(self.choice(NO_NAMES))

    def folded(self):
        """A field that goes on in the next line."""
        lines, at = self.lines(), 0
        if lines in (self.trailers, self.fields) and not lines:
            lines.append('A: b')
        at = self.randrange(len(lines))
        cut = self.choice([len(lines[at]), lines[at].find(':') + 1, self.randint(0, len(lines[at]))])
        lines[at] = lines[at][:cut] + self.choice(FOLDED) + lines[at][cut:]

    def odd_byte(self):
        """A byte in a value, or in a name."""
        byte = chr(self.choice(ODD_BYTES))
        self.put(self.choice(['A: %s', 'A: b%s', 'A: b%sc', 'A:%s', 'Content-Type: a/b%s', 'Content-Type: %sa/b', 'A%s: b', '%sA: b',
                              'Content-Length%s: 5']) % byte)

    def many_fields(self):
        lines = self.lines()
        lines += ['X-%d: a' % at for at in range(self.choice([95, 97, 98, 99, 100, 101, 150]) - len(lines))]

    def long_field(self):
        lines = self.lines()
        fill = self.choice([16384, 16383, 16385, 16000, 20000, 65530, 70000, 8000]) - len(joined(lines)) - self.choice([0, 0, 17, 40])
        lines.append('X: ' + 'x' * max(fill, 0))

    def other_lengths(self):
        """One or two fields of a length, right, wrong, doubled or in conflict."""
        length = len(self.content)
        right, others = str(length), [str(length + 1), str(max(length - 1, 0)), '0', '5']
        if self.frame != 'chunks' or self.may(.7):
            self.frame = 'length'
        values = [right, '+' + right, '-1', '-' + right, '%s, %s' % (right, right), '%s,%s' % (right, right),
                  '%s, %d' % (right, length + 1), right + ',', ',' + right, right + ' ' + right, 'x', '', '0x5', '1_0', right + '.0',
                  '9' * 19, '9' * 20, '1' * 40, '\xb2', '\t' + right, right + '\t', '"%s"' % right, right + ';a', '0' * 30 + right,
                  '%s, 0%s' % (right, right), '%s, , %s' % (right, right), '%s, %s, %s' % (right, right, right), '18446744073709551615',
                  '18446744073709551616', *others]
        fields = self.choice([[self.choice(values)], [self.choice(others)], [right, right], [right, self.choice(others)],
                              [right, '0' + right], ['%s, %s' % (right, right)], [self.choice(values), self.choice(values)]])
        keeps = [it for it in self.frames if self.frame == 'chunks']
        self.frames = keeps + [field(self, 'Content-Length', it) for it in fields]

    def other_codings(self):
        values = ['gzip, chunked', 'gzip', 'xyz', 'identity', 'chunked, chunked', 'chunked, gzip', '', 'chunked,', ',chunked',
                  'gzip, , chunked', ', , chunked', 'chunked;q=1', 'chun ked', 'xchunked', '"chunked"', 'CHUNKED', 'gzip;a=b, chunked',
                  'deflate, gzip, chunked', 'identity, chunked', 'chunked\t', 'x y', 'gzip gzip, chunked', 'chunked chunked',
                  'chunked, identity', 'chunked\x01', 'g(zip']
        fields = self.choice([[self.choice(values)]] * 4 + [['gzip', 'chunked'], ['chunked', 'gzip'], ['chunked', 'chunked'],
                                                            ['', 'chunked'], ['chunked', ''], [self.choice(values), self.choice(values)]])
        self.frame = self.choice(['chunks', 'chunks', 'close'])
        self.frames = [field(self, 'Transfer-Encoding', it) for it in fields]

    def both_frames(self):
        length = self.choice([len(self.content), 0, 5, len(self.in_chunks())])
        self.frames = [field(self, 'Transfer-Encoding', 'chunked'), self.length(length)]
        self.frame = self.choice(['chunks', 'chunks', 'length'])
        self.shuffle(self.frames)

    def other_size(self):
        chunk = self.some_chunk()
        form, length = self.choice(SIZES), len(chunk[2]) + self.choice([0] * 5 + [1, -1])
        chunk[0] = form % abs(length) if '%' in form else form

    def other_end(self):
        self.some_chunk()[self.choice([1, 3, 3])] = self.choice(ENDS)

    def other_last(self):
        self.some_chunk()
        self.last = self.choice(LASTS)

    def other_trailers(self):
        self.some_chunk()
        self.trailers = self.choices(TRAILERS, k=self.choice([1, 1, 2]))
        self.end = self.choice(['\r\n'] * 6 + ['', '\n', '\r', 'x'])

    def old_chunks(self):
        """Chunks in HTTP/1.0, which has none."""
        self.some_chunk()
        self.version = 'HTTP/1.0'

    def old_interim(self):
        """A response of 1xx in HTTP/1.0, which has none."""
        self.interim.append(['HTTP/1.0 100 Go on'])

    def more_behind(self):
        self.behind = self.choice([*BEHIND, self.randbytes(5), b'x' * 20000])

    # ---- bytes that are changed

    def edited(self, reply):
        """A reply in which one thing was changed at a random place."""
        at = self.randrange(len(reply) + 1)
        if self.may(.5):  # in a head, most often
            at = self.randrange(min(len(reply), 300) + 1)
        if self.may(.3):  # at the end of a line
            at = self.choice([it.start() for it in re.finditer(b'\r\n', reply)] or [at])
        byte, length = bytes([self.choice(BYTES) if self.may(.8) else self.randrange(256)]), self.choice([1, 1, 1, 2, 2, 4, 20])
        again = self.randrange(len(reply) + 1)
        return self.choice([lambda: reply[:at] + byte + reply[at + 1:], lambda: reply[:at] + byte + reply[at + 1:],
                            lambda: reply[:at] + reply[at + length:], lambda: reply[:at] + byte + reply[at:],
                            lambda: reply[:at] + self.choice(LINE_ENDS) + reply[at + 2:],
                            lambda: reply[:at] + reply[again:again + length] + reply[at:],
                            lambda: reply[:at] + reply[at + 1:at + 2] + reply[at:at + 1] + reply[at + 2:], lambda: reply[:at]])()

    # ---- all

    def pieces(self, reply):
        """The reply in pieces."""
        places = range(1, len(reply))
        number = self.choice([0, 0, 1, 1, 2, 3, 10, len(reply) if len(reply) < 300 else 30])
        cuts = sorted(self.sample(places, min(number, len(places))))
        return [reply[a:b] for a, b in zip([0, *cuts], [*cuts, len(reply)]) if a < b]

    def good(self):
        self.begin()
        return self.whole(), self.wanted()

    def damaged(self):
        """A reply with one or two parts that are other than they should be, or one or two changes of bytes, or one of both."""
        self.begin(SHORT if self.may(.5) else None)
        changes, edits = self.choice([(1, 0), (1, 0), (2, 0), (0, 1), (0, 1), (0, 2), (1, 1)])
        for change in self.choices(CHANGES, k=changes):
            change(self)
        reply = self.whole()
        for _ in range(edits):
            reply = self.edited(reply)
        return reply, None


# Each with how often it is drawn.
CHANGES = [change for change, weight in (
    (Replies.other_line, 3), (Replies.other_version, 2), (Replies.other_code, 2), (Replies.other_reason, 2), (Replies.bodiless, 3),
    (Replies.blank_before, 2), (Replies.more_interim, 3), (Replies.no_name, 4), (Replies.folded, 3), (Replies.odd_byte, 3),
    (Replies.many_fields, 2), (Replies.long_field, 2), (Replies.other_lengths, 6), (Replies.other_codings, 5), (Replies.both_frames, 2),
    (Replies.other_size, 5), (Replies.other_end, 3), (Replies.other_last, 2), (Replies.other_trailers, 4), (Replies.old_chunks, 1),
    (Replies.old_interim, 1), (Replies.more_behind, 2)) for _ in range(weight)]


def replies(number, seed):
    """So many replies, all different, the cut ones first."""
    rng, found = Replies(seed), {}
    for _ in range(CUT):
        rng.begin(SHORT)
        whole = rng.whole()
        for at in range(len(whole) + 1):
            found.setdefault(whole[:at], Made(whole[:at], rng.pieces(whole[:at]), None))
    while len(found) < number:
        reply, wanted = rng.good() if rng.may(.1) else rng.damaged()
        found.setdefault(reply, Made(reply, rng.pieces(reply), wanted))
    return list(found.values())[:number]
