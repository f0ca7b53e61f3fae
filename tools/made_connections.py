"""Servers that reply on connections which may be used again, with good replies or with damaged ones; for tools/compare-connections."""
import collections
import re

import made_replies
from http_replies import field
from kept_client import Request

PLACES = ['http://as.example', 'http://as.example:8080', 'https://as.example', 'http://other.example']
METHODS = ['GET'] * 14 + ['HEAD'] * 2 + ['POST'] * 3 + ['PUT']
STREAMS = 4  # so many streams are damaged at each place

# A reply as it was written: what has to be read of it, None where it may be damaged, and whether the connection is kept after it.
Message = collections.namedtuple('Message', 'octets wanted keeps')
# What a client is asked for: how many connections it may hold idle, the requests, and the network.
Run = collections.namedtuple('Run', 'most_idle requests network')


class Replies(made_replies.Replies):
    """Replies of which each has a Content-Type of its own, so that none is like another."""

    def __init__(self, seed):
        super().__init__(seed)
        self.number = 0

    def begin(self, bodies=None):
        """A good reply, mostly one after which the connection is kept."""
        while True:
            super().begin(bodies or (made_replies.BODIES if self.may(.9) else None))
            if self.persists('GET') or self.may(.12):
                break
        self.number += 1
        self.type, self.behind = 'text/plain;n=%d' % self.number, b''
        self.fields = [it for it in self.fields if not it.lower().startswith('content-type')]
        self.fields.insert(self.randint(0, len(self.fields)), field(self, 'Content-Type', self.type))

    def persists(self, method):
        """Whether the connection persists after the reply, by RFC 9112, 9.3 and 9.6, and 6.3 of its end."""
        options = [it.partition(':')[2].strip().lower() for it in self.fields if it.lower().startswith('connection:')]
        ends_itself = method == 'HEAD' or self.frame != 'close'
        return self.version == 'HTTP/1.1' and 'close' not in options and ends_itself

    def octets(self, method):
        """The bytes of the reply as it is now. One to HEAD has no body."""
        whole = self.whole()
        if method != 'HEAD':
            return whole
        body = self.in_chunks() if self.frame == 'chunks' else self.content if self.frame != 'none' else b''
        return whole[:len(whole) - len(body)]

    def message(self, method, closes=False, bodies=None):
        """A good reply to a request."""
        self.begin(bodies)
        wanted = self.wanted()
        if method == 'HEAD':
            wanted = wanted._replace(body=b'')
        return Message(self.octets(method), wanted, self.persists(method) and not closes)

    def damaged_message(self, method):
        """A reply with one or two parts that are other than they should be, or one or two changes of bytes, or one of both."""
        self.begin(made_replies.SHORT)
        changes, edits = self.choice([(1, 0), (1, 0), (2, 0), (0, 1), (0, 2), (1, 1)])
        for change in self.choices(made_replies.CHANGES, k=changes):
            change(self)
        octets = self.octets(method)
        for _ in range(edits):
            octets = self.edited(octets)
        return Message(octets, None, False)


class Connection:
    """A connection as its server plays it: the pieces that were read and that are left, the requests on it, and the replies that were
    written for them."""

    def __init__(self, messages=(), pieces=()):
        self.left, self.messages = collections.deque(pieces), list(messages)
        self.read, self.requests, self.is_closed, self.is_silent = [], [], False, True

    def give(self, most):
        """The next piece, which is empty at the end."""
        if not self.left:
            return b''
        piece = self.left.popleft()
        if len(piece) > most:
            self.left.appendleft(piece[most:])
        self.read.append(piece[:most])
        return piece[:most]


class Network:
    """Servers that write each reply once they have the request. The first connection has a stream that was made before, if one is given."""

    def __init__(self, rng, first=None):
        self.rng, self.first, self.connections = rng, first, {}

    def open(self, _place):
        number = len(self.connections) + 1
        self.connections[number] = self.first if self.first and number == 1 else Connection()
        return number

    def write(self, number, octets):
        it = self.connections[number]
        assert not it.is_closed, 'it was closed'
        method, closes = octets.partition(b' ')[0].decode(), bool(re.search(rb'(?i)\r\nconnection: close\r\n', octets))
        it.requests.append((method, closes))
        if it is not self.first:
            self.reply(it, method, closes)
        return len(octets)

    def reply(self, it, method, closes):
        """Writes a reply, at times with bytes behind it that nobody asked for: in the piece that has the end of the reply, or in later
        ones, which wait before the next request."""
        message = self.rng.message(method, closes)
        pieces, ends_itself = self.rng.pieces(message.octets), method == 'HEAD' or self.rng.frame != 'close'
        if ends_itself and self.rng.may(.06):
            more = self.rng.message('GET').octets
            pieces[-1] += more[:self.rng.choice([1, 2, len(more), len(more)])]
            message = message._replace(keeps=False)
        elif ends_itself and self.rng.may(.06 if message.keeps else .5):
            pieces += self.rng.pieces(self.rng.message('GET').octets)
            it.is_silent = False
        it.messages.append(message)
        it.left.extend(pieces)

    def read(self, number, most):
        it = self.connections[number]
        assert not it.is_closed, 'it was closed'
        return it.give(most)

    def is_silent(self, number):
        return self.connections[number].is_silent

    def close(self, number):
        self.connections[number].is_closed = True


class Runs:
    """What a client is asked for, the same for the same seed, and the same lane of so many."""

    def __init__(self, seed, lane=0, lanes=1):
        self.rng, self.lane, self.lanes = Replies('%d %d of %d' % (seed, lane, lanes)), lane, lanes

    def request(self, method=None, places=PLACES[:1]):
        method = method or self.rng.choice(METHODS)
        fields = [('connection', b'close')] if self.rng.may(.03) else []
        body = b'a=b' if method in ('POST', 'PUT') and self.rng.may(.7) else b''
        return Request(method, self.rng.choice(places), '/%d' % self.rng.number, fields, body)

    def good(self):
        """Requests to one place or to several, whose replies are good."""
        rng = self.rng
        places, most_idle = (PLACES[:1], 1) if rng.may(.7) else (PLACES[:rng.choice([2, 3, 4])], rng.choice([0, 1, 1, 2, 3]))
        return Run(most_idle, [self.request(None, places) for _ in range(rng.choice([3, 5, 8]))], Network(rng))

    def stream(self, messages, methods, is_whole=False):
        """Requests on a stream of these replies, each of which begins a piece, mostly, and on other connections once that is dropped."""
        rng, requests = self.rng, [self.request(it)._replace(fields=[]) for it in [*methods, 'GET']]
        pieces = [piece for it in messages for piece in rng.pieces(it.octets)]
        if not is_whole and rng.may(.12):
            pieces = rng.pieces(b''.join(it.octets for it in messages))
        return Run(1, requests, Network(rng, Connection(messages, pieces)))

    def kept(self, method):
        """A good reply after which the connection is kept."""
        while True:
            message = self.rng.message(method, bodies=made_replies.SHORT)
            if message.keeps:
                return message

    def damaged(self):
        """A stream of replies, one of them damaged."""
        methods = [self.rng.choice(METHODS) for _ in range(self.rng.choice([2, 3, 4]))]
        messages, at = [self.kept(it) for it in methods], self.rng.randrange(len(methods))
        messages[at] = self.rng.damaged_message(methods[at])
        return self.stream(messages, methods)

    def at_each_place(self):
        """Streams of two replies, cut behind every byte; and such in which a byte is changed, put in or taken out, at every place."""
        for number in range(self.lane, STREAMS, self.lanes):
            methods = ['GET', self.rng.choice(METHODS)] if number else ['GET', 'HEAD']
            messages = [self.kept(it) for it in methods]
            for at in range(sum(len(it.octets) for it in messages) + 1):
                for edit in (self.cut, self.rng.choice([self.changed, self.put_in, self.taken_out])):
                    yield self.stream(edit(messages, at), methods)

    def edited(self, messages, at, new, drops):
        """The replies with new bytes at a place of their stream, in place of so many; which is at the end of a reply, before the next."""
        found = []
        for it in messages:
            if 0 <= at < len(it.octets) or found == list(messages[:-1]) and at == len(it.octets):
                it, at = Message(it.octets[:at] + new + it.octets[at + drops:], None, False), -1
            elif at >= 0:
                at -= len(it.octets)
            found.append(it)
        return found

    def byte(self):
        return bytes([self.rng.choice(made_replies.BYTES) if self.rng.may(.8) else self.rng.randrange(256)])

    def changed(self, messages, at):
        return self.edited(messages, at, self.byte(), 1)

    def put_in(self, messages, at):
        return self.edited(messages, at, self.byte(), 0)

    def taken_out(self, messages, at):
        return self.edited(messages, at, b'', 1)

    def cut(self, messages, at):
        found = []
        for it in messages:
            if at < len(it.octets):
                return [*found, Message(it.octets[:at], None, False)]
            found.append(it)
            at -= len(it.octets)
        return found

    def all(self):
        """All of them, and then random ones without an end."""
        yield from self.at_each_place()
        while True:
            yield self.good() if self.rng.may(.3) else self.damaged()
