"""The client that uses connections again, by the lines `client` and `call` of the program oauth2_http1_tests, and what it asks of a
network; for tools/compare-connections."""
import collections
import subprocess

import program
from http_replies import Read, Refused

NAME = program.HTTP1

# A request; the fields are pairs. And what a call of it came to: a Read or a Refused, whether it was told as one that was not answered on
# a used connection (None where not; else whether the program says that it may be sent again), the number of the connection that it was
# written to, whether that was opened for it, the reads in it, the connections that were closed in it, and those that it looked at, each
# with whether it was silent.
Request = collections.namedtuple('Request', 'method place target fields body', defaults=((), b''))
Call = collections.namedtuple('Call', 'request result again connection opened reads closed looks')


def word(octets):
    return octets.hex() or '-'


def octets(text):
    return b'' if text == '-' else bytes.fromhex(text)


class Client:
    """The program, as a context. A network opens its connections, and gives and takes their bytes: open(place), write(number, bytes),
    read(number, most), is_silent(number) and close(number). None for a number or for bytes says that it failed."""

    def __init__(self, path):
        self.run = subprocess.Popen([path], stdin=subprocess.PIPE, stdout=subprocess.PIPE, env={})
        self.network = None

    def __enter__(self):
        return self

    def __exit__(self, *_):
        self.run.kill()
        self.run.communicate()

    def say(self, line):
        self.run.stdin.write(line.encode() + b'\n')
        self.run.stdin.flush()

    def words(self):
        """The next line that the program prints."""
        line = self.run.stdout.readline()
        if not line:
            raise OSError('the program has ended')
        return line.decode().rstrip('\n').split(' ')

    def begin(self, network, most_idle=1, max_body=1 << 20, agent=None):
        """A new client over a network. That of the old one is told which connections are closed."""
        self.say('client %d %d%s' % (most_idle, max_body, '' if agent is None else ' ' + word(agent)))
        while (words := self.words())[0] != '=':
            self.network.close(int(words[1]))
        assert words == ['=', 'client'], words
        self.network = network

    def call(self, request):
        """What a request comes to."""
        fields = ''.join(' %s %s' % (name, word(value)) for name, value in request.fields)
        self.say('call %s %s%s %s%s' % (request.method, request.place, request.target, word(request.body), fields))
        opened, used, reads, closed, looks = False, None, [], [], []
        while (words := self.words())[0] != '=':
            if words[0] == 'open':
                opened, number = True, self.network.open(tuple(words[1:]))
                self.say('none' if number is None else str(number))
            elif words[0] == 'write':
                used = int(words[1])
                written = self.network.write(used, octets(words[2]))
                self.say('failed' if written is None else str(written))
            elif words[0] == 'look':
                looks.append((int(words[1]), self.network.is_silent(int(words[1]))))
                self.say('silent' if looks[-1][1] else 'waits')
            elif words[0] == 'read':
                piece = self.network.read(int(words[1]), int(words[2]))
                reads.append(piece or b'')
                self.say('failed' if piece is None else word(piece))
            else:
                closed.append(int(words[1]))
                self.network.close(closed[-1])
        result, again = result_of(words[1:])
        return Call(request, result, again, used, opened, reads, closed, looks)


def result_of(words):
    """What a call returned, and whether it may be sent again where it was not answered."""
    if words[0] == 'reply':
        kind = octets(words[3]).decode('latin-1') if len(words) > 3 else None
        return Read(int(words[1]), kind, octets(words[2])), None
    if words[0] == 'unanswered':
        return Refused(' '.join(words[2:])), words[1] == 'true'
    assert words[0] == 'failed', words
    return Refused(' '.join(words[1:])), None
