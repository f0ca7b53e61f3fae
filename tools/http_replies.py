"""Replies of HTTP/1.1 and what oauth2_examples reads of them; for tools/compare-replies and tools/compare-http1."""
import base64
import collections
import contextlib
import json
import os
import socket
import subprocess

NAME = 'oauth2_examples'
MOST_FIELDS = 100
MOST_BYTES = 16384  # of a head, of the extensions of all chunks, and of the trailers
MOST_OF_A_READ = 4096
LONGEST = 60  # seconds that a run may take

# A reply that was read, with None for a Content-Type that is absent, and why none was.
Read = collections.namedtuple('Read', 'status content_type body')
Refused = collections.namedtuple('Refused', 'why')

NO_PARSE, LINE_FEED, TOO_LARGE, FRAMING, CHUNK, CUT_OFF, NOT_ASKED = [
    'reply cannot be read: ' + it for it in (
        'its head or its trailers do not parse', 'a line ends in a line feed alone', 'its head or its trailers are longer than the limit',
        'its fields give its body no one end', 'a chunk of its body does not parse', 'the connection closed before its end',
        'it was not asked for')]
CODING = 'reply has a transfer coding that is not undone'


def alike(ours, theirs):
    """Whether two readers read the same, or both read nothing."""
    return ours == theirs or isinstance(ours, Refused) and isinstance(theirs, Refused)


def field(rng, name, value):
    """A line of a head, in any case and with any blanks around the value that RFC 9112, 5.1 allows."""
    name = rng.choice([name, name.lower(), name.upper()])
    return '%s:%s%s%s' % (name, rng.choice([' ', ' ', ' ', '', '  ', '\t']), value, rng.choice([''] * 12 + [' ', '\t']))


def joined(lines, body=b''):
    """A head of these lines, and a body."""
    return '\r\n'.join([*lines, '', '']).encode('latin-1') + body


def size(rng, length):
    """A chunk's size as hexadecimal digits may write it."""
    digits = rng.choice(['%x', '%X'])
    return '0' * rng.choice([0, 0, 0, 1, 5]) + digits % length


def write_settings(folder):
    """The path of a file of settings, made in a folder, of a run that gets a page."""
    path = os.path.join(folder, 'settings.json')
    with open(path, 'w') as f:
        json.dump({'command': 'get', 'url': 'http://localhost/'}, f)
    return path


def in_reads(pieces):
    """The same pieces, but that each is read at once."""
    return [it[at:at + MOST_OF_A_READ] for it in pieces for at in range(0, len(it), MOST_OF_A_READ)]


def read_by_program(path, settings, *pieces):
    """What the program reads of a connection that gives these pieces, each in a read of its own, and then closes."""
    here, there = socket.socketpair(socket.AF_UNIX, socket.SOCK_SEQPACKET)
    command, streams = [path, 'over_connection', settings], dict(stdin=there, stdout=subprocess.DEVNULL, stderr=subprocess.PIPE)
    with here, there, subprocess.Popen(command, **streams, close_fds=False) as run:
        try:
            there.close()
            here.settimeout(LONGEST)
            with contextlib.suppress(ConnectionError):  # it reads no further than it has to
                for it in in_reads(pieces):
                    here.send(it)
            here.close()
            told = json.loads(run.communicate(timeout=LONGEST)[1])
        finally:
            run.kill()
    if run.returncode:
        return Refused(told['error'])
    body = base64.b64decode(told['body_base64']) if 'body_base64' in told else told['body'].encode()
    return Read(told['status'], told['content_type'], body)
