"""What Python's h11 reads of replies; for tools/compare-http1 and tools/compare-connections.

As a program it writes the version of h11, and then for each line of standard input, a list of the pieces of a reply as JSON, a line: the
status, the Content-Type (null where there is none) and the body, or the text of the error. A byte is a character of the same number. So
it can run in another Python than the tool's, which may be the one that has h11. A line may also be a list of requests, each its method and
whether it says `close`, and a list of pieces: then it writes what `replies` returns.
"""
import collections
import json
import subprocess
import sys

sys.dont_write_bytecode = True
import pythons
from http_replies import Read, Refused

# What was read of a reply on a connection: a Read or a Refused, the bytes that it took, how many more were there with them, and whether
# h11 keeps the connection.
Reply = collections.namedtuple('Reply', 'result length beyond keeps')
PYTHONS = pythons.PYTHONS
MISSING = 'no Python here has h11: on Debian, `apt-get update; apt-get install python3-h11` installs it'


class Reader:
    """h11 in a Python that has it, as long as the reader is open."""

    def __init__(self):
        self.run = subprocess.Popen([python(), __file__], stdin=subprocess.PIPE, stdout=subprocess.PIPE, text=True, encoding='utf-8')
        self.version = self.run.stdout.readline().strip()

    def asked(self, line):
        self.run.stdin.write(json.dumps(line) + '\n')
        self.run.stdin.flush()
        return json.loads(self.run.stdout.readline())

    def read(self, *pieces):
        """What h11 reads of these pieces of a reply, as Read or Refused."""
        return result_of(self.asked([it.decode('latin-1') for it in pieces]))

    def read_replies(self, requests, pieces):
        """What h11 reads of the replies on one connection, each as a Reply."""
        found = self.asked([requests, [it.decode('latin-1') for it in pieces]])
        return [Reply(result_of(result), *more) for result, *more in found]

    def close(self):
        self.run.stdin.close()
        self.run.stdout.close()
        self.run.wait()


def result_of(found):
    return Refused(found) if isinstance(found, str) else Read(found[0], found[1], found[2].encode('latin-1'))


def python():
    """The Python that has h11; None where none has it."""
    return pythons.that_has('h11', PYTHONS)


def reading(pieces):
    """The status, the first Content-Type and the body of the reply to a GET, or the text of the error."""
    return replies([['GET', True]], pieces)[0][0]


def replies(requests, pieces):
    """What h11 reads on one connection, for each request until it keeps the connection no longer: the status, the first Content-Type and
    the body, or the text of the error; how many bytes that took, and how many more were there with them; and whether it keeps it."""
    # No bound on a head: h11 looks at it only where a piece ends, so what it refuses would hang on the pieces.
    connection, left, found = h11.Connection(h11.CLIENT, max_incomplete_event_size=1 << 30), iter([*pieces, b'']), []
    came = before = 0
    for method, closes in requests:
        fields = [('Host', 'localhost'), ('Connection', 'close')][:1 + closes]
        connection.send(h11.Request(method=method, target='/', headers=fields))
        connection.send(h11.EndOfMessage())
        result, length = reply_of(connection, left)
        came += length
        beyond = len(connection.trailing_data[0])
        is_done = connection.our_state is h11.DONE and connection.their_state is h11.DONE
        keeps = is_done and not connection.trailing_data[1]
        found.append([result, came - beyond - before, beyond, keeps])
        before = came - beyond
        if not keeps:
            break
        connection.start_next_cycle()
    return found


def reply_of(connection, left):
    """One reply, or the text of the error, and how many bytes of the pieces that are left were taken for it."""
    head, body, came = None, b'', 0
    try:
        while True:
            while (event := connection.next_event()) is not h11.NEED_DATA:
                if isinstance(event, h11.Response):
                    kind = next((value for name, value in event.headers if name == b'content-type'), None)
                    head = [event.status_code, kind if kind is None else kind.decode('latin-1')]
                elif isinstance(event, h11.Data):
                    body += event.data
                elif isinstance(event, h11.EndOfMessage):
                    return [*head, body.decode('latin-1')], came
                elif not isinstance(event, h11.InformationalResponse):
                    return 'it ends without a reply: %r' % event, came
            if connection.trailing_data[1]:
                return 'it ends without a reply', came
            piece = next(left)
            came += len(piece)
            connection.receive_data(piece)
    except h11.RemoteProtocolError as error:
        return str(error), came


def answer_of(line):
    if line and isinstance(line[0], list):
        return replies(line[0], [it.encode('latin-1') for it in line[1]])
    return reading([it.encode('latin-1') for it in line])


if __name__ == '__main__':
    import h11
    print(h11.__version__, flush=True)
    for line in sys.stdin:
        print(json.dumps(answer_of(json.loads(line))), flush=True)
