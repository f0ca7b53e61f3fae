"""What Go's net/http reads of replies on one connection; for tools/compare-connections."""
import base64
import json
import subprocess

import other_clients
from http_replies import Read, Refused

KEPT_NOT = None  # it took another connection


class Reader:
    """The program tools/go/replies.go, as long as the reader is open."""

    def __init__(self):
        path, self.version = other_clients.go_program('replies')
        self.run = subprocess.Popen([path], stdin=subprocess.PIPE, stdout=subprocess.PIPE, text=True)

    def read_replies(self, requests, pieces):
        """What net/http reads: for each request, with the pieces that come once it is written, a Read or a Refused, or KEPT_NOT. It ends
        with the first that is no Read."""
        line = {'Requests': requests, 'Pieces': [[base64.b64encode(it).decode() for it in its] for its in pieces]}
        self.run.stdin.write(json.dumps(line) + '\n')
        self.run.stdin.flush()
        return [result_of(it) for it in json.loads(self.run.stdout.readline())]

    def close(self):
        self.run.stdin.close()
        self.run.stdout.close()
        self.run.wait()


def result_of(found):
    if found is None:
        return KEPT_NOT
    if isinstance(found, str):
        return Refused(found)
    kind = found[1] and base64.b64decode(found[1]).decode('latin-1')
    return Read(found[0], kind, base64.b64decode(found[2] or ''))
