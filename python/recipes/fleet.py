"""A machine of a fleet: it sends each line of standard input to an API, by a token that all machines share.

    lifecrib login --cache rediss://cache.example/0 ..       # once, on any machine
    jobs | CACHE=rediss://cache.example/0 API=https://api.example/jobs python3 fleet.py

The command `lifecrib` keeps the token on Redis, and one machine renews it for all. A client that has a secret gives it
in OAUTH2_CLIENT_SECRET. A password of Redis goes into OAUTH2_REDIS_PASSWORD, not into CACHE: that becomes an argument
of the command, which all users of the machine can see. By rediss:// it speaks TLS to Redis.
"""
import os
import subprocess
import sys
import time
import urllib.request

COMMAND = os.environ.get('LIFECRIB', 'lifecrib')
SIGN_IN, TRY_AGAIN = 5, 9  # of its exit statuses
PAUSE = 2  # seconds


def header():
    """The header with a good token: `Authorization: Bearer ..`."""
    words = [COMMAND, 'token', '--cache', os.environ['CACHE'], '--output', 'header', '--quiet']
    while True:
        run = subprocess.run(words, stdout=subprocess.PIPE, text=True)
        if run.returncode == 0:
            return dict([run.stdout.strip().split(': ', 1)])
        if run.returncode == SIGN_IN:
            sys.exit('somebody has to sign in: lifecrib login --cache ..')
        if run.returncode != TRY_AGAIN:  # standard error says why
            sys.exit(run.returncode)
        time.sleep(PAUSE)


def main():
    for line in sys.stdin:
        request = urllib.request.Request(os.environ['API'], line.encode(), method='POST')
        request.add_unredirected_header('Authorization', header()['Authorization'])  # not to where the API sends on
        with urllib.request.urlopen(request, timeout=30) as reply:
            print(reply.read().decode(), flush=True)


if __name__ == '__main__':
    main()
