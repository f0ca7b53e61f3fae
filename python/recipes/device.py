"""A device without a browser: its user signs in elsewhere, and it sends each line of standard input to an API.

    measure | ISSUER=https://as.example CLIENT_ID=aaa API=https://api.example/readings python3 device.py
"""
import os
import sys
import urllib.request

from lifecrib import Client, ErrorResponse, Keeper

SCOPES = os.environ.get('SCOPES', '')


def sign_in(client):
    """A token of the user, who enters a code elsewhere (RFC 8628). A code that has ended is replaced."""
    while True:
        device = client.device(scopes=SCOPES)
        print('Open', device.verification_uri, 'and enter', device.user_code, flush=True)
        try:
            return device.token()
        except ErrorResponse as error:
            if error.error != 'expired_token':
                raise


def main():
    client = Client.discover(os.environ['ISSUER'], os.environ['CLIENT_ID'], os.environ.get('CLIENT_SECRET'))
    keeper = Keeper(client, sign_in(client))
    print('Signed in.', flush=True)
    for line in sys.stdin:
        request = urllib.request.Request(os.environ['API'], line.encode(), method='POST')
        request.add_unredirected_header('Authorization', keeper.token().headers['Authorization'])
        with urllib.request.urlopen(request, timeout=30) as reply:
            print(reply.read().decode(), flush=True)


if __name__ == '__main__':
    main()
