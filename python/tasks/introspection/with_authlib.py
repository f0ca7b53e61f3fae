"""Asks whether a token is good, and revokes it."""
from authlib.integrations.requests_client import OAuth2Session


def run(server, token):
    client = OAuth2Session('aaa', 'bbb')
    is_active = client.introspect_token(server + '/introspect', token=token).json()['active']
    client.revoke_token(server + '/revoke', token=token).raise_for_status()
    return is_active
