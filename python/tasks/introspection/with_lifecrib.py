"""Asks whether a token is good, and revokes it."""
from lifecrib import Client


def run(server, token):
    client = Client('aaa', 'bbb', introspection_url=server + '/introspect', revocation_url=server + '/revoke')
    is_active = client.introspect(token).active
    client.revoke(token)
    return is_active
