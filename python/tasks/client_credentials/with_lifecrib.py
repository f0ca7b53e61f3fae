"""A token for the client itself."""
from lifecrib import Client


def run(server):
    client = Client('aaa', 'bbb', token_url=server + '/token')
    return client.client_credentials(scopes='read').access_token
