"""A token for the client itself."""
from authlib.integrations.requests_client import OAuth2Session


def run(server):
    client = OAuth2Session('aaa', 'bbb', scope='read')
    return client.fetch_token(server + '/token', grant_type='client_credentials')['access_token']
