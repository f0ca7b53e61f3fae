"""A token for the client itself."""
from oauthlib.oauth2 import BackendApplicationClient
from requests_oauthlib import OAuth2Session


def run(server):
    client = OAuth2Session(client=BackendApplicationClient('aaa', scope='read'))
    return client.fetch_token(server + '/token', client_secret='bbb')['access_token']
