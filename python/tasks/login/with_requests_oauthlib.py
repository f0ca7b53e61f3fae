"""A login with PKCE, which a web handler begins and another one ends."""
from oauthlib.oauth2 import WebApplicationClient
from requests_oauthlib import OAuth2Session


def client(state=None):
    return OAuth2Session('aaa', scope='read', redirect_uri='https://app.example/back', state=state)


def begin(server, session):
    pkce = WebApplicationClient('aaa')
    session['verifier'] = pkce.create_code_verifier(43)
    url, session['state'] = client().authorization_url(
        server + '/auth', code_challenge=pkce.create_code_challenge(session['verifier'], 'S256'),
        code_challenge_method='S256')
    return url


def end(server, session, url):
    return client(session.pop('state')).fetch_token(
        server + '/token', authorization_response=url, client_secret='bbb',
        code_verifier=session.pop('verifier'))['access_token']
