"""A login with PKCE, which a web handler begins and another one ends."""
from authlib.common.security import generate_token
from authlib.integrations.requests_client import OAuth2Session


def client(state=None):
    return OAuth2Session('aaa', 'bbb', scope='read', redirect_uri='https://app.example/back', state=state,
                         code_challenge_method='S256')


def begin(server, session):
    session['verifier'] = generate_token(48)
    url, session['state'] = client().create_authorization_url(server + '/auth', code_verifier=session['verifier'])
    return url


def end(server, session, url):
    return client(session.pop('state')).fetch_token(
        server + '/token', authorization_response=url, code_verifier=session.pop('verifier'))['access_token']
