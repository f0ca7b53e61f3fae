"""Who logs in, by OpenID Connect: the endpoints and the keys are those that the issuer names. PyJWT checks it."""
import secrets

import jwt
import requests
from oauthlib.oauth2 import WebApplicationClient
from requests_oauthlib import OAuth2Session


def metadata(issuer):
    return requests.get(issuer + '/.well-known/openid-configuration').json()


def client(state=None):
    return OAuth2Session('aaa', scope='openid', redirect_uri='https://app.example/back', state=state)


def begin(issuer, session):
    pkce = WebApplicationClient('aaa')
    session['verifier'], session['nonce'] = pkce.create_code_verifier(43), secrets.token_urlsafe(16)
    url, session['state'] = client().authorization_url(
        metadata(issuer)['authorization_endpoint'], nonce=session['nonce'], code_challenge_method='S256',
        code_challenge=pkce.create_code_challenge(session['verifier'], 'S256'))
    return url


def end(issuer, session, url):
    found = metadata(issuer)
    token = client(session.pop('state')).fetch_token(
        found['token_endpoint'], authorization_response=url, client_secret='bbb', code_verifier=session.pop('verifier'))
    key = jwt.PyJWKClient(found['jwks_uri']).get_signing_key_from_jwt(token['id_token']).key
    claims = jwt.decode(token['id_token'], key, ['RS256'], audience='aaa', issuer=issuer, leeway=60)
    if claims['nonce'] != session.pop('nonce'):
        raise ValueError('the nonce is another one')
    return claims['sub']
