"""Who logs in, by OpenID Connect: the endpoints and the keys are those that the issuer names."""
import requests
from authlib.common.security import generate_token
from authlib.integrations.requests_client import OAuth2Session
from authlib.jose import jwt
from authlib.oidc.core import CodeIDToken


def metadata(issuer):
    return requests.get(issuer + '/.well-known/openid-configuration').json()


def client(state=None):
    return OAuth2Session('aaa', 'bbb', scope='openid', redirect_uri='https://app.example/back', state=state,
                         code_challenge_method='S256')


def begin(issuer, session):
    session['verifier'], session['nonce'] = generate_token(48), generate_token(20)
    url, session['state'] = client().create_authorization_url(
        metadata(issuer)['authorization_endpoint'], code_verifier=session['verifier'], nonce=session['nonce'])
    return url


def end(issuer, session, url):
    found = metadata(issuer)
    token = client(session.pop('state')).fetch_token(
        found['token_endpoint'], authorization_response=url, code_verifier=session.pop('verifier'))
    claims = jwt.decode(
        token['id_token'], requests.get(found['jwks_uri']).json(), claims_cls=CodeIDToken,
        claims_options={'iss': {'essential': True, 'value': issuer}, 'aud': {'essential': True, 'value': 'aaa'}},
        claims_params={'nonce': session.pop('nonce'), 'client_id': 'aaa', 'access_token': token['access_token']})
    claims.validate(leeway=60)
    return claims['sub']
