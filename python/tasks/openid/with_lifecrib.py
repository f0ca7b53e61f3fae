"""Who logs in, by OpenID Connect: the endpoints and the keys are those that the issuer names."""
from lifecrib import Client, Login


def client(issuer):
    return Client.discover(issuer, 'aaa', 'bbb', redirect='https://app.example/back')


def begin(issuer, session):
    login = client(issuer).login(scopes='openid')
    session['login'] = login.to_json()
    return login.url


def end(issuer, session, url):
    return Login.from_json(session.pop('login'), client(issuer)).finish(url).claims.sub
