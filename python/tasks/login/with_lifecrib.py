"""A login with PKCE, which a web handler begins and another one ends."""
from lifecrib import Client, Login


def client(server):
    return Client('aaa', 'bbb', auth_url=server + '/auth', token_url=server + '/token',
                  redirect='https://app.example/back')


def begin(server, session):
    login = client(server).login(scopes='read')
    session['login'] = login.to_json()
    return login.url


def end(server, session, url):
    return Login.from_json(session.pop('login'), client(server)).finish(url).access_token
