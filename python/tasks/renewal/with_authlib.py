"""A request by a token of a user, which is renewed if its time is over, and saved."""
from authlib.integrations.requests_client import OAuth2Session


def run(server, stored, save):
    def update(token, refresh_token=None, access_token=None):
        save(token)
    token = {**stored, 'token_type': 'bearer', 'expires_at': 1}
    session = OAuth2Session('aaa', 'bbb', token=token, token_endpoint=server + '/token', update_token=update)
    return session.get(server + '/api').text
