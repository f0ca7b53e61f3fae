"""A request by a token of a user, which is renewed if its time is over, and saved."""
from requests.auth import HTTPBasicAuth
from requests_oauthlib import OAuth2Session


def run(server, stored, save):
    token = {**stored, 'token_type': 'bearer', 'expires_at': 1}
    session = OAuth2Session('aaa', token=token, auto_refresh_url=server + '/token', token_updater=save,
                            auto_refresh_kwargs={'auth': HTTPBasicAuth('aaa', 'bbb')})
    return session.get(server + '/api').text
