"""A request by a token of a user, which is renewed if its time is over, and saved."""
import requests
from lifecrib import Client, Keeper, Token


def run(server, stored, save):
    token = Token(stored['access_token'], 'bearer', refresh_token=stored['refresh_token'], expires_in=0)
    keeper = Keeper(Client('aaa', 'bbb', token_url=server + '/token'), token, on_token=save)
    return requests.get(server + '/api', headers=keeper.token().headers).text
