"""Asks whether a token is good, and revokes it. The library has no call for it, so requests does it."""
import requests


def run(server, token):
    found = requests.post(server + '/introspect', auth=('aaa', 'bbb'), data={'token': token})
    found.raise_for_status()
    is_active = found.json()['active']
    requests.post(server + '/revoke', auth=('aaa', 'bbb'), data={'token': token}).raise_for_status()
    return is_active
