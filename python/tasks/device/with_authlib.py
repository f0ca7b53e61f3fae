"""A token for a device, whose user enters a code elsewhere."""
import time

import requests
from authlib.integrations.base_client import OAuthError
from authlib.integrations.requests_client import OAuth2Session


def run(server, show):
    device = requests.post(server + '/device', auth=('aaa', 'bbb'), data={'scope': 'read'}).json()
    show(device['verification_uri'], device['user_code'])
    client, interval, end = OAuth2Session('aaa', 'bbb'), device.get('interval', 5), time.time() + device['expires_in']
    while time.time() < end:
        try:
            return client.fetch_token(server + '/token', grant_type='urn:ietf:params:oauth:grant-type:device_code',
                                      device_code=device['device_code'])['access_token']
        except OAuthError as error:
            if error.error not in ('authorization_pending', 'slow_down'):
                raise
            interval += 5 * (error.error == 'slow_down')
        time.sleep(interval)
    raise TimeoutError
