"""A token for a device, whose user enters a code elsewhere. The library has no call for it, so requests does it."""
import time

import requests


def run(server, show):
    device = requests.post(server + '/device', auth=('aaa', 'bbb'), data={'scope': 'read'}).json()
    show(device['verification_uri'], device['user_code'])
    interval, end = device.get('interval', 5), time.time() + device['expires_in']
    while time.time() < end:
        reply = requests.post(server + '/token', auth=('aaa', 'bbb'), data={
            'grant_type': 'urn:ietf:params:oauth:grant-type:device_code', 'device_code': device['device_code']}).json()
        if 'access_token' in reply:
            return reply['access_token']
        if reply['error'] not in ('authorization_pending', 'slow_down'):
            raise RuntimeError(reply['error'])
        interval += 5 * (reply['error'] == 'slow_down')
        time.sleep(interval)
    raise TimeoutError
