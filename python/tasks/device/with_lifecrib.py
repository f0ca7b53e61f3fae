"""A token for a device, whose user enters a code elsewhere."""
from lifecrib import Client


def run(server, show):
    client = Client('aaa', 'bbb', device_url=server + '/device', token_url=server + '/token')
    device = client.device(scopes='read')
    show(device.verification_uri, device.user_code)
    return device.token().access_token
