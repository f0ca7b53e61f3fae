"""Asks the UserInfo endpoint who has signed in (OpenID Connect Core 1.0, 5.3).

The command makes this request itself; the library has no part in it.
"""
from __future__ import annotations

import json

from . import answers, faults
from .endings import FAULT, REFUSED_TOKEN, SIGN_IN, TRY_AGAIN, Stop
from .http_requests import get, reply_to


def asked(url: str, token: str, limit: float, sub: str) -> str:
    """What the endpoint says of the user whose ID token has this sub, as a line of JSON.

    Stops where it says nothing, or something of another user (5.3.2).
    """
    got = reply_to(get(url, 'Bearer ' + token), limit)
    status_of_trouble = TRY_AGAIN if got.may_retry else FAULT
    if got.note or not got.reply:
        raise Stop(got.note or 'no reply', status_of_trouble)
    status, body = got.reply['status'], got.reply['body']
    if status == 401:
        raise Stop('%s does not take the token (HTTP status 401): sign in anew' % url, SIGN_IN)
    if status != 200:
        raise Stop('%s answers with HTTP status %d' % (url, status), status_of_trouble)
    try:
        found = answers.members_in(body)
        named = json.loads(dict(found).get('sub', 'null'))
    except (ValueError, RecursionError):
        raise Stop('%s: %s' % (url, faults.no_object(got.reply)), FAULT)
    if named != sub:
        raise Stop('the answer of %s is refused: it is not about the user of the ID token; nothing '
                   'of it is shown' % url, REFUSED_TOKEN)
    return answers.object_of(found)
