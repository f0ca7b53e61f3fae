"""A token as kubectl takes it from a program (client.authentication.k8s.io)."""
from __future__ import annotations

import json
import os
from typing import Optional

from .endings import BAD_SETTING, Stop
from .moments import moment

GROUP = 'client.authentication.k8s.io/'
VERSIONS = (GROUP + 'v1', GROUP + 'v1beta1')  # of the same form
ASKED = 'KUBERNETES_EXEC_INFO'  # where kubectl says which version it wants


def version() -> str:
    """The version that kubectl asks for, or the newest."""
    text = os.environ.get(ASKED)
    if not text:
        return VERSIONS[0]
    try:
        found = json.loads(text)['apiVersion']
    except (ValueError, KeyError, TypeError, RecursionError):
        raise Stop('%s has no apiVersion' % ASKED, BAD_SETTING)
    if found not in VERSIONS:
        raise Stop('%s asks for another apiVersion than %s' % (ASKED, ' or '.join(VERSIONS)), BAD_SETTING)
    return str(found)


def text_of(token: str, ends: Optional[int]) -> str:
    """An ExecCredential with a token that ends then; a moment that is not known is left out."""
    status = {'token': token}
    if ends is not None:
        status['expirationTimestamp'] = moment(ends)
    found = {'apiVersion': version(), 'kind': 'ExecCredential', 'status': status}
    return json.dumps(found, separators=(',', ':'))
