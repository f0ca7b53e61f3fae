"""What the claims of a token say that was refused, so that the error can say what may be done.

Nothing of this decides whether a token is taken: the library has refused it before.
"""
from __future__ import annotations

import base64
import json
from typing import Any, Mapping

Claims = Mapping[str, Any]


def part_of(token: str, number: int) -> Claims:
    """The header (0) or the claims (1) of a token, of which nothing is checked; none where they can't be read."""
    try:
        text = token.split('.')[number]
        found = json.loads(base64.urlsafe_b64decode(text + '=' * (-len(text) % 4)))
    except (ValueError, IndexError, RecursionError):
        return {}
    return found if isinstance(found, dict) else {}


def has(claims: Claims, name: str, value: str) -> bool:
    """Whether a claim is this text, or a list with it."""
    found = claims.get(name)
    return value in found if isinstance(found, list) else found == value


def is_ended(claims: Claims, now: int, leeway: int) -> bool:
    """Whether the times of a token are not those of this moment."""
    times = [claims.get(name) for name in ('exp', 'nbf', 'iat')]
    end, *begins = [it if isinstance(it, (int, float)) else None for it in times]
    return end is not None and now >= end + leeway or any(it is not None and it > now + leeway for it in begins)
