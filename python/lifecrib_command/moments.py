"""Moments as texts (RFC 3339)."""
from __future__ import annotations

import time

LAST = 253402300799  # 9999-12-31T23:59:59Z: a year has four digits


def moment(seconds: int) -> str:
    """So many seconds after 1970 began, in UTC; the last moment of the form where it has none."""
    return time.strftime('%Y-%m-%dT%H:%M:%SZ', time.gmtime(max(0, min(seconds, LAST))))
