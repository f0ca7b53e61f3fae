"""The protocol between git and a program that has its passwords (gitcredentials(7))."""
from __future__ import annotations

from typing import BinaryIO, Optional, Sequence

Request = dict[str, str]


def read(stream: BinaryIO) -> Request:
    """What git says: a line for each attribute, up to an empty line or the end."""
    found: Request = {}
    for line in stream:
        text = line.decode('utf-8', 'surrogateescape').rstrip('\n')
        if not text:
            break
        name, _, value = text.partition('=')
        found[name] = value
    return found


def is_for(request: Request, hosts: Sequence[str]) -> bool:
    """Whether git asks for one of these hosts, over an encrypted connection."""
    names = [it.lower() for it in hosts]
    return request.get('protocol') == 'https' and request.get('host', '').lower() in names


def answer(request: Request, user: str, token: str, ends: Optional[int]) -> str:
    """The lines that give git a token as the password of a user: the one that git names, if any."""
    lines = ['username=' + (request.get('username') or user), 'password=' + token]
    if ends is not None:
        lines.append('password_expiry_utc=%d' % ends)
    return ''.join(it + '\n' for it in lines)
