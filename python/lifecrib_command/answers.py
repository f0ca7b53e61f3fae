"""How an answer is written: every member of the reply, or the token alone."""
from __future__ import annotations

import json
import os
import re
import sys

from . import endings
from .endings import NO_ANSWER, Stop
from .moments import moment

TYPE_CHECKING = False
if TYPE_CHECKING:  # typing takes a while to load
    from typing import Any, Collection, NoReturn, Optional
    Members = list[tuple[str, str]]

OUTPUTS = {'json': 'the whole reply as one line of JSON', 'token': 'the access token alone',
           'header': 'the header of a request that has the token (RFC 6750, 2.1)',
           'exec-credential': 'the ExecCredential that kubectl takes'}
EXPIRES = 'expires_at'  # the member that --expires adds


def members_in(text: str) -> Members:
    """The members of a JSON object in order, each name with its value as the text writes it. ValueError if it is no
    object."""
    # What a number is worth is not needed.
    decoder = json.JSONDecoder(parse_int=len, parse_float=len, parse_constant=no_number)
    space = re.compile(r'[ \t\r\n]*')
    found: Members = []

    def past(at: int, sign: str = '') -> int:
        at = begin_of(at)
        if not text.startswith(sign, at):
            raise ValueError('"%s" is missing at %d' % (sign, at))
        return begin_of(at + len(sign))

    def begin_of(at: int) -> int:
        spaces = space.match(text, at)
        return spaces.end() if spaces else at
    at = past(0, '{')
    while not text.startswith('}', at):
        name, begin = decoder.raw_decode(text, past(at, ',') if found else at)
        begin = past(begin, ':')
        end = decoder.raw_decode(text, begin)[1]
        if not isinstance(name, str):
            raise ValueError('a name is no text')
        found.append((name, text[begin:end]))
        at = past(end)
    if past(at, '}') != len(text):
        raise ValueError('there is more behind the object')
    return found


def member(text: str, name: str) -> Any:
    """The value of a member of a JSON object; None where there is none."""
    found = dict(members_in(text))
    return json.loads(found[name]) if name in found else None


def access_token_in(text: str) -> str:
    return str(member(text, 'access_token'))


def no_number(name: str) -> NoReturn:
    raise ValueError('%s is no number of JSON' % name)


def on_a_line(value: str) -> str:
    """A JSON value's text without the space between its parts, and with what can't be shown as escapes."""
    text = re.sub(r'("(?:[^"\\]|\\.)*")|[ \t\r\n]+', r'\1', value)
    return ''.join(it if it.isprintable() else json.dumps(it)[1:-1] for it in text)


def text_of(value: Any) -> str:
    """The JSON text of an answer, on one line."""
    try:
        text = json.dumps(value, ensure_ascii=False, separators=(',', ':'))
    except TypeError:  # it has a number that is kept as it was spelled
        from lifecrib import _json
        text = _json.text_of(value)
    return on_a_line(text)


def with_others(answer: Any, body: str) -> str:
    """The text of an answer, and behind it the members of the reply that it does not name, as the server sent them."""
    if not isinstance(answer, dict):
        return text_of(answer)
    return object_of([(name, text_of(value)) for name, value in answer.items()] + others(body, answer.keys()))


def others(body: str, names: Collection[str]) -> Members:
    """The members of a reply without those of these names; none where it is no JSON object."""
    try:
        return [it for it in members_in(body) if it[0] not in names]
    except (ValueError, RecursionError):
        return []


def object_of(members: Members) -> str:
    """The JSON object with these members, on one line."""
    return on_a_line('{%s}' % ','.join('%s:%s' % (json.dumps(name), value) for name, value in members))


def end_in(text: str, asked_at: int) -> Optional[int]:
    """When the token of an answer ends, in seconds since 1970; None where the server doesn't say."""
    seconds = member(text, 'expires_in')
    return asked_at + seconds if isinstance(seconds, int) else None


def with_end(text: str, ends: Optional[int]) -> str:
    """The answer with the moment at which its token ends."""
    found = [it for it in members_in(text) if it[0] != EXPIRES]
    return object_of([*found, (EXPIRES, 'null' if ends is None else json.dumps(moment(ends)))])


def token_in(text: str, types: Collection[str] = ('bearer',)) -> str:
    """The access token of an answer. Stops where it can't be sent, or is of none of these types (RFC 6749, 7.1)."""
    token, kind = access_token_in(text), member(text, 'token_type')
    if not all('!' <= it <= '~' for it in token):
        raise Stop('the access token has a character that no header may have: take it from --output json')
    if str(kind).lower() not in types:
        raise Stop('the token is of the type "%s", and only for "bearer" this tool knows the header: take it from '
                   '--output json' % kind)
    return token


def in_form(text: str, output: str, ends: Optional[int] = None) -> str:
    """The answer in one of the forms of --output, with a token that ends then."""
    if output == 'json':
        return text
    # What is no access token is of the type N_A (RFC 8693, 2.2.1), and goes into no header.
    token = token_in(text, ('bearer', 'n_a') if output == 'token' else ('bearer',))
    if output == 'exec-credential':
        from . import exec_credential
        return exec_credential.text_of(token, ends)
    return token if output == 'token' else 'Authorization: Bearer ' + token


def need_output() -> None:
    """Stops where standard output is closed, so that no token is got that nobody gets to see."""
    if sys.stdout is None:
        raise Stop('standard output is closed, so an answer could not be written: nothing was asked for')


def put(text: str) -> None:
    """Writes a text to standard output."""
    rest = text.encode()
    if endings.columns:
        endings.put('')
    try:
        while rest:
            rest = rest[os.write(1, rest):]
    except OSError as error:
        raise Stop('the answer can not be written to standard output: %s' % error.strerror, NO_ANSWER)


def write(text: str, output: str, is_secret: bool, ends: Optional[int] = None) -> None:
    """Writes an answer to standard output, where a terminal gets a warning before a secret."""
    line = in_form(text, output, ends)
    if is_secret and os.isatty(1):
        endings.tell('what follows is secret: whoever has it can use it; clear the terminal after use (--show writes '
                     'it without this line)')
    put(line + '\n')
