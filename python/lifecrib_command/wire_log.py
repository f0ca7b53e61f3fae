"""What --verbose shows of each request and reply: all but the secrets.

A secret is masked wherever it is, since the tool knows it: it has sent it or has got it.
"""
from __future__ import annotations

import json
import re

from .endings import say
from .secret_texts import MASK, Secrets

TYPE_CHECKING = False
if TYPE_CHECKING:  # typing takes a while to load
    from typing import Any, Iterable, Mapping, Optional

MOST = 20000  # letters of a body
# Parameters and members that have secrets.
TOKENS = ('access_token', 'refresh_token', 'id_token', 'device_code', 'token', 'client_secret',
          'registration_access_token', 'subject_token', 'actor_token')
SENT = {*TOKENS, 'code', 'code_verifier', 'password', 'assertion', 'client_assertion',
        'id_token_hint', 'request', 'SAMLResponse'}
# Values of --extra that are no secrets.
HARMLESS = {'access_type', 'acr_values', 'audience', 'client_assertion_type', 'display', 'prompt',
            'requested_token_type', 'resource', 'response_mode', 'scope', 'subject_token_type',
            'actor_token_type', 'ui_locales'}
TOLD = ('iss', 'error', 'error_description', 'error_uri')  # by a redirect
MEMBER = re.compile(r'"(?:%s)"\s*:\s*"((?:[^"\\]|\\.)*)' % '|'.join(TOKENS))

is_on = False
secrets = Secrets()


def begin(extra: Optional[Iterable[tuple[str, str]]]) -> None:
    """Shows all requests from now on. extra has the parameters of the user."""
    global is_on
    is_on = True
    secrets.add(*(value for name, value in extra or () if name not in HARMLESS))


def connected(where: str, how: Optional[str]) -> None:
    if is_on:
        say('* %s, %s' % (where, how or 'not encrypted'))


def sending(method: str, url: str, headers: Mapping[str, str], body: Optional[bytes]) -> None:
    """Shows a request, and knows its secrets from then on."""
    if not is_on:
        return
    text = (body or b'').decode('utf-8', 'replace')
    learn_form(text, SENT)
    secrets.add(headers.get('Authorization', '').partition(' ')[2])
    show('>', ['%s %s' % (method, url), *('%s: %s' % it for it in headers.items())], text)


def received(status: int, reason: str, headers: Iterable[tuple[str, str]], body: bytes) -> None:
    """Shows a reply, and knows its secrets from then on."""
    if not is_on:
        return
    text = body.decode('utf-8', 'replace')
    learn_reply(text)
    lines = ['%s: %s' % (name, of_header(name.lower(), value)) for name, value in headers]
    show('<', ['%d %s' % (status, reason), *lines], text)


def redirect(url: str) -> None:
    """Shows the redirect that has come back: of its parameters only those that say who has answered, and which
    error."""
    if is_on:
        place, mark, query = url.partition('?')
        pairs = [it.partition('=')[::2] for it in query.partition('#')[0].split('&')]
        shown = ['%s=%s' % (name, value if name in TOLD else MASK) for name, value in pairs if name]
        say('< %s' % secrets.masked(place + mark + '&'.join(shown)))


def of_header(name: str, value: str) -> str:
    """The value of a header of a reply. Of a redirect only the place is shown, since its query may have a code."""
    if name == 'set-cookie':
        return MASK
    if name == 'location':
        place = re.split('[?#]', value, maxsplit=1)[0]
        return place + ('?' + MASK if place != value else '')
    return value


def show(mark: str, head: list[str], body: str) -> None:
    lines = [secrets.masked(it) for it in head]
    if body:
        lines += ['', *secrets.masked(body, MOST).splitlines()]
    if len(body) > MOST:
        lines.append('.. and %d letters more' % (len(body) - MOST))
    for line in lines:
        say(('%s %s' % (mark, line)).rstrip())


def learn_form(text: str, names: Iterable[str]) -> None:
    """Knows the secrets of a form, by the names of its parameters."""
    import urllib.parse
    pairs = [it.partition('=')[::2] for it in text.split('&')]
    secrets.add(*(urllib.parse.unquote_plus(value) for name, value in pairs if name in names))


def learn_reply(text: str) -> None:
    """Knows the secrets of a reply: of JSON, of a form, or of what was to be JSON."""
    try:
        learn_json(json.loads(text))
        return
    except (ValueError, RecursionError):
        pass
    learn_form(text, TOKENS)
    for found in MEMBER.finditer(text):
        secrets.add(found.group(1))
        try:
            secrets.add(json.loads('"%s"' % found.group(1)))
        except ValueError:
            pass


def learn_json(value: Any) -> None:
    """Knows the secrets of a JSON value, at any depth."""
    if isinstance(value, list):
        for it in value:
            learn_json(it)
    if isinstance(value, dict):
        for name, it in value.items():
            if name in TOKENS and isinstance(it, str):
                secrets.add(it)
            learn_json(it)
