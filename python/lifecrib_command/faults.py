"""Why a command has no answer, as one line, and with which status it ends then: by the kind of the fault, and not by
its text."""
from __future__ import annotations

import json
from typing import Any, Mapping, Optional

from . import answers, endings
from .conversation import Fault, Outcome, status_of_fault
from .endings import FAULT, TRY_AGAIN
from .http_requests import status_text

OF_AN_ERROR = ('error', 'error_description', 'error_uri')  # what the text of an error response has
NO_OBJECT = ('NotJson', 'NotObject')  # the causes of a body that has no JSON object
AT_ALL = ('error_response', 'out_of_memory')  # the faults that count also where the server sends elsewhere
NO_SECRET = ('no secret was sent: OAUTH2_CLIENT_SECRET, --client-secret-file or --ask-secret gives one, and '
             '--client-assertion-file an '
             'assertion')
IS_URL = 'is the URL that of the endpoint?'
OTHER = 'Other error: '  # begins the text of each fault that has no kind of its own, and says nothing to a user
NO_CREDENTIALS = (401, 403)
WRONG_CREDENTIALS = "the server does not say why: are the client's name and secret right, and a user's password?"


def error_in(outcome: Outcome) -> Any:
    """The code of the error response that the last reply is; None where it is none."""
    found = dict(answers.others((outcome.reply or {}).get('body', ''), ()))
    return json.loads(found['error']) if 'error' in found else None


def is_refusal(outcome: Outcome) -> bool:
    """Whether the server said no to a request, so that it did nothing (RFC 6749, 5.2; RFC 9110, 15.5)."""
    status = (outcome.reply or {}).get('status', 0)
    is_error = outcome.fault is not None and outcome.fault['kind'] == 'error_response'
    return 400 <= status < 500 or 200 <= status < 300 and is_error


def is_of_type(fault: Fault, reply: Mapping[str, Any]) -> bool:
    """Whether a reply is not read because of its Content-Type: it has one, and a body."""
    return bool(fault['kind'] == 'other_error' and reply['body'] and reply.get('content_type'))


def is_silent_refusal(reply: Mapping[str, Any]) -> bool:
    """Whether a server refuses who asks, and does not say why."""
    return reply['status'] in NO_CREDENTIALS and not reply['body'].strip()


def text_of(fault: Fault) -> str:
    """What the library says of a fault, and of a body that can't be read where and why."""
    unread, text = fault['unread'], str(fault['text'])
    text = text[len(OTHER):] if text.startswith(OTHER) else text
    return '%s %s %s' % (text, json.dumps(unread['member'], ensure_ascii=False), unread['cause']) if unread else text


def of(outcome: Outcome, where: str = '', hint: str = IS_URL, has_secret: bool = True) -> tuple[str, int]:
    """Why a command has no answer, as one line, and its exit status. where says which setting has the URL."""
    fault, reply, at = outcome.fault, outcome.reply or {}, (outcome.url or '') + where
    assert fault
    status = status_of_fault(fault)
    if status == FAULT and outcome.may_retry:
        status = TRY_AGAIN
    if 'status' not in reply:
        said = outcome.note if outcome.note and fault['kind'] == 'request_failed' else text_of(fault)
        return said.replace(outcome.url, at, 1) if outcome.url else said, status
    if outcome.note and fault['kind'] not in AT_ALL:
        return outcome.note + where, status
    if is_of_type(fault, reply) or fault['unread'] and fault['unread']['cause'] in NO_OBJECT:
        said = '%s: %s' % (at, no_object(reply))
        return '%s; %s' % (said, hint) if hint else said, status
    said = '%s: %s (%s)' % (at, text_of(fault), status_text(reply['status'], outcome.later))
    if fault['kind'] != 'error_response':
        return said + ('; ' + WRONG_CREDENTIALS if is_silent_refusal(reply) else ''), status
    more = answers.others(reply['body'], OF_AN_ERROR)
    if more:
        said += '; the reply also has ' + answers.object_of(more)
    if status == endings.OF_CODE['invalid_client'] and not has_secret:
        said += '; ' + NO_SECRET
    return said, status


def no_object(reply: Mapping[str, Any]) -> str:
    """What a reply is that has no JSON object, or not as its type says."""
    kind: Optional[str] = reply.get('content_type')
    said = 'the reply (HTTP status %d) is %s and not a JSON object' % (reply['status'], kind or 'of no named type')
    is_cut = (kind or '').startswith('application/json') and reply['body'].lstrip().startswith('{')
    return said + ', or it is cut off' if is_cut else said
