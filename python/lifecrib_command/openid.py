"""How `login --openid` asks for an ID token, and checks the one that comes (OpenID Connect Core 1.0)."""
from __future__ import annotations

import json
import time
from typing import TYPE_CHECKING, Any, Mapping, Optional

from . import answers, claims, faults
from .conversation import Fault, Outcome, fault_in
from .endings import NO_ID_TOKEN, NOT_DISCOVERED, REFUSED_TOKEN, TRY_AGAIN, Stop, note
from .http_requests import get, reply_to
from .settings import LEEWAY, check_url, flag_of, issuer_of

if TYPE_CHECKING:
    import argparse

    from .session import Session

CLOCK = 'is the clock of this machine right? --leeway allows for a difference'
OTHER_LOGIN = 'it does not belong to this login: do not use it, and begin anew'
ALGORITHM = '--algorithm says which one the client is registered with'
OTHER_CLIENT = 'it is not for this client alone'
OTHER_KEYS = 'are the keys those of this issuer? ' + ALGORITHM
LEFT_OUT = 'nothing of the reply is shown or kept'


def request(given: argparse.Namespace, params: Mapping[str, Any], nonce: str) -> dict[str, Any]:
    """What `authorize` gets beside other params: the nonce, and how old a login may be (3.1.2.1)."""
    extra = list(params.get('extra', []))
    if given.max_age is not None:
        extra.append(['max_age', str(given.max_age)])
    return {'nonce': nonce, 'extra': extra} if extra else {'nonce': nonce}


def text_in(outcome: Outcome) -> str:
    """The ID token of a token response. Stops where there is none."""
    value = dict(answers.others((outcome.reply or {})['body'], ())).get('id_token', 'null')
    if value == 'null':
        raise Stop('the server sent no ID token: is it one of OpenID Connect, and may this client have the scope '
                   'openid? '
                   + LEFT_OUT, NO_ID_TOKEN)
    if not value.startswith('"'):
        raise Stop('the ID token is refused: it is no text; ' + LEFT_OUT, REFUSED_TOKEN)
    return str(json.loads(value))


def keys_of(session: Session) -> Any:
    """The issuer's keys, as JSON, by which the signature is checked; None where nothing says where they are, or for a
    client with a secret key of its own (10.1)."""
    settings, issuer = session.settings, issuer_of(session.settings)[0]
    url, label = settings['jwks_url'], flag_of('jwks_url')
    if not url and session.metadata and session.metadata['issuer'] == issuer:
        url, label = session.metadata.get('jwks_uri'), '"jwks_uri" in the metadata of the issuer'
    if not url or (session.given.algorithm or '').startswith('HS'):
        note('the signature of the ID token is not checked: %s'
             % ('give --jwks-url' if not url else 'the algorithm has no public keys'))
        return None
    return keys_at(url, label, session.given.timeout, LEFT_OUT)


def keys_at(url: str, label: str, timeout: float, then: str) -> Any:
    """The keys at a URL, as JSON. Stops where there are none: the label says which URL it is, and then what comes of
    it."""
    check_url('jwks_url', url, label, NOT_DISCOVERED)
    got = reply_to(get(url), timeout)
    reply = got.reply or {}
    if got.note or reply['status'] != 200:
        raise Stop("the issuer's keys can not be had: %s; %s"
                   % (got.note or '%s: HTTP status %d' % (url, reply['status']), then),
                   TRY_AGAIN if got.may_retry else NOT_DISCOVERED)
    try:
        return json.loads(reply['body'])
    except (ValueError, RecursionError):
        raise Stop('%s: %s; %s' % (url, faults.no_object(reply), then), NOT_DISCOVERED)


def user_of(session: Session, outcome: Outcome, nonce: str) -> dict[str, str]:
    """Who has signed in, by the ID token of a token response: its issuer and subject. Stops where the library refuses
    it."""
    given, (issuer, name) = session.given, issuer_of(session.settings)
    params = {'id_token': text_in(outcome), 'access_token': outcome.answer['access_token'], 'issuer': issuer,
              'nonce': nonce,
              'leeway': LEEWAY if given.leeway is None else given.leeway, 'max_age': given.max_age,
              'algorithm': given.algorithm,
              'keys': keys_of(session)}
    now = int(time.time())
    run = session.ran('id_token', {it: value for it, value in params.items() if value is not None}, readings=[now])
    fault = fault_in(run)
    if not fault:
        return {it: run.last['answer']['claims'][it] for it in ('iss', 'sub')}
    advice = advice_of(session, fault, params, now, '%s (%s)' % (issuer, flag_of(name)))
    raise Stop('; '.join(it for it in ('the ID token is refused: ' + fault['text'], advice, LEFT_OUT) if it),
               REFUSED_TOKEN)


def advice_of(session: Session, fault: Fault, params: Mapping[str, Any], now: int, issuer: str) -> Optional[str]:
    """What may be done about an ID token that is refused, by the kind of the fault and what the token says."""
    if fault['kind'] in ('bad_signature', 'unchecked_signature'):
        return OTHER_KEYS
    if fault['kind'] != 'bad_claims':
        return None
    found, header = claims.part_of(params['id_token'], 1), claims.part_of(params['id_token'], 0)
    audience = found.get('aud')
    client = session.settings['client_id']
    if params['algorithm'] not in (None, header.get('alg')) or header.get('alg') == 'none':
        return ALGORITHM
    if found.get('iss') != params['issuer']:
        return 'it has to be ' + issuer
    if audience not in (client, [client]) or found.get('azp', client) != client:
        return OTHER_CLIENT
    if claims.is_ended(found, now, params['leeway']):
        return CLOCK
    return OTHER_LOGIN if found.get('nonce') != params['nonce'] else None

