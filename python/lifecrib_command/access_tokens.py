"""How `verify-token` checks a JWT access token as a resource server does (RFC 9068, 4)."""
from __future__ import annotations

import time
from typing import TYPE_CHECKING, Any, Mapping, Optional

from . import answers, claims, openid
from .conversation import Fault, fault_in, ran
from .endings import REFUSED_TOKEN, Stop
from .settings import LEEWAY, asked, check_complete

if TYPE_CHECKING:
    from .session import Session

TYPES = ('at+jwt', 'application/at+jwt')
NO_TYPE = 'is it a JWT access token? introspect asks the server about any other'
RS256 = 'RS256'  # the algorithm, unless --algorithm says another one


def params_of(session: Session, keys: Any) -> dict[str, Any]:
    """The parameters of the command `access_token`, with the token, which is asked for."""
    given, settings = session.given, session.settings
    found = {'issuer': settings['issuer'], 'audience': given.audience, 'keys': keys, 'algorithm': given.algorithm,
             'leeway': LEEWAY if given.leeway is None else given.leeway,
             'access_token': asked('OAUTH2_TOKEN', 'The token')}
    return {name: value for name, value in found.items() if value is not None}


def verify(session: Session) -> int:
    """Writes what the token says, if every rule holds for it: the exit status. Stops where it is refused."""
    check_complete(session.given, session.settings)
    session.find(('jwks_url',))
    url = session.settings['jwks_url']
    params = params_of(session, openid.keys_at(url, session.where(url), session.given.timeout, 'no token is read'))
    now = int(time.time())
    run = ran({'client': {'id': session.given.audience}, 'command': 'access_token', 'params': params,
               'readings': [now]})
    fault = fault_in(run)
    if fault:
        advice = advice_of(fault, params, now)
        raise Stop('; '.join(it for it in ('the token is refused: ' + fault['text'], advice) if it), REFUSED_TOKEN)
    answers.put(answers.text_of(run.last['answer']) + '\n')
    return 0


def advice_of(fault: Fault, params: Mapping[str, Any], now: int) -> Optional[str]:
    """What may be done about a token that is refused, by the kind of the fault and what the token says."""
    if fault['kind'] == 'unchecked_signature':
        return openid.ALGORITHM
    if fault['kind'] != 'bad_access_token':
        return None
    header, found = (claims.part_of(params['access_token'], it) for it in (0, 1))
    if str(header.get('typ')).lower() not in TYPES:
        return NO_TYPE
    if header.get('alg') != params.get('algorithm', RS256):
        return openid.ALGORITHM
    if found.get('iss') != params['issuer']:
        return 'it has to be %s (--issuer)' % params['issuer']
    if not claims.has(found, 'aud', params['audience']):
        return 'it has to have "%s" (--audience)' % params['audience']
    if 'crit' in header:
        return None
    return openid.CLOCK if claims.is_ended(found, now, params['leeway']) else openid.OTHER_KEYS
