"""How the endpoints of an issuer are found that no setting names: in its metadata (RFC 8414)."""
from __future__ import annotations

import json
from typing import Any, Mapping, Optional

from . import answers, faults
from .addresses import shown
from .conversation import Outcome, answered
from .endings import BAD_SETTING, NO_MEMORY, NOT_DISCOVERED, TRY_AGAIN, Stop
from .settings import ENDPOINTS, check_url, flag_of

Metadata = Mapping[str, Any]
# The places of an issuer's metadata, in the order in which they are asked: RFC 8414, 3, and OpenID Connect Discovery
# 1.0, 4.
PLACES = ('oauth-authorization-server', 'openid-configuration')
ALIASES = 'mtls_endpoint_aliases'
REQUIRES_PUSH = 'require_pushed_authorization_requests'


def metadata_of(settings: Mapping[str, Any], limit: float) -> Metadata:
    """The metadata of the issuer, by the names of RFC 8414, 2, as the library reads them. Stops where no place has
    them."""
    said: list[str] = []
    other, issuer, may_retry = None, settings['issuer'], False
    for place in PLACES:
        params = {'issuer': issuer, 'well_known': place}
        outcome = answered({'client': {'id': settings['client_id'] or ''}, 'command': 'metadata', 'params': params},
                           limit)
        fault = outcome.fault
        if not fault:
            return with_others(outcome.answer, (outcome.reply or {})['body'], settings['client_cert'])
        text, status = faults.of(outcome, hint='')
        if status == NO_MEMORY:
            raise Stop(text, status)
        if not outcome.url:  # the text is no issuer, so no place was asked
            raise Stop('%s is "%s": %s' % (flag_of('issuer'), issuer, text), BAD_SETTING)
        may_retry = may_retry or outcome.may_retry
        if fault['kind'] == 'other_issuer':
            other = other_issuer(outcome, issuer)
        is_unanswered = 'status' not in (outcome.reply or {})
        if is_unanswered and said and said[0].rpartition(': ')[2] == text.rpartition(': ')[2]:
            continue  # one cause, such as a host that is unknown
        said.append(text)
    raise Stop(other or 'the endpoints of the issuer %s can not be discovered (is --issuer right?): %s'
               % (issuer, '; '.join(said)),
               TRY_AGAIN if may_retry and not other else NOT_DISCOVERED)


def with_others(found: Metadata, body: str, by_certificate: Optional[str]) -> Metadata:
    """The metadata that the library has read, and of their text what it does not read: the UserInfo endpoint, what is
    said of pushed logins (RFC 9126, 5), and for a client that shows its certificate the endpoints where it does (RFC
    8705, 5)."""
    unread = (ENDPOINTS['userinfo_url'], ENDPOINTS['push_url'], REQUIRES_PUSH, ALIASES)
    more = {name: json.loads(value) for name, value in answers.others(body, ()) if name in unread}
    aliases = more.pop(ALIASES, None)
    if by_certificate and isinstance(aliases, dict):
        more.update((name, aliases[name]) for name in ENDPOINTS.values() if name in aliases
                    and name != ENDPOINTS['auth_url'])
    return {**found, **more}


def other_issuer(outcome: Outcome, issuer: str) -> str:
    """What to do where metadata are another issuer's (RFC 8414, 3.3): not to use them, and to look at what was
    given."""
    named = json.loads((outcome.reply or {})['body'])['issuer']
    return ('--issuer is "%s", and the metadata at %s name the issuer "%s", so they are not used: if that is the '
            'server that you mean, '
            'give --issuer so, letter by letter' % (issuer, outcome.url, shown(named)))


def endpoint(metadata: Metadata, name: str) -> str:
    """The URL of an endpoint in the metadata. Stops where there is none, or one that can't be used."""
    member = ENDPOINTS[name]
    found = metadata.get(member)
    if not found:
        raise Stop('the metadata of the issuer %s has no "%s": give %s, OAUTH2_%s, or "%s" in the file that --config '
                   'names'
                   % (metadata['issuer'], member, flag_of(name), name.upper(), name), NOT_DISCOVERED)
    if not isinstance(found, str):
        raise Stop('the metadata of the issuer %s have a "%s" that is no text' % (metadata['issuer'], member),
                   NOT_DISCOVERED)
    check_url(member, found, '"%s" in the metadata of the issuer' % member, NOT_DISCOVERED)
    return found


def must_name_issuer(metadata: Optional[Metadata]) -> bool:
    """Whether a redirect has to name the issuer: where its server says that it does, or nobody has asked (RFC 9207, 2.4
    and 3)."""
    return metadata is None or metadata.get('authorization_response_iss_parameter_supported') is True


def must_push(metadata: Optional[Metadata]) -> bool:
    """Whether a server takes a login only if its parameters are pushed, as far as metadata were asked for (RFC 9126,
    5)."""
    return metadata is not None and metadata.get(REQUIRES_PUSH) is True
