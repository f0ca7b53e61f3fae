"""What `status` says of a token that is kept: who, where and until when."""
from __future__ import annotations

import json
from typing import TYPE_CHECKING, Optional

from . import token_cache
from .moments import moment

if TYPE_CHECKING:
    from .caches import Cache, Mark
    from .token_cache import Entry


def can_be_renewed(entry: Entry, cache: Cache) -> bool:
    """Whether another token can be had without a user."""
    return entry['refresh_token'] is not None and not cache.is_over() or bool(entry['command'] == 'token')


def has_ended(entry: Entry, now: int) -> bool:
    return bool(now >= entry['expires_at'])


def in_json(entry: Entry, profile: Optional[str], cache: Cache, now: int) -> str:
    """The status as a line of JSON."""
    ends = moment(entry['expires_at']) if token_cache.has_end(entry) else None
    found = {'profile': profile, cache.kind: cache.name, 'command': entry['command'],
             'client_id': entry['client_id'], 'issuer': entry['issuer'], 'user': entry['user'],
             'username': entry['username'], 'scopes': entry['scopes'],
             'token_url': entry['token_url'], 'obtained_at': moment(entry['obtained_at']),
             'expires_at': ends, 'is_good': not has_ended(entry, now),
             'can_be_renewed': can_be_renewed(entry, cache)}
    if cache.mark:
        found['renewal_begun_at'] = cache.mark.since()
    return json.dumps(found, separators=(',', ':'))


def in_lines(entry: Entry, profile: Optional[str], cache: Cache, now: int, margin: int) -> list[str]:
    """The status as lines for people. margin is how many seconds before its end a token is renewed."""
    rows = [('profile', profile), (cache.kind, cache.name), ('user', user_of(entry)),
            ('client', entry['client_id']), ('issuer', entry['issuer']),
            ('token endpoint', entry['token_url']), ('scopes', ' '.join(entry['scopes'])),
            ('token', of_token(entry, now)), ('renewal', of_renewal(entry, cache, now, margin))]
    return ['%s: %s' % (name, value) for name, value in rows if value]


def user_of(entry: Entry) -> Optional[str]:
    """Who has signed in, as far as that is known."""
    if entry['user']:
        return '"%s" at %s' % (entry['user']['sub'], entry['user']['iss'])
    if entry['username']:
        return '"%s"' % entry['username']
    if entry['command'] == 'token':
        return 'none: it is the token of the client itself'
    return 'unknown: no ID token was asked for (--openid)'


def of_token(entry: Entry, now: int) -> str:
    ends = moment(entry['expires_at'])
    if has_ended(entry, now):
        how = 'ended' if token_cache.has_end(entry) else 'came without a lifetime, is taken as ended'
        return '%s at %s' % (how, ends)
    return '%s, until %s' % (token_cache.how_long(entry, now), ends)


def of_renewal(entry: Entry, cache: Cache, now: int, margin: int) -> str:
    """What the next use does, by the rule of kept_tokens.is_good."""
    if cache.mark:
        return of_mark(entry, cache, cache.mark)
    if not can_be_renewed(entry, cache):
        return 'none: sign in anew' if has_ended(entry, now) else 'none: sign in anew once it has ended'
    how = 'by the client itself' if entry['refresh_token'] is None else 'by the refresh token'
    if token_cache.is_good(entry, now, margin):
        due = moment(entry['expires_at'] - margin)
        return '%s, from %s on; until then the token is handed out as it is' % (how, due)
    return how + ', at the next use'


def of_mark(entry: Entry, cache: Cache, mark: Mark) -> str:
    """What is said of the renewal of another run."""
    if not cache.is_over():
        return 'by another run, since %s' % mark.since()
    then = 'sign in anew'
    if entry['command'] == 'token':
        then = 'the client itself gets another token once this one has ended'
    return 'begun by another run at %s and not finished: %s' % (mark.since(), then)
