"""Derives every line that the program oauth2_keeper_refusals_tests has to print, and compares them with the file `stdout` of that crate.

The rows' inputs stand here once more, as data. The lines follow from docs/SCRIPT.md (the table of `keeper`), the README.md of
oauth2_keeper and oauth2_stored_token, the texts of docs/ERRORS.md, and RFC 6749: sections 4.4.2 and 6, with the forms of appendix B.
Moments and spans are whole nanoseconds; moments count from 1970.
"""
import json
import os
import unittest
from datetime import datetime, timedelta, timezone
from urllib.parse import urlencode

import tool

CRATE = os.path.join(os.path.dirname(tool.TOOLS), 'crates', 'oauth2_keeper_refusals_tests')
SECOND = 10 ** 9
MOST_SPAN = 2 ** 64 * SECOND - 1
# jiff's moments: those whose local time is in the years -9999 to 9999 at each offset of up to 25:59:59. Python's years begin at 1; 400
# years have 146,097 days.
AT_MOST = timedelta(hours=25, minutes=59, seconds=59)
EPOCH = datetime(1970, 1, 1, tzinfo=timezone.utc)
FIRST = (datetime(1, 1, 1, tzinfo=timezone.utc) - EPOCH - timedelta(days=25 * 146097) + AT_MOST) // timedelta(seconds=1) * SECOND
LAST = (datetime(9999, 12, 31, 23, 59, 59, tzinfo=timezone.utc) - EPOCH - AT_MOST) // timedelta(seconds=1) * SECOND + SECOND - 1
LIFE = 60 * SECOND  # of a token whose reply has no expires_in


def at(seconds, nanoseconds=0):
    return seconds * SECOND + nanoseconds


# The replies: RFC 6749, 5.1, 4.4.3 and 5.2, and an error without a body; and busy servers, with the Retry-After of RFC 9110, 10.2.3, and
# RFC 6585, 4.
TOKEN = (200, {'access_token': '2YotnFZFEjr1zCsicMWpAA', 'token_type': 'example', 'expires_in': 3600, 'example_parameter': 'example_value'})
TOKENS = (200, {**TOKEN[1], 'refresh_token': 'tGzv3JOkF0XG5Qx2TlKWIA'})
REFUSED = (400, {'error': 'invalid_request'})
EMPTY = (500, None)
BUSY, TOO_MANY, BUSY_TO_A_DATE = (503, '120'), (429, '3600'), (503, 'Fri, 31 Dec 1999 23:59:59 GMT')
STORED = ('abc', at(100, 5), at(10, 1), 'tGzv3JOkF0XG5Qx2TlKWIA')
LATE = ('abc', at(253402207100), at(200), None)
AUDIENCE = ('audience', 'https://api.example.com/')
ID, URL = 's6BhdRkqt3', 'https://server.example.com/token'
# What a row has in place of these: what its keeper starts from and forgets of that, the types of tokens that its caller can use (None: any), the scopes of
# client credentials and of a refresh, extra parameters, the margin, the wait, the greatest that a server may ask for, whether the token is used to its end, the calls, and a moment at which the token is read.
USUAL = dict(start=None, forgotten=None, types=['Bearer', 'Example'], scopes=[], refresh_scopes=[], extra=[], margin=at(10), wait=at(30), most_wait=0, until_end=False, calls=[], last=0)
ROWS = {
    'scopes': dict(start=STORED, scopes=['read', 'write', 'admin'], refresh_scopes=['read', 'write'], extra=[AUDIENCE, ('resource', 'a b')],
                   calls=[(at(100, 5), TOKENS), (at(101), TOKENS), (at(3691), TOKEN)], last=at(3691)),
    'scopes_without_a_refresh_token': dict(start=('abc', at(-60), at(60), None), scopes=['read', 'write'], refresh_scopes=['admin'],
                                           extra=[AUDIENCE], calls=[(0, TOKEN), (at(3591), EMPTY)], last=at(3590)),
    'no_scope_in_a_refresh': dict(scopes=['read'], extra=[('audience', 'a')], calls=[(0, TOKENS), (at(3591), TOKENS)], last=at(3591)),
    'starting_from': dict(start=STORED, margin=at(3), calls=[(at(107, 6), TOKEN), (at(107, 7), TOKEN)], last=at(3704, 7)),
    'starting_from_json': dict(start=('abc', at(-1, 999999999), at(10, 2), 'def'), margin=0,
                               calls=[(at(10, 1), TOKEN), (at(10, 2), TOKEN)], last=at(10, 2)),
    'starting_from_json_of_this_client': dict(start=('abc', 0, at(60), None), last=at(50)),
    'forgotten_token': dict(start=STORED, forgotten='token', calls=[(at(100, 5), TOKEN)], last=at(100, 5)),
    'forgotten_refresh_token': dict(start=STORED, forgotten='refresh_token', margin=0, calls=[(at(110, 6), TOKEN), (at(110, 7), TOKEN)],
                                    last=at(110, 7)),
    'good_until_the_end': dict(start=LATE, margin=at(99, 1), calls=[(LAST, TOKEN)], last=LAST),
    'good_past_the_end': dict(start=LATE, margin=at(99), last=LAST),
    'empty': {},
    'other_token_type': dict(types=['Bearer'], most_wait=at(300), until_end=True, last=at(330), calls=[
        (0, TOO_MANY), (at(300), TOKENS), (at(329, 999999999), TOKENS), (at(330), TOKEN)]),
    'starting_from_another_token_type': dict(start=STORED, types=['Bearer'], calls=[(at(100, 5), REFUSED), (at(101), TOKEN)], last=at(101)),
    'any_token_type': dict(start=STORED, types=None, calls=[(at(100, 5), TOKEN), (at(101), TOKEN)], last=at(101)),
    'waits': dict(calls=[(0, TOKEN), (at(3600), REFUSED), (at(3590), TOKEN), (at(3629, 999999999), TOKEN), (at(3630), EMPTY),
                         (at(3631), TOKEN), (at(3660), TOKEN)], last=at(3660)),
    'waits_after_the_clock_was_set_back': dict(calls=[(at(1000), REFUSED), (at(10), TOKEN), (0, TOKEN), (at(29, 999999999), TOKEN),
                                                      (at(30), TOKEN)], last=at(30)),
    'waits_with_the_token': dict(until_end=True, last=at(3621), calls=[(0, TOKEN), (at(3591), REFUSED), (at(3600), TOKEN),
                                                                       (at(3600, 1), TOKEN), (at(3621), TOKEN)]),
    'waits_past_the_end': dict(wait=MOST_SPAN, calls=[(0, REFUSED), (at(1), TOKEN)]),
    'waits_as_the_server_asks': dict(most_wait=at(300), last=at(450), calls=[
        (0, TOO_MANY), (at(299, 999999999), TOKEN), (at(300), BUSY_TO_A_DATE), (at(329, 999999999), TOKEN), (at(330), BUSY),
        (at(449, 999999999), TOKEN), (at(450), TOKEN)]),
    'waits_longer_than_the_server_asks': dict(wait=at(120, 1), most_wait=at(300), last=at(121),
                                              calls=[(0, BUSY), (at(120), TOKEN), (at(120, 1), TOKEN)]),
    'waits_no_longer_unasked': dict(last=at(30), calls=[(0, BUSY), (at(30), TOKEN)])}
# The stored tokens that are only read and written; of which client and endpoint they are is not stored.
TEXTS = {'stored_before_1970': ('abc', at(-377705023201, 1), MOST_SPAN, None, None, None),
         'stored_past_the_end': ('abc', at(253402207200, SECOND), 0, 'def', None, None),
         'stored_without_a_type': None}
# Those that a keeper does not take, and what they are of.
NOT_TAKEN = {'stored_of_another_client': (('abc', 0, at(60), 'def', 's6BhdRkqt', 'https://other.example.com/token'), 'client'),
             'stored_of_another_endpoint': (('abc', 0, at(60), None, None, URL + '2'), 'token endpoint')}


def shown(name, moment):
    """A moment that is in jiff's range, as seconds and nanoseconds of the same sign."""
    if moment is None or not FIRST <= moment <= LAST:
        return name + ' none'
    sign = -1 if moment < 0 else 1
    return '%s %d %d' % (name, sign * (abs(moment) // SECOND), sign * (abs(moment) % SECOND))


def written(token, accepted_at, lifetime, refresh_token, client_id, token_url):
    """A stored token as JSON, its members in the order of their names."""
    members = {'access_token': token, 'token_type': 'example', 'accepted_at': accepted_at // SECOND, 'accepted_at_nanoseconds': accepted_at % SECOND,
               'lifetime': lifetime // SECOND, 'lifetime_nanoseconds': lifetime % SECOND}
    members.update({name: it for name, it in (('refresh_token', refresh_token), ('client_id', client_id), ('token_url', token_url))
                    if it is not None})
    return 'json ' + json.dumps(members, sort_keys=True, separators=(',', ':'))


class Keeper:
    """A keeper, with the wait of a patient one."""

    def __init__(self, row):
        self.row = row
        self.token, self.accepted_at, self.lifetime, self.refresh_token = row['start'] or (None, None, None, None)
        if row['forgotten']:
            setattr(self, row['forgotten'], None)
        self.failed_at, self.wait = None, row['wait']

    def lasts(self, now, margin):
        return self.token is not None and now + margin <= self.accepted_at + self.lifetime

    def body(self):
        """RFC 6749, 6 and 4.4.2. The client's secret is in the header (2.3.1)."""
        row = self.row
        grant, scopes = [('grant_type', 'client_credentials')], row['scopes']
        if self.refresh_token is not None:
            grant, scopes = [('grant_type', 'refresh_token'), ('refresh_token', self.refresh_token)], row['refresh_scopes']
        return urlencode(grant + [('scope', ' '.join(scopes))] * bool(scopes) + row['extra'])

    def call(self, now, reply):
        """The lines of a call, by the table of `keeper`; `reply` is None for a client that fails."""
        if not self.is_usable():
            self.token = None
        if self.lasts(now, self.row['margin']):
            return ['token ' + self.token]
        if self.failed_at is not None and now < min(self.failed_at, now) + self.wait:
            self.failed_at = min(self.failed_at, now)
            if self.row['until_end'] and self.lasts(now, 0):
                return ['token ' + self.token]
            return ['error The last request failed, and none is made yet', shown('waits until', self.failed_at + self.wait)]
        return ['body ' + self.body(), *self.answer(now, *reply or (0, None))]

    def is_usable(self):
        """RFC 6749, 7.1, in any case (5.1): the tokens are of the type `example`."""
        return self.row['types'] is None or 'example' in [it.lower() for it in self.row['types']]

    def answer(self, now, status, told):
        if status != 200:
            self.failed_at, self.wait = now, self.row['wait']
            if status in (429, 503):
                seconds = int(told) if told.isdigit() else None
                self.wait = max(self.wait, min(self.row['most_wait'], at(seconds or 0)))
                return ['error Request failed', 'status %d' % status, 'asks to wait ' + ('none' if seconds is None else '%d 0' % seconds)]
            if told:
                return ['error Server returned error response: ' + told['error']]
            return ['error Other error: server returned empty error response' if status else 'error Request failed']
        self.token, self.accepted_at, self.failed_at = told['access_token'], now, None
        self.lifetime = at(told['expires_in']) if 'expires_in' in told else LIFE
        self.refresh_token = told.get('refresh_token', self.refresh_token)
        if not self.is_usable():
            self.token, self.failed_at, self.wait = None, now, self.row['wait']
            return ['error The server gave a token of another type']
        return ['token ' + self.token]

    def kept(self):
        """What it keeps, and how it is stored."""
        refresh = [] if self.refresh_token is None else ['refresh token ' + self.refresh_token]
        if self.token is None:
            return ['accepted at none', 'lifetime none', 'good until none', *refresh, 'nothing to store']
        lines = [shown('accepted at', self.accepted_at), 'lifetime %d %d' % divmod(self.lifetime, SECOND),
                 shown('good until', self.accepted_at + self.lifetime - self.row['margin']), *refresh]
        return lines + [written(self.token, self.accepted_at, self.lifetime, self.refresh_token, ID, URL)]


def keeper_lines(row):
    keeper = Keeper(row)
    lines = [line for now, reply in row['calls'] for line in keeper.call(now, reply)] + keeper.kept()
    lent = [keeper.call(row['last'], None)[-1].split(' ', 1) for _ in range(2)]
    return lines + ['lent ' + ' '.join('Some(%d)' % len(text) if what == 'token' else 'None' for what, text in lent)]


def text_lines(stored):
    if stored is None:
        return ['fault "token_type" Missing']
    if not FIRST <= stored[1] <= LAST:
        return ['fault "accepted_at" OutOfRange']
    return ['debug StoredToken([redacted]) StoredToken([redacted])', written(*stored)]


def not_taken_lines(stored, what):
    return ['error The stored token is of another ' + what, 'nothing to store', written(*stored)]


def row_lines(name):
    if name in TEXTS:
        return ['row ' + name] + text_lines(TEXTS[name])
    return ['row ' + name] + (not_taken_lines(*NOT_TAKEN[name]) if name in NOT_TAKEN else keeper_lines({**USUAL, **ROWS[name]}))


class KeeperRows(unittest.TestCase):
    maxDiff = None

    def test_bounds(self):
        self.assertEqual((FIRST, LAST), (-377705023201 * SECOND, 253402207200999999999))

    def test_lines(self):
        with open(os.path.join(CRATE, 'stdin')) as names, open(os.path.join(CRATE, 'stdout')) as wanted:
            names = names.read().splitlines()
            self.assertEqual(names, [*ROWS, *TEXTS, *NOT_TAKEN])
            self.assertEqual([line for name in names for line in row_lines(name)], wanted.read().splitlines())


if __name__ == '__main__':
    unittest.main()
