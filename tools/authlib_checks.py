"""The claims checks of Authlib, and where this repository's checks differ from them and why; for tools/compare-id-tokens.

As a program it writes Authlib's version, and then for each line of standard input, which has a token as JSON, a line: null where Authlib
takes the token, or the text of its error. So it can run in another Python than the tool's, which may be the one that has Authlib.
"""
import collections
import fractions
import json
import subprocess
import sys

sys.dont_write_bytecode = True
import pythons

PYTHONS = pythons.PYTHONS
MISSING = 'no Python here has Authlib (Debian has it as python3-authlib), so nothing is compared with it'
# A token as both have judged it: what the client expects, the moment, the members of header and claims, and the text of each one's fault
# (none where it takes the token).
Judged = collections.namedtuple('Judged', 'client params now header claims ours theirs')
# A way in which the two differ: its name, the section, why, and of which tokens it is.
Class = collections.namedtuple('Class', 'name section why is_of')


def said(*texts):
    """Whether the fault here is one of these, and Authlib takes the token."""
    return lambda it: it.theirs is None and it.ours in texts


def refused_for(claim):
    """The text of Authlib's errors about a claim."""
    return ('missing_claim: Missing "%s" claim' % claim, 'invalid_claim: Invalid claim "%s"' % claim)


def is_type(it):
    """The value of a claim is of another type than Authlib looks at."""
    return it.theirs is None and it.ours is not None and it.ours.startswith('payload: ') and it.ours.endswith(': of the wrong type')


def is_empty_expectation(it):
    """What the client expects is an empty text, which Authlib takes for nothing that is expected."""
    rules = {'the issuer is another one': it.params['issuer'], 'the token has no nonce': it.params.get('nonce'),
             'the client is not in the audience': it.client, 'several audiences, and no authorized party': it.client,
             'the authorized party is another one': it.client, 'the nonce is another one': it.params.get('nonce'),
             'the hash is that of another access token': it.params['access_token']}
    return it.theirs is None and rules.get(it.ours) == ''


def is_empty_claim(it):
    """A claim is an empty text, which Authlib takes for none."""
    rules = {'the authorized party is another one': 'azp', 'the hash is that of another access token': 'at_hash'}
    return it.theirs is None and it.ours in rules and it.claims.get(rules[it.ours]) == ''


def expects(issuer, text, tenant):
    """Whether an issuer of a script, which is a text, a list of texts or one for each tenant, is this text."""
    if isinstance(issuer, dict):
        return '%s%s%s' % (issuer['before'], tenant, issuer['after']) == text
    return text in issuer if isinstance(issuer, list) else issuer == text


def is_empty_but_expected(it):
    """The issuer or the client is an empty text, and so is the claim, which Authlib takes for none."""
    empty = {'iss': it.claims.get('iss') == '' and expects(it.params['issuer'], '', it.claims.get('tid')),
             'aud': it.claims.get('aud') == '' == it.client}
    return it.ours is None and any(is_it and it.theirs in refused_for(claim) for claim, is_it in empty.items())


def is_last_second(it):
    if it.theirs is not None or it.ours != 'the token has expired':
        return False
    return abs(fractions.Fraction(it.claims['exp']) + it.params.get('leeway', 0) - it.now) < fractions.Fraction(1, 10 ** 9)


def is_login_of_no_time(it):
    """The time of the login is none that a `Timestamp` can say, so it counts as not said. Authlib takes it for a number."""
    time = it.claims.get('auth_time')
    is_time = isinstance(time, (int, float)) and not isinstance(time, bool) and EARLIEST <= time <= LATEST
    return said('the token does not say when the user logged in')(it) and time is not None and not is_time


def is_unknown_hash(it):
    """The algorithm is none of RFC 7518, 3.1: the hash can't be checked here, and Authlib cuts a digest's name from the algorithm's."""
    return it.ours is None and it.theirs in refused_for('at_hash') and it.header['alg'] not in KNOWN


# The first and the last second since 1970 that a `Timestamp` can say.
EARLIEST, LATEST = -377705023201, 253402207200
KNOWN = {kind + size for kind in ('HS', 'RS', 'ES', 'PS') for size in ('256', '384', '512')}
UNKNOWN_HASHES = ('EdDSA', 'Ed25519', 'ESP256', 'ESP384', 'ESP512')
CLASSES = [
    Class('algorithm', '3.1.3.7, 6 to 8', "the algorithm is a matter of Authlib's signature check, not of its claims checks",
          said('the token has no signature', 'the algorithm is not the registered one')),
    Class('crit', 'RFC 7515, 4.1.11', "so is the header's crit", said('the header has an extension that has to be understood')),
    Class('kind', 'RFC 8725, 3.11; RFC 7797, 7', "so are the header's typ and b64",
          said('the type is not that of an ID token', 'the payload is not encoded')),
    Class('key identifier', 'RFC 7515, 4.1.4', 'and so is a kid of another type', said('header: kid: of the wrong type')),
    Class('no subject', '2, sub', 'Authlib takes an empty subject', said('the subject is empty')),
    Class('login in the future', '2, auth_time', 'Authlib compares auth_time with nothing', said('the user logged in in the future')),
    Class('type', '2', 'Authlib looks at the types of exp, iat and auth_time alone, and at that of amr in part', is_type),
    Class('unneeded claim', '2', 'Authlib refuses an auth_time that is no number and an amr that is no list, which no rule needs',
          lambda it: it.ours is None and it.theirs in refused_for('auth_time') + refused_for('amr')),
    Class('audience that is not trusted', '3.1.3.7, 3', 'Authlib takes any audience beside the client',
          said('an audience is not trusted')),
    Class('other party', '3.1.3.7, 5', 'Authlib takes no other party than the client',
          lambda it: it.ours is None and it.theirs in refused_for('azp') and it.claims['azp'] in it.params.get('authorized_parties', [])),
    Class('time out of range', 'RFC 7519, 2', 'Authlib takes a time past the year 9999',
          lambda it: it.theirs is None and it.ours is not None and it.ours.endswith(': out of range')),
    Class('last second', '3.1.3.7, 9', 'Authlib takes a token at the second of its exp, though now has to be before that', is_last_second),
    Class('issued in the future', '3.1.3.7, 10', 'Authlib compares iat with nothing', said('the token was issued in the future')),
    Class('nonce not sent', '2, nonce', 'Authlib looks at a nonce only if one was sent', said('the token has a nonce, and none was sent')),
    Class('login too old', '3.1.3.7, 13', 'Authlib compares auth_time with nothing', said('the user logged in too long ago')),
    Class('max_age 0', '2, auth_time', 'Authlib takes a maximum age of 0 for none',
          lambda it: said('the token does not say when the user logged in')(it) and it.params['max_age'] == 0),
    Class('login of no time', '2, auth_time', 'Authlib takes true for a time, and one before the year -9999 or past the year 9999',
          is_login_of_no_time),
    Class('auth_time 0', '2, auth_time', 'Authlib takes a login at the second 0 of 1970 for none',
          lambda it: it.ours is None and it.theirs in refused_for('auth_time') and it.claims.get('auth_time') == 0),
    Class('empty expectation', '3.1.3.7, 2 to 5, 11; 3.1.3.8', 'Authlib takes an empty text that is expected for none',
          is_empty_expectation),
    Class('empty claim', '3.1.3.7, 5; 3.1.3.8', 'Authlib takes an empty claim for none', is_empty_claim),
    Class('empty and expected', '3.1.3.7, 2, 3', 'Authlib refuses an empty issuer or audience, though it is the expected one',
          is_empty_but_expected),
    Class('hash of another algorithm', '3.1.3.8', 'Authlib cuts the name of a digest from that of any algorithm', is_unknown_hash),
    Class('hash by EdDSA', '3.1.3.6', 'Authlib knows no hash of EdDSA and of the names of RFC 9864, so it compares none',
          lambda it: said('the hash is that of another access token')(it) and it.header['alg'] in UNKNOWN_HASHES),
    Class('nbf', 'RFC 7519, 4.1.5', 'Authlib takes null for no time, other values for one, and reads a time without its fraction',
          lambda it: 'nbf' in it.claims and (it.ours is None and (it.theirs in refused_for('nbf') or it.theirs.startswith('invalid_token'))
                                             or said('the token is not valid yet')(it)))]


def class_of(it):
    """The first class that a difference is of; None if it is of none."""
    return next((one for one in CLASSES if one.is_of(it)), None)


def verdicts(rows):
    """Authlib's version, and what it says of each row, a client, params, moment, and texts of header and claims; None where no Python has
    it."""
    python = pythons.that_has('authlib', PYTHONS)
    if not python:
        return None
    text = ''.join(json.dumps(row) + '\n' for row in rows)
    run = subprocess.run([python, __file__], input=text, capture_output=True, text=True)
    if run.returncode:
        raise RuntimeError(run.stderr)
    version, *lines = run.stdout.splitlines()
    return version, [json.loads(line) for line in lines]


def verdict(client, params, now, header, claims):
    """The text of Authlib's fault; None where it takes the claims."""
    from authlib.oidc.core import CodeIDToken
    issuer = params['issuer']
    if isinstance(issuer, dict):  # Authlib knows no tenants: the one that the token names
        issuer = '%s%s%s' % (issuer['before'], json.loads(claims).get('tid'), issuer['after'])
    named = {'values': issuer} if isinstance(issuer, list) else {'value': issuer}
    options = {'iss': {'essential': True, **named}, 'aud': {'essential': True, 'value': client}}
    expected = {'client_id': client, **{name: params[name] for name in ('nonce', 'max_age', 'access_token') if name in params}}
    try:
        CodeIDToken(json.loads(claims), json.loads(header), options, expected).validate(now=now, leeway=params.get('leeway', 0))
    except Exception as error:  # a claim of a type that it does not expect may end its checks in any way
        return str(error) or type(error).__name__
    return None


if __name__ == '__main__':
    import authlib
    print(authlib.__version__)
    for line in sys.stdin:
        print(json.dumps(verdict(*json.loads(line))))
