"""What a server replies to the exchange of a token (RFC 8693), to the assertion of another issuer (RFC 7523 and RFC
7522) and to a request that is pushed (RFC 9126), by the texts of these alone; for the tests of tools/oauth2."""
import base64
import collections
import json
import re
import time
import urllib.parse
import xml.etree.ElementTree

TYPE = 'urn:ietf:params:oauth:token-type:'
GRANT = 'urn:ietf:params:oauth:grant-type:'
SAML = '{urn:oasis:names:tc:SAML:2.0:assertion}'
# Those that are registered; of this machine any port.
REDIRECT = re.compile(r'https://app\.example/cb|http://127\.0\.0\.1:\d+/')
LIFE = 60  # seconds, of what is pushed
# RFC 3986, 4.3
URI = re.compile(r"[A-Za-z][A-Za-z0-9+.-]*:(?:[A-Za-z0-9:/?\[\]@!$&'()*+,;=._~-]|%[0-9A-Fa-f]{2})*")


class Refused(Exception):
    """An error response: its code, and its status."""

    def __init__(self, code, status=400):
        super().__init__(code)
        self.status = status


class Replies:
    """Replies to the last request of a stand_in.Server. .tokens has the types of the tokens that are good, .audiences
    those that it knows, .pushed what was pushed, by its name, and .more members of each reply that is no error."""

    def __init__(self, server):
        self.server, self.audiences, self.pushed, self.more = server, ['api'], {}, {}
        self.tokens = {'s1': 'access_token', 'a1': 'jwt', 'i1': 'id_token'}

    def __call__(self, _):
        path, (pairs, headers) = self.server.asked[-1][0], (self.server.forms[-1], self.server.asked[-1][2])
        try:
            check_form(pairs, headers)
            return self.push(pairs) if path == '/push' else self.token(pairs)
        except Refused as error:
            return error.status, {}, {'error': str(error)}

    def token(self, pairs):
        """RFC 6749, 3.2."""
        found = dict(pairs)
        if found.get('grant_type') == GRANT + 'token-exchange':
            return 200, {}, {**self.exchange(found, pairs), **self.more}
        if found.get('grant_type') in (GRANT + 'jwt-bearer', GRANT + 'saml2-bearer'):
            needs(found, 'assertion')
            read = claims_of if found['grant_type'] == GRANT + 'jwt-bearer' else claims_of_saml
            self.check_claims(read(found['assertion']))
            return 200, {}, {'access_token': 't7', 'token_type': 'Bearer', 'expires_in': 3600, **self.more}
        if found.get('grant_type') == 'authorization_code':
            return 200, {}, {'access_token': 't1', 'token_type': 'Bearer', 'expires_in': 3600, **self.more}
        raise Refused('unsupported_grant_type')

    def exchange(self, found, pairs):
        """RFC 8693, 2.1 and 2.2."""
        needs(found, 'subject_token', 'subject_token_type')
        if ('actor_token' in found) != ('actor_token_type' in found):
            raise Refused('invalid_request')
        for name in 'subject_token', 'actor_token':
            if name in found and TYPE + self.tokens.get(found[name], '') != found[name + '_type']:
                raise Refused('invalid_request')
        if not all(URI.fullmatch(value) for name, value in pairs if name == 'resource'):
            raise Refused('invalid_target')
        if not all(value in self.audiences for name, value in pairs if name == 'audience'):
            raise Refused('invalid_target')
        issued = found.get('requested_token_type', TYPE + 'access_token')
        if issued not in (TYPE + 'access_token', TYPE + 'jwt'):
            issued = TYPE + 'access_token'
        kind = 'Bearer' if issued == TYPE + 'access_token' else 'N_A'
        return {'access_token': 't8', 'issued_token_type': issued, 'token_type': kind, 'expires_in': 60}

    def check_claims(self, claims):
        """RFC 7523, 3, and RFC 7522, 3."""
        whole = all(claims.get(it) for it in ('iss', 'sub', 'aud'))
        if not whole or claims['aud'] != self.server.url + '/token' or claims.get('exp', 0) <= time.time():
            raise Refused('invalid_grant')

    def push(self, pairs):
        """RFC 9126, 2.1 and 2.2."""
        found = dict(pairs)
        needs(found, 'client_id', 'response_type')
        if 'request_uri' in found:
            raise Refused('invalid_request')
        if not REDIRECT.fullmatch(found.get('redirect_uri', '')):
            raise Refused('invalid_request')
        name = 'urn:ietf:params:oauth:request_uri:%d' % len(self.pushed)
        self.pushed[name] = pairs
        return 201, {}, {'request_uri': name, 'expires_in': LIFE, **self.more}

    def back(self, url):
        """Where a user is sent back to who opens the authorization URL and agrees: the parameters are those that were
        pushed (RFC 9126, 4)."""
        asked = dict(urllib.parse.parse_qsl(urllib.parse.urlsplit(url).query))
        if asked.keys() != {'client_id', 'request_uri'}:
            raise AssertionError('the URL has other parameters: ' + url)
        found = dict(self.pushed.pop(asked['request_uri']))
        if found['client_id'] != asked['client_id']:
            raise AssertionError('another client has pushed that')
        return '%s?%s' % (found['redirect_uri'], urllib.parse.urlencode({'code': 'c', 'state': found['state']}))


def check_form(pairs, headers):
    """RFC 6749, 3.2 and 2.3."""
    counts = collections.Counter(name for name, _ in pairs)
    if headers['Content-Type'] != 'application/x-www-form-urlencoded' or any(
            count > 1 and name not in ('resource', 'audience') for name, count in counts.items()):
        raise Refused('invalid_request')
    if ('Authorization' in headers) + ('client_secret' in counts) + ('client_assertion' in counts) > 1:
        raise Refused('invalid_request')


def needs(found, *names):
    if not all(found.get(it) for it in names):
        raise Refused('invalid_request')


def claims_of(text):
    """The claims of a JWT (RFC 7519); its signature is not checked."""
    try:
        return json.loads(base64.urlsafe_b64decode(text.split('.')[1] + '=='))
    except (ValueError, IndexError):
        raise Refused('invalid_grant')


def claims_of_saml(text):
    """What an assertion of SAML 2.0 says, as a JWT would (RFC 7522, 2.1 and 3); its signature is not checked."""
    try:
        if not re.fullmatch('[A-Za-z0-9_-]+', text):  # without padding and line breaks
            raise ValueError
        found = xml.etree.ElementTree.fromstring(base64.urlsafe_b64decode(text + '=='))
    except (ValueError, xml.etree.ElementTree.ParseError):
        raise Refused('invalid_grant')
    if found.tag != SAML + 'Assertion':
        raise Refused('invalid_grant')
    return {'iss': found.findtext(SAML + 'Issuer'), 'sub': found.findtext('%sSubject/%sNameID' % (SAML, SAML)),
            'aud': found.findtext('%sConditions/%sAudienceRestriction/%sAudience' % (SAML, SAML, SAML)),
            'exp': time.time() + 60}


def jwt_of(**claims):
    """A JWT with these claims, and no right signature."""
    parts = [base64.urlsafe_b64encode(json.dumps(it).encode()).decode().rstrip('=')
             for it in ({'alg': 'RS256'}, claims)]
    return '.'.join([*parts, 'c2ln'])


def saml_of(audience):
    """An assertion of SAML 2.0, on several lines."""
    return ('<?xml version="1.0"?>\n<Assertion xmlns="urn:oasis:names:tc:SAML:2.0:assertion" Version="2.0">\n  '
            '<Issuer>https://idp.example'
            '</Issuer>\n  <Subject><NameID>ann\u00e9</NameID></Subject>\n  '
            '<Conditions><AudienceRestriction><Audience>%s</Audience>'
            '</AudienceRestriction></Conditions>\n</Assertion>\n' % audience)
