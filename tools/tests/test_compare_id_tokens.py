"""Tests of tools/compare-id-tokens: worked tokens of the standards, and that its tokens show each of many bugs."""
import base64
import collections
import contextlib
import io
import json
import os
import re
import sys
import types
import unittest
from unittest import mock

import tool

sys.path.insert(0, tool.TOOLS)
import authlib_checks

TOOL = tool.load('compare-id-tokens')
# Edits of the checker, each of which makes a program with one bug of it.
BUGS = [('not LETTERS.issuperset(text) or', ''), ('or len(text) % 4 == 1', ''), ('if encoded(found) != text', 'if False'),
        ('if not LETTERS.issuperset(text) or len(text) % 4 == 1', "text = text.rstrip('=')\n    if len(text) % 4 == 1"),
        ('if math.isinf(float(number))', 'if False'),
        ('DEEPEST = 127', 'DEEPEST = 128'), ('DEEPEST = 127', 'DEEPEST = 126'), ('value.encode()', 'pass'),
        ('isinstance(value, bool) or not isinstance(value, (int, float))', 'not isinstance(value, (int, float))'),
        ('return round(fractions.Fraction(value) * SECOND)', 'return int(value) * SECOND'),
        ('return round(fractions.Fraction(value) * SECOND)', 'return math.floor(fractions.Fraction(value) * SECOND)'),
        ('return round(fractions.Fraction(value) * SECOND)', 'return int(fractions.Fraction(value) * SECOND)'),
        ('if FIRST_SECOND * SECOND <= nanoseconds(value) < (LAST_SECOND + 1) * SECOND else', 'if True else'),
        ('FIRST_SECOND * SECOND <= nanoseconds(value) <', '0 <= nanoseconds(value) <'),
        ('FIRST_SECOND * SECOND <=', 'FIRST_SECOND * SECOND <'), ('(LAST_SECOND + 1) * SECOND', 'LAST_SECOND * SECOND + 1'),
        ("UNNEEDED = {'auth_time', 'acr', 'amr'}", "UNNEEDED = {'acr', 'amr'}"),
        ("UNNEEDED = {'auth_time', 'acr', 'amr'}", "UNNEEDED = {'auth_time', 'amr'}"),
        ("UNNEEDED = {'auth_time', 'acr', 'amr'}", "UNNEEDED = {'auth_time', 'acr'}"),
        ("UNNEEDED = {'auth_time', 'acr', 'amr'}", "UNNEEDED = {'auth_time', 'acr', 'amr', 'azp'}"),
        ("value // SECOND if CLAIMS[name][0] == 'time'", "int(value / SECOND) if CLAIMS[name][0] == 'time'"),
        ('isinstance(value, list) and all(isinstance(it, str) for it in value)', 'isinstance(value, list)'),
        ("isinstance(value, str) and kind != 'texts'", 'isinstance(value, str)'), ("or is_list and kind != 'text'", 'or is_list'),
        ('body.decode()', "body.decode('latin-1')"), ('body.decode()', "body.decode('utf-8-sig')"),
        ('body.decode()', "body.decode(errors='replace')"), ('return dict(found)', 'return dict(reversed(found))'),
        ("': not an object'", "': not one whole JSON value'"), ('in found or value is not None and', 'in found or name in found and'),
        ('if name not in found and is_needed', 'if value is None and is_needed'), ("'kid': ('text', False)", ''),
        ("'sub': ('text', True)", "'sub': ('text', False)"), ("'iat': ('time', True)", "'iat': ('time', False)"),
        ("'aud': ('text or texts', True)", "'aud': ('texts', True)"), ("'amr': ('texts', False)", "'amr': ('text or texts', False)"),
        ('in kinds.items()', 'in sorted(kinds.items())'), ('in kinds.items()', 'in reversed(kinds.items())'),
        ('in kinds.items()', 'in sorted(kinds.items(), key=lambda it: it[0] in found)'), ('if len(parts) != 3', 'if len(parts) < 3'), ("decoded('signature', parts[2])", 'pass'),
        ("    members_of('header', header, OF_HEADER)\n    payload = object_in('payload', parts[1])\n",
         "    payload = object_in('payload', parts[1])\n    members_of('header', header, OF_HEADER)\n"),
        ("algorithm is None and header['alg'].encode()", "algorithm != 'none' and header['alg'].encode()"),
        ("algorithm is None and header['alg'].encode()", "header['alg'].encode()"),
        ("algorithm is None and header['alg'].encode().lower() in (b'', b'none')", 'False'),
        ('.encode().lower() in', '.encode() in'), ("in (b'', b'none')", "in (b'none',)"), ("in (b'', b'none')", "in (b'',)"),
        ("header['alg'] != algorithm:", "header['alg'].lower() != algorithm.lower():"),
        ('if algorithm is not None and', 'if algorithm and'), ("if 'crit' in header", "if header.get('crit') is not None"),
        ("if 'crit' in header", "if header.get('crit')"), ("if 'crit' in header", 'if False'),
        ("not is_issuer(claims['iss'], tenant, params['issuer'])", 'False'),
        ('else issuer == expected', 'else issuer.startswith(expected)'),
        ('else issuer == expected', "else issuer.rstrip('/') == expected.rstrip('/')"),
        ('else issuer == expected', 'else issuer.lower() == expected.lower()'),
        ('return issuer in expected if', 'return issuer == expected[0] if'), ('return issuer in expected if', 'return True if'),
        ("isinstance(tenant, str) and issuer == expected['before'] + tenant + expected['after']",
         "issuer.startswith(expected['before']) and issuer.endswith(expected['after'])"),
        ("issuer == expected['before'] + tenant", "issuer == expected['before']"),
        ("expected['before'] + tenant + expected['after']", "expected['before'] + tenant"),
        ('isinstance(tenant, str) and issuer == expected', "issuer == expected"),
        ("if not {client, *params.get('other_audiences', [])}.issuperset(audiences(claims))", 'if False'),
        ("if not {client, *params.get('other_audiences', [])}.issuperset", "if not {client}.issuperset"),
        ("if not {client, *params.get('other_audiences', [])}.issuperset", "if not {*params.get('other_audiences', [])}.issuperset"),
        ('client not in audiences(claims)', "client not in claims['aud']"),
        ('client not in audiences(claims)', 'client not in audiences(claims)[:1]'),
        ('client not in audiences(claims)', 'any(it != client for it in audiences(claims))'), ('client not in audiences(claims)', 'False'),
        ('len(audiences(claims)) > 1 and', 'len(set(audiences(claims))) > 1 and'), ('if len(audiences(claims)) > 1 and', 'if'),
        ("len(audiences(claims)) > 1 and 'azp' not in claims", 'False'), ("'azp' in claims and claims['azp'] not in parties", 'False'),
        ("[client, *params.get('authorized_parties', [])]", '[client]'),
        ("[client, *params.get('authorized_parties', [])]", "params.get('authorized_parties', [client])"),
        ("if 'azp' in claims and", "if claims.get('azp') and"), ("if 'azp' in claims and", 'if len(audiences(claims)) > 1 and'),
        ("not now < claims['exp'] + leeway", "not now <= claims['exp'] + leeway"), ("not now < claims['exp'] + leeway", 'False'),
        ("not now < claims['exp'] + leeway", "not now < claims['exp']"), ("claims['exp'] + leeway", "claims['exp'] - leeway"),
        ("claims['iat'] > now + leeway", "claims['iat'] >= now + leeway"), ("claims['iat'] > now + leeway", 'False'),
        ("claims['iat'] > now + leeway", "claims['iat'] > now"),
        ("nonce is not None and 'nonce' not in claims", "nonce and 'nonce' not in claims"),
        ("nonce is None and 'nonce' in claims", 'False'), ("nonce is None and 'nonce' in claims", "nonce is None and claims.get('nonce')"),
        ("nonce is not None and claims['nonce'] != nonce", "nonce and claims['nonce'] != nonce"),
        ("nonce is not None and claims['nonce'] != nonce", "nonce is not None and claims['nonce'].lower() != nonce.lower()"),
        ("max_age is not None and 'auth_time' not in", "max_age and 'auth_time' not in"),
        ("'auth_time' not in claims", "not claims.get('auth_time')"), ('> max_age * SECOND + leeway', '>= max_age * SECOND + leeway'),
        ('> max_age * SECOND + leeway', '> max_age * SECOND'), ("claims['auth_time'] > now + leeway", "claims['auth_time'] > now"),
        ('nanoseconds(start) > now + leeway', 'nanoseconds(start) >= now + leeway'), ('nanoseconds(start) > now + leeway', 'nanoseconds(start) > now'),
        ("header.get('b64', True) is not True", "not header.get('b64', True)"), ("if 'typ' in header and", "if header.get('typ') is not None and"),
        ("'jwt', 'application/jwt'", "'jwt', 'at+jwt', 'application/jwt'"), ("name == 'kid' and name in found or ", ''),
        ("'at_hash' not in claims", "not claims.get('at_hash')"), ('[:hashed.digest_size // 2]', ''),
        ('digest()[:hashed.digest_size // 2]', 'digest()[hashed.digest_size // 2:]'),
        ('digest()[:hashed.digest_size // 2]', 'digest()[:16]'), ("!= claims['at_hash']", "!= claims['at_hash'].rstrip('=')"),
        ("hashlib.new('sha' + size)", 'hashlib.sha256()'), ('= hashlib.sha512()', '= hashlib.sha256()'),
        ("header['alg'] not in HASHES", "header['alg'].upper() not in HASHES"),
        ("HASHES[header['alg']].copy()", "HASHES['RS256'].copy()"), ("('HS', 'RS', 'ES', 'PS', 'ESP')", "('HS', 'RS', 'ES', 'ESP')"),
        ('access_token.encode()', "access_token.encode('latin-1', 'replace')"),
        ("return 'not_checked'", "raise Fault('the hash is that of another access token')"),
        ("script['readings'][0]", "script['readings'][-1]"), (', aud=audiences(claims)', ''), ('sort_keys=True', 'sort_keys=False'),
        ('ensure_ascii=False, separators', 'separators')]


# The texts of the first of two rules of which never both are broken, so that their order is not seen.
ALONE = ('the token has no signature', 'several audiences, and no authorized party', 'the token has no nonce',
         'the token has a nonce, and none was sent', 'the user logged in in the future')


def in_other_order():
    """Edits that swap two rules which are tried one after the other."""
    with open(os.path.join(tool.TOOLS, 'compare-id-tokens'), encoding='utf-8') as f:
        text = f.read()
    rules = re.findall(r"    if .*\n        raise Fault\('(.*)'\)\n", text)
    for one, other in zip(rules, rules[1:]):
        blocks = [re.search(r"    if .*\n        raise Fault\('%s'\)\n" % re.escape(it), text)[0] for it in (one, other)]
        if ''.join(blocks) in text and one not in ALONE:
            yield ''.join(blocks), ''.join(reversed(blocks))


def with_bug(old, new):
    """The tool with one edit."""
    with open(os.path.join(tool.TOOLS, 'compare-id-tokens'), encoding='utf-8') as f:
        text = f.read()
    before, _, rest = text.partition('# ---- the checker\n')
    checker, mark, after = rest.partition('# ---- the tokens\n')
    assert checker.count(old) == 1, old
    made = types.ModuleType('made')
    exec(compile(before + checker.replace(old, new) + mark + after, 'made', 'exec'), made.__dict__)
    return made


def ran_by(made):
    """What takes the place of a run of the program: the checker of a module."""
    def told(_, script):
        try:
            line, status = made.read(script)
        except (KeyError, TypeError, ValueError, IndexError, AttributeError):
            return '', 101, ''
        return line + '\n', status, ''
    return told


def signed(header, claims):
    """A token of these JSON texts, with a signature that nobody looks at."""
    return '.'.join(base64.urlsafe_b64encode(it).decode().rstrip('=') for it in (header.encode(), claims.encode(), b'signature'))


# The access token of OpenID Connect Core 1.0, appendix A.3, whose hash is there too; and the claims of section 2.
ACCESS_TOKEN = 'jHkWEdUXMU1BwAsC4vtUsZwnNvTIxEl0z9K3vx5KF0Y'
CLAIMS = ('{"iss":"https://server.example.com","sub":"24400320","aud":"s6BhdRkqt3","nonce":"n-0S6_WzA2Mj","exp":1311281970,'
          '"iat":1311280970,"auth_time":1311280969,"acr":"urn:mace:incommon:iap:silver"}')


class IdTokens(unittest.TestCase):
    def read(self, header='{"alg":"RS256"}', claims=CLAIMS, now=1311281000, **more):
        params = {'id_token': signed(header, claims), 'access_token': ACCESS_TOKEN, 'issuer': 'https://server.example.com',
                  'nonce': 'n-0S6_WzA2Mj', **more}
        return TOOL.read({'client': {'id': 's6BhdRkqt3'}, 'command': 'id_token', 'params': params, 'readings': [now]})

    def test_the_token_of_section_2(self):
        claims = dict(json.loads(CLAIMS), aud=['s6BhdRkqt3'])
        wanted = json.dumps({'access_token_hash': 'absent', 'claims': claims}, sort_keys=True, separators=(',', ':'))
        self.assertEqual(self.read(), ('answer ok ' + wanted, 0))

    def test_its_limits(self):
        for wanted, params in (('the token has expired', {'now': 1311281970}), ('the token was issued in the future', {'now': 1311280969}),
                               ('the user logged in too long ago', {'max_age': 30}), ('the issuer is another one', {'issuer': 'x'}),
                               ('the algorithm is not the registered one', {'algorithm': 'ES256'})):
            self.assertEqual(self.read(**params), ('answer fault "%s"' % wanted, 1))
        for params in {'now': 1311281970, 'leeway': 1}, {'now': 1311280969, 'leeway': 1}, {'max_age': 31}:
            self.assertEqual(self.read(**params)[1], 0)

    def test_the_hash_of_appendix_a_3(self):
        claims = CLAIMS[:-1] + ',"at_hash":"77QmUPtjPfzWtF2AnpK9RQ"}'
        self.assertIn('"matches"', self.read(claims=claims)[0])
        self.assertIn('"not_checked"', self.read('{"alg":"ES256K"}', claims)[0])
        for algorithm in 'RS512', 'EdDSA':
            self.assertIn('another access token', self.read('{"alg":"%s"}' % algorithm, claims)[0])

    def compared(self, told, number):
        """How many tokens differ, and what was printed."""
        said = io.StringIO()
        with mock.patch.object(TOOL, 'told', told), contextlib.redirect_stdout(said):
            return TOOL.compare('/program', number, 1), said.getvalue().splitlines()

    def test_a_program_without_a_bug(self):
        differences, said = self.compared(ran_by(TOOL), 500)
        self.assertEqual((differences, said[-1]), (0, '500 tokens, 0 differences'))
        self.assertEqual(sum(int(it.split()[0]) for it in said[:-1]), 500)

    def test_a_program_with_a_bug(self):
        differences, said = self.compared(ran_by(with_bug("'crit' in header", 'False')), 500)
        self.assertGreater(differences, 0)
        self.assertEqual(said[-1], '500 tokens, %d differences' % differences)
        self.assertIn('there, with status 1:', said)

    def beside_authlib(self, verdicts, number=500):
        """How many tokens differ from what is told of Authlib, and what was printed."""
        said = io.StringIO()
        with mock.patch.object(TOOL, 'told', ran_by(TOOL)), mock.patch.object(authlib_checks, 'verdicts', verdicts), \
                contextlib.redirect_stdout(said), contextlib.redirect_stderr(said):
            return TOOL.compare('/program', number, 1, TOOL.BESIDE), said.getvalue().splitlines()

    def test_without_authlib(self):
        with mock.patch.object(authlib_checks, 'PYTHONS', ('/none/python3',)):
            differences, said = self.beside_authlib(authlib_checks.verdicts)
        self.assertEqual((differences, said[-2:]), (0, ['tools/compare-id-tokens: ' + authlib_checks.MISSING, '500 tokens, 0 differences']))

    def test_what_authlib_refuses_or_takes_without_a_reason(self):
        for verdict in None, 'expired_token: The token is expired':
            differences, said = self.beside_authlib(lambda rows: ('1', [verdict] * len(rows)))
            self.assertGreater(differences, 20)
            self.assertEqual(said[-1], '500 tokens, %d differences' % differences)
            self.assertIn(', %d of them in no class' % differences, said[-2])

    def test_each_class_beside_authlib(self):
        if not authlib_checks.verdicts([]):
            self.skipTest(authlib_checks.MISSING)
        with mock.patch.object(TOOL, 'BESIDE', 3000):
            differences, said = self.beside_authlib(authlib_checks.verdicts, 3000)
        self.assertEqual(differences, 0)
        for it in authlib_checks.CLASSES:
            is_rare = it.name in ('nbf', 'auth_time 0', 'hash by EdDSA')
            self.assertTrue(is_rare or any('  %s (%s): ' % (it.name, it.section) in line for line in said), it.name)

    def test_a_hash_by_eddsa_beside_authlib(self):
        params, fault = {'access_token': 't', 'issuer': 'i'}, 'the hash is that of another access token'
        for algorithm, name in ('EdDSA', 'hash by EdDSA'), ('RS512', None):
            found = authlib_checks.class_of(authlib_checks.Judged('c', params, 0, {'alg': algorithm}, {'at_hash': 'x'}, fault, None))
            self.assertEqual(found and found.name, name)

    def test_each_end_is_met_often(self):
        tokens = TOOL.Tokens(1)
        ends = collections.Counter(TOOL.end_of(TOOL.read(tokens.script())[0]) for _ in range(3000))
        self.assertEqual(len(ends), 51)
        self.assertEqual(len(list(in_other_order())), 13)
        self.assertGreaterEqual(min(ends.values()), 10, ends)

    def test_each_bug_is_seen(self):
        tokens = TOOL.Tokens(6)
        scripts = [tokens.script() for _ in range(3000)]
        answers = [TOOL.read(it) for it in scripts]
        for old, new in BUGS + list(in_other_order()):
            with self.subTest('%s for %s' % (new, old)):
                told = ran_by(with_bug(old, new))
                self.assertTrue(any(told('', script) != (line + '\n', status, '') for script, (line, status) in zip(scripts, answers)))


if __name__ == '__main__':
    unittest.main()
