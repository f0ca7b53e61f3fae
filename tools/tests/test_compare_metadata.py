"""Tests of tools/compare-metadata: the places that its reader finds, and that its documents show each of many bugs."""
import contextlib
import io
import os
import sys
import types
import unittest
from unittest import mock

import tool

sys.path.insert(0, tool.TOOLS)
TOOL = tool.load('compare-metadata')
# Edits of the reader, each of which makes a program with one bug of it.
BUGS = [("path[:-1] if path.endswith('/') else path", 'path'), ("path[:-1] if path.endswith('/') else path", "path.rstrip('/')"),
        ('else path + name', 'else name + path'), ('name + path if', 'path + name if'),
        ("'' if port == PORTS[scheme] else", "'' if port in PORTS.values() else"),
        ('scheme, found[1].lower(), port', 'scheme, found[1], port'), ("scheme == 'http' and is_loopback(host)", "scheme == 'http'"),
        ("scheme == 'http' and is_loopback(host)", 'False'),
        ("if host == 'localhost' or host == '[::1]'", "if host.startswith(('localhost', '[::1]'))"),
        ('.is_loopback', " == ipaddress.IPv4Address('127.0.0.1')"), ('if query is not None', 'if query'),
        ('if query is not None', 'if False'), ('if fragment is not None', 'if fragment'), ("found['issuer'] != expected", 'False'),
        ("found['issuer'] != expected", "found['issuer'].rstrip('/') != expected.rstrip('/')"),
        ("found['issuer'] != expected", "found['issuer'].lower() != expected.lower()"),
        ("found['issuer'] != expected", "found['issuer'] not in (expected, params['issuer'])"),
        ("params.get('expected_issuer', params.get('issuer'))", "params.get('issuer')"),
        ("reply['status'] != 200", "reply['status'] // 100 != 2"), ("reply['status'] in REDIRECTS", "reply['status'] // 100 == 3"),
        ('301, 302, 303, 307, 308', '301, 302, 303, 307'), ('if not is_secure(*parts[:2])', 'if False'),
        ('name in WITHOUT_FRAGMENT and parts[5] is not None', 'name in WITHOUT_FRAGMENT and parts[5]'),
        ('name in WITHOUT_FRAGMENT and parts[5] is not None', 'parts[5] is not None'),
        ("'token_endpoint', 'revocation_endpoint')", "'token_endpoint')"), ('and not is_taken(content_type, rule)', 'and False'),
        ("rule == 'prefix' or rest", 'rest'), ("rule == 'prefix' or rest[:1]", 'True or rest[:1]'),
        ('content_type[:16].lower()', 'content_type[:16]'),
        ("client.get('reply_rule', 'prefix')", "client.get('reply_rule', 'media_type')"), ("if not reply['body']", 'if False'),
        ('(value is not None or name == needed)', 'True'), ('in dict(found).items()', 'in dict(reversed(found)).items()'),
        ('isinstance(value, list) and all(isinstance(it, str) for it in value)', 'isinstance(value, list)'),
        ('isinstance(value, list) and all(', 'isinstance(value, (list, str)) and all('),
        ('isinstance(value, bool)', 'isinstance(value, int)'), ("if kind == 'URL' and not parts_of(value)", 'if False'),
        ("'device_authorization_endpoint': 'URL',", ''),
        ("'code_challenge_methods_supported': 'texts',", "'code_challenge_methods_supported': 'text',"), ('DEEPEST = 127', 'DEEPEST = 128'),
        ('value.encode()', 'pass'), ('math.isinf(float(number))', 'False'), ("('error', 'error_description')", "('error',)"),
        ('sort_keys=True', 'sort_keys=False'), ("'authorization none'", "'authorization Basic'"), ('raise Fault(*faults)', 'pass'),
        ('raise Fault(*refused)', 'pass')]


def with_bug(old, new):
    """The tool with one edit."""
    with open(os.path.join(tool.TOOLS, 'compare-metadata'), encoding='utf-8') as f:
        text = f.read()
    before, _, rest = text.partition('# ---- the reader\n')
    assert rest.partition('# ---- the documents\n')[0].count(old) == 1, old
    made = types.ModuleType('made')
    exec(compile(before + rest.replace(old, new, 1), 'made', 'exec'), made.__dict__)
    return made


def ran_by(made):
    """What takes the place of a run of the program: the reader of a module."""
    def told(_, script):
        try:
            lines, answers, status = made.read(script)
        except (KeyError, TypeError):
            return [''], 101, ''
        return lines + [answers[0], ''], status, ''
    return told


class Metadata(unittest.TestCase):
    def test_places(self):
        for issuer, first, second in (
                ('https://a.example', '/.well-known/oauth-authorization-server', '/.well-known/openid-configuration'),
                ('https://a.example/i', '/.well-known/oauth-authorization-server/i', '/i/.well-known/openid-configuration'),
                ('https://a.example/b/', '/.well-known/oauth-authorization-server/b', '/b/.well-known/openid-configuration')):
            self.assertEqual([TOOL.place(issuer, it) for it in TOOL.PLACES], ['https://a.example' + it for it in (first, second)])

    def compared(self, told, number):
        """How many documents differ, and the last line."""
        said = io.StringIO()
        with mock.patch.object(TOOL, 'told', told), contextlib.redirect_stdout(said):
            return TOOL.compare('/program', number, 1), said.getvalue().splitlines()[-1]

    def test_a_program_without_a_bug(self):
        self.assertEqual(self.compared(ran_by(TOOL), 500), (0, '500 documents, 0 differences'))

    def test_each_bug_is_seen(self):
        documents = TOOL.Documents(1)
        scripts = [documents.script() for _ in range(2000)]
        for old, new in BUGS:
            with self.subTest('%s for %s' % (new, old)):
                told = ran_by(with_bug(old, new))
                self.assertTrue(any(not TOOL.agrees(script, *told('', script)) for script in scripts))


if __name__ == '__main__':
    unittest.main()
