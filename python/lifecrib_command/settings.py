"""The settings of a run, from flags, environment and file, and its secrets."""
from __future__ import annotations

import json
import os
import stat
import sys

from . import endings, servers, wire_log
from .endings import BAD_SETTING, Stop, status_at, tell

TYPE_CHECKING = False
if TYPE_CHECKING:  # typing takes a while to load
    import argparse
    from typing import Any, Mapping, Optional
    Settings = dict[str, Any]

LEEWAY = 60  # seconds that two clocks may differ, unless --leeway says otherwise
LOOPBACK = ('localhost', '127.0.0.1', '::1')
URLS = {'auth_url': 'the authorization endpoint', 'token_url': 'the token endpoint',
        'device_url': 'the device authorization endpoint',
        'introspection_url': 'the introspection endpoint', 'revocation_url': 'the revocation endpoint',
        'userinfo_url': 'the UserInfo endpoint',
        'push_url': 'the endpoint to which the parameters of a login are pushed (RFC 9126)',
        'jwks_url': 'where the issuer has its keys (RFC 7517)',
        'redirect': 'where the server sends the user back (with --listen: http://127.0.0.1/ if not given)'}
# The member of an issuer's metadata that has each endpoint (RFC 8414, 2; RFC 8628, 4; RFC 9126, 5; OpenID Connect
# Discovery 1.0, 3).
ENDPOINTS = {'auth_url': 'authorization_endpoint', 'token_url': 'token_endpoint',
             'device_url': 'device_authorization_endpoint',
             'introspection_url': 'introspection_endpoint', 'revocation_url': 'revocation_endpoint',
             'userinfo_url': 'userinfo_endpoint', 'jwks_url': 'jwks_uri',
             'push_url': 'pushed_authorization_request_endpoint'}
# The settings that are texts, each with what it is.
TEXTS = {'client_id': "the client's identifier",
         'server': 'a server that the tool knows, with its endpoints: %s' % ', '.join(servers.SERVERS),
         'auth': 'where the secret goes: basic (a header; the default) or body',
         'issuer': 'the issuer, whose metadata names the endpoints that are not set (RFC 8414)',
         'id_token_issuer': 'the issuer of the ID token of --openid, if it is not --issuer',
         'username': "the user's name", **URLS}
# The settings that are paths of files, each with what it has (RFC 8705, 2; RFC 7523, 2.2).
FILES = {'cacert': 'a file with the certificates of the authorities that are trusted; no others are',
         'client_cert': "a file with the client's certificate, which servers get that ask for one",
         'client_key': 'the file with the key of that certificate, if it is another one',
         'client_assertion_file':
         'a file with a JWT that stands for the client in place of a secret; it is read anew for each request'}
OF_CACHE = 'of_cache'  # which settings the cache gave, since nothing else did
OF_TLS = ('cacert', 'client_cert', 'client_key')
NEEDED = {'login': ('auth_url', 'token_url', 'redirect'), 'token': ('token_url',),
          'password': ('token_url', 'username'),
          'refresh': ('token_url',), 'exchange': ('token_url',), 'assertion': ('token_url',),
          'device': ('device_url', 'token_url'),
          'introspect': ('introspection_url',), 'revoke': ('revocation_url',), 'logout': ('revocation_url',),
          'whoami': ('userinfo_url',),
          'status': (), 'git-credential': (), 'verify-token': ('jwks_url',)}
WITHOUT_CLIENT = ('verify-token',)  # the commands for which no client is registered
# Those that only some commands take, each with the commands that take it and can do without it.
OPTIONAL = {'username': (), 'id_token_issuer': ('login',), **dict.fromkeys(URLS, ()), 'jwks_url': ('login',),
            'push_url': ('login',)}


def takes(command: str, name: str) -> bool:
    """Whether a command takes a setting."""
    if command in WITHOUT_CLIENT:
        return name == 'issuer' or name in OF_TLS or name in NEEDED[command]
    return name not in OPTIONAL or command in OPTIONAL[name] or name in NEEDED[command]


def flag_of(name: str) -> str:
    return '--' + name.replace('_', '-')


# The flags that a user may look for, and what there is in their place: a flag is in the list of processes.
OF_CLIENT = 'OAUTH2_CLIENT_SECRET, --client-secret-file FILE or --ask-secret'
NO_FLAGS = {'--client-secret': OF_CLIENT, '--secret': OF_CLIENT,
            '--password': 'OAUTH2_PASSWORD or a line of standard input',
            '--token': 'OAUTH2_TOKEN or a line of standard input',
            '--refresh-token': 'OAUTH2_REFRESH_TOKEN or a line of standard input',
            '--client-assertion': '--client-assertion-file FILE',
            **{'--%s-token' % it: 'OAUTH2_%s_TOKEN, --%s-token-file FILE or a line of standard input' % (it.upper(), it)
               for it in ('subject', 'actor')},
            '--assertion': 'OAUTH2_ASSERTION, --assertion-file FILE or standard input'}
# What each command sends itself, so that --extra may not: no parameter may come twice (RFC 6749, 3.1 and 3.2).
TO_TOKEN = ('grant_type', 'client_secret')
SENT = {'login': ('response_type', 'client_id', 'redirect_uri', 'state', 'code_challenge', 'code_challenge_method'),
        'token': TO_TOKEN,
        'password': (*TO_TOKEN, 'username', 'password'), 'refresh': (*TO_TOKEN, 'refresh_token'), 'device': TO_TOKEN,
        'exchange': (*TO_TOKEN, 'client_id', 'scope', 'subject_token', 'subject_token_type', 'actor_token',
                     'actor_token_type',
                     'requested_token_type'),
        'assertion': (*TO_TOKEN, 'client_id', 'scope', 'assertion'),
        'introspect': ('client_secret', 'token'), 'revoke': ('client_secret', 'token', 'token_type_hint'),
        'logout': ('client_secret', 'token', 'token_type_hint'), 'whoami': (), 'git-credential': (), 'verify-token': ()}
# What is sent beside that where a setting or flag of the tool asks for it.
OF_ASSERTION = ('client_assertion', 'client_assertion_type')
OF_FLAGS = ('max_age', 'resource', 'audience')


def settings_of(given: argparse.Namespace, kept: Mapping[str, Any]) -> Settings:
    """The settings by name, from flags, environment and file; where those lack one, as the cache has kept it for the
    same issuer."""
    path, found = of_file(given)
    for name in (*TEXTS, *FILES, 'client_secret'):
        found[name] = getattr(given, name, None) or os.environ.get('OAUTH2_' + name.upper()) or found.get(name)
        if not isinstance(found[name], (str, type(None))):
            raise Stop('%s: "%s" is no text' % (path, name), BAD_SETTING)
        if '\0' in (found[name] or ''):
            raise Stop('%s: "%s" has the character U+0000, which no setting can have' % (path, name), BAD_SETTING)
    own = {name for name in TEXTS if found[name]}
    found[OF_CACHE] = set()
    for name in kept.keys() & TEXTS.keys():
        if not found[name] and (name not in ENDPOINTS or found['issuer'] in (None, kept['issuer'])):
            found[name] = kept[name]
            found[OF_CACHE].add(name)
    servers.fill(found)
    found['scopes'] = getattr(given, 'scope', None) or scopes_of_environment() or found.get('scopes') or []
    if not isinstance(found['scopes'], list) or not all(isinstance(it, str) for it in found['scopes']):
        raise Stop('%s: "scopes" is no list of texts' % path, BAD_SETTING)
    found['scopes'] = ' '.join(found['scopes']).split()  # a scope has no space (RFC 6749, 3.3)
    if given.openid:
        check_openid(found)
    if given.command in WITHOUT_CLIENT and not found['issuer']:
        raise Stop('the issuer of the token is not set: give --issuer', BAD_SETTING)
    if getattr(given, 'listen', None) is not None and not found['redirect']:
        found['redirect'] = 'http://127.0.0.1/'
    check_extra(given, found)
    # logout makes them usable itself: it forgets a token whether or not the server can be asked
    if given.command != 'logout':
        make_usable(given, found, own)
    return found


def make_usable(given: argparse.Namespace, found: Settings, own: Optional[set[str]] = None) -> None:
    """Reads the file of the client's secret, if there is one. Stops at a setting that can't be used. own has the names
    of those that are given; None: all that there are."""
    take_secret(given, found)
    check(given, found, {name for name in TEXTS if found[name]} if own is None else own)


def of_file(given: argparse.Namespace) -> tuple[Optional[str], Settings]:
    """The path of the file of settings, if there is one, and what it has."""
    path = given.config or os.environ.get('OAUTH2_CONFIG')
    if given.of_profile:
        return given.of_profile.path, dict(given.of_profile.members)
    if path and not is_of_profiles(path):
        return path, read_file(path)
    return path, {}


def take_secret(given: argparse.Namespace, found: Settings) -> None:
    """Reads the file of the client's secret, where that is to be used."""
    if given.client_secret_file:
        found['client_secret'] = secret_in(given.client_secret_file, '--client-secret-file')
    elif found.get('client_secret_file') and not found['client_secret'] and not given.ask_secret:
        found['client_secret'] = secret_in(found['client_secret_file'], '"client_secret_file"')
    elif os.environ.get('OAUTH2_CLIENT_SECRET') == '' and not found['client_secret'] and not given.ask_secret:
        tell('OAUTH2_CLIENT_SECRET is empty, so no secret is sent')


def scopes_of_environment() -> list[str]:
    return (os.environ.get('OAUTH2_SCOPES') or os.environ.get('OAUTH2_SCOPE') or '').split()


def is_of_profiles(path: str) -> bool:
    """Whether a file of settings is one of profiles; the others are JSON."""
    return path.endswith('.toml')


def secret_in(path: str, label: str) -> str:
    """The secret that a file has, as one that is mounted. Its path is not shown, since it may be the secret by
    mistake."""
    try:
        with open(path, encoding='utf-8', newline='') as f:
            text = f.read()
    except OSError as error:
        raise Stop('the file of %s can not be read: %s' % (label, error.strerror), status_at(error))
    except ValueError:
        raise Stop('the file of %s is not UTF-8' % label, BAD_SETTING)
    text = text[:-1] if text.endswith('\n') else text
    if not text:
        raise Stop('the file of %s is empty' % label, BAD_SETTING)
    return text


def issuer_of(settings: Mapping[str, Any]) -> tuple[str, str]:
    """The issuer whose ID token is taken, and the setting that says so."""
    name = 'id_token_issuer' if settings['id_token_issuer'] else 'issuer'
    return settings[name], name


def pushes(given: argparse.Namespace, found: Mapping[str, Any]) -> bool:
    """Whether the settings say that the parameters of a login are pushed (RFC 9126)."""
    return given.command == 'login' and bool(given.push or found['push_url'])


def needed_of(given: argparse.Namespace, found: Mapping[str, Any]) -> tuple[str, ...]:
    """What a run needs beside the client."""
    needed = NEEDED[given.command]
    return (*needed, 'push_url') if pushes(given, found) else needed


def missing_of(given: argparse.Namespace, found: Mapping[str, Any]) -> list[str]:
    """What a run needs and no setting has, unless the issuer's metadata may have it."""
    needed = needed_of(given, found)
    if given.command not in WITHOUT_CLIENT:
        needed = ('client_id', *needed)
    return [name for name in needed if not found[name] and (not found['issuer'] or name not in ENDPOINTS)]


# What can be given in the place of a setting.
OR = {**dict.fromkeys(ENDPOINTS, '; or --issuer, to discover it'),
      'redirect': '; or --listen, to receive the redirect on this machine'}


def check_complete(given: argparse.Namespace, found: Mapping[str, Any], path: Optional[str] = None) -> None:
    """Stops where a setting that a command needs is missing. path is that of a cache that has no token yet."""
    for name in missing_of(given, found):
        first = ''
        if path and given.command in ('token', 'refresh'):
            first = ('there is no token in %s yet: sign in first, by %s login %s; or ask for one here: '
                     % (path, endings.command, given.place))
        file = given.of_profile.path if given.of_profile else 'the file that --config names'
        raise Stop('%s%s is not set: give %s, OAUTH2_%s, or "%s" in %s%s'
                   % (first, TEXTS[name].partition(' (with')[0], flag_of(name), name.upper(), name, file,
                      OR.get(name, '')), BAD_SETTING)


def check(given: argparse.Namespace, found: Mapping[str, Any], own: set[str]) -> None:
    """Stops at a setting of a command that can't be used. own has the names of those that are given; the others come
    from a table, or from a cache, where they were checked before."""
    needed = needed_of(given, found)
    names = [*needed, 'issuer'] if any(not found[it] for it in needed) else needed
    for name in names:
        if name in own and (name in URLS or name == 'issuer'):
            check_url(name, found[name], flag_of(name))
    if found['auth'] not in (None, 'basic', 'body'):
        raise Stop('--auth is "%s": it has to be basic or body' % found['auth'], BAD_SETTING)
    has_secret = bool(found['client_secret'] or given.ask_secret)
    if given.command not in WITHOUT_CLIENT and found['client_assertion_file'] and has_secret:
        raise Stop('there are a secret of the client and --client-assertion-file: a client shows one of both (RFC '
                   '6749, 2.3), so leave the '
                   'other out', BAD_SETTING)


def check_extra(given: argparse.Namespace, found: Mapping[str, Any]) -> None:
    """Stops at a further parameter that the command sends itself."""
    for name, _ in given.extra or ():
        if name in sent_by(given, found):
            raise Stop('--extra %s: the tool sends that parameter itself' % name, BAD_SETTING)


def sent_by(given: argparse.Namespace, found: Mapping[str, Any]) -> set[str]:
    """The parameters that a command sends itself."""
    sent = {*SENT[given.command], *(name for name in OF_FLAGS if getattr(given, name, None) is not None)}
    if found['scopes']:
        sent.add('scope')
    if given.openid:
        sent.add('nonce')
    if getattr(given, 'hint', None):
        sent.add('token_type_hint')
    if found['client_assertion_file']:
        sent.update(OF_ASSERTION)
    if found['auth'] == 'body' or not (found['client_secret'] or given.ask_secret):
        sent.add('client_id')  # else the header has it
    if pushes(given, found):
        sent.add('request_uri')
    return sent


def check_openid(found: Settings) -> None:
    """Adds the scope of OpenID Connect. Stops where no setting says whose ID token is taken."""
    if 'openid' not in found['scopes']:
        found['scopes'] = ['openid', *found['scopes']]
    if not (found['issuer'] or found['id_token_issuer']):
        raise Stop('the issuer of the ID token is not set: give --issuer; or --id-token-issuer, if no endpoint is to '
                   'be discovered',
                   BAD_SETTING)


def check_url(name: str, text: str, label: str, status: int = BAD_SETTING) -> None:
    """Stops at a text that is no URL, or one of an endpoint to which a secret would go unencrypted. The label says
    which text it is."""
    import urllib.parse

    from .addresses import has_login
    scheme, hostname, is_url = '', None, False
    try:
        url = urllib.parse.urlsplit(text)
        scheme, hostname = url.scheme, url.hostname
        is_url = bool(scheme and (name == 'redirect' or hostname and url.port != 0))
    except ValueError:
        pass
    if has_login(text):
        raise Stop('%s has a user or a password in it, which is not sent: leave it out' % label, status)
    if not is_url or name != 'redirect' and scheme not in ('https', 'http'):
        raise Stop('%s is "%s", which is no URL: it has to be whole, as https://server.example/path' % (label, text),
                   status)
    if scheme == 'http' and hostname not in LOOPBACK and name != 'redirect':
        raise Stop('%s is %s, where secrets would go unencrypted: give an https URL (http is taken for this machine '
                   'alone)'
                   % (label, text), status)
    if scheme == 'http' and name in ('revocation_url', ENDPOINTS['revocation_url']):
        raise Stop('%s is %s: revocation takes https alone, also on this machine' % (label, text), status)


def read_file(path: str) -> Settings:
    """The members of the file of settings."""
    try:
        with open(path, encoding='utf-8') as f:
            found, mode = json.load(f), os.fstat(f.fileno()).st_mode
    except FileNotFoundError:
        raise Stop('the file of settings %s does not exist (--config, OAUTH2_CONFIG)' % path, BAD_SETTING)
    except OSError as error:
        raise Stop('the file of settings %s can not be read: %s' % (path, error.strerror), status_at(error))
    except (ValueError, RecursionError) as error:
        raise Stop('the file of settings %s can not be read as JSON: %s' % (path, error), BAD_SETTING)
    if not isinstance(found, dict):
        raise Stop('%s has to hold one JSON object, as {"client_id": "..", "token_url": ".."}' % path, BAD_SETTING)
    unknown = found.keys() - TEXTS.keys() - FILES.keys() - {'client_secret', 'scopes'}
    if unknown:
        raise Stop('%s: "%s" is no setting: there are client_secret, scopes, %s'
                   % (path, sorted(unknown)[0], ', '.join((*TEXTS, *FILES))),
                   BAD_SETTING)
    if 'client_secret' in found and mode & (stat.S_IRGRP | stat.S_IROTH):
        tell('%s holds a secret, and others can read it: chmod 600 %s' % (path, path))
    return found


def asked(variable: Optional[str], what: str) -> str:
    """A secret from the environment, or a line that is read: from a terminal without showing it."""
    text = os.environ.get(variable or '') or read_line(variable, what)
    wire_log.secrets.add(text)
    return text


def read_line(variable: Optional[str], what: str) -> str:
    """A secret that is read from standard input."""
    try:
        text = line_of_input(what + ': ').decode('utf-8')
    except ValueError:
        raise Stop('%s is not UTF-8' % what, BAD_SETTING)
    except OSError as error:
        raise Stop('%s can not be read from standard input: %s' % (what, error.strerror), BAD_SETTING)
    if not text:
        by = '%s has it, or ' % variable if variable else ''
        raise Stop('%s is missing: %sgive it as a line of standard input' % (what, by), BAD_SETTING)
    return text


def line_of_input(prompt: str) -> bytes:
    """The bytes of a line of standard input; one that is typed is not shown."""
    if sys.stdin.isatty():
        from . import terminal
        return terminal.line_of(sys.stdin.fileno(), prompt)
    return sys.stdin.buffer.readline().rstrip(b'\r\n')
