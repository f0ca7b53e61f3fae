"""What is sent beside the parameters of RFC 6749: the URI of a resource (RFC 8707), a JWT of the client (RFC 7523,
2.2), the tokens of an exchange (RFC 8693), and the assertions of other issuers (RFC 7523, 2.1, and RFC 7522, 2.1)."""
from __future__ import annotations

import argparse
import os
import re
import sys

from . import wire_log
from .endings import BAD_SETTING, Stop, tell
from .settings import asked, secret_in

TYPE_CHECKING = False
if TYPE_CHECKING:  # typing takes a while to load
    from typing import Any, Optional
    Params = dict[str, Any]

# RFC 3986, 4.3: a URI without a fragment.
URI = re.compile(r"[A-Za-z][A-Za-z0-9+.-]*:(?:[A-Za-z0-9:/?\[\]@!$&'()*+,;=._~-]|%[0-9A-Fa-f]{2})*")
JWT = re.compile(r'[A-Za-z0-9_-]+(?:\.[A-Za-z0-9_-]*){2}(?:(?:\.[A-Za-z0-9_-]*){2})?')  # signed or encrypted
# The types of tokens that RFC 8693, 3, names, by the last word of each.
TYPES = ('access_token', 'refresh_token', 'id_token', 'saml1', 'saml2', 'jwt')
TYPE = 'urn:ietf:params:oauth:token-type:'
# The commands of the program that send no request of the client.
WITHOUT_REQUEST = ('authorize', 'redirect', 'id_token', 'access_token')


def uri_of(text: str) -> str:
    if not URI.fullmatch(text):
        raise argparse.ArgumentTypeError('"%s" is no absolute URI without a fragment' % text)
    return text


def type_of(text: str) -> str:
    """The URI of a type of token."""
    if text in TYPES:
        return TYPE + text
    if not URI.fullmatch(text):
        raise argparse.ArgumentTypeError('"%s" is neither %s nor an absolute URI' % (text, ', '.join(TYPES)))
    return text


def type_shown(uri: str) -> str:
    """A type of token as --requested-token-type takes it."""
    word = uri[len(TYPE):]
    return word if word in TYPES and uri == TYPE + word else uri


def of_client(path: Optional[str], command: str) -> Params:
    """The parameter with the client's assertion, if a file has one and the command sends a request."""
    if not path or command in WITHOUT_REQUEST:
        return {}
    text = secret_in(path, '--client-assertion-file')
    wire_log.secrets.add(text)
    if not JWT.fullmatch(text):
        raise Stop('the file of --client-assertion-file has no JWT, so it is not sent', BAD_SETTING)
    return {'client_assertion': text}


# The tokens of an exchange


def of_exchange(given: argparse.Namespace) -> Params:
    """The parameters of RFC 8693, 2.1, but for those that other commands have too."""
    found = {'subject_token': token_of(given.subject_token_file, 'subject'),
             'subject_token_type': given.subject_token_type}
    if given.actor_token_type:
        found.update(actor_token=token_of(given.actor_token_file, 'actor'), actor_token_type=given.actor_token_type)
    elif os.environ.get('OAUTH2_ACTOR_TOKEN'):
        raise Stop('OAUTH2_ACTOR_TOKEN has a token, and --actor-token-type does not say of which type it is',
                   BAD_SETTING)
    if given.requested_token_type:
        found['requested_token_type'] = given.requested_token_type
    return {**found, 'audience': given.audience} if given.audience else found


def token_of(path: Optional[str], whose: str) -> str:
    """The token of the subject or of the actor: that of a file, else of the environment, else a line of standard
    input."""
    if not path:
        return asked('OAUTH2_%s_TOKEN' % whose.upper(), "The %s's token" % whose)
    text = secret_in(path, '--%s-token-file' % whose)
    wire_log.secrets.add(text)
    return text


def check_issued(given: argparse.Namespace, issued: str) -> None:
    """Says if the server has issued a token of another type than the one that was asked for, as it may (RFC 8693,
    2.2.1)."""
    if given.requested_token_type not in (None, issued):
        tell('the token is of the type %s, and not of the type %s'
             % (type_shown(issued), type_shown(given.requested_token_type)))


# The assertion of another issuer


def of_assertion(given: argparse.Namespace) -> Params:
    """The assertion by which a token is asked for. What is neither a JWT nor XML is not sent: it may be the key by
    mistake."""
    text = assertion_of(given)
    wire_log.secrets.add(text)
    if not (JWT.fullmatch(text) if given.kind == 'jwt' else text.lstrip('\ufeff \t\r\n').startswith('<')):
        raise Stop('the assertion is no %s, so it is not sent' % {'jwt': 'JWT', 'saml2': 'XML'}[given.kind],
                   BAD_SETTING)
    return {'kind': given.kind, 'assertion': text}


def assertion_of(given: argparse.Namespace) -> str:
    """The assertion: that of a file, else of the environment, else of standard input. XML there may have several
    lines."""
    if given.assertion_file:
        return secret_in(given.assertion_file, '--assertion-file')
    if given.kind == 'jwt' or os.environ.get('OAUTH2_ASSERTION') or sys.stdin.isatty():
        return asked('OAUTH2_ASSERTION', 'The assertion')
    try:
        text = sys.stdin.buffer.read().decode()
    except ValueError:
        raise Stop('The assertion is not UTF-8', BAD_SETTING)
    except OSError as error:
        raise Stop('The assertion can not be read from standard input: %s' % error.strerror, BAD_SETTING)
    if not text.strip():
        raise Stop('The assertion is missing: OAUTH2_ASSERTION has it, or give it by standard input', BAD_SETTING)
    return text
