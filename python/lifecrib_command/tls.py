"""TLS as the user wants it: which servers are trusted, and the client's certificate (RFC 8705)."""
from __future__ import annotations

import functools
import os
import ssl
import stat
from typing import Optional

from .endings import BAD_SETTING, Stop, status_at, tell

# The files that the settings name, with what each is called to the user.
cacert: Optional[str] = None
client_cert: Optional[str] = None
client_key: Optional[str] = None


def use(trusted: Optional[str], cert: Optional[str], key: Optional[str]) -> None:
    """Takes these files from now on. Stops at one that can't be used."""
    global cacert, client_cert, client_key
    cacert, client_cert, client_key = trusted, cert, key
    if key and not cert:
        raise Stop('--client-key goes with --client-cert', BAD_SETTING)
    if trusted or cert:
        context()


@functools.lru_cache(maxsize=None)
def context() -> ssl.SSLContext:
    """The TLS settings, with the certificates that are trusted, and the client's own."""
    if cacert:
        found = ssl.SSLContext(ssl.PROTOCOL_TLS_CLIENT)
        trust(found, cacert, '--cacert')
    else:
        found = ssl.create_default_context()
        trust(found, os.environ.get('SSL_CERT_FILE'), 'SSL_CERT_FILE')
    if client_cert:
        show(found, client_cert, client_key)
    return found


def trust(to: ssl.SSLContext, path: Optional[str], label: str) -> None:
    """Trusts the certificates of a file, if one is named."""
    if not path:
        return
    try:
        to.load_verify_locations(path)
    except ssl.SSLError:
        raise Stop('%s is %s, which has no certificates' % (label, path), BAD_SETTING)
    except OSError as error:
        raise Stop('%s is %s, which can not be read: %s' % (label, path, error.strerror),
                   status_at(error))


def show(by: ssl.SSLContext, cert: str, key: Optional[str]) -> None:
    """Has servers that ask for a certificate get this one."""
    path = key or cert
    label = '--client-key' if key else '--client-cert'
    for it in (cert, path):
        readable(it, '--client-cert' if it == cert else label)
    try:
        by.load_cert_chain(cert, key, password=no_password)
    except ssl.SSLError as error:
        raise Stop(why_no_pair(error, cert, path), BAD_SETTING)
    if os.stat(path).st_mode & (stat.S_IRGRP | stat.S_IROTH):
        tell('others can read the key %s: chmod 600 %s' % (path, path))


def readable(path: str, label: str) -> None:
    try:
        with open(path, 'rb'):
            pass
    except OSError as error:
        raise Stop('%s is %s, which can not be read: %s' % (label, path, error.strerror),
                   status_at(error))


def no_password() -> bytes:
    """Is asked for where a key is encrypted; else OpenSSL would ask the terminal."""
    return b''


def why_no_pair(error: ssl.SSLError, cert: str, key: str) -> str:
    if error.reason == 'KEY_VALUES_MISMATCH':
        return 'the key %s is not that of the certificate %s (--client-cert, --client-key)' % (key, cert)
    return ('%s and %s can not be used: there has to be a certificate and a key that is not encrypted, '
            'both as PEM (--client-cert, --client-key)' % (cert, key))
