"""Programs that do by other clients what this repository does, for tools/bench. They are built in out/, which git ignores.

Go's net/http (go/exchanges.go) and ureq (rust/exchanges.rs) exchange a code for a token over a connection in memory. Each takes a number,
makes the exchange so often, and prints the last request as it was written and the body of its reply.

Both also ask an introspection endpoint over real connections (go/introspections.go, rust/introspections.rs), for tools/bench-introspections.

Go's golang.org/x/oauth2 (go/operations.go) and Authlib (authlib_operations.py) do operations of oauth2_bench, with its arguments and
output. Each checks its last request and what it read.
"""
import collections
import os
import re
import shutil
import subprocess

import authlib_checks
import repository
from rust import workspace

OUT = os.path.join(repository.ROOT, 'out', 'clients')
UREQ = '''[package]
name = "exchanges"
version = "0.0.0"
edition = "2021"
[[bin]]
name = "exchanges"
path = "exchanges.rs"
[dependencies]
ureq = { version = "2", default-features = false }
'''
UREQ_INTROSPECTIONS = UREQ.replace('exchanges', 'introspections') + '''base64 = "0.13"
serde = { version = "1", features = ["derive"] }
serde_json = "1"
'''

TOOLS = os.path.join(repository.ROOT, 'tools')
GO_PATH = '/usr/share/gocode'  # where Debian puts the sources of Go's packages
X_OAUTH2 = 'golang-golang-x-oauth2-dev'
WHICH_AUTHLIB = 'import authlib, platform, requests; print("Authlib %s (Python %s)" % (authlib.__version__, platform.python_version()))'

# A client's name with its version, and the command that calls it.
Client = collections.namedtuple('Client', 'name command')


def output(*command):
    return subprocess.run(command, capture_output=True, text=True, check=True).stdout


def go_program(name):
    """A program of the folder go, and Go's version."""
    program = os.path.join(OUT, 'go', name)
    settings = dict(os.environ, CGO_ENABLED='0', GO111MODULE='off', GOPATH=GO_PATH, GOCACHE=os.path.join(OUT, 'go', 'cache'))
    subprocess.run(['go', 'build', '-o', program, os.path.join(TOOLS, 'go', name + '.go')], check=True, env=settings)
    return program, output('go', 'version').split()[2]


def go():
    """Go's net/http."""
    program, version = go_program('exchanges')
    return Client("Go's `net/http` (%s)" % version, [program])


def x_oauth2():
    """Go's golang.org/x/oauth2, as Debian has it."""
    program, version = go_program('operations')
    package = output('dpkg-query', '-W', '-f', '${Version}', X_OAUTH2)
    return Client("Go's `x/oauth2` %s (%s)" % (package.partition('-')[0], version), [program])


def authlib():
    """Authlib, by the first Python that has it and `requests`; None if there is none."""
    for python in dict.fromkeys(authlib_checks.PYTHONS):
        try:
            return Client(output(python, '-c', WHICH_AUTHLIB).rstrip(), [python, '-B', os.path.join(TOOLS, 'authlib_operations.py')])
        except (OSError, subprocess.CalledProcessError):
            continue
    return None


def ureq_program(name, manifest):
    """A program of the folder rust over ureq, and ureq's version."""
    folder, is_debian = os.path.join(OUT, 'ureq-' + name), os.path.isdir(workspace.DEBIAN)
    if is_debian:
        workspace.put(folder, '.cargo/config.toml', workspace.CONFIG)
    workspace.put(folder, 'Cargo.toml', manifest)
    workspace.put(folder, name + '.rs', workspace.read(workspace.HERE, name + '.rs'))
    program = workspace.cargo(folder, name, is_debian)
    return program, re.search(r'name = "ureq"\nversion = "(.*)"', workspace.read(folder, 'Cargo.lock').decode()).group(1)


def ureq():
    """The Rust crate ureq, which opens a TCP connection that it then does not use."""
    program, version = ureq_program('exchanges', UREQ)
    return Client('`ureq` %s' % version, [program])


def ureq_introspections():
    return ureq_program('introspections', UREQ_INTROSPECTIONS)


def exchanges():
    """The clients of HTTP whose compilers are installed."""
    return [build() for compiler, build in (('go', go), ('cargo', ureq)) if shutil.which(compiler)]


def operations():
    """The clients of OAuth 2.0 that are installed, each with how many times the iterations of tools/bench are counted of it. Go's collector
    runs once in some hundred operations."""
    found = [(x_oauth2(), 50)] if shutil.which('go') and os.path.isdir(GO_PATH + '/src/golang.org/x/oauth2') else []
    return found + [(it, 1) for it in [authlib()] if it]


def exchange_of(out):
    """What a program prints: the line of the request, its fields with names in lower case and in the order of the names, the two bodies."""
    head, _, bodies = out.partition(b'\r\n\r\n')
    line, *fields = head.split(b'\r\n')
    return line, sorted((name.lower(), value) for name, _, value in (it.partition(b': ') for it in fields)), bodies
