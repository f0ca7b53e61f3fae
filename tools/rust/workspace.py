"""Builds a program over the Rust crate `oauth2`, for tools/compare-with-rust and tools/bench.

No line of that crate is in this repository. The user names the folder of its sources, and they are copied into out/rust, which git
ignores, beside manifests, the programs of this folder and, where cargo takes Debian's packages, two crates that stand in for newer ones.
README.md says what to install.
"""
import os
import subprocess
import sys

import repository

HERE = os.path.dirname(os.path.abspath(__file__))
OUT = os.path.join(repository.ROOT, 'out', 'rust')
VARIABLE = 'OAUTH2_RUST'
DEBIAN = '/usr/share/cargo/registry'

CONFIG = '''[source.crates-io]
replace-with = "debian"
[source.debian]
directory = "%s"
''' % DEBIAN

WORKSPACE = '''[workspace]
resolver = "2"
members = ["oauth2", "programs"]
'''

# The Rust crate, with the two features whose names this repository has always.
CRATE = '''[package]
name = "oauth2"
version = "5.0.0"
edition = "2021"
[features]
default = ["pkce-plain", "timing-resistant-secret-traits"]
pkce-plain = []
timing-resistant-secret-traits = []
[lints.rust]
mismatched_lifetime_syntaxes = "allow"
unexpected_cfgs = "allow"
[dependencies]
base64 = {base64}
chrono = {chrono}
http = {http}
rand = "0.8"
serde = {{ version = "1", features = ["derive"] }}
serde_json = "1"
serde_path_to_error = "0.1"
sha2 = "0.10"
thiserror = "1"
url = {{ version = "2", features = ["serde"] }}
'''

PROGRAMS = '''[package]
name = "programs"
version = "0.0.0"
edition = "2021"
[[bin]]
name = "driver"
path = "driver.rs"
[[bin]]
name = "operations"
path = "operations.rs"
[dependencies]
base64 = {base64}
chrono = {chrono}
form_urlencoded = "1"
oauth2 = {{ path = "../oauth2" }}
percent-encoding = "2"
serde = "1"
serde_json = "1"
serde_path_to_error = "0.1"
'''

# A crate that stands in for a newer one than Debian has.
STAND_IN = '''[package]
name = "{name}"
version = "{version}"
edition = "2021"
[lib]
path = "lib.rs"
[dependencies]
{below}
serde = "1"
'''
CLOCK = 'default-features = false, features = ["clock", "serde", "std"]'
STAND_INS = {
    'base64': ('0.22.999', 'base64_013 = { package = "base64", version = "0.13" }'),
    'chrono': ('0.4.999', 'chrono_0423 = { package = "chrono", version = "=0.4.23", %s }' % CLOCK),
}
FROM_DEBIAN = {'base64': '{ path = "../base64" }', 'chrono': '{ path = "../chrono" }', 'http': '"0.2"'}
FROM_CRATES_IO = {'base64': '"0.22"', 'chrono': '{ version = "0.4.31", %s }' % CLOCK, 'http': '"1"'}


def sources(folder):
    """The files of the crate's `src`: their bytes by their path there. The folder is the crate, its `src`, or a flat copy, in which a file
    is named by its path, with `--` for each `/` and perhaps `.txt` behind it."""
    top, found = os.path.join(folder, 'src'), {}
    if not os.path.exists(os.path.join(top, 'lib.rs')):
        top = folder
    for at, _, names in os.walk(top):
        for name in names:
            path = os.path.relpath(os.path.join(at, name), top).replace('--', '/').removesuffix('.txt').rpartition('src/')[2]
            if path.endswith('.rs') and not path.startswith('tests'):
                with open(os.path.join(at, name), 'rb') as f:
                    found[path] = f.read()
    return found


def read(*path):
    with open(os.path.join(*path), 'rb') as f:
        return f.read()


def put(folder, path, content):
    """Writes a file of a folder, unless it is so already: cargo builds what has changed."""
    path, content = os.path.join(folder, path), content.encode() if isinstance(content, str) else content
    if not os.path.exists(path) or read(path) != content:
        os.makedirs(os.path.dirname(path), exist_ok=True)
        with open(path, 'wb') as f:
            f.write(content)


def lay_out(crate, is_debian):
    """Writes the workspace of the crate's sources into out/rust."""
    where, config = FROM_DEBIAN if is_debian else FROM_CRATES_IO, os.path.join(OUT, '.cargo', 'config.toml')
    if is_debian:
        put(OUT, config, CONFIG)
        for name, (version, below) in STAND_INS.items():
            put(OUT, name + '/Cargo.toml', STAND_IN.format(name=name, version=version, below=below))
            put(OUT, name + '/lib.rs', read(HERE, name + '.rs'))
    elif os.path.exists(config):
        os.remove(config)
    put(OUT, 'Cargo.toml', WORKSPACE)
    put(OUT, 'oauth2/Cargo.toml', CRATE.format(**where))
    put(OUT, 'programs/Cargo.toml', PROGRAMS.format(**where))
    for path, content in crate.items():
        put(OUT, 'oauth2/src/' + path, content)
    for name in ('driver.rs', 'operations.rs'):
        put(OUT, 'programs/' + name, read(HERE, name))


def fail(why):
    print('the Rust side was not built: %s; tools/rust/README.md says what to install' % why, file=sys.stderr)
    sys.exit(2)


def cargo(workspace, program, is_debian):
    """Builds a program of the workspace in that folder: its path. Ends the tool with the status 2 where it can't be built."""
    command = ['cargo', 'build', '--quiet', '--release', '--bin', program] + ['--offline'] * is_debian
    try:
        status = subprocess.run(command, cwd=workspace, stdout=sys.stderr).returncode
    except OSError:
        fail('cargo does not run here')
    if status:
        fail('cargo ended with the status %d' % status)
    return os.path.join(workspace, 'target', 'release', program)


def build(folder, program):
    """Builds one of the programs over the crate in that folder: its path. Ends the tool with the status 2 where it can't be built."""
    crate, is_debian = sources(folder), os.path.isdir(DEBIAN)
    if 'lib.rs' not in crate:
        fail('%s has no src/lib.rs' % folder)
    lay_out(crate, is_debian)
    return cargo(OUT, program, is_debian)


def add_argument(parser):
    """The argument by which a tool takes the folder of the crate."""
    parser.add_argument('--rust', metavar='FOLDER', default=os.environ.get(VARIABLE),
                        help="the Rust crate's sources (else what %s says)" % VARIABLE)
