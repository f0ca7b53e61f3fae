"""Packages of Debian that have the C library, for tools/package-c: liblifecrib0 to run programs with it, liblifecrib-dev to compile them."""
from __future__ import annotations

import gzip
import hashlib
import os
import shutil
import subprocess
import tempfile
from typing import NamedTuple

import c_library
import packages
import repository
import version

SOURCE, RUN, DEV = 'lifecrib', 'liblifecrib0', 'liblifecrib-dev'
LIB = 'usr/lib/x86_64-linux-gnu/'
MAINTAINER = 'Lifecrib maintainers <maintainers@users.noreply.lifecrib.example>'
NODE, FUNCTIONS = 'LIFECRIB_0', c_library.EXPORTS  # as c/exports.map has them
EPOCH, DATE = '315532800', 'Tue, 01 Jan 1980 00:00:00 +0000'  # so that the same files make the same package
CHANGELOG = '''%s (%s) unstable; urgency=medium

  * The C library, its header and its examples.

 -- %s  %s
''' % (SOURCE, version.VERSION, MAINTAINER, DATE)
SYMBOLS = ''.join(['liblifecrib.so.0 %s #MINVER#\n' % RUN,
                   *(' %s@%s %s\n' % (it, NODE, version.VERSION) for it in sorted((NODE, *FUNCTIONS)))])
PKG_CONFIG = '''prefix=/usr
libdir=${prefix}/lib/x86_64-linux-gnu
Name: lifecrib
Description: OAuth 2.0 requests and replies, by scripts
Version: %s
Cflags: -I${prefix}/include
Libs: -L${libdir} -llifecrib
''' % version.VERSION
ABOUT = ''' The library builds the requests of an OAuth 2.0 client and reads their
 replies: RFC 6749, PKCE, devices, token exchange, introspection, revocation,
 and logins with OpenID Connect. It opens no connection and keeps nothing
 between calls. A function takes a script in JSON and gives the result of
 its run as JSON or as lines.
'''


class Deb(NamedTuple):
    """A package: its name, its files and links by their paths, the fields and the description of its control file, and the other files
    beside that."""

    name: str
    files: dict[str, bytes]
    links: dict[str, str]
    fields: list[str]
    description: str
    control: dict[str, str]


def runtime(library: bytes) -> Deb:
    """The package that a program needs to run, of the bytes of the shared library."""
    needs = 'libc6 (>= %d.%d)' % (packages.glibc_of(library) or (2, 17))
    fields = ['Section: libs', 'Depends: ' + needs]
    control = {'shlibs': 'liblifecrib 0 %s (>= %s)\n' % (RUN, version.VERSION), 'symbols': SYMBOLS,
               'triggers': 'activate-noawait ldconfig\n'}
    about = 'OAuth 2.0 requests and replies for programs in C, shared library\n' + ABOUT
    return Deb(RUN, {LIB + c_library.SONAME: library, **documents(RUN)}, {}, fields, about, control)


def development(archive: bytes, texts: dict[str, bytes]) -> Deb:
    """The package that a program needs to be compiled, of the bytes of the static library and of the page and the examples by their names."""
    files = {'usr/include/lifecrib.h': packages.read(os.path.join(c_library.C, 'lifecrib.h')), LIB + 'liblifecrib.a': archive,
             LIB + 'pkgconfig/lifecrib.pc': PKG_CONFIG.encode(), **documents(DEV)}
    files.update({'usr/share/doc/%s/%s' % (DEV, name): text for name, text in texts.items()})
    about = ('OAuth 2.0 requests and replies for programs in C, development files\n' + ABOUT +
             ' .\n This package has the header, the static library and examples.\n')
    fields = ['Section: libdevel', 'Depends: %s (= %s)' % (RUN, version.VERSION)]
    return Deb(DEV, files, {LIB + 'liblifecrib.so': c_library.SONAME}, fields, about, {})


def documents(name: str) -> dict[str, bytes]:
    """What each package has to have: whose it is, under which licence, and what changed."""
    at = 'usr/share/doc/%s/' % name
    return {at + 'copyright': rights().encode(), at + 'changelog.gz': gzip.compress(CHANGELOG.encode(), 9, mtime=0)}


def rights() -> str:
    """The file `copyright`. Debian has the Apache License in a place of its own."""
    own, terms = packages.read(os.path.join(repository.ROOT, 'LICENSE-MIT')).decode().split('\n\n', 1)
    lines = [' ' + (line or '.') for line in terms.rstrip('\n').split('\n')]
    return '\n'.join(['Format: https://www.debian.org/doc/packaging-manuals/copyright-format/1.0/', 'Upstream-Name: ' + SOURCE, '',
                      'Files: *', 'Copyright: ' + own.partition(') ')[2], 'License: Apache-2.0 or Expat', '',
                      'License: Apache-2.0', ' On Debian systems, the text of the Apache License, version 2.0, is in',
                      ' /usr/share/common-licenses/Apache-2.0.', '', 'License: Expat', *lines, ''])


def write(it: Deb, to: str) -> str:
    """Writes a package into a folder: its path. ValueError where that can't be done."""
    if not shutil.which('dpkg-deb'):
        raise ValueError('there is no dpkg-deb here, which a .deb needs')
    size = sum(-(-len(text) // 1024) for text in it.files.values())
    lines = ['Package: ' + it.name, 'Source: ' + SOURCE, 'Version: ' + version.VERSION, 'Architecture: amd64', 'Multi-Arch: same',
             'Maintainer: ' + MAINTAINER, 'Installed-Size: %d' % size, *it.fields, 'Priority: optional',
             'Description: ' + it.description.rstrip('\n')]
    sums = ''.join('%s  %s\n' % (hashlib.md5(it.files[name]).hexdigest(), name) for name in sorted(it.files))
    path = os.path.join(to, '%s_%s_amd64.deb' % (it.name, version.VERSION))
    with tempfile.TemporaryDirectory() as room:
        for name, text in {'control': '\n'.join(lines) + '\n', 'md5sums': sums, **it.control}.items():
            packages.put(os.path.join(room, 'DEBIAN', name), text.encode(), False)
        for name, text in it.files.items():
            packages.put(os.path.join(room, name), text, False)
        for name, target in it.links.items():
            os.symlink(target, os.path.join(room, name))
        for at, _, _ in os.walk(room):
            os.chmod(at, 0o755)
        words = ['dpkg-deb', '-Zxz', '--root-owner-group', '--build', room, path]
        # with one thread, since the number of threads decides how xz cuts the text
        environment = dict(os.environ, SOURCE_DATE_EPOCH=EPOCH, DPKG_DEB_THREADS_MAX='1')
        run = subprocess.run(words, env=environment, capture_output=True, text=True)
    if run.returncode:
        raise ValueError(run.stderr.strip())
    return path
