"""What the packages of the command and of the Python package have in them, and how they are written; for tools/package."""
from __future__ import annotations

import base64
import gzip
import hashlib
import os
import re
import shutil
import subprocess
import sys
import tempfile
import zipfile
from typing import NamedTuple, Optional

import program
import repository
import version

sys.path.append(repository.PYTHON)
import manual
from lifecrib_command import endings, flags, main

NAME = 'lifecrib'
TIME = (1980, 1, 1, 0, 0, 0)  # of each file, so that the same files make the same package
ABOUT = 'tokens of OAuth 2.0 from the command line'
ABOUT_WHEEL = 'an OAuth 2.0 client over a proved library, and its command'
LICENSES = ('LICENSE', 'LICENSE-APACHE', 'LICENSE-MIT')
PYTHON = (3, 9)
# The Python packages: the one that programs import, the library that it loads, and the command.
LIBRARY, COMMAND = 'liblifecrib.so', 'lifecrib_command'
EXTRAS = {'redis': 'redis', 'requests': 'requests', 'httpx': 'httpx', 'aiohttp': 'aiohttp'}
STARTER = '''#!/usr/bin/python3 -I
import sys

sys.dont_write_bytecode = True  # it was compiled when the package was installed
sys.path.insert(0, '/usr/lib/lifecrib')
from lifecrib_command.__main__ import main

main()
'''


# What dpkg runs once the package is unpacked, and before it is removed: Debian's Python compiles the modules, and removes that.
SCRIPTS = {'postinst': '#!/bin/sh\nset -e\nif command -v py3compile >/dev/null; then py3compile -p lifecrib /usr/lib/lifecrib; fi\n',
           'prerm': '#!/bin/sh\nset -e\nif command -v py3clean >/dev/null; then py3clean -p lifecrib; fi\n'}


class Program(NamedTuple):
    """A program or a library that goes into a package: its name there, its path, and the record of a proved one."""

    name: str
    path: str
    proved: Optional[str] = None


class Contents(NamedTuple):
    """The files of the command and of the Python package by their names, those beside them, and the libc that programs and library need."""

    command: dict[str, bytes]
    python: dict[str, bytes]
    licenses: dict[str, bytes]
    page: bytes
    man_page: bytes
    bash: bytes
    zsh: bytes
    glibc: Optional[tuple[int, int]]


def contents(programs: list[Program], library: Optional[Program] = None) -> Contents:
    """What a package has that is made with these programs, and with this shared library if there is one."""
    command, python = {**sources(COMMAND), **files_of(programs)}, sources(NAME)
    if library:
        python.update(files_of([library]))
    licenses = {name: read(os.path.join(repository.ROOT, name)) for name in LICENSES}
    page = read(os.path.join(repository.ROOT, 'docs', 'TOOL.md'))
    built = [*programs, library] if library else programs
    libcs = [libc for libc in (glibc_of(read(it.path)) for it in built) if libc]
    return Contents(command, python, licenses, page, *manuals(), max(libcs, default=None))


def files_of(programs: list[Program]) -> dict[str, bytes]:
    """Programs by their names, each with its record."""
    records = {it.name + '.proved': it.proved.encode() for it in programs if it.proved}
    return {**{it.name: read(it.path) for it in programs}, **records}


def sources(package: str) -> dict[str, bytes]:
    """The sources of a Python package."""
    folder = os.path.join(repository.PYTHON, package)
    names = sorted(it for it in os.listdir(folder) if it.endswith('.py') or it == 'py.typed')
    return {name: read(os.path.join(folder, name)) for name in names}


def is_program(name: str) -> bool:
    """Whether a file of a package is a program."""
    return os.path.basename(name) in (program.NAME, program.KEEPER)


def read(path: str) -> bytes:
    with open(path, 'rb') as f:
        return f.read()


def manuals() -> tuple[bytes, bytes, bytes]:
    """The man page, and the completion of bash and of zsh."""
    doc = main.__doc__ or ''
    before, endings.command = endings.command, NAME
    try:
        parser, commands = flags.parser_of(doc)
        return (manual.man_page(NAME, version.VERSION, flags.in_package(doc), parser, commands).encode(),
                manual.bash(NAME, parser, commands).encode(), manual.zsh(NAME, parser, commands).encode())
    finally:
        endings.command = before


def glibc_of(text: bytes) -> Optional[tuple[int, int]]:
    """The oldest glibc with which a program runs, by the versions that it names; None if it is a script."""
    if not text.startswith(b'\x7fELF'):
        return None
    found = re.findall(rb'\0GLIBC_([0-9]+)\.([0-9]+)(?:\.[0-9]+)?(?=\0)', text)
    return max([(int(one), int(two)) for one, two in found], default=(2, 17))


# The wheel (PEP 427, PEP 600)


def wheel(it: Contents, to: str) -> str:
    """Writes the wheel into a folder: its path."""
    tag = 'py3-none-' + ('manylinux_%d_%d_x86_64' % it.glibc if it.glibc else 'any')
    base = '%s-%s' % (NAME, version.VERSION)
    info, data = base + '.dist-info/', base + '.data/data/share/'
    files = {'%s/%s' % (NAME, name): text for name, text in it.python.items()}
    files.update({'%s/%s' % (COMMAND, name): text for name, text in it.command.items()})
    files.update({data + 'doc/%s/TOOL.md' % NAME: it.page, data + 'man/man1/%s.1' % NAME: it.man_page,
                  data + 'bash-completion/completions/' + NAME: it.bash,
                  data + 'zsh/site-functions/_' + NAME: it.zsh,
                  info + 'METADATA': metadata(), info + 'WHEEL': about_wheel(tag),
                  info + 'entry_points.txt': ('[console_scripts]\n%s = %s.__main__:main\n' % (NAME, COMMAND)).encode()})
    files.update({info + 'licenses/' + name: text for name, text in it.licenses.items()})
    files[info + 'RECORD'] = record(files, info + 'RECORD')
    path = os.path.join(to, '%s-%s.whl' % (base, tag))
    with zipfile.ZipFile(path, 'w', zipfile.ZIP_DEFLATED) as f:
        for name, text in files.items():
            entry = zipfile.ZipInfo(name, TIME)
            entry.compress_type, entry.create_system = zipfile.ZIP_DEFLATED, 3
            entry.external_attr = (0o100755 if is_program(name) else 0o100644) << 16
            f.writestr(entry, text)
    return path


def metadata() -> bytes:
    lines = ['Metadata-Version: 2.1', 'Name: ' + NAME, 'Version: ' + version.VERSION, 'Summary: ' + ABOUT_WHEEL,
             'License: MIT OR Apache-2.0', 'Requires-Python: >=%d.%d' % PYTHON,
             'Classifier: Typing :: Typed', *('License-File: ' + it for it in LICENSES),
             *('Provides-Extra: ' + it for it in EXTRAS),
             *('Requires-Dist: %s; extra == "%s"' % (needed, it) for it, needed in EXTRAS.items())]
    lines += ['Description-Content-Type: text/markdown', '']
    return ('\n'.join(lines) + '\n').encode() + read(os.path.join(repository.PYTHON, 'README.md'))


def about_wheel(tag: str) -> bytes:
    lines = ['Wheel-Version: 1.0', 'Generator: tools/package', 'Root-Is-Purelib: false', 'Tag: ' + tag]
    return ('\n'.join(lines) + '\n').encode()


def record(files: dict[str, bytes], own: str) -> bytes:
    """The list of a wheel's files, each with its sum and its length."""
    lines = []
    for name, text in files.items():
        digest = base64.urlsafe_b64encode(hashlib.sha256(text).digest()).rstrip(b'=').decode()
        lines.append('%s,sha256=%s,%d' % (name, digest, len(text)))
    return ('\n'.join([*lines, own + ',,']) + '\n').encode()


# The package of Debian


def deb(it: Contents, to: str) -> str:
    """Writes the .deb into a folder: its path."""
    if not shutil.which('dpkg-deb'):
        raise ValueError('there is no dpkg-deb here, which a .deb needs')
    share = 'usr/share/'
    lib = 'usr/lib/lifecrib/'
    files = {lib + '%s/%s' % (NAME, name): text for name, text in it.python.items()}
    files.update({lib + '%s/%s' % (COMMAND, name): text for name, text in it.command.items()})
    files.update({'DEBIAN/' + name: text.encode() for name, text in SCRIPTS.items()})
    files.update({'usr/bin/' + NAME: STARTER.encode(), 'DEBIAN/control': control(it).encode(),
                  share + 'man/man1/%s.1.gz' % NAME: gzip.compress(it.man_page, 9, mtime=0),
                  share + 'bash-completion/completions/' + NAME: it.bash,
                  share + 'zsh/vendor-completions/_' + NAME: it.zsh,
                  share + 'doc/%s/TOOL.md' % NAME: it.page,
                  share + 'doc/%s/copyright' % NAME: b'\n'.join(it.licenses.values())})
    path = os.path.join(to, '%s_%s_amd64.deb' % (NAME, version.VERSION))
    with tempfile.TemporaryDirectory() as room:
        for name, text in files.items():
            put(os.path.join(room, name), text, name == 'usr/bin/' + NAME or os.path.basename(name) in SCRIPTS or is_program(name))
        for at, _, _ in os.walk(room):
            os.chmod(at, 0o755)
        words = ['dpkg-deb', '--root-owner-group', '--build', room, path]
        run = subprocess.run(words, env=dict(os.environ, SOURCE_DATE_EPOCH='315532800'), capture_output=True, text=True)
    if run.returncode:
        raise ValueError(run.stderr.strip())
    return path


def put(path: str, text: bytes, is_program: bool) -> None:
    """Writes a file, and makes the folders above it."""
    os.makedirs(os.path.dirname(path), mode=0o755, exist_ok=True)
    with open(path, 'wb') as f:
        f.write(text)
    os.chmod(path, 0o755 if is_program else 0o644)


def control(it: Contents) -> str:
    needs = ['python3 (>= %d.%d)' % PYTHON, *(['libc6 (>= %d.%d)' % it.glibc, 'libgcc-s1'] if it.glibc else [])]
    lines = ['Package: ' + NAME, 'Version: ' + version.VERSION, 'Architecture: amd64', 'Priority: optional', 'Section: net',
             'Maintainer: Lifecrib maintainers <maintainers@users.noreply.lifecrib.example>', 'Depends: ' + ', '.join(needs), 'Suggests: python3-redis',
             'Description: ' + ABOUT, ' The command lifecrib gets a token from a server of OAuth 2.0, renews it, asks about it',
             ' and revokes it.']
    return '\n'.join(lines) + '\n'
