"""The C library: a static one from the crate oauth2_c, and a shared one of that; for tools/package-c, tools/package and tools/prove."""
import os
import subprocess
import sys

import kept
import program
import repository

sys.path.append(repository.PYTHON)
from lifecrib import _errors

C = os.path.join(repository.ROOT, 'c')
NAME = 'oauth2_c'
CRATE = os.path.join(repository.CRATES, NAME)
OF_PYTHON = os.path.join(repository.PYTHON, 'lifecrib', 'liblifecrib.so')  # where the Python package looks for the library
SONAME = 'liblifecrib.so.0'
EXPORTS = ('lifecrib_run', 'lifecrib_version', 'lifecrib_kinds')


def static_library(given):
    """The path of the static library, which is proved and built if none is given, for a plain x86-64. The libraries below it are those of
    the checkout, or those that `rt ci` keeps on this machine, if it has them all; else `rt lib` proves them too."""
    if given:
        return given
    kept.has_libraries(kept.kit(), repository.ROOT, NAME)
    subprocess.run(['rt', 'lib', '--cpu', 'x86-64'], cwd=CRATE, check=True, stdout=sys.stderr)
    return os.path.join(CRATE, 'out', 'liboauth2_c.a')


def kit_library():
    """The part of the kit that every program in C links."""
    page = subprocess.run(['rt', 'doc'], stdout=subprocess.PIPE, text=True, check=True).stdout.strip()
    return os.path.join(os.path.dirname(page), 'c', 'liblibc_c.a')


def shared_library(archive, to):
    """Links the shared library; it exports what c/exports.map names, and nothing else."""
    words = ['-Wl,-soname,' + SONAME, '-Wl,--version-script=' + os.path.join(C, 'exports.map'), *('-Wl,-u,' + it for it in EXPORTS),
             '-Wl,-z,relro,-z,now,-z,defs', '-Wl,--gc-sections', '-Wl,--build-id=none']
    subprocess.run(['cc', '-shared', '-o', to, *words, archive, kit_library()], check=True)


def library_by_program(to):
    """Links a shared library with the same functions, which runs the program that is beside it: for a try without a proof."""
    kinds = ''.join(it + '\\n' for it in _errors.KINDS)
    words = ['-shared', '-fPIC', '-O2', '-DKINDS="%s"' % kinds, '-I', C, os.path.join(repository.ROOT, 'tools', 'by_program.c')]
    subprocess.run(['cc', *words, '-Wl,-soname,' + SONAME, '-Wl,--version-script=' + os.path.join(C, 'exports.map'),
                    '-Wl,--build-id=none', '-o', to], check=True)


def prove():
    """Proves and builds the library, and puts it where the Python package looks for it, with a record of that."""
    made_of, new = repository.sum_of_sources(NAME), OF_PYTHON + '.new'
    shared_library(static_library(None), new)
    os.replace(new, OF_PYTHON)
    program.record(OF_PYTHON, OF_PYTHON + '.proved', made_of)


def is_proved():
    """Whether the library there is the one that was recorded, and its sources are those that are here."""
    return os.path.exists(OF_PYTHON) and program.is_recorded(OF_PYTHON, OF_PYTHON + '.proved', NAME)
