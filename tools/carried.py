"""A build that is carried from one checkout to another: an archive with the program of scripts, and the record of what it was made of
and of its own sum. tools/package makes it, and tools/run takes it."""
import hashlib
import io
import lzma
import os
import tarfile

import program
import repository
import version

FOLDER = 'lifecrib-build/'


def write(it, to):
    """Writes the archive of a program into a folder: its path. A program without a record of a proof is one without proofs."""
    with open(it.path, 'rb') as f:
        build = f.read()
    if it.proved:
        name, record = program.NAME, it.proved
    else:
        name, record = os.path.basename(program.UNPROVED), record_of(repository.sum_of_code, build)
    path = os.path.join(to, 'lifecrib-build-%s%s-linux-x86_64.tar.xz' % (version.VERSION, '' if it.proved else '-unproved'))
    with open(path, 'wb') as f:
        f.write(packed({name: build, name + ending_of(name): record.encode()}))
    return path


def ending_of(name):
    """How the name of a build's record ends: of a proved one, and of one without proofs."""
    return '.proved' if name == program.NAME else program.MADE_OF


def record_of(sum_of, build):
    """What is recorded of a build that is made of what is here."""
    return '%s %s' % (sum_of(program.NAME), hashlib.sha256(build).hexdigest())


def packed(files):
    """The archive of these files. The same files make the same archive."""
    made = io.BytesIO()
    with tarfile.open(fileobj=made, mode='w', format=tarfile.USTAR_FORMAT) as archive:
        for name, text in sorted(files.items()):
            entry = tarfile.TarInfo(FOLDER + name)
            entry.size, entry.mode = len(text), 0o755
            archive.addfile(entry, io.BytesIO(text))
    return lzma.compress(made.getvalue())


def unpacked(path):
    """The files of an archive, by their names. ValueError if it is none."""
    try:
        with tarfile.open(path, 'r:xz') as archive:
            files = [it for it in archive if it.isfile() and it.name.startswith(FOLDER)]
            return {it.name[len(FOLDER):]: archive.extractfile(it).read() for it in files}
    except (tarfile.TarError, lzma.LZMAError, EOFError):
        raise ValueError('it is no archive of tools/package') from None


def take(path):
    """Puts the build of an archive where this checkout has its own, if its sums are those of this checkout and of the build itself; else
    ValueError says what differs. Whether it is the proved one."""
    files = unpacked(path)
    for to, sum_of in ((program.PROGRAM, repository.sum_of_sources), (program.UNPROVED, repository.sum_of_code)):
        name = os.path.basename(to)
        if set(files) == {name, name + ending_of(name)}:
            build, record = files[name], files[name + ending_of(name)].decode(errors='replace')
            made_of, _, own = record_of(sum_of, build).partition(' ')
            if record.partition(' ')[2] != own:
                raise ValueError('its program is not the one that its record is of')
            if record.partition(' ')[0] != made_of:
                raise ValueError('it was made of other sources than those of this checkout')
            put(to, build, record)
            return to == program.PROGRAM
    raise ValueError('it is no archive of tools/package')


def put(to, build, record):
    """Writes a build and its record; a program that runs meanwhile keeps the old one."""
    path = program.writable(to) if to == program.UNPROVED else to  # a proved one is looked for in the checkout alone
    with program.locked(path):
        with open(path + '.new', 'wb') as f:
            f.write(build)
        os.chmod(f.name, 0o755)
        os.replace(f.name, path)
        with open(path + ending_of(os.path.basename(path)), 'w') as f:
            f.write(record)
