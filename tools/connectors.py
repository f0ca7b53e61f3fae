"""The programs of docs/connector, which open sockets or start programs: each is built in a repository of its own, for the tools beside this
file."""
import collections
import hashlib
import os
import shutil
import subprocess
import sys
import tempfile

import kept
import program
import repository

SOURCES = os.path.join(repository.ROOT, 'docs', 'connector')
# What a program is made of: the files of SOURCES, each with its name among the program's sources, its dependencies, and its handle.
Made = collections.namedtuple('Made', 'files uses handle')
PROGRAMS = {
    'token': Made({'main.rt.txt': 'main.rt', 'tcp.rt.txt': 'tcp.rt'},
                  'oauth2 oauth2_http1_connections oauth2_http1 httparse base64 thiserror anyhow', 'Net'),
    'resource_server': Made({'resource_server.rt.txt': 'main.rt', 'kept.rt.txt': 'kept.rt', 'tcp.rt.txt': 'tcp.rt'},
                            'oauth2_resource_server oauth2_introspection_cache oauth2_http1_connections oauth2 oauth2_http1 '
                            'jiff httparse base64 thiserror anyhow', 'Net'),
    'token_by_child': Made({'child_main.rt.txt': 'main.rt', 'child.rt.txt': 'child.rt'}, 'oauth2 oauth2_http1 anyhow', 'Processes'),
}
# A program that tools/bench-introspections sets beside one of them.
MEASURED = {
    'one_each': Made({'../../tools/one_each.rt.txt': 'main.rt', 'tcp.rt.txt': 'tcp.rt'},
                     'oauth2_introspection_cache oauth2 oauth2_http1_connections oauth2_http1 jiff httparse base64 thiserror anyhow', 'Net'),
}


def make_repository(name, folder, built=False):
    """Makes a repository of a program and the crates that it uses, with their libraries where built."""
    made, rows, names = {**PROGRAMS, **MEASURED}[name], repository.lines(), []
    for crate in made.uses.split():
        names += [it for it in [*repository.below().get(crate, []), crate] if it in rows and it not in names]
    for crate in names:
        for part in (*repository.PARTS, *['out/rlib'] * built):
            source = os.path.join(repository.CRATES, crate, part)
            if os.path.isdir(source):
                shutil.copytree(source, os.path.join(folder, 'crates', crate, part))
    source = os.path.join(folder, 'crates', name, 'src')
    os.makedirs(source)
    for file, target in made.files.items():
        shutil.copy(os.path.join(SOURCES, file), os.path.join(source, target))
    for file in ('stdin', 'stdout'):
        open(os.path.join(folder, 'crates', name, file), 'w').close()
    for file, lines in ('crates.txt', [rows[it] for it in names] + ['%s: %s' % (name, made.uses)]), \
            ('HANDLES', ['Handles allowed: %s.' % made.handle]):
        with open(os.path.join(folder, file), 'w') as f:
            f.write(''.join(line + '\n' for line in lines))


def build(name, work, is_proved):
    """The path of a program in a folder, which is built where the one there is of other sources. RuntimeError if it can't be."""
    path = os.path.join(work, name + '.proved' * is_proved)
    with tempfile.TemporaryDirectory(prefix='lifecrib-') as room:
        make_repository(name, room, is_proved)
        made_of = hashlib.sha256(repository.sum_of_sources(name, room).encode()).hexdigest()
        if not program.is_same(path, path + '.made_of', made_of):
            print('note: %s is built now, which takes some minutes' % name, file=sys.stderr)
            if is_proved:
                prove(name, room, path)
            else:
                program.compile_unproved(name, path, os.path.join(room, 'crates'))
            program.record(path, path + '.made_of', made_of)
    return path


def prove(name, room, path):
    """Proves a program in its repository, and builds it there."""
    kept.has_libraries(kept.kit(), room, name)  # otherwise the crates below it are proved first
    folder = os.path.join(room, 'crates', name)
    run = subprocess.run(['rt', 'run'], cwd=folder, stdin=subprocess.DEVNULL, stdout=subprocess.PIPE, stderr=subprocess.STDOUT, text=True)
    if not os.path.exists(os.path.join(folder, 'out', name)):
        raise RuntimeError(run.stdout.rstrip())
    shutil.copy2(os.path.join(folder, 'out', name), path)
