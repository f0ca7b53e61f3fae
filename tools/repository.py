"""The repository's crates, for the tools beside this file."""
import hashlib
import os
import shutil
import subprocess
import sys
import tempfile

ROOT = os.path.dirname(os.path.dirname(os.path.abspath(__file__)))
CRATES = os.path.join(ROOT, 'crates')
PYTHON = os.path.join(ROOT, 'python')
PARTS = ('src', 'specs', 'proofs')
CODE = ('src',)


def lines(root=ROOT):
    """The lines of crates.txt, by the crate that each names."""
    with open(os.path.join(root, 'crates.txt')) as f:
        return rows_of(f.read())


def rows_of(text):
    """The lines of a text of crates.txt, by the crate that each names."""
    rows = [line.partition('#')[0].strip() for line in text.split('\n')]
    return {row.partition(':')[0].split()[0]: row for row in rows if row}


def layers_of(text):
    """The layers of a text of crates.txt, lowest first: of each its heading, a comment on a line of its own, and its crates. What is above
    the first heading is a layer without one."""
    found = [('', [])]
    for line in map(str.strip, text.split('\n')):
        if line.startswith('#'):
            found.append((line.strip('# '), []))
        elif line:
            found[-1][1].extend(rows_of(line))
    return [layer for layer in found if any(layer)]


def pages(root=ROOT):
    """The paths of the pages, from the top of the repository, without those of the crates."""
    docs = sorted(it for it in os.listdir(os.path.join(root, 'docs')) if it.endswith('.md'))
    return ['README.md', 'CONTRIBUTING.md', 'CHANGELOG.md', 'SECURITY.md', *(os.path.join('docs', it) for it in docs)]


def pages_of_crates(root=ROOT):
    """The paths of the pages of the crates, from the top of the repository: of each its README.md, and then those of its modules."""
    found = []
    for crate in sorted(os.listdir(os.path.join(root, 'crates'))):
        names = [it for it in os.listdir(os.path.join(root, 'crates', crate)) if it.endswith('.md')]
        found += [os.path.join('crates', crate, it) for it in sorted(names, key=lambda it: (it != 'README.md', it))]
    return found


def below(root=ROOT):
    """The crates of the repository that each one stands on, lowest first."""
    uses, found = {name: row.partition(':')[2].split() for name, row in lines(root).items()}, {}

    def all_below(name):
        if name not in found:
            found[name] = list(dict.fromkeys(more for it in uses[name] if it in uses for more in [*all_below(it), it]))
        return found[name]
    return {name: all_below(name) for name in uses}


def sum_of_sources(crate, root=ROOT, parts=PARTS):
    """A sum over the files that the prover reads of a crate and of the crates below it, and over their lines in crates.txt."""
    found, rows = hashlib.sha256(), lines(root)
    for name in below(root)[crate] + [crate]:
        found.update(rows[name].encode())
        for part in parts:
            for at, folders, files in os.walk(os.path.join(root, 'crates', name, part)):
                folders.sort()
                for path in [os.path.join(at, file) for file in sorted(files)]:
                    with open(path, 'rb') as f:
                        one = hashlib.sha256(f.read()).hexdigest()
                    found.update(('%s %s\n' % (os.path.relpath(path, root), one)).encode())
    return found.hexdigest()


def sum_of_code(crate, root=ROOT):
    """A sum over the files that `rt try` compiles, which reads no definition and no proof, and over their lines in crates.txt."""
    return sum_of_sources(crate, root, CODE)


def changed(base, parts=PARTS, root=ROOT):
    """The crates that differ from a git revision in a file of these parts or in their lines of crates.txt, in the order of that file.
    A file that git doesn't track yet counts, unless git ignores it. ValueError if there is no such revision."""
    def git(*words):
        run = subprocess.run(['git', '-C', root, *words], capture_output=True, text=True, errors='surrogateescape')
        if run.returncode:
            raise ValueError(run.stderr.strip() or 'git has no revision %s' % base)
        return run.stdout
    revision = git('rev-parse', '--verify', '--quiet', '--end-of-options', base + '^{commit}').strip()
    files = git('diff', '--name-only', '--no-renames', '--relative', '-z', revision, '--', 'crates').split('\0')
    files += git('ls-files', '--others', '--exclude-standard', '-z', '--', 'crates').split('\0')
    found = {it[1] for it in (file.split('/') for file in files) if len(it) > 3 and it[2] in parts}
    before = rows_of(git('show', revision + ':./crates.txt'))
    return [name for name, row in lines(root).items() if name in found or before.get(name) != row]


def check_flags(folder):
    """The flag by which a check of a crate reads its tests too, where it has functions that are compiled with them alone."""
    roots = [os.path.join(folder, 'src', name) for name in ('lib.rt', 'main.rt')]
    return ['--test'] if any('#[cfg(test)]' in open(it).read() for it in roots if os.path.exists(it)) else []


def link_or_copy(source, target):
    """A second name for a file that is only read, or a copy where that can't be."""
    try:
        os.link(source, target)
    except OSError:
        shutil.copy2(source, target)


def copy(crate, keeps, root=ROOT, built=True):
    """A temporary folder with a copy of a crate, with its kept work or without, and of those that it stands on, with their libraries
    where built. root is the repository, or such a folder."""
    room = tempfile.TemporaryDirectory(prefix='lifecrib-')
    rows, names = lines(root), below(root)[crate] + [crate]
    for name in names:
        kept = ('out/rlib',) * built if name != crate else ('out/incremental',) * keeps
        for part in PARTS + kept:
            source = os.path.join(root, 'crates', name, part)
            if os.path.isdir(source):
                # a library is only read: a build of it would begin with a new folder
                by = link_or_copy if part == 'out/rlib' else shutil.copy2
                shutil.copytree(source, os.path.join(room.name, 'crates', name, part), symlinks=True, copy_function=by)
    with open(os.path.join(room.name, 'crates.txt'), 'w') as f:
        f.write(''.join(rows[name] + '\n' for name in names))
    if os.path.exists(os.path.join(root, 'HANDLES')):
        shutil.copy2(os.path.join(root, 'HANDLES'), room.name)
    return room


def has_kit():
    """Whether the kit's command `rt` can be run."""
    try:
        return subprocess.run(['rt', 'version'], stdin=subprocess.DEVNULL, capture_output=True).returncode == 0
    except OSError:
        return False


def need_kit(tool):
    """Ends a tool with a sentence and the status 125 where the kit's command `rt` can't be run."""
    if not has_kit():
        print('tools/%s: the command rt of the Rattle kit does not run here; README.md names the kit' % tool, file=sys.stderr)
        sys.exit(125)


def parser_of(argparse, name, doc, kind=None, **more_settings):
    """A parser whose help is a tool's docstring: 'NAME ..: what it does.' and then the rest; of this kind, if one is given."""
    about, _, more = doc.partition('\n\n')
    kind = kind or argparse.ArgumentParser
    return kind(prog='tools/' + name, description=about.partition(': ')[2], epilog=more,
                formatter_class=argparse.RawDescriptionHelpFormatter, **more_settings)
