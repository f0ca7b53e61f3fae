"""What earlier runs on this machine kept: which wrong bodies were refused, and the libraries that `rt ci` passed; for tools/wrong-bodies."""
import fcntl
import importlib.machinery
import importlib.util
import json
import os
import shutil
import stat
import subprocess
import sys
import tempfile
import time

import repository

MOST_RESULTS = 20000
NEEDED = ('Crate', 'Kept', 'handles_of', 'rtlib')  # what is used of the code of the kit's `rt`
A_DAY = 24 * 60 * 60


def said_by(command):
    """What a documented command of the kit prints: `rt doc` the path of its first page, and `rt version` which kit it is."""
    return subprocess.run(['rt', command], stdin=subprocess.DEVNULL, stdout=subprocess.PIPE, text=True, check=True).stdout.strip()


def folder_of_kit():
    """The folder that has the kit."""
    return os.path.dirname(said_by('doc'))


def kit():
    """The code of the kit's `rt`, which knows the libraries that `rt ci` keeps; None where this kit's has no such code. There is no command
    for that, so what uses it has to do without."""
    try:
        loader = importlib.machinery.SourceFileLoader('rt_of_the_kit', os.path.join(folder_of_kit(), 'bin', 'rt'))
        made = importlib.util.module_from_spec(importlib.util.spec_from_loader(loader.name, loader))
        loader.exec_module(made)
        return made if all(hasattr(made, it) for it in NEEDED) else None
    except (Exception, SystemExit):  # whatever another kit's code does
        return None


def has_libraries(rt, room, crate):
    """Whether a copy has the libraries that its crate needs: those of its checkout, or else those that `rt ci` passed, which it then gets.
    rt is the kit's code, or None. A copy that has none afterwards may have lost those of its checkout too."""
    if not rt:
        return False
    try:
        rt.Crate.allowed, rt.rtlib.Crate = rt.handles_of(room), rt.Crate
        below = rt.rtlib.crates_below(os.path.join(room, 'crates', crate))[:-1]
        return all(it.is_built() for it in below) or takes_libraries(rt, below)
    except (Exception, SystemExit) as error:  # whatever another kit's code does, there is a way without it
        print('note: this kit keeps the libraries of rt ci in another way, so they are proved here (%s)' % type(error).__name__,
              file=sys.stderr)
        return False


def takes_libraries(rt, crates):
    """Gives each crate, lowest first, the library that `rt ci` passed of the same files over the same libraries; whether there is one of each."""
    kept = rt.Kept(crates)
    kept.drop = lambda _: None  # `give` drops an entry that it cannot copy; what the gate kept stays the gate's
    for it in crates:
        # its files may be second names of the checkout's, so they are removed before others take their place
        shutil.rmtree(os.path.join(it.folder, 'out', 'rlib'), ignore_errors=True)
        if not kept.give(it, False, kept.key(it)):
            return False
        kept.is_built(it)
        with open(os.path.join(it.folder, 'out', 'rlib', 'stamp'), 'w', encoding='utf-8') as f:
            f.write(it.stamp())
    return all(it.is_built() for it in crates)


def give_back(room, crate):
    """Gives the checkout what the check of a crate's copy kept, so that the next check begins with it, unless `rt` is at work on the crate."""
    out, new = os.path.join(repository.CRATES, crate, 'out'), None
    lock = os.open(os.path.dirname(out), os.O_RDONLY)
    try:
        fcntl.flock(lock, fcntl.LOCK_EX | fcntl.LOCK_NB)
        os.makedirs(out, exist_ok=True)
        new = tempfile.mkdtemp(prefix='lifecrib-', dir=out)
        shutil.copytree(os.path.join(room, 'crates', crate, 'out', 'incremental'), os.path.join(new, 'work'), symlinks=True)
        shutil.rmtree(os.path.join(out, 'incremental'), ignore_errors=True)
        os.rename(os.path.join(new, 'work'), os.path.join(out, 'incremental'))
    except (OSError, shutil.Error):
        pass
    finally:
        shutil.rmtree(new or '', ignore_errors=True)
        os.close(lock)


class Results:
    """The edits that were refused, each by a sum of all that was read to try it. So no result goes stale: where a file changed, there is
    none of that sum. A result is written apart and then renamed, so that no other run reads half of one."""

    def __init__(self, folder, anew=False):
        self.folder, self.anew = folder, anew
        try:
            os.makedirs(folder, 0o700, exist_ok=True)
            found = os.lstat(folder)
            if not stat.S_ISDIR(found.st_mode) or found.st_uid != os.geteuid():
                raise PermissionError('it is no folder of this user')
            os.chmod(folder, 0o700)
            tempfile.TemporaryFile(dir=folder).close()
        except OSError as error:
            self.give_up(error)

    def give_up(self, error):
        """Keeps nothing from here on, and says so."""
        print('note: %s cannot be written (%s), so results are not kept' % (self.folder, error), file=sys.stderr)
        self.folder = None

    def refused(self, made_of):
        """The goal that refused the edit that this sum is of; None if no earlier run tried it."""
        if not self.folder or self.anew:
            return None
        path = os.path.join(self.folder, made_of)
        try:
            with open(path, encoding='utf-8') as f:
                found = json.load(f)
            if found['sum'] != made_of or not isinstance(found['goal'], str):
                return None
            os.utime(path)
            return found['goal']
        except (OSError, ValueError, KeyError, TypeError):
            return None

    def keep(self, made_of, goal):
        """Keeps that a goal refused the edit that this sum is of."""
        if not self.folder:
            return
        try:
            with tempfile.NamedTemporaryFile('w', prefix='new-', dir=self.folder, delete=False, encoding='utf-8') as f:
                json.dump({'sum': made_of, 'goal': goal}, f)
            os.replace(f.name, os.path.join(self.folder, made_of))
        except OSError as error:
            self.give_up(error)

    def shrink(self, most=MOST_RESULTS):
        """Removes the results that were not used for the longest time, above so many, and what runs that were killed left."""
        found = sorted((it.stat().st_mtime, it.path, it.name) for it in os.scandir(self.folder)) if self.folder else []
        left = [path for when, path, name in found if name.startswith('new-') and when < time.time() - A_DAY]
        results = [path for _, path, name in found if not name.startswith('new-')]
        for path in left + results[:max(0, len(results) - most)]:
            os.remove(path)
