"""The checks that need no proof, for tools/test: of the pages, of the tools, and of crates compiled without proofs."""
import collections
import os
import shutil
import subprocess
import sys
import tempfile
import threading
import time
from concurrent.futures import FIRST_COMPLETED, ThreadPoolExecutor, wait

import merged
import processes
import program
import repository

NAMES, COSTS = os.path.join('docs', 'public-names.txt'), os.path.join('docs', 'GATE.md')
RUNNING = {}  # of each process under way, what it is called and when it began
ROOMS, REMOVING = set(), threading.Lock()  # temporary folders of what is under way, which are removed one at a time
EACH = 20  # seconds after which a line says what runs
LIMIT = 60  # seconds that `rt try` gives a program
NO_ANSWER = 6  # the status of `rt try` where a program gave none in time

# A check: what it is called, the folder in which its command runs and what that reads on standard input, and a function that says by the
# status, standard output and standard error why it failed, or gives None.
Check = collections.namedtuple('Check', 'name folder command given fault')
# Checks, each by its crate, of which one command shows those that pass: one of merged.Tests or merged.Programs makes it.
Group = collections.namedtuple('Group', 'name checks made')


class TimeLimit(str):
    """The fault of a check that was stopped at its time limit."""


def fault_of_try(status, out, err):
    """The fault of `rt try --test`, which has to end with status 0."""
    said = fault_of_status(status, out, err)
    return TimeLimit('it had not ended after %d seconds, its time limit\n%s' % (LIMIT, said)) if status == NO_ANSWER else said


def fault_of_status(status, out, err):
    """The fault of a command that has to end with status 0: all that it said."""
    return None if status == 0 else (out + err).decode(errors='replace').rstrip() or 'status %d' % status


def of_tool(name, *words):
    """A check by a tool of this folder."""
    command = [os.path.join(repository.ROOT, 'tools', name), *words]
    return Check('tools/' + ' '.join([name, *words]), repository.ROOT, command, b'', fault_of_status)


def pages():
    """What the pages say of the sources."""
    reading = os.path.join('docs', 'READING.md')
    return [of_tool('definitions', '--check', reading), of_tool('examples'), of_tool('crate-pages'), of_tool('standards'),
            of_tool('public-names', '--check', NAMES), of_tool('pictures', '--check'), of_tool('gate-costs', '--check', COSTS)]


def tools():
    """The tests of the tools, of the Python package and of the command."""
    folders = {'the tools': os.path.join('tools', 'tests'), 'the Python package': os.path.join('python', 'tests'),
               'the command': os.path.join('python', 'command_tests')}
    command = [sys.executable, '-B', '-m', 'unittest', 'discover', '-s']
    return [Check('tests of ' + what, repository.ROOT, [*command, at], b'', fault_of_status) for what, at in folders.items()]


def readme():
    """The commands, scripts and programs on the pages, and the examples of the C library, which compile programs without proofs."""
    return [of_tool('readme'), of_tool('try-c-examples')]


def scripts():
    """The stored scripts, by the program compiled without proofs."""
    return [of_tool('stored-scripts', '--unproved')]


def has_tests(crate):
    """Whether a test function stands in a crate's sources."""
    for at, _, names in os.walk(os.path.join(repository.CRATES, crate, 'src')):
        for name in names:
            with open(os.path.join(at, name), 'rb') as f:
                if b'#[test]' in f.read():
                    return True
    return False


def tests_of(crate):
    """A crate's tests, compiled without proofs."""
    folder = os.path.join(repository.CRATES, crate)
    return Check('tests of ' + crate, folder, ['rt', 'try', '--test'], b'', fault_of_try)


def run_of(crate):
    """A program's stored run, compiled without proofs."""
    folder, wanted = os.path.join(repository.CRATES, crate), program.stored(crate, 'stdout')
    status = int(program.stored(crate, 'status') or 0)

    def fault(status_of_try, out, err):
        ended = program.status_of_try(err)
        if ended is None and status_of_try == NO_ANSWER:
            return fault_of_try(status_of_try, b'', err)
        if ended is None:
            return err.decode(errors='replace').rstrip() or 'rt try said nothing'
        if ended != status:
            return 'it ends with status %d, and not %d' % (ended, status)
        return None if out == wanted else 'it writes something other than crates/%s/stdout: %s' % (crate, first_difference(wanted, out))
    command = ['rt', 'try', *program.flags_of_run(crate)]
    return Check('stored run of ' + crate, folder, command, program.stored(crate, 'stdin'), fault)


def first_difference(wanted, out):
    """The first line that two outputs do not share, in both."""
    pairs = zip(wanted.split(b'\n') + [None], out.split(b'\n') + [None])
    number, (one, other) = next((at, pair) for at, pair in enumerate(pairs, 1) if pair[0] != pair[1])
    return 'line %d is %r, and not %r' % (number, other, one)


def grouped(crates, check_of, made):
    """The checks of crates: those that can be compiled as one in a group, and then the others."""
    together = {it: check_of(it) for it in made.crates}
    name = '%s of %d crates, compiled as one' % (made.name, len(together))
    return [Group(name, together, made)] * bool(together) + [check_of(it) for it in crates if it not in together]


def unproved():
    """Each program's stored run and each crate's tests; those of many crates first, since they take longest."""
    below = repository.below()
    crates = sorted(below, key=lambda it: -len(below[it]))
    programs, tested = [it for it in crates if program.is_program(it)], [it for it in crates if has_tests(it)]
    return [*grouped(programs, run_of, merged.Programs(programs)), *grouped(tested, tests_of, merged.Tests(tested))]


def ended(name, folder, command, given):
    """Runs a command: its status, standard output and standard error. What it starts is no part of the terminal's group, so Ctrl-C comes
    to this process alone, which then ends all of them."""
    how = dict(stdin=subprocess.PIPE, stdout=subprocess.PIPE, stderr=subprocess.PIPE, start_new_session=True)
    with subprocess.Popen(command, cwd=folder, **how) as run:
        RUNNING[run] = (name, time.time())
        out, err = run.communicate(given)
        RUNNING.pop(run)
    return run.returncode, out, err


def fault_of(check):
    """Runs a check: the seconds by the clock, and why it failed, or None."""
    begun = time.time()
    fault = check.fault(*ended(check.name, check.folder, check.command, check.given))
    return time.time() - begun, fault


def passed_of(group):
    """Runs the command of a group: the seconds by the clock, the crates that pass, and what it said last."""
    begun, room = time.time(), tempfile.mkdtemp(prefix='lifecrib-')
    ROOMS.add(room)
    try:
        status, out, err = ended(group.name, *group.made.command_in(room), b'')
    finally:
        remove(room)
    out, err = out.decode(errors='replace'), err.decode(errors='replace')
    return time.time() - begun, group.made.passed(status, out, err), err.rstrip()


def remove(room):
    """Removes a temporary folder."""
    with REMOVING:
        shutil.rmtree(room, ignore_errors=True)
        ROOMS.discard(room)


def stop(number, _):
    """Ends the checks under way, also those that have only just begun, and all that they have started, as a signal asks."""
    print('tools/test: stopped', file=sys.stderr, flush=True)
    processes.end(processes.tree_of([os.getpid()])[1:])
    for room in list(ROOMS):
        remove(room)
    os._exit(128 + number)


def run(checks, lanes):
    """Runs checks and groups of them side by side and prints how each check ended: how many passed and how many failed. What does not pass
    in its group is run by itself. A check that met its time limit is run again alone, once the others have ended."""
    shown = Shown(sum(len(it.checks) if isinstance(it, Group) else 1 for it in checks))
    with ThreadPoolExecutor(lanes) as pool:
        def begin(it):
            return pool.submit(passed_of if isinstance(it, Group) else fault_of, it)
        pending, late = {begin(it): it for it in checks}, []
        while pending:
            for future in wait(pending, EACH, FIRST_COMPLETED).done:
                it = pending.pop(future)
                if isinstance(it, Group):
                    pending.update((begin(check), check) for check in shown.end_group(it, *future.result()))
                    continue
                seconds, fault = future.result()
                if isinstance(fault, TimeLimit):
                    late.append(it)
                    print('%s (%.0f s): %s; it is run again alone' % (it.name, seconds, fault), flush=True)
                else:
                    shown.end(it, seconds, fault)
            shown.under_way(RUNNING)
    for check in late:
        shown.end(check, *fault_of(check))
    return shown.done - shown.failed, shown.failed


class Shown:
    """The lines of a run over so many checks."""

    def __init__(self, number):
        self.number, self.done, self.failed, self.said = number, 0, 0, time.time()

    def end(self, check, seconds, fault):
        """Says how a check ended."""
        self.done, self.failed, self.said = self.done + 1, self.failed + (fault is not None), time.time()
        end = 'passed' if fault is None else 'FAILED: ' + fault
        print('[%d of %d] %s (%.0f s): %s' % (self.done, self.number, check.name, seconds, end), flush=True)

    def end_group(self, group, seconds, passed, said):
        """Says how a group ended, and which checks of it passed: those that did not."""
        rest = [check for crate, check in group.checks.items() if crate not in passed]
        end = 'passed' if not rest else '%d passed, and %d are compiled alone\n%s' % (len(passed), len(rest), said)
        print('%s (%.0f s): %s' % (group.name, seconds, end), flush=True)
        for crate in passed:
            self.end(group.checks[crate], seconds, None)
        return rest

    def under_way(self, running):
        """Says what runs, and for how long, if nothing was said for a while."""
        now = time.time()
        if running and now > self.said + EACH:
            self.said = now
            what = ', '.join('%s (%.0f s)' % (name, now - begun) for name, begun in list(running.values()))
            print('[%d of %d] under way: %s' % (self.done, self.number, what), file=sys.stderr, flush=True)
