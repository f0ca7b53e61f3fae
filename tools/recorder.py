"""Records what each process of a run of the gate takes, from /proc, since `rt ci` says no times; for tools/test and tools/gate-costs.

The log has one JSON line for each process of the kit, written when it has ended, with the figures of its last sample: `comm`, `args`
(without the libraries that it reads), `cwd`, `pid`, `ppid`, `start` and `end` (seconds since 1970), `cpu` (processor seconds, with those
of its ended children), `user` (those in user mode, without children) and `peak_kb` (its most resident memory). A line with `part` tells
how long a part of the run took.
"""
import json
import os
import threading
import time

SECONDS_BETWEEN = 0.5
TICKS = os.sysconf('SC_CLK_TCK')
# How the names of the processes begin that a check starts; what a program or a test starts is none of them.
OF_THE_KIT = ('rattle', 'clang', 'llc', 'opt', 'ld.lld')


def read(pid, file):
    with open('/proc/%s/%s' % (pid, file), errors='replace') as f:
        return f.read()


def is_of_the_kit(comm):
    return comm.startswith(OF_THE_KIT)


def stat_of(pid):
    """The name of a process, and the fields of its `stat` that follow the name."""
    before, _, after = read(pid, 'stat').rpartition(')')
    return before.partition('(')[2], after.split()


def without_libraries(args):
    """A command's arguments without those that name the libraries which it reads."""
    kept, rest = [], iter(args)
    for it in rest:
        if it in ('--extern', '-L'):
            next(rest, None)
        else:
            kept.append(it)
    return kept


def begun(pid, comm, fields, boot):
    """What is known of a process from its beginning."""
    args = without_libraries(read(pid, 'cmdline').rstrip('\0').split('\0'))
    return {'pid': int(pid), 'ppid': int(fields[1]), 'comm': comm, 'args': args,
            'cwd': os.readlink('/proc/%s/cwd' % pid), 'start': boot + int(fields[19]) / TICKS}


def sampled(it, pid, fields, now):
    """Brings a process's figures up to date."""
    it.update(end=now, cpu=sum(map(int, fields[11:15])) / TICKS, user=int(fields[11]) / TICKS)
    for line in read(pid, 'status').splitlines():
        if line.startswith('VmHWM:'):
            it['peak_kb'] = int(line.split()[1])


def below(parents, top):
    """The processes that a process has started, by the parent of each."""
    children, found, more = {}, set(), [top]
    for pid, parent in parents.items():
        children.setdefault(parent, []).append(pid)
    while more:
        new = children.get(more.pop(), [])
        found.update(new)
        more += new
    return found


class Recorder:
    """Samples the kit's processes below this one, in a thread, until it is left; `with Recorder(path) as it`."""

    def __init__(self, path):
        os.makedirs(os.path.dirname(os.path.abspath(path)), exist_ok=True)
        self.log = open(path, 'w', encoding='utf-8')
        self.alone, self.seen, self.ends = threading.Lock(), {}, threading.Event()
        self.boot = float(next(it.split()[1] for it in read('', 'stat').splitlines() if it.startswith('btime')))
        self.thread = threading.Thread(target=self.run, daemon=True)

    def __enter__(self):
        self.thread.start()
        return self

    def __exit__(self, *_):
        self.ends.set()
        self.thread.join()
        self.leave(set())
        self.log.close()

    def part(self, name, start, **more):
        """Writes how long a part of the run took, which ends now."""
        self.write({'part': name, 'start': start, 'end': time.time(), **more})

    def write(self, it):
        with self.alone:
            self.log.write(json.dumps(it) + '\n')
            self.log.flush()

    def run(self):
        while not self.ends.wait(SECONDS_BETWEEN):
            self.sample()

    def sample(self):
        """Looks at every process once, and writes those that have ended since the last look."""
        now, found = time.time(), {}
        for pid in filter(str.isdigit, os.listdir('/proc')):
            try:
                found[int(pid)] = pid, *stat_of(pid)
            except OSError:
                continue
        ours, alive = below({it: int(fields[1]) for it, (_, _, fields) in found.items()}, os.getpid()), set()
        for number in ours:
            pid, comm, fields = found[number]
            key = number, fields[19]
            if not is_of_the_kit(comm):
                continue
            alive.add(key)
            try:
                if key not in self.seen:
                    self.seen[key] = begun(pid, comm, fields, self.boot)
                sampled(self.seen[key], pid, fields, now)
            except OSError:
                continue
        self.leave(alive)

    def leave(self, alive):
        """Writes the processes that are no longer alive."""
        for key in [it for it in self.seen if it not in alive]:
            it = self.seen.pop(key)
            if 'cpu' in it:
                self.write(it)
