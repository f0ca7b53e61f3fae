"""What the checks of the gate cost, from logs of tools/recorder.py, and in what time lanes do them; for tools/gate-costs."""
import collections
import heapq
import json
import os
import re

import repository

# A check of the gate. Its kind is 'proof' or 'tests' (a crate's, with or without its tests), 'build' (of a proved program, by LLVM or by
# Rattle's own compiler), 'seed' (a crate proved once more for its must-fail edits), 'edit' (one of these), or 'sound' (whether the seed
# is as it was, after the edits).
Check = collections.namedtuple('Check', 'crate kind number seconds peak')


def lines_of(paths):
    """The lines of logs, in the order in which what they tell of began."""
    found = []
    for path in paths:
        with open(path, encoding='utf-8') as f:
            found += map(json.loads, f)
    return sorted(found, key=lambda it: it['start'])


def value_of(args, flag):
    """The word behind a flag, or None."""
    return args[args.index(flag) + 1] if flag in args[:-1] else None


def kind_of(line):
    """The crate, the kind and the number of the check that a process is; None if it is none of the gate's. The kind 'in turn' is that of a
    kit which tries a crate's edits one after the other over one folder, and then the crate as it stands."""
    args, crate = line['args'], value_of(line['args'], '--crate-name')
    if line['comm'] != 'rattle' or not crate:
        return None
    kept = re.search(r'/rt-edits-[^/]*(?:/(seed|\d+))?$', value_of(args, '--incremental') or '')
    if kept and not kept.group(1):
        return crate, 'in turn', 0
    if kept:
        return (crate, 'seed', 0) if kept.group(1) == 'seed' else (crate, 'edit', int(kept.group(1)))
    if '--crate-checked' in args:
        return crate, 'build', value_of(args, '--backend')
    if '--empty-contracts' in args:
        return crate, 'tests' if '--test' in args else 'proof', 0
    if os.path.basename(line['cwd']).startswith('rt-edit-') and '--incremental' not in args:
        return crate, 'edit', 0
    return None


def checks_of(lines):
    """The checks of logs. One that was done twice counts once, as it was the last time."""
    found, seeds, in_turn = {}, set(), {}
    for line in lines:
        key = kind_of(line) if 'args' in line else None
        if not key:
            continue
        if key[1] == 'in turn':
            in_turn.setdefault((key[0], value_of(line['args'], '--incremental')), []).append(line)
            continue
        if key[1] in ('seed', 'edit'):
            # the first check over a seed's folder makes it, and one after edits looks whether it is as it was
            folder = os.path.dirname(value_of(line['args'], '--incremental') or '')
            key = (key[0], 'sound', 0) if key[1] == 'seed' and folder in seeds else key
            seeds.add(folder)
        found[key] = Check(*key, line['cpu'], line.get('peak_kb', 0) << 10)
    for (crate, _), tried in in_turn.items():  # of two runs the later one's come last, and count
        kinds = [('edit', number) for number in range(len(tried) - 1)] + [('sound', 0)]
        found.update(((crate, *kind), Check(crate, *kind, line['cpu'], line.get('peak_kb', 0) << 10)) for kind, line in zip(kinds, tried))
    return list(found.values())


def parts_of(lines):
    """The parts of the runs of logs, each as it was the last time, by their names."""
    return {line['part']: line for line in lines if 'part' in line}


def seconds_of(checks, crate, *kinds):
    """The seconds of a crate's checks of some kinds."""
    return sum(it.seconds for it in checks if it.crate == crate and it.kind in kinds)


def longest_chain(checks):
    """The seconds of the longest chain, and its crates: each waits for the proof of the one before, and the last counts with its proof or
    with its tests, whichever takes longer."""
    below, proved, best = repository.below(), {}, (0, [])
    for crate in sorted(below, key=lambda it: len(below[it])):
        before, chain = max([proved[it] for it in below[crate]], default=(0, []))
        own = seconds_of(checks, crate, 'proof', 'build')
        proved[crate] = before + own, chain + [crate]
        best = max(best, (before + max(own, seconds_of(checks, crate, 'tests')), chain + [crate]))
    return best


def lines_in(crate):
    """The lines of a crate's code, by which `rt ci` reckons what is behind a check."""
    found = 0
    for part in repository.PARTS:
        for at, _, names in os.walk(os.path.join(repository.CRATES, crate, part)):
            for name in names:
                if name.endswith('.rt'):
                    with open(os.path.join(at, name), 'rb') as f:
                        found += f.read().count(b'\n')
    return found


# What a lane does: what it waits for, its weight by which `rt ci` puts the longest chain first, and its seconds.
Task = collections.namedtuple('Task', 'waits weight seconds')


def tasks_of(checks):
    """The tasks that `rt ci` makes of these checks, in its order."""
    below, tasks = repository.below(), {}
    for crate in sorted(below, key=lambda it: len(below[it])):
        weight, waits = lines_in(crate), [(it, 'proof') for it in below[crate]]
        has_tests = any(it.crate == crate and it.kind == 'tests' for it in checks)
        tasks[crate, 'proof'] = Task(waits, weight, seconds_of(checks, crate, 'proof', 'build'))
        tasks[crate, 'tests'] = Task(waits, weight * has_tests, seconds_of(checks, crate, 'tests'))
        edits, after = [it for it in checks if it.crate == crate and it.kind == 'edit'], [(crate, 'proof'), (crate, 'tests')]
        if seconds_of(checks, crate, 'seed'):
            tasks[crate, 'seed'] = Task(waits, 0, seconds_of(checks, crate, 'seed'))
            after = after + [(crate, 'seed')]
        is_in_turn = len(edits) > 1 and not seconds_of(checks, crate, 'seed')
        for it in edits:
            before = [(crate, 'edit', it.number - 1)] if is_in_turn and it.number else []
            tasks[crate, 'edit', it.number] = Task(after + before, weight, it.seconds)
        if len(edits) > 1:
            tasks[crate, 'sound'] = Task([key for key in tasks if key[:2] == (crate, 'edit')], 0, seconds_of(checks, crate, 'sound'))
    return tasks


def in_order(tasks):
    """The tasks in the order in which `rt ci` takes them: the longest chain behind first, and edits with their seeds after all others."""
    behind = dict.fromkeys(tasks, 0)
    for key in reversed(list(tasks)):
        behind[key] += tasks[key].weight
        for it in tasks[key].waits:
            behind[it] = max(behind[it], behind[key])
    return sorted(tasks, key=lambda it: (it[1] in ('seed', 'edit'), -behind[it]))


def seconds_in_lanes(tasks, lanes):
    """The seconds that tasks take in lanes, each of which does one at a time: the first in order that waits for nothing any more."""
    left, running, done, now = in_order(tasks), [], set(), 0
    while left or running:
        for key in [it for it in left if all(below in done for below in tasks[it].waits)]:
            if len(running) == lanes:
                break
            left.remove(key)
            heapq.heappush(running, (now + tasks[key].seconds, key))
        now, key = heapq.heappop(running)
        done.add(key)
    return now
