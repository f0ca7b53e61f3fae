"""The stored scripts of crates/oauth2_run/scripts, for tools/stored-scripts and the tools' tests.

The file `stdin` has a script on each line, below headings that begin with `#`. The file `stdout` has the same headings, and of each script
the lines that the program has to write, and then `exit N` with its status.
"""
import collections
import os
import re

import program

FOLDER = os.path.join(program.CRATE, 'scripts')
SCRIPTS = os.path.join(FOLDER, 'stdin')
EXIT = re.compile(rb'exit (\d)\n')

# A script: the heading above it, its line in `stdin`, and the program.Run that it has to be.
Stored = collections.namedtuple('Stored', 'heading line script run')
# A heading, its line, and the lines below it.
Section = collections.namedtuple('Section', 'heading line below')


def sections_of(path):
    """The sections of a file. ValueError if a line is above the first heading."""
    found = []
    with open(path, 'rb') as f:
        for number, line in enumerate(f, 1):
            if line.startswith(b'#'):
                found.append(Section(line.strip(b'# \n').decode(), number, []))
            elif found:
                found[-1].below.append(line)
            else:
                raise ValueError('%s: line %d is above the first heading' % (path, number))
    return found


def runs_of(section):
    """The runs whose lines are below a heading. ValueError if the last one has no status."""
    found, out = [], b''
    for line in section.below:
        end = EXIT.fullmatch(line)
        found += [program.Run(int(end[1]), out, b'')] if end else []
        out = b'' if end else out + line
    if out:
        raise ValueError('below "%s" no `exit N` ends the lines of the last script' % section.heading)
    return found


def all_stored(folder=FOLDER):
    """All stored scripts. ValueError if the two files do not have the same headings, or below one not as many scripts as runs."""
    scripts, written = (sections_of(os.path.join(folder, name)) for name in ('stdin', 'stdout'))
    if [it.heading for it in scripts] != [it.heading for it in written]:
        raise ValueError('stdin and stdout do not have the same headings')
    found = []
    for given, wanted in zip(scripts, written):
        runs = runs_of(wanted)
        if len(given.below) != len(runs):
            raise ValueError('below "%s" stdin has %d scripts, and stdout %d runs' % (given.heading, len(given.below), len(runs)))
        found += [Stored(given.heading, given.line + at, script.rstrip(b'\n'), run)
                  for at, (script, run) in enumerate(zip(given.below, runs), 1)]
    return found


def fault_of(wanted, run):
    """How a run differs from the one that it has to be, or None."""
    if run.status == program.KILLED:
        return 'it had not ended after %d seconds' % program.SECONDS_A_RUN
    if run.status != wanted.status:
        return 'it ends with status %d, and not %d' % (run.status, wanted.status)
    if run.err:
        return 'it writes %r to standard error' % run.err[:200]
    here, there = (it.out.split(b'\n') + [None] for it in (run, wanted))
    at = next((at for at, pair in enumerate(zip(here, there), 1) if pair[0] != pair[1]), None)
    return at and 'line %d is %r, and not %r' % (at, here[at - 1], there[at - 1])
