"""Many crates as one, so that what they stand on is compiled once: the tests of all as one crate, and all programs as one program; for
tools/quick_checks.py.

Each crate becomes a module of its own name, and its `use crate::` becomes `use crate::NAME::`. The program runs the crate that the first
line of standard input names, and leaves the rest of it to that crate. A crate passes here only by what it has to do alone too. One whose
form does not fit, or that does not pass, is compiled alone.
"""
import collections
import os
import re

import program
import repository
import sources

NAME = 'lifecrib_merged'
COMMENT = re.compile('//.*')
NAMED = re.compile(r'(?<![\w:])(\w+)::')
USE = re.compile(r'(?m)^(\s*(?:pub(?:\([a-z]+\))? )?use crate::)')
TACTIC = '\n#![tactic(auto)]\n'
ROOT = '//! %s\n\n#![tactic(auto)]\n\n%s'
# What a module can't have as a crate does, or what would mean something else there.
UNFIT = ('#![', '#[path', 'extern crate ', 'macro_rules!', 'include!', 'include_str!', 'include_bytes!')
TEST = '#[test]'
MAIN = re.compile(r'(?m)^fn main\(rt: HostRuntime\) -> (ExitCode|(?:io|anyhow)::Result<\(\)>) \{$')
PASSED = re.compile(r'(?m)^test (\w+)::\S+ \.\.\. ok$')
CASE = re.compile(r'(?m)^case=(\w+) run=ended status=(\d+) .*\boutput=expected ')
NO_PROGRAM = 125
MAIN_OF_ALL = '''
use std::process::ExitCode;

fn status_of<E: Drop>(run: Result<(), E>) -> ExitCode {
    match run {
        Ok(()) => ExitCode::from(0),
        Err(_) => ExitCode::from(1),
    }
}

fn main(rt: HostRuntime) -> ExitCode {
    let mut name = String::new(rt.alloc());
    if rt.read_line(&mut name).is_err() {
        return ExitCode::from(%d);
    }
    match name.trim_end() {
%s        _ => ExitCode::from(%d),
    }
}
'''


def texts_of(crate):
    """The sources of a crate, by their paths in its folder `src`."""
    top = os.path.join(repository.CRATES, crate, 'src')
    paths = [os.path.join(at, name) for at, _, names in os.walk(top) for name in names]
    return {os.path.relpath(it, top): sources.read(it) for it in sorted(paths) if it.endswith('.rt')}


def number_of_tests(crate):
    return sum(it.count(TEST) for it in texts_of(crate).values())


def libraries():
    """The libraries that the line of each crate in crates.txt names."""
    return {crate: set(row.partition(':')[2].split()) for crate, row in repository.lines().items()}


def fits(crate, uses, as_program=False):
    """Whether a crate can be a module of another. One that names a library which its line of crates.txt does not have can't: its own
    compiler refuses that."""
    texts, others = texts_of(crate), set(uses).union(*uses.values()) - uses[crate]
    if as_program and len(MAIN.findall(texts.get('main.rt', ''))) != 1:
        return False
    return all(is_plain(it) and others.isdisjoint(NAMED.findall(COMMENT.sub('', it))) for it in texts.values())


def is_plain(text):
    """Whether a source means the same in a module, but for its `use crate::`."""
    rest = text.replace(TACTIC, '\n\n')
    return not any(it in rest for it in UNFIT) and rest.count('crate::') == len(USE.findall(rest))


def as_module(text, crate):
    """A source of a crate as one of a module. Each line stays where it is."""
    return MAIN.sub(lambda it: 'pub ' + it.group(), USE.sub(r'\g<1>%s::' % crate, text.replace(TACTIC, '\n\n')))


def write(path, text):
    os.makedirs(os.path.dirname(path), exist_ok=True)
    with open(path, 'w', encoding='utf-8') as f:
        f.write(text)


def put(crates, top, file, about, rest=''):
    """Writes a crate of these modules into a folder, with the crates below it and crates.txt: the folder of that crate."""
    rows, below, at = repository.lines(), repository.below(), os.path.join(top, 'crates', NAME)
    needed = list(dict.fromkeys(it for crate in crates for it in below[crate]))
    uses = dict.fromkeys(it for crate in crates for it in rows[crate].partition(':')[2].split())
    for name in needed:
        for path, text in texts_of(name).items():
            write(os.path.join(top, 'crates', name, 'src', path), text)
    for crate in crates:
        for path, text in texts_of(crate).items():
            to = 'mod.rt' if path in ('lib.rt', 'main.rt') else path
            write(os.path.join(at, 'src', crate, to), as_module(text, crate))
    write(os.path.join(at, 'src', file), ROOT % (about, ''.join('mod %s;\n' % it for it in crates)) + rest)
    write(os.path.join(top, 'crates.txt'), ''.join(rows[it] + '\n' for it in needed) + '%s: %s\n' % (NAME, ' '.join(uses)))
    write(os.path.join(top, 'HANDLES'), sources.read(os.path.join(repository.ROOT, 'HANDLES')))
    return at


class Tests:
    """The tests of crates as one crate."""
    name = 'the tests'

    def __init__(self, crates):
        uses = libraries()
        self.crates = [it for it in crates if fits(it, uses)]

    def command_in(self, top):
        """Writes the crate into a folder: the folder and the words of the command."""
        return put(self.crates, top, 'lib.rt', 'The tests of many crates.'), ['rt', 'try', '--test']

    def passed(self, status, out, _):
        """The crates of which each test passed, by how the command ended."""
        found = collections.Counter(PASSED.findall(out))
        passed = [it for it in self.crates if found[it] == number_of_tests(it)]
        return passed if status == 0 or len(passed) < len(self.crates) else []


class Programs:
    """Programs as one program, with their stored runs."""
    name = 'the stored runs'

    def __init__(self, crates):
        self.crates, self.data, uses = [], {}, libraries()
        for crate in crates:
            data = program.data_of(crate)
            if fits(crate, uses, as_program=True) and not self.data.keys() & data.keys():
                self.crates.append(crate)
                self.data.update(data)

    def main(self):
        """The function `main`, with what it needs."""
        called = ''
        for crate in self.crates:
            kind = MAIN.search(texts_of(crate)['main.rt']).group(1)
            called += '        "%s" => %s,\n' % (crate, ('%s::main(rt)' if kind == 'ExitCode' else 'status_of(%s::main(rt))') % crate)
        return MAIN_OF_ALL % (NO_PROGRAM, called, NO_PROGRAM)

    def command_in(self, top):
        """Writes the program and its cases into a folder: the folder and the words of the command."""
        cases = os.path.join(top, 'cases')
        os.mkdir(cases)
        for crate in self.crates:
            files = {'': crate.encode() + b'\n' + program.stored(crate, 'stdin'), '.stdout': program.stored(crate, 'stdout'),
                     '.args': program.stored(crate, 'args')}
            for ending, text in files.items():
                if text or ending != '.args':
                    with open(os.path.join(cases, crate + ending), 'wb') as f:
                        f.write(text)
        data = [word for name, path in self.data.items() for word in ('--data', '%s=%s' % (name, path))]
        at = put(self.crates, top, 'main.rt', 'Runs the program that the first line of standard input names.', self.main())
        return at, ['rt', 'try', '--cases', cases, *data]

    def passed(self, _, __, said):
        """The crates whose stored runs ended as they have to, by what the command said."""
        ended = dict(CASE.findall(said))
        return [it for it in self.crates if ended.get(it) == str(int(program.stored(it, 'status') or 0))]
