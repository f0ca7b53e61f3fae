"""Wrong bodies: how one is read, made on a copy of its crate, tried and judged; for tools/wrong-bodies.

A caller's proof uses only the contract of what it calls, and no edit changes a contract. So many edits are tried in one check, a round,
with at most one of each function. An edit waits for a later round if the goals of its function wait for a function that is refused
beside it. An edit is tried alone if no round refused it, if an error that stopped a round lies in its function, or if it changes what
is in no function.
"""
import ast
import hashlib
import os
import re
import signal
import subprocess
from concurrent.futures import as_completed

import repository

RUNNING = set()  # the checks under way
REFUSED, PASSED, BAD = 'refused', 'NOT REFUSED', 'BAD'
# A line that places what was refused, and what a proof file says that names something the edit took away.
PLACED = re.compile(r'(?:note: )?(?:\./)?((?:src|specs|proofs)/\S+?:\d+:\d+: .*)')
NAMES_WHAT_WENT = re.compile(r'proofs/.*(has no field|is not in scope|has no `|was not admitted|was rejected)')
ONLY_A_PROOF = 'only a proof file that names what the edit took away: '
# The proof file of a placed line, and the place of such a line.
OF_A_PROOF = re.compile(r'(?:\./)?(proofs/(\S+)/\w+\.antt):\d+:\d+: ')
PLACE = re.compile(r'^\S+:\d+:\d+: ')
# The line that ends what a check says of an item, and a function whose refusal says that another is refused.
VERDICT = re.compile(r'(?:fn|struct|enum|impl|trait) (\S+): (.*)')
CALLS_REFUSED = re.compile(r'it calls (.*), which (?:is|are) not proved')
FUNCTION = re.compile(r'(\s*)(?:(?:pub(?:\([^)]*\))?|const|unsafe) +)*fn (\w+)')
IMPL = re.compile(r'(?:impl|(?:pub )?trait)\b')
# What a check says if a library below the crate is missing, and if it was killed and began to build the libraries anew.
NO_LIBRARY = re.compile(r'(?m)^rt: (?:the library \S+ did not build|the kept work of \S+ cannot be used).*|^.*Run the lower steps again.*')
KILLED_AGAIN = re.compile(r'(?m)^rt: killed again: ')


class NoLibrary(Exception):
    """A check that says nothing of the crate, since a library below it is missing."""


class Edit:
    """A wrong body: the lines that it changes, by file and number, and the functions of the check's verdicts that these are in."""

    def __init__(self, path, text, folder, functions):
        self.path, self.name, self.apart = path, os.path.basename(path)[:-len('.edit')], set()
        self.lines, places = {}, []
        for file, after in edited(text, folder).items():
            before = read(folder, file)
            for number, (old, new) in enumerate(zip(before, after.split('\n'))):
                if old != new:
                    self.lines[file, number] = new
                    place = place_of(before, number)
                    places += [(file,) + place] if place else []
        self.spans = {(file, first, last) for file, _, _, first, last in places}
        crate = os.path.basename(folder)
        named = [function_named(functions, crate, file, impl, name) for file, impl, name, _, _ in places]
        self.functions = set(named) if all(named) else set()

    def goes_with(self, others):
        """Whether one check can try it with others."""
        return not any(self.functions & (it.functions | it.apart) or self.apart & it.functions
                       or self.lines.keys() & it.lines.keys() for it in others)


def version():
    """A sum of the code of this file, without its comments and texts on it: what the kept verdicts were judged by."""
    with open(os.path.abspath(__file__), encoding='utf-8') as f:
        tree = ast.parse(f.read())
    for it in ast.walk(tree):
        if isinstance(it, (ast.Module, ast.ClassDef, ast.FunctionDef)) and ast.get_docstring(it) is not None:
            it.body = it.body[1:]
    return hashlib.sha256(ast.dump(tree).encode()).hexdigest()


def read(folder, file):
    """The lines of a source file of the crate in a folder."""
    with open(os.path.join(folder, file), encoding='utf-8') as f:
        return f.read().split('\n')


def place_of(lines, number):
    """The impl, the name and the first and last line of the function that a line is in; None if it is in none."""
    for first in range(number, -1, -1):
        function = FUNCTION.match(lines[first])
        if function:
            indent = function.group(1)
            last = next((at for at in range(first, len(lines)) if lines[at].rstrip() == indent + '}'), first)
            heads = [at for at in range(first) if IMPL.match(lines[at])] if indent else []
            head = ' '.join(lines[heads[-1]:heads[-1] + 4]).partition('{')[0] if heads else ''
            return (head, function.group(2), first, last) if number <= last else None
    return None


def words_of(head):
    """What a verdict may call an impl, by its head."""
    head = re.sub(r'^impl\s*(<[^<>]*(<[^<>]*>[^<>]*)*>)?|\bwhere\b.*', '', head).strip()
    trait, _, target = head.rpartition(' for ')
    words = [it.split('::')[-1] for it in re.findall(r'[\w:]+', target)]
    if not trait:
        return {words[0], '+'.join(words)} if words else set()
    traits = [it.split('::')[-1] for it in re.findall(r'[\w:]+', trait)]
    return {words[0] + traits[0], words[0] + ''.join(traits[:2])}


def function_named(functions, crate, file, head, name):
    """The function of a check's verdicts that stands in an impl of a file; None if it can't be told."""
    module = '::'.join([crate] + [it for it in file[len('src/'):-len('.rt')].split('/') if it not in ('lib', 'mod')]) + '::'
    found = [it for it in functions if it.startswith(module) and it.split('::')[-1] == name]
    if len(found) > 1:
        found = [it for it in found if it[len(module):].split('::')[0] in words_of(head)]
    return found[0] if len(found) == 1 else None


def edited(edit, folder):
    """The files of the crate in a folder that the text of an edit changes, with their new texts; ValueError if it can't be made."""
    texts, path, old = {}, None, None
    for line in edit.split('\n'):
        key, _, text = line.partition(':')
        text = text[1:] if text.startswith(' ') else text
        if key == 'file':
            path = text.strip()
            if os.path.normpath(path) != path or not path.startswith('src/'):
                raise ValueError('%s is no file of src/' % path)
        elif key == 'old':
            old = text
        elif key == 'new':
            if not path or not old:
                raise ValueError('a new text with no file or no old text before it')
            if path not in texts:
                try:
                    texts[path] = '\n'.join(read(folder, path))
                except OSError:
                    raise ValueError('there is no file %s' % path)
            if texts[path].count(old) != 1:
                raise ValueError('%s has its old text %d times: %s' % (path, texts[path].count(old), old))
            texts[path], old = texts[path].replace(old, text), None
    if not texts:
        raise ValueError('it changes nothing')
    return texts


def judged(status, said):
    """What a check says of an edit that was tried alone: whether it is refused, and the line that says so."""
    lines = said.rstrip('\n').split('\n')
    if status == 0:
        return PASSED, 'the crate is still proved'
    if status < 0 or status > 128:
        return BAD, 'the check was killed, most likely for memory'
    if not stopped_at_goals(said):
        limit = re.search(r'(?m)^rattle: no verdict.*', said)
        if limit:
            return BAD, 'no goal was named: ' + limit.group()
        first = next((it for it in lines if re.search(r'\berror\b', it)), lines[-1])
        return BAD, 'it does not compile: ' + first
    goals = goals_of(lines)
    if not goals:
        first = next((it for it in lines if re.match(r'fn \S+: (not proved|no proof)', it)), None)
        return (REFUSED, first) if first else (BAD, 'no goal was named: ' + lines[-1])
    return judged_by(goals)


def stopped_at_goals(said):
    """Whether a check came as far as the goals."""
    return re.search(r'(?m)^logic=not-proved', said)


def goals_of(lines):
    """What places a goal that was not proved: a line, with those behind it that go on with it."""
    found, goes_on = [], False
    for line in lines:
        placed = PLACED.match(line)
        if placed:
            goes_on = ': error' in line or 'not proved' in line
            found += [placed.group(1)] * goes_on
        elif goes_on and line.startswith('  '):
            found[-1] += ' ' + line.strip()
        else:
            goes_on = False
    return found


def judged_by(goals):
    """What the goals of a function that was refused say of its edit."""
    meant = [it for it in goals if not NAMES_WHAT_WENT.match(it)]
    if not meant:
        return BAD, ONLY_A_PROOF + goals[0]
    if unread(meant[0]):
        return BAD, 'it does not compile: ' + meant[0]
    return REFUSED, meant[0]


def unread(line):
    """Whether a line says that a text of src/ or specs/ could not be read at all."""
    said = re.sub(r'`[^`]*`', '', line)
    return line.startswith(('src/', 'specs/')) and bool(
        re.search(r': error.*(is not in scope|has no field|is no name|operand is missing|expected the end|cannot continue)', said))


def verdicts(said):
    """For each function that a check speaks of: what it says of it, the goals that it left, and the refused ones that it calls. A goal
    of src/ is that of the verdict behind it, and one of a proof file that of the function whose folder it is in, wherever it stands."""
    found, before, of_proofs = {}, [], []
    for line in said.split('\n'):
        end = VERDICT.match(line)
        if end:
            calls = CALLS_REFUSED.search(line)
            goals = goals_of(before)
            of_proofs += [it for it in goals if it.startswith('proofs/')]
            own = [it for it in goals if not it.startswith('proofs/')]
            found[end.group(1)] = end.group(2), own, re.findall(r'`([^`]+)`', calls.group(1)) if calls else []
            before = []
        else:
            before.append(line)
    for goal in of_proofs:
        owner = function_of_proof(goal, found)
        if owner:
            found[owner][1].append(goal)
    return found


def function_of_proof(goal, functions):
    """The function in whose folder of proofs a goal is; None for a file of lemmas."""
    at = OF_A_PROOF.match(goal)
    words = at.group(2).split('/') if at else []
    return next((it for it in functions if words and it.split('::')[1:] == words), None)


def check(folder, jobs):
    """The status of a check of the crate in a folder, and what it said."""
    how = dict(cwd=folder, stdin=subprocess.DEVNULL, stdout=subprocess.PIPE, stderr=subprocess.STDOUT, text=True, errors='replace')
    with subprocess.Popen(['rt', 'check', '--jobs', str(jobs), *repository.check_flags(folder)], **how) as run:
        RUNNING.add(run)
        said = run.communicate()[0]
        RUNNING.discard(run)
    return run.returncode, said


def tried(room, crate, edits, jobs, log, left_out=()):
    """The status of a check of a copy on which edits are made, and what it said. room has the crate as it is proved. The proof files
    left_out are not in the copy."""
    texts = {}
    for edit in edits:
        for (file, number), line in edit.lines.items():
            texts.setdefault(file, read(os.path.join(room, 'crates', crate), file))[number] = line
    with repository.copy(crate, keeps=True, root=room) as other:
        folder = os.path.join(other, 'crates', crate)
        for file, lines in texts.items():
            with open(os.path.join(folder, file), 'w', encoding='utf-8') as f:
                f.write('\n'.join(lines))
        for file in left_out:
            os.remove(os.path.join(folder, file))
        status, said = check(folder, jobs)
    if log:
        with open(log, 'w') as f:
            f.write(said)
    return of_the_crate(status, said)


def of_the_crate(status, said):
    """What a check says of the crate itself: a goal of a library that it built on the way counts for nothing."""
    lacks = NO_LIBRARY.search(said)
    if status and lacks:
        raise NoLibrary(lacks.group())
    return (-signal.SIGKILL, '') if status and KILLED_AGAIN.search(said) else (status, said)


def next_round(waiting):
    """The edits that one check can try, the first that wait first."""
    found = []
    for edit in waiting:
        if edit.functions and edit.goes_with(found):
            found.append(edit)
    return found


def judged_in_round(edits, said):
    """What a round's check says of those of its edits that it refused. An edit whose function only calls others that are refused, and
    whose own goals wait for them, is kept apart from them from then on."""
    by_function, results = verdicts(said), {}
    beside = {it for edit in edits for it in edit.functions}
    for edit in edits:
        for name in edit.functions & by_function.keys():
            said_of_it, goals, _ = by_function[name]
            if said_of_it.startswith('proved'):
                continue
            verdict = judged_by(goals) if goals else (REFUSED, 'fn %s: %s' % (name, said_of_it))
            waits_for = refused_below(name, by_function) & beside - edit.functions
            if waits_for and not (goals and verdict[0] == REFUSED):
                edit.apart |= waits_for
            elif not verdict[1].startswith(ONLY_A_PROOF) and (goals or re.match(r'not proved|no proof', said_of_it)):
                results[edit] = verdict
    return results


def refused_below(name, by_function):
    """The refused functions that a function calls, or that these call."""
    found, more = set(), {name}
    while more:
        more = {it for one in more for it in by_function.get(one, ('', [], []))[2]} - found
        found |= more
    return found


def blamed(edits, said):
    """The edits of a round in whose functions the errors of a check are."""
    at = {(m.group(1), int(m.group(2)) - 1)
          for m in re.finditer(r'(?m)^(?:\./)?(src/[^\s:]+):(\d+):\d+: (?!note)', said)}
    return [it for it in edits if any(file == where and first <= number <= last
                                      for file, number in at for where, first, last in it.spans)]


def in_rounds(edits, tries, found):
    """Tries edits in rounds, by a call that checks some together, and passes each that was refused to found. Gives the others, which are
    to be tried alone."""
    left, waiting, number = list(edits), list(edits), 0
    while True:
        batch = next_round(waiting)
        if len(batch) < 2:
            return left
        number += 1
        status, said = tries(batch, number)
        if status and not verdicts(said):
            alone = blamed(batch, said) or batch[:len(batch) // 2]
        else:
            apart = {it: set(it.apart) for it in batch}
            refused = judged_in_round(batch, said)
            for edit, (verdict, why) in refused.items():
                found(edit, verdict, why)
            left = [it for it in left if it not in refused]
            alone = [it for it in batch if it in refused or it.apart == apart[it]]
        waiting = [it for it in waiting if it not in alone]


def tried_alone(room, crate, edit, log):
    """What a check says of an edit that is tried alone. One that only stored answers stop is tried once more without these, and refused
    if it leaves a goal open that the crate as it is proved does not leave open without them."""
    status, said = tried(room, crate, [edit], 1, log(edit.name))
    verdict, why = judged(status, said)
    answers = {it.group(1) for it in map(OF_A_PROOF.match, goals_of(said.split('\n'))) if it and it.group(1).endswith('/Answers.antt')}
    if not why.startswith(ONLY_A_PROOF) or not answers:
        return verdict, why
    open_anyway = {PLACE.sub('', it) for it in goals_of(tried(room, crate, [], 1, None, answers)[1].split('\n'))}
    status, said = tried(room, crate, [edit], 1, log(edit.name + '.clause'), answers)
    if status == 0:
        return judged(status, said)
    of_the_edit = [it for it in goals_of(said.split('\n')) if PLACE.sub('', it) not in open_anyway]
    return judged_by(of_the_edit) if of_the_edit and stopped_at_goals(said) else (verdict, why)


def try_all(room, crate, edits, pool, jobs, logs, found):
    """Tries edits of a crate that is proved as it stands in room, and passes the verdict on each to found as it comes."""
    log = lambda name: logs and os.path.join(logs, '%s.%s' % (crate, name))
    left = in_rounds(edits, lambda batch, number: tried(room, crate, batch, jobs, log('round%d' % number)), found)
    runs = {pool.submit(tried_alone, room, crate, it, log): it for it in left}
    for run in as_completed(runs):
        found(runs[run], *run.result())
