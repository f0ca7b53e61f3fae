"""The scripts on the pages and the lines that they print there; for tools/readme and the tools' tests."""
import collections
import json
import os
import re
import subprocess

import repository
import sources

PAGES = tuple(os.path.join('docs', it) for it in ('SCRIPT.md', 'C.md'))
BLOCK = r'((?:^ {4}.*\n)+)'
FENCED = r'^```json\n((?:^(?!```).*\n)+)^```\n'
# A block, the paragraph below it and the indented block below that, which may begin the next such three.
SHOWN = re.compile('(?:%s|%s)' % (BLOCK, FENCED) + r'(?=\n((?:^\S.*\n)+)\n' + BLOCK + ')', re.M)

# A printed line goes on in the page's next one, where that is four columns further in.
GOES_ON = re.compile('\n {4}')

# A script as a page has it, with which status it ends if the page says so, and the lines that it prints.
Shown = collections.namedtuple('Shown', 'script status lines')


def is_script(text):
    """Whether a text is the JSON of a script."""
    try:
        found = json.loads(text)
    except ValueError:
        return False
    return isinstance(found, dict) and 'command' in found


def scripts_on(page):
    """The scripts of a page, each a block of its own above one with its lines."""
    for block, fenced, between, lines in SHOWN.findall(page):
        script, lines = fenced or re.sub('(?m)^    ', '', block), re.sub('(?m)^    ', '', lines)
        status = re.search(r'\bexit (\d)\b', between)
        if is_script(script):
            yield Shown(script, int(status.group(1)) if status else None, GOES_ON.sub('', lines))


def all_shown():
    """The scripts of all pages, each with its page."""
    return [(page, it) for page in PAGES for it in scripts_on(sources.read(os.path.join(repository.ROOT, page)))]


def difference(shown, status, lines):
    """How the run of a script differs from what the page says, or None."""
    if lines != shown.lines:
        here, there = lines.splitlines() + [''], shown.lines.splitlines() + ['']
        at = next((at for at, pair in enumerate(zip(here, there)) if pair[0] != pair[1]), min(len(here), len(there)) - 1)
        return 'line %d is %r, and on the page %r' % (at + 1, here[at], there[at])
    return None if shown.status in (None, status) else 'it ends with status %d, and on the page with %d' % (status, shown.status)


def fault_of(shown, path):
    """Why the run of a script by a program is not as the page says, or None."""
    run = subprocess.run([path], input=shown.script.encode(), capture_output=True, env={})
    return difference(shown, run.returncode, run.stdout.decode(errors='replace'))
