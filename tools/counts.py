"""The numbers on the pages that are counted or read in files of the repository; for tools/examples."""
import glob
import os
import re

import repository
import sources
import stored_scripts

WORDS = 'no one two three four five six seven eight nine ten eleven twelve'.split()
# A mark: what is counted and where, and the number on the page, if there is one yet.
MARK = re.compile(r'(<!-- (count|value|scripts)\s+(.*?)\s*-->)(\d+(?:,\d{3})*|(?:%s)\b)?' % '|'.join(WORDS), re.S)
AT_BEGINNING = re.compile(r'^ *(<!-- (?:count|value|scripts|lines)\b.*)', re.M)
SCRIPTS = os.path.relpath(stored_scripts.SCRIPTS, repository.ROOT)


class BadCount(Exception):
    """A mark that names no files, by which there is nothing to count, that would end its paragraph, or that is no comment on GitHub."""


def read(path):
    return sources.read(os.path.join(repository.ROOT, path))


def matches(where):
    """What a regular expression finds in files, given as `FILES: REGEX`."""
    pattern, _, regex = re.sub(r'\s+', ' ', where).partition(': ')
    paths = sorted(glob.glob(os.path.join(repository.ROOT, pattern), recursive=True))
    if not paths:
        raise BadCount('no file %s' % pattern)
    try:
        return [it for path in paths for it in re.findall('(?m)' + regex, sources.read(path))]
    except re.error as error:
        raise BadCount('%s: %s' % (regex, error)) from None


def count(where):
    """How often a regular expression is in files."""
    return len(matches(where))


def value(where):
    """The number that the one group of a regular expression finds in a file."""
    found = {it.replace('_', '').replace(',', '') for it in matches(where)}
    if len(found) != 1 or not found.copy().pop().isdigit():
        raise BadCount('%s: %s, and not one number' % (where, ', '.join(sorted(found)) or 'nothing'))
    return int(found.pop())


def scripts(sections):
    """How many stored scripts there are from one section to another one, both counted, given as `FIRST .. LAST`."""
    first, _, last = sections.partition(' .. ')
    parts = re.split(r'(?m)^# (.*)\n', read(SCRIPTS))
    names, texts = parts[1::2], parts[2::2]
    if first not in names or last not in names:
        raise BadCount('no scripts %s' % sections)
    return sum(len(re.findall(r'(?m)^\{', it)) for it in texts[names.index(first):names.index(last) + 1])


KINDS = {it.__name__: it for it in (count, value, scripts)}


def shown(number, before):
    """A number as the page writes it: as a word, or without commas, if one stood there that was so."""
    if before in WORDS and number < len(WORDS):
        return WORDS[number]
    return str(number) if before and before.isdigit() and int(before) > 999 else format(number, ',')


def filled(page):
    """A page with the numbers as they are counted."""
    for mark in AT_BEGINNING.findall(page):
        raise BadCount('a mark at the beginning of a line is not in the paragraph: %s' % mark)
    for mark in [it for _, _, it, _ in MARK.findall(page) if '--' in it]:
        raise BadCount('a comment with two hyphens in it is none: %s' % mark)
    return MARK.sub(lambda m: m.group(1) + shown(KINDS[m.group(2)](m.group(3)), m.group(4)), page)
