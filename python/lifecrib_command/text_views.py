"""What a text means once what is coded in it is decoded: in a form or a URL, in JSON, and in HTML."""
from __future__ import annotations

import html
import re
from typing import Callable, Iterator, NamedTuple

LEVELS = 2  # how often a secret may be encoded, one way over the other
LONGEST = 72  # letters that one letter may then become
SHORT = {'b': '\b', 'f': '\f', 'n': '\n', 'r': '\r', 't': '\t'}
# What stands for a byte or a letter: in a form or a URL, in JSON, and in HTML.
PERCENT = re.compile(r'%([0-9A-Fa-f]{2})')
ESCAPE = re.compile(r'\\(?:u([dD][89abAB][0-9A-Fa-f]{2})\\u([dD][c-fC-F][0-9A-Fa-f]{2})'
                    r'|u([0-9A-Fa-f]{4})|(["\\/bfnrt]))')
ENTITY = re.compile(r'&(?:#[0-9]{1,7}|#[xX][0-9A-Fa-f]{1,6}|[a-z]{2,6});')


class View(NamedTuple):
    """The bytes that a text means, each as a letter, and where each begins and ends in the text."""

    letters: str
    begins: list[int]
    ends: list[int]

    def places(self, what: str) -> Iterator[tuple[int, int]]:
        """Where something is in the text."""
        at = self.letters.find(what)
        while at >= 0:
            yield self.begins[at], self.ends[at + len(what) - 1]
            at = self.letters.find(what, at + 1)


def bytes_of(text: str) -> str:
    """The bytes of a text, each as a letter."""
    return text.encode('utf-8', 'surrogatepass').decode('latin-1')


def plain(text: str) -> View:
    """The text as it is written."""
    letters: list[str] = []
    places: list[int] = []
    for at, letter in enumerate(text):
        found = bytes_of(letter)
        letters.append(found)
        places.extend([at] * len(found))
    return View(''.join(letters), places, [it + 1 for it in places])


def of_escape(found: re.Match[str]) -> str:
    """The bytes for which an escape of JSON stands."""
    high, low, four, short = found.groups()
    if high:
        both = (int(high, 16) - 0xd800 << 10) + int(low, 16) - 0xdc00 + 0x10000
        return bytes_of(chr(both))
    if four:
        return bytes_of(chr(int(four, 16)))
    return SHORT.get(short, short)


# Each way to write a text, with the bytes for which what is coded stands.
WAYS: tuple[tuple[re.Pattern[str], Callable[[re.Match[str]], str]], ...] = (
    (PERCENT, lambda it: chr(int(it.group(1), 16))), (ESCAPE, of_escape),
    (ENTITY, lambda it: bytes_of(html.unescape(it.group()))))


def decoded(view: View, form: re.Pattern[str], meant: Callable[[re.Match[str]], str]) -> View:
    """What a view means once what has this form is decoded."""
    letters: list[str] = []
    begins: list[int] = []
    ends: list[int] = []
    at = 0
    for found in form.finditer(view.letters):
        here = meant(found)
        if here == found.group():  # no entity of HTML
            continue
        letters += [view.letters[at:found.start()], here]
        begins += view.begins[at:found.start()] + [view.begins[found.start()]] * len(here)
        ends += view.ends[at:found.start()] + [view.ends[found.end() - 1]] * len(here)
        at = found.end()
    letters.append(view.letters[at:])
    return View(''.join(letters), begins + view.begins[at:], ends + view.ends[at:])


def views(view: View, levels: int) -> Iterator[View]:
    """A view, and what it means if it is decoded so often, in each of the ways."""
    yield view
    for form, meant in WAYS:
        if levels and form.search(view.letters):
            yield from views(decoded(view, form, meant), levels - 1)
