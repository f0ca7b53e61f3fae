"""Reads the part of TOML 1.0 that the file of profiles needs, and knows each line; for tools/oauth2.

Python has a reader of TOML from 3.11 on, and it does not say on which line a key is. This one takes
comments, tables as [a] and [a.b], and keys as name = value, where a value is a text in "" or '', a
whole number, true, false, or a list of texts. A file that it takes means the same to each reader of
TOML; it refuses the other forms.
"""
from __future__ import annotations

import re
from typing import NamedTuple, Union

Plain = Union[str, int, bool, 'list[str]']


class Value(NamedTuple):
    """The value of a key, and the number of its line."""

    value: Plain
    line: int


class Table(NamedTuple):
    """The keys of a table; its name as [a.b] has it, in parts; and the number of its line."""

    name: tuple[str, ...]
    line: int
    keys: dict[str, Value]


class Fault(Exception):
    """Why a text can't be read, and the number of the line."""

    def __init__(self, line: int, why: str) -> None:
        super().__init__(why)
        self.line, self.why = line, why


KEY = r'[A-Za-z0-9_-]+'
TABLE = re.compile(r'\[[ \t]*(%s(?:[ \t]*\.[ \t]*%s)*)[ \t]*\]' % (KEY, KEY))
PAIR = re.compile(r'(%s)[ \t]*=[ \t]*' % KEY)
SPACE = re.compile(r'[ \t]*')
END = re.compile(r'[ \t]*(?:#[^\n]*)?(?:\n|\Z)')
BETWEEN = re.compile(r'(?:[ \t\n]|#[^\n]*)*')
BASIC = re.compile(r'"((?:[^"\\\n\x00-\x08\x0a-\x1f\x7f]|\\[^\n])*)"')
LITERAL = re.compile(r"'([^'\n\x00-\x08\x0a-\x1f\x7f]*)'")
NUMBER = re.compile(r'[+-]?(?:0|[1-9](?:_?[0-9])*)(?![0-9A-Za-z_.:+-])')
WORD = re.compile(r'(?:true|false)(?![0-9A-Za-z_.-])')
ESCAPE = re.compile(r'\\(u[0-9A-Fa-f]{4}|U[0-9A-Fa-f]{8}|.)')
SHORT = {'b': '\b', 't': '\t', 'n': '\n', 'f': '\f', 'r': '\r', '"': '"', '\\': '\\'}


def read(text: str) -> list[Table]:
    """The tables of a text in their order; the first has the keys above all headers, and no name.

    Fault where it can't be read.
    """
    return Reader(text.replace('\r\n', '\n')).tables()


class Reader:
    """A text, and how far it is read."""

    def __init__(self, text: str) -> None:
        self.text, self.at = text, 0

    def line(self) -> int:
        return self.text.count('\n', 0, self.at) + 1

    def fault(self, why: str) -> Fault:
        return Fault(self.line(), why)

    def takes(self, form: re.Pattern[str]) -> re.Match[str] | None:
        """Reads on over what has a form."""
        found = form.match(self.text, self.at)
        if found:
            self.at = found.end()
        return found

    def tables(self) -> list[Table]:
        found = [Table((), 1, {})]
        while self.takes(BETWEEN) and self.at < len(self.text):
            line = self.line()
            header = self.takes(TABLE)
            if header:
                name = tuple(it.strip() for it in header.group(1).split('.'))
                if any(it.name == name for it in found):
                    raise self.fault('the table [%s] is there twice' % '.'.join(name))
                found.append(Table(name, line, {}))
            else:
                self.pair(found[-1], line)
            if not self.takes(END):
                raise self.fault('there is more on this line than a table or a key with its value')
        return found

    def pair(self, table: Table, line: int) -> None:
        """Reads a key and its value."""
        pair = self.takes(PAIR)
        if not pair:
            raise self.fault('this is no [table], no name = value and no # comment')
        name = pair.group(1)
        if name in table.keys:
            raise self.fault('"%s" is there twice' % name)
        table.keys[name] = Value(self.value(), line)

    def value(self) -> Plain:
        if self.text.startswith('[', self.at):
            return self.texts()
        text = self.one_text()
        if text is not None:
            return text
        number = self.takes(NUMBER)
        if number:
            return int(number.group())
        word = self.takes(WORD)
        if word:
            return word.group() == 'true'
        raise self.fault('a value has to be a text in "", a whole number, true, false, or a list '
                         'of texts in []')

    def texts(self) -> list[str]:
        """A list of texts, which may go over several lines."""
        self.at += 1
        found: list[str] = []
        while True:
            self.takes(BETWEEN)
            if self.text.startswith(']', self.at):
                self.at += 1
                return found
            text = self.one_text()
            if text is None:
                raise self.fault('a list has to have texts in "" alone, with commas between them')
            found.append(text)
            self.takes(BETWEEN)
            if self.text.startswith(',', self.at):
                self.at += 1
            elif not self.text.startswith(']', self.at):
                raise self.fault('a list lacks a comma, or its ]')

    def one_text(self) -> str | None:
        if self.text.startswith(('"""', "'''"), self.at):
            raise self.fault('a text has to be on one line, in one pair of quotes')
        literal = self.takes(LITERAL)
        if literal:
            return literal.group(1)
        basic = self.takes(BASIC)
        if basic:
            return ESCAPE.sub(self.unescaped, basic.group(1))
        if self.text.startswith(('"', "'"), self.at):
            raise self.fault('a text has no end on its line, or has a control character')
        return None

    def unescaped(self, found: re.Match[str]) -> str:
        name = found.group(1)
        if name in SHORT:
            return SHORT[name]
        number = int(name[1:], 16) if len(name) > 1 else 0x110000
        if number > 0x10ffff or 0xd800 <= number < 0xe000:
            raise self.fault('the text has the escape \\%s, which is none' % name)
        return chr(number)
