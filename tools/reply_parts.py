"""The parts of a reply's bytes, of which reply_classes changes one kind and puts the reply together again; for tools/compare-http1 and
tools/compare-connections."""
import re

BLANK = re.compile(rb'(?:\r?\n)*')
SIZE = re.compile(rb'[ \t]*([0-9A-Fa-f]+)')


def line_of(text, at):
    """The line that begins at a place, how it ends, and the place behind that: the end is empty where none came."""
    end = text.find(b'\n', at)
    if end < 0:
        return text[at:], b'', len(text)
    is_pair = text[at:end].endswith(b'\r')
    return text[at:end - is_pair], text[end - is_pair:end + 1], end + 1


class Lines:
    """The lines of a head or of trailers, each as it is and with its end, and the end of the empty line behind them."""

    def __init__(self, text, at):
        self.lines, self.end = [], b''
        while at < len(text) and not self.end:
            line, end, at = line_of(text, at)
            if end and not line:
                self.end = end
            else:
                self.lines.append([line, end])
        self.behind = at

    @property
    def is_whole(self):
        return bool(self.end)

    def __bytes__(self):
        return b''.join(line + end for line, end in self.lines) + self.end

    def field(self, at):
        """The name of a line, in lower case, and its value."""
        name, _, value = self.lines[at][0].partition(b':')
        return name.strip(b' \t').lower(), value.strip(b' \t')

    def values(self, name):
        """The values of the fields of a name."""
        return [value for it, value in map(self.field, range(len(self.lines))) if it == name]

    def drop(self, test):
        """Takes away the lines whose name passes a test, with what is folded behind them."""
        kept, drops = [], False
        for at, (line, end) in enumerate(self.lines):
            drops = drops if line[:1] in (b' ', b'\t') and at else test(self.field(at)[0])
            kept += [[line, end]] * (not drops)
        self.lines = kept


class Head(Lines):
    """A head, and the blank lines before it. Its first line is no field."""

    def __init__(self, text, at):
        self.before = BLANK.match(text, at).group()
        super().__init__(text, at + len(self.before))

    def __bytes__(self):
        return self.before + super().__bytes__()

    @property
    def start(self):
        return self.lines[0][0] if self.lines else b''

    @property
    def status(self):
        found = re.match(rb'HTTP/[0-9]\.[0-9] ([0-9]{3})(?![^ ])', self.start)
        return int(found.group(1)) if found else None

    def field(self, at):
        return super().field(at) if at else (None, b'')

    def codings(self):
        """The elements of Transfer-Encoding, in lower case."""
        return [it.strip(b' \t').lower() for value in self.values(b'transfer-encoding') for it in value.split(b',')]


class Reply:
    """The heads, of which the last is the first that is no interim response, and the body: chunks with their ends, the line of the last
    chunk, and trailers, as far as they can be told apart; and the bytes that follow."""

    def __init__(self, reply, is_head=False):
        self.heads, self.chunks, self.last, self.trailers = [Head(reply, 0)], [], [b'', b''], None
        self.is_head = is_head
        while self.head.is_whole and self.head.status in range(100, 200):
            self.heads.append(Head(reply, self.head.behind))
        at = self.head.behind
        if self.head.is_whole and not is_head and [it for it in self.head.codings() if it][-1:] == [b'chunked']:
            at = self.read_chunks(reply, at)
        self.rest = reply[at:]

    @property
    def head(self):
        return self.heads[-1]

    def read_chunks(self, reply, at):
        """The place behind the last of the parts that are those of chunks."""
        while True:
            line, end, begin = line_of(reply, at)
            found = SIZE.match(line)
            if not end or not found:
                return at
            behind = begin + int(found.group(1), 16)
            if behind == begin:
                self.last, self.trailers = [line, end], Lines(reply, begin)
                return self.trailers.behind
            if reply[behind:behind + 2] != b'\r\n':
                return at
            self.chunks.append([line, end, reply[begin:behind], b'\r\n'])
            at = behind + 2

    def sections(self):
        """The heads and the trailers."""
        return self.heads + [self.trailers] * (self.trailers is not None)

    def size_lines(self):
        """The lists whose first element is a line of a chunk's size."""
        return self.chunks + [self.last]

    def __bytes__(self):
        parts = [*map(bytes, self.heads), *(b''.join(it) for it in self.size_lines()), bytes(self.trailers or b''), self.rest]
        return b''.join(parts)


# ---- the grammar of RFC 9112 (2.1, 4, 5, 7.1) and RFC 9110 (5.5, 5.6)

TOKEN = rb"[!#$%&'*+.^_`|~0-9A-Za-z-]+"
QUOTED = rb'"(?:[\t !#-\[\]-~\x80-\xff]|\\[\t -~\x80-\xff])*"'
START = re.compile(rb'HTTP/1\.[01] [0-9]{3} [\t -~\x80-\xff]*')
FIELD = re.compile(TOKEN + rb':[ \t]*(?:[!-~\x80-\xff](?:[\t -~\x80-\xff]*[!-~\x80-\xff])?[ \t]*)?')
CHUNK = re.compile(rb'[0-9A-Fa-f]+(?:[ \t]*;[ \t]*%s(?:[ \t]*=[ \t]*(?:%s|%s))?)*' % (TOKEN, TOKEN, QUOTED))


def has_form(lines, form):
    return all(form.fullmatch(line) and end == b'\r\n' for line, end in lines)


def follows_grammar(reply, is_head=False):
    """Whether a reply begins with what the grammar has: heads, and chunks if it says that it has any, down to the end of the trailers. A
    reply to HEAD has no body."""
    parts = Reply(reply, is_head)
    if any(it.before or it.end != b'\r\n' or not has_form(it.lines[:1], START) or not has_form(it.lines[1:], FIELD) for it in parts.heads):
        return False
    if is_head or parts.head.codings()[-1:] != [b'chunked'] or parts.head.status in (204, 304):
        return True
    return parts.trailers is not None and parts.trailers.end == b'\r\n' and has_form(parts.trailers.lines, FIELD) and has_form(
        [it[:2] for it in parts.size_lines()], CHUNK)
