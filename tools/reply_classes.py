"""Why two readers read a damaged reply otherwise, in classes; for tools/compare-http1 and tools/compare-connections."""
import collections
import re

from http_replies import CHUNK, FRAMING, LINE_FEED, MOST_BYTES, MOST_FIELDS, NO_PARSE, TOO_LARGE, Read
from made_replies import BODILESS
from reply_parts import CHUNK as CHUNK_LINE, Reply, follows_grammar

DEEPEST = 8  # so many classes one reply is of at most

FRAMING_FIELDS = (b'content-length', b'transfer-encoding')
NEEDED = (*FRAMING_FIELDS, b'content-type', None)
CONTROL = re.compile(rb'[\0-\x08\x0a-\x1f\x7f]')
# A way in which the two differ, or read what the grammar does not have: its name, what it is, the section, who reads such a reply, with
# which faults this program refuses it (none where it reads it), and the change of a reply's parts that leaves none of that kind.
Class = collections.namedtuple('Class', 'name what section reader faults without')


def with_crlf(reply):
    for section in reply.sections():
        section.lines = [[line, b'\r\n' if end == b'\n' else end] for line, end in section.lines]
        section.end = section.end and b'\r\n'


def unfolded(reply):
    for section in reply.sections():
        kept = section.lines[:1]
        for at, (line, end) in enumerate(section.lines[1:], 1):
            if line[:1] in (b' ', b'\t') and (at > 1 or section is reply.trailers):
                kept[-1] = [kept[-1][0] + b' ' + line.lstrip(b' \t'), end]
            else:
                kept.append([line, end])
        section.lines = kept


def without_control_bytes(reply):
    """An x for each control byte of a value, of a reason phrase and of an extension of a chunk."""
    def replaced(line, mark):
        before, found, after = line.partition(mark)
        return before + found + CONTROL.sub(b'x', after)
    for section in reply.sections():
        for at, it in enumerate(section.lines):
            is_start = section is not reply.trailers and at == 0
            it[0] = it[0][:13] + CONTROL.sub(b'x', it[0][13:]) if is_start else replaced(it[0], b':')
    for it in reply.size_lines():
        it[0] = replaced(it[0], b';')


def in_version(pattern, is_needed=lambda reply: True):
    """HTTP/1.1 in place of a version like this."""
    def changed(reply):
        if is_needed(reply):
            for head in reply.heads:
                if head.lines:
                    head.lines[0][0] = re.sub(rb'^' + pattern + rb'(?= )', b'HTTP/1.1', head.lines[0][0])
    return changed


def with_chunks_alone(reply):
    """Both fields: the one for chunks counts."""
    if reply.head.values(b'transfer-encoding'):
        reply.head.drop(lambda name: name == b'content-length')


def with_one_length(reply):
    """A list of one number, again and again."""
    lists = [set(it.strip(b' \t') for it in value.split(b',')) for value in reply.head.values(b'content-length')]
    if lists and len(lists[0]) == 1 and all(it == lists[0] for it in lists):
        put_field(reply, b'content-length', b'Content-Length: ' + lists[0].pop())


def with_one_number(reply):
    """Several fields of one number, some of them with zeros before it."""
    values = reply.head.values(b'content-length')
    if len({it.lstrip(b'0') for it in values}) == 1 and all(it.isdigit() for it in values) and reply.head.status not in BODILESS:
        put_field(reply, b'content-length', b'Content-Length: ' + values[0])


def put_field(reply, name, line):
    """This line in place of all fields of a name; none if it is None."""
    reply.head.drop(lambda it: it == name)
    if line is not None:
        reply.head.lines.append([line, b'\r\n'])


def in_bounds(reply):
    """A section past this program's bound on bytes without the fields that are not needed here, and without a reason phrase."""
    for section in reply.sections():
        if len(bytes(section)) > MOST_BYTES:
            section.drop(lambda name: name not in NEEDED)
            if section is not reply.trailers:
                section.lines[0][0] = section.lines[0][0][:13]


def without_extensions(reply):
    """No extensions, where they are past this program's bound on their bytes."""
    if sum(len(it[0].partition(b';')[2]) for it in reply.size_lines()) >= MOST_BYTES:
        for it in reply.size_lines():
            it[0] = it[0].partition(b';')[0]


def with_few_fields(reply):
    for section in reply.sections():
        if len(section.lines) > MOST_FIELDS:
            section.drop(lambda name: name not in NEEDED)


def with_one_coding(reply):
    """`chunked` with empty elements, or in several fields."""
    if [it for it in reply.head.codings() if it] == [b'chunked'] and reply.head.status not in BODILESS:
        put_field(reply, b'transfer-encoding', b'Transfer-Encoding: chunked')


def in_few_digits(reply):
    for it in reply.size_lines():
        it[0] = re.sub(rb'^0+(?=[0-9A-Fa-f]+(?![0-9A-Fa-f]))', b'', it[0]) if re.match(rb'[0-9A-Fa-f]{21}', it[0]) else it[0]


def without_blanks_of_chunks(reply):
    for it in reply.size_lines():
        it[0] = re.sub(rb'^([0-9A-Fa-f]+)[ \t]+(?=;)', rb'\1', it[0])


def without_frames_of_bodiless(reply):
    for head in reply.heads:
        if head.status in (*range(100, 200), *BODILESS) or reply.is_head and head is reply.head:
            head.drop(lambda name: name in FRAMING_FIELDS)


def without_frames_of_trailers(reply):
    if reply.trailers:
        reply.trailers.drop(lambda name: name in FRAMING_FIELDS)


def with_blank_behind_code(reply):
    for head in reply.heads:
        if head.lines:
            head.lines[0][0] += b' ' * bool(re.fullmatch(rb'HTTP/1\.[01] [0-9]{3}', head.start))


def without_blanks_of_sizes(reply):
    for it in reply.size_lines():
        it[0] = it[0].rstrip(b' \t') if b';' not in it[0] else it[0]


def without_odd_extensions(reply):
    for it in reply.size_lines():
        it[0] = it[0] if CHUNK_LINE.fullmatch(it[0]) else it[0].partition(b';')[0]


BOUND = 'a bound of this program'
CLASSES = [
    Class('line feed', 'a line of a head or of trailers ends in a line feed alone', 'RFC 9112, 2.2', 'h11', (LINE_FEED,), with_crlf),
    Class('fold', 'a field goes on in the next line', 'stricter than RFC 9112, 5.2', 'h11', (NO_PARSE,), unfolded),
    Class('control byte', 'a value, a reason phrase or an extension of a chunk has a control byte', 'RFC 9110, 5.5; RFC 9112, 4 and 7.1.1',
          'h11', (NO_PARSE, CHUNK), without_control_bytes),
    Class('minor version', 'the version is HTTP/1.2 to 1.9', 'stricter than RFC 9110, 6.2', 'h11', (NO_PARSE,),
          in_version(rb'HTTP/1\.[2-9]')),
    Class('major version', 'the version is not of HTTP/1', 'RFC 9110, 2.5; RFC 9112, 2.3', 'h11', (NO_PARSE,),
          in_version(rb'HTTP/[02-9]\.[0-9]')),
    Class('old chunks', 'HTTP/1.0 has a Transfer-Encoding', 'RFC 9112, 6.1', 'h11', (FRAMING,),
          in_version(rb'HTTP/1\.0', lambda reply: reply.head.values(b'transfer-encoding'))),
    Class('both frames', 'Content-Length and Transfer-Encoding are there', 'RFC 9112, 6.3 (3)', 'h11', (FRAMING,), with_chunks_alone),
    Class('list of a length', 'Content-Length is a list of one number', 'stricter than RFC 9112, 6.3 (5)', 'h11', (FRAMING,),
          with_one_length),
    Class('bytes', 'a head or its trailers have more than 16 KiB', BOUND, 'h11', (TOO_LARGE,), in_bounds),
    Class('extensions', 'the extensions of its chunks have more than 16 KiB', BOUND, 'h11', (CHUNK,), without_extensions),
    Class('fields', 'a head or its trailers have more than 100 fields', BOUND, 'h11', (NO_PARSE,), with_few_fields),
    Class('list of codings', '`chunked` has empty elements beside it, or is in one of several fields', 'RFC 9110, 5.3 and 5.6.1.2', 'here',
          (), with_one_coding),
    Class('zeros of a length', 'two fields say one length, with zeros before it or without', 'RFC 9110, 8.6', 'here', (), with_one_number),
    Class('digits', 'a size of a chunk has more than 20 digits', 'RFC 9112, 7.1; a bound of h11', 'here', (), in_few_digits),
    Class('blank in a chunk', 'blanks are before the extension of a chunk', 'RFC 9112, 7.1.1', 'here', (), without_blanks_of_chunks),
    Class('no body', 'a 1xx, 204 or 304, or a reply to HEAD, says something of a body that it does not have', 'RFC 9112, 6.3 (1)', 'here',
          (), without_frames_of_bodiless),
    Class('trailers', 'a trailer says something of the length of the body', 'RFC 9112, 7.1.2; RFC 9110, 6.5.1', 'here', (),
          without_frames_of_trailers),
    Class('no blank', 'no blank is behind the code', 'wider than RFC 9112, 4', 'both', (), with_blank_behind_code),
    Class('blanks of a size', 'blanks are behind the size of a chunk that has no extension', 'wider than RFC 9112, 7.1', 'both', (),
          without_blanks_of_sizes),
    Class('odd extension', 'an extension of a chunk has another form', 'wider than RFC 9112, 7.1.1', 'both', (), without_odd_extensions)]


def without(one, reply, is_head=False):
    """The reply without the parts of a class; None where it has none."""
    parts = Reply(reply, is_head)
    one.without(parts)
    changed = bytes(parts)
    return None if changed == reply else changed


def same_content(one, other):
    return isinstance(other, Read) and (one.status, one.body) == (other.status, other.body)


def reader_of(ours, theirs):
    """Who reads a reply; None where nobody does."""
    return {(True, True): 'both', (True, False): 'here', (False, True): 'h11', (False, False): None}[
        isinstance(ours, Read), isinstance(theirs, Read)]


def classes_of(reply, ours, theirs, read, is_head=False, deepest=DEEPEST, classes=CLASSES):
    """The classes that a reply is of, as one reader refuses it, or both read it and the grammar has no such reply; None where they do not
    account for that. read gives what both read of other bytes. A reply to HEAD has no body."""
    reader = reader_of(ours, theirs)
    if reader is None or reader == 'both' and ours == theirs and follows_grammar(reply, is_head):
        return []
    if deepest == 0 or reader == 'both' and ours != theirs:
        return None
    taken = theirs if reader == 'h11' else ours
    for one in classes:
        changed = without(one, reply, is_head) if one.reader == reader and (reader != 'h11' or ours.why in one.faults) else None
        if changed is None:
            continue
        both = read(changed)
        if same_content(taken, both[reader == 'h11']):
            more = classes_of(changed, *both, read, is_head, deepest - 1, classes)
            if more is not None:
                return [one, *more]
    return None
