"""Puts each difference between what the Rust crate and this program write of a script into a class of docs/DIFFERENCES.md, "How it was
compared".

A class other than `equal` is given only where the program's answer, and a poll's requests and sleeps, are also those of expected.py. So
two programs that agree are DIFFERENT too where both differ from it.
"""
import collections
import json
import re

from rust import expected

EQUAL, DIFFERENT = 'equal', 'DIFFERENT'
OTHER = 'answer fault "Other error: '
PARSE = re.compile(r'answer fault "Failed to parse server response" ("(?:[^"\\]|\\.)*") (\S+)')
IN_A_POLL = ', in a poll'

# The two outputs of a script: their lines, the last line (`answer ..`) and the line `exit ..`.
Output = collections.namedtuple('Output', 'lines answer exit')
# A reply's body: its JSON value, or None, and what is unusual about its text.
Body = collections.namedtuple('Body', 'value flaws')


def output_of(text):
    lines = text.split('\n')[:-1]
    return Output(lines[:-1], lines[-2] if len(lines) > 1 else '', lines[-1])


def parse_of(answer):
    """The member or path and the cause of a line that says that a reply does not read; None of any other line."""
    found = PARSE.fullmatch(answer)
    return (json.loads(found.group(1)), found.group(2)) if found else None


def body_of(text):
    """A body that Python's reader takes, or the flaw `no JSON`. Further flaws: a name twice, deep nesting, half of a surrogate pair, a
    number past all floats."""
    flaws = set()

    def members(pairs):
        if len(pairs) != len(dict(pairs)):
            flaws.add('a name twice')
        return dict(pairs)
    try:
        value = json.loads(text, object_pairs_hook=members, parse_constant=expected.no_constant)
    except (ValueError, RecursionError, expected.NoJson):
        return Body(None, {'no JSON'})
    flaws |= {'deep'} if expected.depth(text) > 127 else set()
    flaws |= {'surrogate'} if re.search(r'\\u[dD][89a-fA-F]', text) else set()
    flaws |= {'number'} if re.search(r'\d[eE]\+?\d{3}|\d{300}', text) else set()
    return Body(value, flaws)


def last_reply(script, lines):
    """The status and the body of the reply to the last request of some lines; None where the script has no such reply."""
    requests = sum(it.startswith('request ') for it in lines)
    try:
        reply = script['replies'][requests - 1]
        return reply['status'], body_of(reply['body'])
    except (KeyError, IndexError, TypeError):
        return None


def nanoseconds(line):
    seconds, _, nanoseconds = line.removeprefix('sleep ').partition('.')
    return int(seconds) * expected.SECOND + int(nanoseconds)


def sleeps_of(lines):
    return [it for it in lines if it.startswith('sleep ')]


def class_of_sleeps(theirs, ours, script):
    """The class where the sleeps differ: the Rust crate's may become shorter after a failure, and it panics past the greatest duration."""
    slept, there = sleeps_of(ours.lines), sleeps_of(theirs.lines)
    if list(map(nanoseconds, slept)) != expected.sleeps(script, len(slept)):
        return None
    if theirs.answer.startswith('answer panic') and 'overflow' in theirs.answer and theirs.lines[:-1] == ours.lines[:len(theirs.lines) - 1]:
        return 'slow_down past the greatest duration'
    by_rust = list(map(nanoseconds, there)) == expected.sleeps(script, len(there), by_rust=True)
    if len(slept) != len(there) or slept == there or not by_rust:
        return None
    rest = iter(slept)
    alike = theirs._replace(lines=[next(rest) if it.startswith('sleep ') else it for it in theirs.lines])
    more = class_of_outputs(alike, ours, script)
    return more if more == DIFFERENT else 'sleeps after a failed call' + ('' if more == EQUAL else '; ' + more)


def class_of_deadline(theirs, ours, script):
    """The class where only the Rust crate's clock has a time as late as the deadline."""
    params, readings = script['params'], script.get('readings') or [0]
    timeout = params.get('timeout', params['device']['expires_in'])
    is_late = timeout <= expected.LONGEST_TIMEOUT and readings[0] + timeout > expected.LATEST
    is_alone = ours.lines == [expected.NO_DEADLINE] and not theirs.answer.startswith(OTHER + 'failed to convert')
    return 'deadline past the range of jiff' if is_late and is_alone else None


def class_of_course(theirs, ours, script):
    """The class where a poll goes on by one of the two alone, since one of its replies reads by one alone."""
    def is_alike(one, other):
        return one == other or one.startswith('sleep ') and other.startswith('sleep ')
    same = next((at for at, pair in enumerate(zip(theirs.lines, ours.lines)) if not is_alike(*pair)), None)
    reply = last_reply(script, theirs.lines[:same]) if same else None
    if reply is None or reply[0] == 200:
        return None
    value, flaws = reply[1]
    cause = parse_of(ours.lines[same])
    if isinstance(value, list) and cause == ('', 'NotObject'):
        return 'list in place of an object' + IN_A_POLL
    if flaws - {'a name twice'} and cause == ('', 'NotJson'):
        return 'text after the value, or an unread member that is no JSON' + IN_A_POLL
    if 'a name twice' in flaws and parse_of(theirs.lines[same]):
        return 'member name twice' + IN_A_POLL
    return None


def class_of_poll(theirs, ours, script):
    if script['command'] != 'device_poll':
        return None
    found = class_of_sleeps(theirs, ours, script) or class_of_deadline(theirs, ours, script)
    is_same_course = theirs.lines[:-1] == ours.lines[:-1] and len(theirs.lines) == len(ours.lines)
    return found or (None if is_same_course else class_of_course(theirs, ours, script))


def class_of_parse(there, here):
    """The class where neither reads the reply: the Rust crate tells no cause, and a path in place of a member."""
    member = re.match(r'[^.\[]*', there[0]).group().replace('verification_url', 'verification_uri')
    if member == here[0]:
        return 'the cause of a fault, same member'
    if there[0] in ('', '?'):
        return 'the cause of a fault, no path in the Rust crate'
    return 'a fault inside a member' if here == ('', 'NotJson') else 'another member first'


def class_of_reading(there, here, reply):
    """The class where the reply reads by one of the two alone."""
    status, (value, flaws) = reply
    if here is None:
        return 'member name twice' if 'a name twice' in flaws else None
    if here == ('', 'NotJson') and flaws & {'no JSON', 'deep', 'surrogate', 'number'}:
        return 'text after the value, or an unread member that is no JSON'
    if here == ('', 'NotObject') and isinstance(value, list) and status != 200:
        return 'list in place of an object'
    if here[1] == 'OutOfRange' and here[0] in ('exp', 'iat', 'nbf') and isinstance(value, dict):
        time = value.get(here[0])
        if isinstance(time, int) and not expected.EARLIEST <= time <= expected.LATEST:
            return 'time past the range of jiff'
    return None


def class_of_text(theirs, ours):
    """The class where the two say one fault in other words."""
    if ours.answer == expected.NO_TARGET and theirs.answer.startswith(OTHER + 'failed to prepare request: '):
        return 'text of a URL that is no target'
    if theirs.answer.startswith(OTHER + 'failed to convert `'):
        if ours.answer == expected.NO_TIMEOUT:
            return 'text of a timeout that does not fit'
        if ours.answer == expected.NO_DEADLINE:
            return "timeout past chrono's durations"
    return None


def class_of_token_type(theirs, ours):
    """The class where a token type has letters past ASCII, which the Rust crate lowers too."""
    ok = 'answer ok '
    if not (theirs.answer.startswith(ok) and ours.answer.startswith(ok)):
        return None
    there, here = json.loads(theirs.answer[len(ok):]), json.loads(ours.answer[len(ok):])
    if isinstance(there, dict) and isinstance(here, dict) and 'token_type' in here:
        if there == dict(here, token_type=here['token_type'].lower()):
            return 'token type with letters past ASCII'
    return None


def class_of_outputs(theirs, ours, script):
    """The class of two outputs of a good script, whatever expected.py says."""
    if theirs == ours:
        return EQUAL
    found = class_of_poll(theirs, ours, script)
    if found or theirs.lines[:-1] != ours.lines[:-1]:
        return found or DIFFERENT
    there, here, reply = parse_of(theirs.answer), parse_of(ours.answer), last_reply(script, theirs.lines)
    if there and here:
        found = class_of_parse(there, here) if theirs.exit == ours.exit else None
    elif (there or here) and reply:
        found = class_of_reading(there, here, reply)
    return found or class_of_text(theirs, ours) or class_of_token_type(theirs, ours) or DIFFERENT


def class_of(theirs, ours, text):
    """The class of what the two wrote of a script, each with the line `exit ..` last; DIFFERENT with a reason where there is none."""
    theirs, ours = output_of(theirs), output_of(ours)
    if ours.lines == ['bad script']:
        return EQUAL if theirs == ours else DIFFERENT
    script = json.loads(text)
    found, fault = class_of_outputs(theirs, ours, script), expected.fault_of(script, ours.lines)
    return '%s: %s' % (DIFFERENT, fault) if fault else found


def outputs(text):
    """The outputs of a batch, each of which ends by an empty line."""
    return [it + '\n' for it in text.decode('utf-8', 'surrogateescape').split('\n\n') if it]


def show(theirs, ours, scripts):
    """Prints each pair that is in no class and how many are in each: whether all are in one."""
    theirs, ours = outputs(theirs), outputs(ours)
    assert len(scripts) == len(theirs) == len(ours), 'scripts and outputs differ in number'
    counts = collections.Counter()
    for script, there, here in zip(scripts, theirs, ours):
        name = class_of(there, here, script)
        counts[name.partition(':')[0]] += 1
        if name.startswith(DIFFERENT):
            print('%s\n  script: %s\n  there:\n%s  here:\n%s' % (name, script.decode('utf-8', 'replace'), there, here))
    for name in sorted(counts):
        print('%8d  %s' % (counts[name], name))
    return DIFFERENT not in counts
