"""What the program has to answer to a good script: the line `answer`, and of a poll its requests and sleeps.

Written from the standards and docs/DIFFERENCES.md, apart from the Rust crate and from this repository's code, so that a difference between
the two programs is judged by a third. No URLs are parsed here, and lines of requests aren't judged.
"""
import json

EARLIEST, LATEST = -377705023201, 253402207200
GREATEST = 2**64 - 1
LONGEST_TIMEOUT = 2**63 - 1
LONGEST = GREATEST * 10**9 + 999999999  # the greatest duration, in nanoseconds
SECOND = 10**9


class NoJson(Exception):
    """The text is not one whole JSON value."""


class Fault(Exception):
    """A value does not read: the member, and the cause."""
    def __init__(self, member, cause):
        super().__init__(member, cause)
        self.member, self.cause = member, cause


def fraction(text):
    value = float(text)
    if value in (float('inf'), float('-inf')):
        raise NoJson
    return value


def whole(text):
    value = int(text) if len(text) < 25 else None
    return fraction(text) if value is None or text == '-0' or not -2**63 <= value <= GREATEST else value


def no_constant(_):
    raise NoJson


def depth(body):
    """How deep the lists and objects of a JSON text are nested."""
    now, most, in_text, is_escaped = 0, 0, False, False
    for letter in body:
        if in_text:
            in_text = is_escaped or letter != '"'
            is_escaped = letter == '\\' and not is_escaped
        elif letter == '"':
            in_text = True
        elif letter in '[{':
            now += 1
            most = max(most, now)
        elif letter in ']}':
            now -= 1
    return most


def value_of(body):
    """The one whole JSON value of a body."""
    if depth(body) > 127:
        raise NoJson
    try:
        value = json.loads(body, parse_int=whole, parse_float=fraction, parse_constant=no_constant)
        json.dumps(value, ensure_ascii=False).encode('utf-8')  # no half of a surrogate alone
    except (ValueError, RecursionError):
        raise NoJson from None
    return value


def as_text(member, value):
    if not isinstance(value, str):
        raise Fault(member, 'WrongType')
    return value


def as_type(member, value):
    return ''.join(chr(ord(it) + 32) if 'A' <= it <= 'Z' else it for it in as_text(member, value))


def as_flag(member, value):
    if not isinstance(value, bool):
        raise Fault(member, 'WrongType')
    return value


def as_number(member, value, least=0, most=GREATEST):
    if not isinstance(value, (int, float)) or isinstance(value, bool):
        raise Fault(member, 'WrongType')
    if isinstance(value, float):
        raise Fault(member, 'NotWhole')
    if not least <= value <= most:
        raise Fault(member, 'OutOfRange')
    return value


def as_time(member, value):
    return as_number(member, value, EARLIEST, LATEST)


def as_texts(member, value):
    if isinstance(value, str):
        return [value]
    if not isinstance(value, list) or not all(isinstance(it, str) for it in value):
        raise Fault(member, 'WrongType')
    return value


# How each type reads its members, in the order of its table. `needed`: it has to be there. `optional`: null counts as absent. `present`:
# it doesn't. `five`: where it is absent or null it is 5.
TOKEN = [('access_token', as_text, 'needed'), ('token_type', as_type, 'needed'), ('expires_in', as_number, 'optional'),
         ('refresh_token', as_text, 'optional'), ('scope', as_text, 'optional')]
INTROSPECTION = [('active', as_flag, 'needed'), ('scope', as_text, 'optional'), ('client_id', as_text, 'optional'),
                 ('username', as_text, 'optional'), ('token_type', as_type, 'present'), ('exp', as_time, 'optional'),
                 ('iat', as_time, 'optional'), ('nbf', as_time, 'optional'), ('sub', as_text, 'optional'), ('aud', as_texts, 'optional'),
                 ('iss', as_text, 'optional'), ('jti', as_text, 'optional')]
DEVICE = [('device_code', as_text, 'needed'), ('user_code', as_text, 'needed'), ('verification_uri', as_text, 'needed'),
          ('verification_uri_complete', as_text, 'optional'), ('expires_in', as_number, 'needed'), ('interval', as_number, 'five')]
ERROR = [('error', as_text, 'needed'), ('error_description', as_text, 'optional'), ('error_uri', as_text, 'optional')]


def with_one_address(value):
    """The same members with `verification_uri` for `verification_url`."""
    members = dict(value)
    if 'verification_url' in members:
        if 'verification_uri' in members:
            raise Fault('verification_uri', 'BothNames')
        members['verification_uri'] = members.pop('verification_url')
    return members


def record(table, value, is_bad_address=False):
    """The members that a value reads to by a table; Fault names the first row that does not read."""
    if not isinstance(value, dict):
        raise Fault('', 'NotObject')
    found = {}
    for name, read, need in table:
        members = with_one_address(value) if name == 'verification_uri' else value
        is_there, member = name in members, members.get(name)
        if need == 'needed' and not is_there:
            raise Fault(name, 'Missing')
        if need == 'five' and member is None:
            member = 5
        if member is None and need == 'optional' or not is_there and need == 'present':
            continue
        found[name] = read(name, member)
        if name == 'verification_uri' and is_bad_address:
            raise Fault(name, 'BadUrl')
    return found


def fault(text):
    return 'answer fault ' + json.dumps(text, ensure_ascii=False)


def parse_fault(member, cause):
    return '%s %s %s' % (fault('Failed to parse server response'), json.dumps(member, ensure_ascii=False), cause)


def is_json_type(content_type):
    """Whether a Content-Type begins with application/json, by the rule `prefix`."""
    value = content_type.encode()
    return all(it == 9 or 32 <= it <= 126 for it in value) and value[:16].lower() == b'application/json'


def shown(content_type):
    """A header's value as it is shown in a message."""
    return ''.join('\\"' if it == 34 else chr(it) if it == 9 or 32 <= it <= 126 else '\\x%02x' % it for it in content_type.encode())


def line_of_error(body):
    if body == '':
        return fault('Other error: server returned empty error response')
    error = record(ERROR, value_of(body))
    text = error['error']
    text += ': ' + error['error_description'] if 'error_description' in error else ''
    text += ' (see %s)' % error['error_uri'] if 'error_uri' in error else ''
    return fault('Server returned error response: ' + text)


def line_of_success(table, reply, is_bad_address):
    content_type = reply.get('content_type')
    if content_type is not None and not is_json_type(content_type):
        words = 'Other error: unexpected response Content-Type: "%s", should be `application/json`'
        return fault(words % shown(content_type))
    if reply['body'] == '':
        return fault('Other error: server returned empty response body')
    members = record(table, value_of(reply['body']), is_bad_address)
    return 'answer ok ' + json.dumps(members, sort_keys=True, separators=(',', ':'), ensure_ascii=False)


def line_of_reply(table, reply, is_bad_address=False):
    """The answer to a reply; table is None where a status of 200 is all."""
    try:
        if reply['status'] != 200:
            return line_of_error(reply['body'])
        return 'answer ok null' if table is None else line_of_success(table, reply, is_bad_address)
    except NoJson:
        return parse_fault('', 'NotJson')
    except Fault as it:
        return parse_fault(it.member, it.cause)


def verdict(reply):
    """What a reply means to a poll: failed, pending, slow_down or decided (RFC 8628, 3.5)."""
    if reply.get('fail'):
        return 'failed'
    if reply['status'] == 200 or reply['body'] == '':
        return 'decided'
    try:
        code = record(ERROR, value_of(reply['body']))['error']
    except (NoJson, Fault):
        return 'decided'
    return {'authorization_pending': 'pending', 'slow_down': 'slow_down'}.get(code, 'decided')


def sleeps(script, number, by_rust=False):
    """The first sleeps of a poll in nanoseconds: by this repository, or by the Rust crate, where a failure may shorten them."""
    params, replies, found = script['params'], script.get('replies', []), []
    interval = params['device'].get('interval')
    time, cap = (5 if interval is None else interval) * SECOND, params.get('cap', 10) * SECOND
    for at in range(number):
        heard = verdict(replies[at]) if at < len(replies) else 'failed'
        if heard == 'failed':
            doubled = 2 * time if 2 * time <= LONGEST else time
            time = min(doubled, cap) if by_rust else max(time, min(doubled, cap))
        elif heard == 'slow_down':
            time = min(LONGEST, time + 5 * SECOND)
        found.append(time)
    return found


EXPIRED = fault('Server returned error response: expired_token: This device code has expired.')
LIMIT = fault('Other error: polling limit reached')
NO_TARGET = fault('Other error: failed to prepare request: endpoint URL is not an HTTP target')
NO_TIMEOUT = fault('Other error: failed to convert the timeout')
NO_DEADLINE = fault('Other error: failed to calculate timeout')
TABLES = {'code': TOKEN, 'refresh': TOKEN, 'password': TOKEN, 'client_credentials': TOKEN, 'introspect': INTROSPECTION, 'revoke': None,
          'device_authorization': DEVICE, 'device_poll': TOKEN}


def rounds(script):
    """How many requests a poll makes, and its answer. It sleeps between two of them."""
    params, replies, readings = script['params'], script.get('replies', []), script.get('readings') or [0]
    timeout = params.get('timeout', params['device']['expires_in'])
    if timeout > LONGEST_TIMEOUT:
        return 0, 0, NO_TIMEOUT
    end = readings[0] + timeout
    if end > LATEST:
        return 0, 0, NO_DEADLINE
    for at in range(params['max_polls']):
        if readings[min(at + 1, len(readings) - 1)] > end:
            return at, at, EXPIRED
        reply = replies[at] if at < len(replies) else {'fail': True}
        if verdict(reply) == 'decided':
            return at + 1, at, line_of_reply(TOKEN, reply)
    return params['max_polls'], params['max_polls'] - 1, LIMIT


def fault_of_poll(script, lines):
    requests, naps, answer = rounds(script)
    wanted = ['sleep %d.%09d' % divmod(it, SECOND) for it in sleeps(script, naps)]
    shape = [it for pair in zip(['request'] * requests, wanted + [None]) for it in pair if it]
    found = [it if it.startswith('sleep ') else 'request' for it in lines if it.startswith(('sleep ', 'request '))]
    if found != shape:
        return 'requests and sleeps: %s, and not %s' % (found[:20], shape[:20])
    return None if lines[-1] == answer else 'it should be ' + answer


def fault_of(script, lines):
    """What is wrong with the lines of a good script's run, or None."""
    command, requests = script['command'], sum(it.startswith('request ') for it in lines)
    if command not in TABLES or not lines:
        return None
    last = lines[-1]
    if last == NO_TARGET or 'endpoint URL specified"' in last or 'must be HTTPS"' in last:
        return None if requests == 0 else 'a request before ' + last
    if command == 'device_poll':
        return fault_of_poll(script, lines)
    if requests != 1:
        return 'requests: %d' % requests
    reply = (script.get('replies') or [{'fail': True}])[0]
    is_bad_address = last == parse_fault('verification_uri', 'BadUrl')
    wanted = fault('Request failed') if reply.get('fail') else line_of_reply(TABLES[command], reply, is_bad_address)
    return None if last == wanted else 'it should be ' + wanted
