"""The whole programs on the pages of docs/, what they read when they are tried, and what they print then; for tools/readme and the tools'
tests."""
import base64
import collections
import hashlib
import json
import os
import re
import shutil
import subprocess
import tempfile

import repository
import sources

MARK = '<!-- tried by tools/readme -->\n'
SHOWN = re.compile('^' + MARK + r'```rust\n// crates/(\w+)/src/main\.rt\n// crates\.txt: (\1: [^\n]*)\n(.*?)^```\n', re.M | re.S)
MODULES = os.path.join('crates', 'oauth2_programs', 'src')  # has the modules that a program names and its page does not show

# A program as a page has it, with its line of crates.txt.
Shown = collections.namedtuple('Shown', 'page name row text')
# The runs of a program: the files where it runs, and of each run the standard input and what it has to print, as a regular expression.
Tries = collections.namedtuple('Tries', 'files runs')

# RFC 7515, A.2: the primes of an RSA key.
PRIMES = ('4BzEEOtIpmVdVEZNCqS7baC4crd0pqnRH_5IB3jw3bcxGn6QLvnEtfdUdiYrqBdss1l58BQ3KhooKeQTa9AB0Hw_Py5PJdTJNPY8cQn7ouZ2KKDcmnPGBY5t7y'
          'Lc1QlQ5xHdwW1VhvKn-nXqhJTBgIPgtldC-KDV5z-y2XDwGUc',
          'uQPEfgmVtjL0Uyyx88GZFF1fOunH3-7cepKmtH4pxhtCoHqpWmT8YAmZxaewHgHAjLYsp1ZSe7zFYHj7C6ul7TjeLQeZD_YwD66t62wDmpe_HlB-TnBA-njbglfIsR'
          'LtXlnDzQkv5dTltRJ11BKBBypeeF6689rjcJIDEz9RWdc')
P, Q = (int.from_bytes(base64.urlsafe_b64decode(it + '=='), 'big') for it in PRIMES)
EXPONENT, SIZE = 65537, 256
SHA256 = bytes.fromhex('3031300d060960864801650304020105000420')  # RFC 8017, 9.2, note 1
# The claims of an access token (RFC 9068, 2.2).
CLAIMS = {'iss': 'https://as.example', 'aud': 'https://api.example/', 'exp': 4102444800, 'iat': 1700000000, 'sub': 'ann',
          'client_id': 'aaa', 'jti': '1', 'scope': 'read write'}
LOGIN = (r'Browse to: http://authorize/\?response_type=code&client_id=client_id&state=[\w-]{22}&code_challenge=[\w-]{43}'
         r'&code_challenge_method=S256&redirect_uri=http%3A%2F%2Fredirect&scope=read\+write\n'
         r'token: abc\n')


def encoded(octets):
    """Octets in base64url without padding."""
    return base64.urlsafe_b64encode(octets).decode().rstrip('=')


def signature_of(message):
    """The signature by RS256 (RFC 8017, 8.2.1)."""
    text = SHA256 + hashlib.sha256(message).digest()
    padded = b'\0\1' + b'\xff' * (SIZE - 3 - len(text)) + b'\0' + text
    return pow(int.from_bytes(padded, 'big'), pow(EXPONENT, -1, (P - 1) * (Q - 1)), P * Q).to_bytes(SIZE, 'big')


def access_token(claims, changes=0):
    """A JWT access token (RFC 9068) with these claims, in whose signature the bits of `changes` are changed."""
    signed = '.'.join(encoded(json.dumps(it).encode()) for it in ({'alg': 'RS256', 'typ': 'at+jwt'}, claims))
    signature = signature_of(signed.encode())
    return signed + '.' + encoded(signature[:-1] + bytes([signature[-1] ^ changes]))


def tries_of(name):
    """The runs of a program: each has to end with status 0."""
    if name == 'first_example':
        return Tries({}, [('', LOGIN)])
    if name == 'check_access_token':
        keys = {'keys': [{'kty': 'RSA', 'n': encoded((P * Q).to_bytes(SIZE, 'big')), 'e': 'AQAB'}]}
        tokens = {access_token(CLAIMS): 'may read: true\n', access_token(dict(CLAIMS, scope='write')): 'may read: false\n',
                  access_token(CLAIMS, 1): 'refused: the signature is wrong\n'}
        return Tries({'keys.json': json.dumps(keys)}, [(token + '\n', printed) for token, printed in tokens.items()])
    return Tries({}, [('', '(?s).*')])


def programs_on(name, page):
    """The programs of a page. ValueError if the mark is above something else."""
    found = [Shown(name, *m.groups()) for m in SHOWN.finditer(page)]
    if len(found) != len(re.findall(MARK + '(?!```json)', page)):  # what is in JSON is a script
        raise ValueError('%s: below %s there has to be a program, whose first two lines name its file and its line of crates.txt'
                         % (name, MARK.strip()))
    return found


def put(shown, top):
    """Writes a program into a copy of this repository, with its line of crates.txt and the modules that it names."""
    folder = os.path.join(top, 'crates', shown.name, 'src')
    os.makedirs(folder)
    with open(os.path.join(folder, 'main.rt'), 'w', encoding='utf-8') as f:
        f.write(shown.text)
    with open(os.path.join(top, 'crates.txt'), 'a') as f:
        f.write(shown.row + '\n')
    for module in re.findall(r'(?m)^mod (\w+);$', shown.text):
        shutil.copy(os.path.join(top, MODULES, module + '.rt'), folder)


def command_of(tries, room):
    """The command that compiles a program once and makes these runs of it; what they read is written into a folder."""
    cases = os.path.join(room, 'cases')
    os.mkdir(cases)
    read = {os.path.join(cases, str(number)): given for number, (given, _) in enumerate(tries.runs)}
    read.update((os.path.join(room, name), text) for name, text in tries.files.items())
    for path, text in read.items():
        with open(path, 'w') as f:
            f.write(text)
    data = [word for name in tries.files for word in ('--data', '%s=%s' % (name, os.path.join(room, name)))]
    return ['rt', 'try', '--cases', cases, *data]


def difference(tries, out, err):
    """How the runs of a program differ from what they have to be, by what `rt try --cases` printed and said, or None."""
    printed = dict(re.findall(r'^== (\d+)\n(.*?)(?=^== \d+\n|\Z)', out, re.M | re.S))
    ended = dict(re.findall(r'^case=(\d+) run=ended status=(\d+) ', err, re.M))
    for number, (_, wanted) in enumerate(tries.runs):
        shown = printed.get(str(number), '')
        if ended.get(str(number)) != '0':
            return 'run %d does not end with status 0\n%s' % (number, (out + err).rstrip())
        if not re.fullmatch(wanted, shown):
            return 'run %d prints %r, and not %r' % (number, shown, wanted)
    return None


def fault_of(shown, top):
    """Why a program of a page, which is put into a copy of this repository and compiled without proofs, is not as it has to be, or None."""
    put(shown, top)
    tries = tries_of(shown.name)
    with tempfile.TemporaryDirectory(prefix='lifecrib-') as room:
        how = dict(cwd=os.path.join(top, 'crates', shown.name), stdin=subprocess.DEVNULL, capture_output=True)
        run = subprocess.run(command_of(tries, room), text=True, errors='replace', **how)
    return difference(tries, run.stdout, run.stderr)


def all_shown():
    """The programs of all pages of docs/."""
    names = [it for it in repository.pages() if it.startswith('docs' + os.sep)]
    return [shown for name in names for shown in programs_on(name, sources.read(os.path.join(repository.ROOT, name)))]
