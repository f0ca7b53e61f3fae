"""Cases of Ed25519 signatures for tools/compare-signatures, written from RFC 8032 (5.1) in whole numbers."""
import collections
import hashlib

# A case: its kind, the message and the signature.
Case = collections.namedtuple('Case', 'kind message signature')

P = 2**255 - 19
L = 2**252 + 27742317777372353535851937790883648493
D = -121665 * pow(121666, -1, P) % P
TOP = 1 << 255  # the bit of the octets that is the lowest of x
WRONG_SIZE, NO_POINT = 'the key has the wrong size', 'the key encodes no point of the curve'


def root(y):
    """The even x of the point with this y, or None (5.1.3)."""
    square = (y * y - 1) * pow(D * y * y + 1, -1, P) % P
    x = pow(square, (P + 3) // 8, P)
    if (x * x - square) % P:
        x = x * pow(2, (P - 1) // 4, P) % P
    if (x * x - square) % P:
        return None
    return P - x if x % 2 else x


def extended_sum(a, b):
    """The sum of two points in extended coordinates (5.1.4)."""
    (x1, y1, z1, t1), (x2, y2, z2, t2) = a, b
    low, high = (y1 - x1) * (y2 - x2) % P, (y1 + x1) * (y2 + x2) % P
    c, d = 2 * t1 * D * t2 % P, 2 * z1 * z2 % P
    e, f, g, h = high - low, d - c, d + c, high + low
    return e * f % P, g * h % P, f * g % P, e * h % P


def extended(point):
    x, y = point
    return x, y, 1, x * y % P


def affine(point):
    """The point as a pair."""
    inverse = pow(point[2], -1, P)
    return point[0] * inverse % P, point[1] * inverse % P


def added(a, b):
    return affine(extended_sum(extended(a), extended(b)))


NEUTRAL = 0, 1
BASE = root(4 * pow(5, -1, P) % P), 4 * pow(5, -1, P) % P


def times(k, point):
    found, power = extended(NEUTRAL), extended(point)
    while k:
        found = extended_sum(found, power) if k & 1 else found
        power, k = extended_sum(power, power), k >> 1
    return affine(found)


def octets(number):
    return number.to_bytes(32, 'little')


def number_of(text):
    return int.from_bytes(text, 'little')


def encoded(point):
    """5.1.2."""
    return octets(point[1] | (TOP if point[0] % 2 else 0))


def decoded(text):
    """5.1.3."""
    y, bit = number_of(text) % TOP, number_of(text) // TOP
    x = root(y) if y < P else None
    if x is None or (x == 0 and bit):
        return None
    return (P - x if bit else x), y


def hashed(*parts):
    return number_of(hashlib.sha512(b''.join(parts)).digest())


def is_signature(key, message, signature):
    """5.1.7, by the equation without the cofactor."""
    if len(signature) != 64:
        return False
    r, s = decoded(signature[:32]), number_of(signature[32:])
    if r is None or s >= L:
        return False
    return times(s, BASE) == added(r, times(hashed(signature[:32], key, message) % L, decoded(key)))


# A point of order 8, and its multiples, which are all the points of small order.
SMALL = next(it for it in (times(L, (root(y), y)) for y in range(2, 99) if root(y)) if times(4, it) != NEUTRAL)
OF_SMALL_ORDER = [times(it, SMALL) for it in range(8)]


class Signer:
    """A key whose secret number is a. Its point may have one of small order added."""

    def __init__(self, a, small=NEUTRAL):
        self.a, self.key = a, encoded(added(times(a, BASE), small))

    def signed(self, message, r, point=NEUTRAL, text=None):
        """A signature with the secret number r. R may have a point of small order added, or other octets."""
        text = encoded(added(times(r, BASE), point)) if text is None else text
        return text + octets((r + hashed(text, self.key, message) * self.a) % L)


def near(message, good):
    """What is near a good signature, but for one bit of it."""
    r, s = good[:32], number_of(good[32:])
    for kind, found in (('cut in front', good[1:]), ('cut behind', good[:-1]), ('longer', good + b'\0'), ('zero in front', b'\0' + good),
                        ('none', b''), ('twice', good * 2), ('R alone', r), ('swapped', good[32:] + r)):
        yield Case(kind, message, found)
    for number in (0, 1, L - 1, L, L + 1, 2 * L, TOP - 1, 2 * TOP - 1, s ^ TOP):
        yield Case('another S', message, r + octets(number))
    yield Case('L - S', message, r + octets(L - s))
    for count in range(1, 15):
        yield Case('S + a multiple of L', message, r + octets(s + count * L))
    for number in (0, 1, P - 1, P, P + 1, TOP - 1, TOP, TOP + 1, TOP + P - 1, TOP + P + 1, 2 * TOP - 1):
        yield Case('another R', message, octets(number) + good[32:])
    yield Case('another message', message + b'.', good)
    yield Case('another message', message[1:] if message else b'!', good)


def crafted(signer, message, r):
    """Signatures with points of small order, which the equation takes or not."""
    for small in OF_SMALL_ORDER:
        yield Case('R with a point of small order', message, signer.signed(message, r, small))
        yield Case('R of small order', message, signer.signed(message, 0, small))
    for kind, text in (('y of p + 1', octets(P + 1)), ('x of 0, and its bit set', octets(TOP + 1)), ('both', octets(TOP + P + 1)),
                       ('y of p - 1, and the bit of x set', octets(TOP + P - 1)), ('y of p', octets(P))):
        yield Case('R with ' + kind, message, signer.signed(message, 0, text=text))


def keys(rng):
    """Keys without end, each with its cases."""
    first = [0, L - 1, 2, 1]
    while True:
        message = rng.randbytes(rng.choice([0, 1, 2, 47, 48, 63, 64, 111, 112, 300]))
        signer, r = Signer(first.pop() if first else rng.randrange(1, L)), rng.randrange(1, L)
        good = signer.signed(message, r)
        found = [Case('good', message, good), *near(message, good), *crafted(signer, message, r)]
        for at in range(64):
            turned = bytearray(good)
            turned[at] ^= 1 << rng.randrange(8)
            found.append(Case('bit turned', message, bytes(turned)))
        yield signer.key, found
        for kind, a in ('key of small order', 0), ('key with a point of small order', rng.randrange(1, L)):
            signer = Signer(a, rng.choice(OF_SMALL_ORDER[1:]))
            of_key = []
            for _ in range(8):
                message = rng.randbytes(9)
                of_key.append(Case(kind, message, signer.signed(message, r)))
                of_key += [Case(kind + ', and R', message, signer.signed(message, r, it)) for it in OF_SMALL_ORDER[1:]]
            yield signer.key, of_key


def offered(key):
    """Keys, and what has to come of each."""
    off = next(it for it in range(number_of(key) % TOP >> 1, P) if root(it) is None)
    refused = [P, P + 1, TOP - 1, 2 * TOP - 1, TOP + 1, TOP + P - 1, off, off + TOP, 2]
    taken = [0, 1, TOP, P - 1]
    sizes = [(it, WRONG_SIZE) for it in (key[1:], b'\0' + key, b'')]
    return [*((octets(it), NO_POINT) for it in refused), *((octets(it), 'true') for it in taken), *sizes, (key, 'true')]


def script(key, found):
    """The rows for the program, and what it has to print of the keys that are offered first."""
    lines = ['Ed25519 ' + (it.hex() or '-') for it, _ in offered(key)]
    lines += ['EdDSA %s %s' % (it.message.hex() or '-', it.signature.hex() or '-') for it in found]
    return '\n'.join(lines) + '\n', [it for _, it in offered(key)]


def openssl_verdicts(key, found):
    """What OpenSSL says of each case."""
    from cryptography import exceptions
    from cryptography.hazmat.primitives.asymmetric import ed25519
    public = ed25519.Ed25519PublicKey.from_public_bytes(key)
    for it in found:
        try:
            public.verify(it.signature, it.message)
            yield True
        except exceptions.InvalidSignature:
            yield False


def cases(number, rng):
    """Keys, each with its cases, as many cases as asked for."""
    for key, found in keys(rng):
        yield key, found[:number]
        number -= len(found[:number])
        if not number:
            return
