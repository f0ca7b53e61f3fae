"""Cases of ECDSA signatures for tools/compare-signatures, over P-256 with SHA-256, over P-384 with SHA-384 and over P-521 with SHA-512,
written from SEC 1 (2.2.1 and 4.1) in whole numbers."""
import collections
import hashlib
import itertools

# A case: its kind, the message and the signature.
Case = collections.namedtuple('Case', 'kind message signature')


class Curve:
    """A curve y ^ 2 = x ^ 3 - 3 x + b modulo p with n points, and what is signed over it. A point is a pair; None is that at infinity."""

    def __init__(self, name, algorithm, size, p, n, b, g):
        self.name, self.algorithm, self.size = name, algorithm, size
        self.p, self.n, self.b, self.g = p, n, b, g
        self.most, self.most_x = (1 << 8 * size) - 1, (1 << p.bit_length()) - 1
        self.hash_name = 'sha' + algorithm[2:]

    def added(self, a, b):
        """The sum of two points."""
        if a is None or b is None:
            return b if a is None else a
        if a[0] == b[0] and (a[1] + b[1]) % self.p == 0:
            return None
        if a[0] == b[0]:
            slope = (3 * a[0] * a[0] - 3) * pow(2 * a[1], -1, self.p) % self.p
        else:
            slope = (b[1] - a[1]) * pow(b[0] - a[0], -1, self.p) % self.p
        x = (slope * slope - a[0] - b[0]) % self.p
        return x, (slope * (a[0] - x) - a[1]) % self.p

    def times(self, k, point):
        found = None
        for bit in bin(k % self.n)[2:]:
            found = self.added(found, found)
            found = self.added(found, point) if bit == '1' else found
        return found

    def negative(self, point):
        return point[0], -point[1] % self.p

    def lifted(self, x, step):
        """A point of the curve with the first x from this one on, in such steps. The prime is 3 modulo 4."""
        while True:
            square = (x ** 3 - 3 * x + self.b) % self.p
            y = pow(square, (self.p + 1) // 4, self.p)
            if y * y % self.p == square:
                return x, y
            x += step

    def number_of(self, message):
        return int.from_bytes(hashlib.new(self.hash_name, message).digest(), 'big')

    def octets(self, number):
        return number.to_bytes(self.size, 'big')

    def joined(self, r, s):
        return self.octets(r) + self.octets(s)

    def parts(self, signature):
        """r and s."""
        return tuple(int.from_bytes(it, 'big') for it in (signature[:self.size], signature[self.size:]))

    def signed(self, d, e, k):
        r = self.times(k, self.g)[0] % self.n
        return r, (e + r * d) * pow(k, -1, self.n) % self.n

    def is_signature(self, key, message, signature):
        """SEC 1, 4.1.4."""
        r, s = self.parts(signature)
        if len(signature) != 2 * self.size or not 0 < r < self.n or not 0 < s < self.n:
            return False
        w = pow(s, -1, self.n)
        point = self.added(self.times(self.number_of(message) * w, self.g), self.times(r * w, key))
        return point is not None and point[0] % self.n == r

    def near(self, message, r, s):
        """What is near a good signature, but for one bit of it."""
        good, size = self.joined(r, s), self.size
        for kind, found in (('cut in front', good[1:]), ('cut behind', good[:-1]), ('longer', good + b'\0'), ('zero in front', b'\0' + good),
                            ('zero in front of each', b'\0' + good[:size] + b'\0' + good[size:]), ('none', b''), ('twice', good * 2),
                            ('r alone', good[:size]), ('swapped', good[size:] + good[:size])):
            yield Case(kind, message, found)
        for number in (0, 1, self.n - 1, self.n, self.n + 1, self.p, self.most):
            yield Case('another r', message, self.joined(number, s))
            yield Case('another s', message, self.joined(r, number))
            yield Case('the same r and s', message, self.joined(number, number))
        yield Case('n - s', message, self.joined(r, self.n - s))
        yield Case('n - r', message, self.joined(self.n - r, s))
        for kind, other_r, other_s in (('r + n', r + self.n, s), ('s + n', r, s + self.n)):
            if max(other_r, other_s) <= self.most:
                yield Case(kind, message, self.joined(other_r, other_s))
        yield Case('another message', message + b'.', good)
        yield Case('another message', message[1:], good)

    def through(self, point, e, rng):
        """A key, and r and s, for which u1 G + u2 Q is this point."""
        r, s = point[0] % self.n, rng.randrange(1, self.n)
        w = pow(s, -1, self.n)
        return self.times(pow(r * w, -1, self.n), self.added(point, self.negative(self.times(e * w, self.g)))), r, s

    def crafted(self, rng):
        """Keys with a case each, at the limits of the sums: the last sum doubles, or gives the point at infinity; R's x is n or more, or small;
        s is small, so that s + n fits too."""
        message = rng.randbytes(20)
        e, u = self.number_of(message), rng.randrange(1, self.n)
        r = self.times(2 * u, self.g)[0] % self.n
        s = e * pow(u, -1, self.n) % self.n
        other = u * s * pow(r, -1, self.n) % self.n
        yield self.times(other, self.g), Case('the same point twice', message, self.joined(r, s))
        yield self.times(-other, self.g), Case('the point at infinity', message, self.joined(r, s))
        key, r, s = self.through(self.lifted(rng.randrange(self.n, self.p - 1000), 1), e, rng)
        yield key, Case('x of n or more', message, self.joined(r, s))
        yield key, Case('x of n or more, not reduced', message, self.joined(r + self.n, s))
        key, r, s = self.through(self.lifted(rng.randrange(1, (self.most_x - self.n) // 2), 1), e, rng)
        yield key, Case('small x', message, self.joined(r, s))
        yield key, Case('small x, r + n', message, self.joined(r + self.n, s))
        r, s = self.times(u, self.g)[0] % self.n, rng.randrange(1, self.most_x - self.n)
        key = self.times((s * u - e) * pow(r, -1, self.n), self.g)
        yield key, Case('small s', message, self.joined(r, s))
        yield key, Case('small s, s + n', message, self.joined(r, s + self.n))

    def keys(self, rng):
        """Keys without end, each with its cases."""
        first = [1, 2, 3, self.n - 1, self.n - 2]
        while True:
            yield from ((key, [case]) for key, case in self.crafted(rng))
            d = first.pop() if first else rng.randrange(1, self.n)
            key, message = self.times(d, self.g), rng.randbytes(rng.choice([1, 2, 55, 56, 64, 111, 112, 300]))
            r, s = self.signed(d, self.number_of(message), rng.randrange(1, self.n))
            good = self.joined(r, s)
            found = [Case('good', message, good), *self.near(message, r, s)]
            for at in range(2 * self.size):
                turned = bytearray(good)
                turned[at] ^= 1 << rng.randrange(8)
                found.append(Case('bit turned', message, bytes(turned)))
            yield key, found

    def script(self, key, found):
        """The rows for the program, and what it has to print of the keys that are offered first."""
        x, y = (self.octets(it) for it in key)
        p, most, nothing, above = (self.octets(it) for it in (self.p, self.most, 0, (key[1] + 1) % self.p))
        sizes, large, off = 'a coordinate has the wrong size', 'a coordinate is not below p', 'the point is not on the curve'
        offered = [(p, y, large), (x, p, large), (most, most, large), (x, above, off), (nothing, nothing, off), (x[1:], y, sizes),
                   (x, b'\0' + y, sizes), (b'', b'', sizes), (x, y, 'true')]
        lines = ['%s %s %s' % (self.name, a.hex() or '-', b.hex() or '-') for a, b, _ in offered]
        lines += ['%s %s %s' % (self.algorithm, it.message.hex() or '-', it.signature.hex() or '-') for it in found]
        return '\n'.join(lines) + '\n', [it for *_, it in offered]

    def openssl_verdicts(self, key, found):
        """What OpenSSL says of each case. It takes r and s as whole numbers, so the size of a signature is looked at here."""
        from cryptography import exceptions
        from cryptography.hazmat.primitives import hashes
        from cryptography.hazmat.primitives.asymmetric import ec, utils
        curve, function = {32: (ec.SECP256R1(), hashes.SHA256()), 48: (ec.SECP384R1(), hashes.SHA384()),
                           66: (ec.SECP521R1(), hashes.SHA512())}[self.size]
        public = ec.EllipticCurvePublicNumbers(*key, curve).public_key()
        for it in found:
            try:
                public.verify(utils.encode_dss_signature(*self.parts(it.signature)), it.message, ec.ECDSA(function))
                yield len(it.signature) == 2 * self.size
            except exceptions.InvalidSignature:
                yield False


# SP 800-186, 3.2.1.3
P256 = Curve('P-256', 'ES256', 32, 0xffffffff00000001000000000000000000000000ffffffffffffffffffffffff,
             0xffffffff00000000ffffffffffffffffbce6faada7179e84f3b9cac2fc632551,
             0x5ac635d8aa3a93e7b3ebbd55769886bc651d06b0cc53b0f63bce3c3e27d2604b,
             (0x6b17d1f2e12c4247f8bce6e563a440f277037d812deb33a0f4a13945d898c296,
              0x4fe342e2fe1a7f9b8ee7eb4a7c0f9e162bce33576b315ececbb6406837bf51f5))
# SP 800-186, 3.2.1.4
P384 = Curve('P-384', 'ES384', 48,
             0xfffffffffffffffffffffffffffffffffffffffffffffffffffffffffffffffeffffffff0000000000000000ffffffff,
             0xffffffffffffffffffffffffffffffffffffffffffffffffc7634d81f4372ddf581a0db248b0a77aecec196accc52973,
             0xb3312fa7e23ee7e4988e056be3f82d19181d9c6efe8141120314088f5013875ac656398d8a2ed19d2a85c8edd3ec2aef,
             (0xaa87ca22be8b05378eb1c71ef320ad746e1d3b628ba79b9859f741e082542a385502f25dbf55296c3a545e3872760ab7,
              0x3617de4a96262c6f5d9e98bf9292dc29f8f41dbd289a147ce9da3113b5f0b8c00a60b1ce1d7e819d7a431d7c90ea0e5f))
# SP 800-186, 3.2.1.5
P521 = Curve('P-521', 'ES512', 66, (1 << 521) - 1,
             int('01ffffffffffffffffffffffffffffffffffffffffffffffffffffffffffffffff'
                 'fa51868783bf2f966b7fcc0148f709a5d03bb5c9b8899c47aebb6fb71e91386409', 16),
             int('0051953eb9618e1c9a1f929a21a0b68540eea2da725b99b315f3b8b489918ef109'
                 'e156193951ec7e937b1652c0bd3bb1bf073573df883d2c34f1ef451fd46b503f00', 16),
             (int('00c6858e06b70404e9cd9e3ecb662395b4429c648139053fb521f828af606b4d3d'
                  'baa14b5e77efe75928fe1dc127a2ffa8de3348b3c1856a429bf97e7e31c2e5bd66', 16),
              int('011839296a789a3bc0045c8a5fb42c7d1bd998f54449579b446817afbd17273e66'
                  '2c97ee72995ef42640c550b9013fad0761353c7086a272c24088be94769fd16650', 16)))
CURVES = (P256, P384, P521)


def cases(number, rng):
    """Each curve in turn with a key and its cases, as many cases as asked for."""
    keys = [curve.keys(rng) for curve in CURVES]
    for curve, of_curve in itertools.cycle(zip(CURVES, keys)):
        key, found = next(of_curve)
        yield curve, key, found[:number]
        number -= len(found[:number])
        if not number:
            return
