"""Tests of tools/compare-signatures: the examples of RFC 7515, A.2 and A.3, RFC 6979, A.2.6, and RFC 8032, 7.1, and that its cases show a
program that is wrong."""
import base64
import contextlib
import importlib.util
import io
import random
import sys
import unittest
from unittest import mock

import tool

sys.path.insert(0, tool.TOOLS)
import ecdsa_cases  # noqa: E402, of the folder above
import eddsa_cases  # noqa: E402, likewise

TOOL = tool.load('compare-signatures')


def decoded(text):
    return base64.urlsafe_b64decode(text + '=' * (-len(text) % 4))


# RFC 7515, A.2: the modulus, what is signed, and the signature.
MODULUS = int.from_bytes(decoded(
    'ofgWCuLjybRlzo0tZWJjNiuSfb4p4fAkd_wWJcyQoTbji9k0l8W26mPddxHmfHQp-Vaw-4qPCJrcS2mJPMEzP1Pt0Bm4d4QlL-yRT-SFd2lZS-pCgNMsD1W_'
    'YpRPEwOWvG6b32690r2jZ47soMZo9wGzjb_7OMg0LOL-bSf63kpaSHSXndS5z5rexMdbBYUsLA9e-KXBdQOS-UTo7WTBEMa2R2CapHg665xsmtdVMTBQY4uD'
    'Zlxvb3qCo5ZwKh9kG4LT6_I5IhlJH7aGhyxXFvUK-DWNmoudF8NAco9_h9iaGNj8q2ethFkMLs91kzk2PAcDTW9gb54h4FRWyuXpoQ'), 'big')
SIGNED = b'eyJhbGciOiJSUzI1NiJ9.eyJpc3MiOiJqb2UiLA0KICJleHAiOjEzMDA4MTkzODAsDQogImh0dHA6Ly9leGFtcGxlLmNvbS9pc19yb290Ijp0cnVlfQ'
SIGNATURE = int.from_bytes(decoded(
    'cC4hiUPoj9Eetdgtv3hF80EGrhuB__dzERat0XF9g2VtQgr9PJbu3XOiZj5RZmh7AAuHIm4Bh-0Qc_lF5YKt_O8W2Fp5jujGbds9uJdbF9CUAr7t1dnZcAcQ'
    'jbKBYNX4BAynRFdiuB--f_nZLgrnbyTyWzO75vRK5h6xBArLIARNPvkSjtQBMHlb1L07Qe7K0GarZRmB_eSN9383LcOLn6_dO--xi12jzDwusC-eOkHWEsqt'
    'FZESc6BfI7noOPqvhJ1phCnvWh6IeYI2w9QOYEUipUTI8np6LbgGY9Fs98rqVt5AXLIhWkWywlVmtVrBp0igcN_IoypGlUPQGe77Rw'), 'big')


# RFC 6979, A.2.6: the private key, and the signature of "sample" with SHA-384.
PRIVATE = 0x6b9d3dad2e1b8c1c05b19875b6659f4de23c3b667bf297ba9aa47740787137d896d5724e4c70a825f872c9ea60d2edf5
SIGNATURE_OF_SAMPLE = bytes.fromhex(
    '94edbb92a5ecb8aad4736e56c691916b3f88140666ce9fa73d64c4ea95ad133c81a648152e44acf96e36dd1e80fabe46'
    '99ef4aeb15f178cea1fe40db2603138f130e740a19624526203b6351d0a3a94fa329c145786e679e7b82c71a38628ac8')
# The same of A.2.7, with SHA-512.
PRIVATE_OF_P521 = int('00fad06daa62ba3b25d2fb40133da757205de67f5bb0018fee8c86e1b68c7e75ca'
                      'a896eb32f1f47c70855836a6d16fcc1466f6d8fbec67db89ec0c08b0e996b83538', 16)
SIGNATURE_BY_P521 = bytes.fromhex(
    '00c328fafcbd79dd77850370c46325d987cb525569fb63c5d3bc53950e6d4c5f174e25a1ee9017b5d450606add152b534931d7d4e8455cc91f9b15bf05ec36e377fa'
    '00617cce7cf5064806c467f678d3b4080d6f1cc50af26ca209417308281b68af282623eaa63e5b5c0723d8b8c37ff0777b1a20f8ccb1dccc43997f1ee0e44da4a67a')


def judged_by(verdict):
    """What takes the place of a run of the program: the keys judged rightly, and each signature by this function."""
    def told(_, __, text):
        lines = [it.replace('-', '').split(' ') for it in text.splitlines()]
        size = (len(lines[4][1]) + 1) // 2
        said = ['the modulus is even', 'the exponent is less than 3', 'the exponent is even', 'the exponent has more than 64 bits',
                '%d octets, exponent %d' % (size, int(lines[4][2], 16))]
        return said + [verdict(int(lines[4][1], 16), int(lines[4][2], 16), size, *it) for it in lines[5:]]
    return told


def by_pkcs1(modulus, exponent, size, algorithm, message, signature):
    """Whether a signature is that of the one encoding of RFC 8017, 9.2; none is good by RSASSA-PSS."""
    prefix = TOOL.PREFIXES[algorithm[2:]]
    encoded = TOOL.padded(size, prefix + TOOL.digest(algorithm[2:], bytes.fromhex(message)))
    found = pow(int(signature or '0', 16), exponent, modulus)
    is_good = len(signature) == 2 * size and int(signature, 16) < modulus and found == int.from_bytes(encoded, 'big')
    return str(algorithm.startswith('RS') and is_good).lower()


def by_the_end(modulus, exponent, size, algorithm, message, signature):
    """As by_pkcs1, but with no look at the padding."""
    text = TOOL.PREFIXES[algorithm[2:]] + TOOL.digest(algorithm[2:], bytes.fromhex(message))
    found = pow(int(signature or '0', 16), exponent, modulus).to_bytes(size, 'big')
    return str(algorithm.startswith('RS') and len(signature) == 2 * size and found.endswith(text)).lower()


# RFC 7515, A.3: the key, what is signed, and the signature.
POINT = tuple(int.from_bytes(decoded(it), 'big') for it in (
    'f83OJ3D2xF1Bg8vub9tLe1gHMzV76e8Tus9uPHvRVEU', 'x_FEzRu9m36HLN_tue659LNpXW6pCyStikYjKIWI5a0'))
SIGNED_BY_POINT = b'eyJhbGciOiJFUzI1NiJ9.' + SIGNED.partition(b'.')[2]
SIGNATURE_BY_POINT = decoded('DtEhU3ljbEg8L38VWAfUAqOyKAM6-Xx-F4GawxaepmXFCgfTjDxw5djxLa8ISlSApmWQxfKTUJqPP3-Kg6NU1Q')


def judged_by_point(verdict):
    """What takes the place of a run of the program for ECDSA: the keys judged rightly, and each signature by this function."""
    def told(_, __, text):
        lines = [it.split(' ') for it in text.splitlines()]
        curve = next(it for it in ecdsa_cases.CURVES if it.name == lines[8][0])
        key = tuple(int(it, 16) for it in lines[8][1:])
        said = ['a coordinate is not below p'] * 3 + ['the point is not on the curve'] * 2 + ['a coordinate has the wrong size'] * 3 + ['true']
        return said + [str(verdict(curve, key, *(bytes.fromhex(word.replace('-', '')) for word in it[1:]))).lower() for it in lines[9:]]
    return told


def by_integers(curve, key, message, signature):
    """As SEC 1 says, but with r and s of any size, and taken modulo n."""
    return curve.is_signature(key, message, curve.joined(*(it % curve.n for it in curve.parts(signature))))


# RFC 8032, 7.1, TEST 3: the key, the message and the signature.
OCTETS = bytes.fromhex('fc51cd8e6218a1a38da47ed00230f0580816ed13ba3303ac5deb911548908025')
SIGNED_BY_OCTETS = bytes.fromhex('af82')
SIGNATURE_BY_OCTETS = bytes.fromhex('6291d657deec24024827e69c3abe01a30ce548a284743a445e3680d7db5ac3ac'
                                    '18ff9b538d16f290ae67f760984dc6594a7c15e9716ed28dc027beceea1ec40a')


def judged_by_octets(verdict):
    """What takes the place of a run of the program for Ed25519: the keys judged rightly, and each signature by this function."""
    def told(_, __, text):
        lines = [[bytes.fromhex(word.replace('-', '')) for word in it.split(' ')[1:]] for it in text.splitlines()]
        offered = [it[0] for it in lines if len(it) == 1]
        said = [it for _, it in eddsa_cases.offered(offered[-1])]
        return said + [str(verdict(offered[-1], *it)).lower() for it in lines[len(offered):]]
    return told


def by_any_s(key, message, signature):
    """As RFC 8032 says, but with S modulo L."""
    s = eddsa_cases.number_of(signature[32:]) % eddsa_cases.L if len(signature) == 64 else 0
    return eddsa_cases.is_signature(key, message, signature[:32] + eddsa_cases.octets(s))


class Signatures(unittest.TestCase):
    def test_the_encoding_of_an_example(self):
        encoded = TOOL.padded(256, TOOL.PREFIXES['256'] + TOOL.digest('256', SIGNED))
        self.assertEqual(pow(SIGNATURE, 65537, MODULUS), int.from_bytes(encoded, 'big'))

    def test_a_key_signs(self):
        key = TOOL.Key(random.Random(1), 2049, 3)
        self.assertEqual((key.modulus.bit_length(), key.size), (2049, 257))
        self.assertEqual(pow(key.root(12345), 3, key.modulus), 12345)

    def compared(self, verdict, number):
        """How many cases differ, and what was printed."""
        said = io.StringIO()
        with mock.patch.object(TOOL, 'told', judged_by(verdict)), contextlib.redirect_stdout(said):
            return TOOL.compare('/program', number, 1), said.getvalue().splitlines()

    @unittest.skipUnless(importlib.util.find_spec('cryptography'), 'no python3-cryptography')
    def test_a_program_that_is_right_or_wrong(self):
        differences, said = self.compared(by_pkcs1, 800)
        self.assertEqual((differences, said[-1]), (0, '800 cases, 0 differences'))
        differences, said = self.compared(lambda *_: 'true', 800)
        self.assertGreater(differences, 700)
        differences, said = self.compared(by_the_end, 800)
        self.assertGreater(differences, 10)

    def test_an_example_by_a_point(self):
        curve = ecdsa_cases.P256
        self.assertTrue(curve.is_signature(POINT, SIGNED_BY_POINT, SIGNATURE_BY_POINT))
        self.assertFalse(curve.is_signature(POINT, SIGNED_BY_POINT + b'.', SIGNATURE_BY_POINT))
        self.assertFalse(curve.is_signature(POINT, SIGNED_BY_POINT, SIGNATURE_BY_POINT + b'\0'))

    def test_other_examples_by_a_point(self):
        for curve, private, signature in ((ecdsa_cases.P384, PRIVATE, SIGNATURE_OF_SAMPLE),
                                          (ecdsa_cases.P521, PRIVATE_OF_P521, SIGNATURE_BY_P521)):
            key = curve.times(private, curve.g)
            self.assertTrue(curve.is_signature(key, b'sample', signature))
            self.assertFalse(curve.is_signature(key, b'test', signature))

    def compared_by_points(self, verdict, number):
        """How many cases of ECDSA differ, and what was printed."""
        said = io.StringIO()
        with mock.patch.object(TOOL, 'told', judged_by_point(verdict)), contextlib.redirect_stdout(said):
            return TOOL.compare_ecdsa('/program', number, 1), said.getvalue().splitlines()

    @unittest.skipUnless(importlib.util.find_spec('cryptography'), 'no python3-cryptography')
    def test_a_program_for_points_that_is_right_or_wrong(self):
        differences, said = self.compared_by_points(ecdsa_cases.Curve.is_signature, 165)
        self.assertEqual((differences, said[-1]), (0, '165 cases, 0 differences'))
        differences, said = self.compared_by_points(lambda *_: True, 165)
        self.assertGreater(differences, 120)
        differences, said = self.compared_by_points(by_integers, 165)
        self.assertGreater(differences, 4)

    def test_an_example_by_octets(self):
        self.assertTrue(eddsa_cases.is_signature(OCTETS, SIGNED_BY_OCTETS, SIGNATURE_BY_OCTETS))
        self.assertFalse(eddsa_cases.is_signature(OCTETS, SIGNED_BY_OCTETS + b'.', SIGNATURE_BY_OCTETS))
        self.assertFalse(eddsa_cases.is_signature(OCTETS, SIGNED_BY_OCTETS, SIGNATURE_BY_OCTETS + b'\0'))

    def compared_by_octets(self, verdict, number):
        """How many cases of Ed25519 differ, and what was printed."""
        said = io.StringIO()
        with mock.patch.object(TOOL, 'told', judged_by_octets(verdict)), contextlib.redirect_stdout(said):
            return TOOL.compare_eddsa('/program', number, 1), said.getvalue().splitlines()

    @unittest.skipUnless(importlib.util.find_spec('cryptography'), 'no python3-cryptography')
    def test_a_program_for_octets_that_is_right_or_wrong(self):
        differences, said = self.compared_by_octets(eddsa_cases.is_signature, 80)
        self.assertEqual((differences, said[-1]), (0, '80 cases, 0 differences'))
        differences, said = self.compared_by_octets(lambda *_: True, 80)
        self.assertGreater(differences, 60)
        differences, said = self.compared_by_octets(by_any_s, 80)
        self.assertGreater(differences, 5)


class Program(unittest.TestCase):
    def test_each_line_begins_with_the_module(self):
        """A program that prints what it gets."""
        self.assertEqual(TOOL.told('cat', 'ecdsa', 'P-256 00 -\nES256 - 01\n'), ['ecdsa P-256 00 -', 'ecdsa ES256 - 01'])


class Batches(unittest.TestCase):
    @staticmethod
    def script(found):
        return ''.join('%s\n' % it for it in ['the key', *found]), ['the key']

    def judged(self, told, count=2 * TOOL.BATCH + 7):
        with mock.patch.object(TOOL, 'told', lambda _, __, text: told(text.splitlines())):
            return TOOL.judged('/program', 'rsa', self.script, [*map(str, range(count))])

    def test_each_has_the_key(self):
        sizes = []
        said, is_fine = self.judged(lambda lines: sizes.append(len(lines)) or lines)
        self.assertEqual((said, is_fine), ([*map(str, range(2 * TOOL.BATCH + 7))], True))
        self.assertEqual(sizes, [TOOL.BATCH + 1, TOOL.BATCH + 1, 8])

    def test_a_program_that_says_less_or_more(self):
        said, is_fine = self.judged(lambda lines: lines[:-1])
        self.assertEqual((len(said), said.count('nothing'), said[-2], is_fine), (2 * TOOL.BATCH + 7, 3, str(2 * TOOL.BATCH + 5), False))
        self.assertEqual(self.judged(lambda lines: lines + ['more'])[1], False)
        self.assertEqual(self.judged(lambda lines: ['another key', *lines[1:]])[1], False)

    def test_how_far_it_is(self):
        said = io.StringIO()
        with mock.patch.object(TOOL, 'SAYS_EVERY', 0), contextlib.redirect_stderr(said):
            it = TOOL.Progress('RSA', 9)
            it.add(2, 0)
            it.add(3, 1)
        self.assertEqual(said.getvalue(), 'tools/compare-signatures: RSA: 2 of 9 cases, 0 differences so far\n'
                                          'tools/compare-signatures: RSA: 5 of 9 cases, 1 differences so far\n')


if __name__ == '__main__':
    unittest.main()
