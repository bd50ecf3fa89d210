"""Tests what is read of a text block by block."""

from __future__ import annotations

import base64
import itertools
import re
import unittest

import cimaroly
from tests.test_cimaroly import file, input_of

CERTIFICATE, KEY = file("certificate_ec.pem"), file("private_key_ed25519.pem")
MONTH_13, ENCRYPTED = file("refused_month_13.pem"), file("rsa_private_key_encrypted.pem")


def block(label: str, text: str, end: str = "") -> bytes:
    return f"-----BEGIN {label}-----\n{text}\n-----END {end or label}-----\n".encode()


# Parts of a text, each with its label and how it begins what it is refused for, or nothing.
PARTS = [
    (b"text: 1\r\n\n" + CERTIFICATE, "CERTIFICATE", ""),
    (ENCRYPTED, "RSA PRIVATE KEY", "line {}: the block RSA PRIVATE KEY has headers"),
    (MONTH_13, "CERTIFICATE", "certificate: malformed time at byte 26"),
    (block("CERTIFICATE", "MII*"), "CERTIFICATE", "line {}: invalid base64"),
    (block("PRIVATE KEY", "MII*"), "PRIVATE KEY", "line {}: invalid base64"),
    (block("PRIVATE KEY", "MAA"), "PRIVATE KEY", "line {}: invalid base64"),
    (block("PKCS7", "MAA="), "PKCS7", ""),
    (block("CERTIFICATE", "MAA=", "X509 CRL"), "CERTIFICATE", "line {}: the end of another block than CERTIFICATE"),
    (b"-----BEGIN CERTIFICATE-----\nMAA=\n", "CERTIFICATE", "line {}: the block CERTIFICATE has no end"),
    (KEY.replace(b"\n", b" \r\n"), "PRIVATE KEY", ""),
    (CERTIFICATE, "CERTIFICATE", ""),
    (b"-----BEGIN NAME-----", "NAME", ""),
]
TEXT = b"".join(part for part, _, _ in PARTS)


def lines() -> list[int]:
    """The line that begins each block."""
    return [number for number, line in enumerate(TEXT.split(b"\n"), 1) if line.startswith(b"-----BEGIN ")]


class Each(unittest.TestCase):
    def test_numbers_and_lines(self) -> None:
        found = list(cimaroly.read_each(TEXT))
        self.assertEqual([it.number for it in found], list(range(1, len(PARTS) + 1)))
        self.assertEqual([it.line for it in found], lines())
        self.assertEqual([it.label for it in found], [label for _, label, _ in PARTS])

    def test_what_came_of_each(self) -> None:
        # (the second line of the encrypted key has the header, the third line of the others is where they are refused)
        later = {"has headers": 1, "the end of another": 2, "invalid base64": 2, "has no end": 2}
        for it, (_, label, why) in zip(cimaroly.read_each(TEXT), PARTS):
            with self.subTest(number=it.number):
                line = (it.line or 0) + sum(more for words, more in later.items() if words in why)
                if why:
                    self.assertTrue(str(it.refused).startswith(why.format(line)), it.refused)
                    is_pem = "line" in why
                    self.assertIsInstance(it.refused, cimaroly.PemError if is_pem else cimaroly.Refused)
                    self.assertIsNone(it.structure)
                elif it.kind is None:
                    self.assertEqual((it.structure, it.refused), (None, None))
                else:
                    self.assertIsNone(it.refused)
                    self.assertIsNotNone(it.structure)
        found = [it.structure.der for it in cimaroly.read_each(TEXT) if it.structure]
        certificate = input_of("certificate_ec.pem")
        self.assertEqual(found, [certificate, input_of("private_key_ed25519.pem"), certificate])

    def test_forms(self) -> None:
        forms: list[cimaroly.Data] = [TEXT, TEXT.decode(), bytearray(TEXT), memoryview(TEXT)]
        told = [[(it.number, it.line, it.structure, str(it.refused)) for it in cimaroly.read_each(data)] for data in forms]
        self.assertEqual(told, [told[0]] * 4)

    def test_of_one_kind(self) -> None:
        """Blocks of other kinds are counted, and left out."""
        keys = list(cimaroly.read_each(TEXT, "private-key"))
        self.assertEqual([it.number for it in keys], [5, 6, 10])
        self.assertEqual([it.structure is None for it in keys], [True, True, False])
        self.assertEqual(list(cimaroly.read_each(TEXT, "name")), [])

    def test_der_and_no_blocks(self) -> None:
        der = input_of("certificate_ec.pem")
        for data in (der, bytearray(der)):
            (it,) = cimaroly.read_each(data)
            self.assertEqual((it.number, it.line, it.label, it.kind), (1, None, None, "certificate"))
            self.assertEqual(it.structure, cimaroly.read(der))
        (it,) = cimaroly.read_each(der, "name")
        self.assertIsInstance(it.refused, cimaroly.Refused)
        self.assertEqual(list(cimaroly.read_each("no block")), [])

    def test_is_lazy(self) -> None:
        """What comes first is there before the rest is read, and nothing is lost behind what is refused."""
        data = MONTH_13 + 2000 * CERTIFICATE + MONTH_13 + 2000 * CERTIFICATE
        outcomes = cimaroly.read_each(data)
        self.assertIsNotNone(next(outcomes).refused)
        found = list(outcomes)
        self.assertEqual([it.number for it in found if it.refused], [2002])
        self.assertEqual(sum(it.structure is not None for it in found), 4000)

    def test_refusals_keep_no_frames(self) -> None:
        for it in cimaroly.read_each(TEXT):
            self.assertIsNone(it.refused and it.refused.__traceback__)

    def test_outcomes_are_frozen(self) -> None:
        it = next(cimaroly.read_each(TEXT))
        with self.assertRaises(AttributeError):
            it.number = 2  # type: ignore[misc]


class All(unittest.TestCase):
    def test_raises_at_the_first_that_is_refused(self) -> None:
        with self.assertRaisesRegex(cimaroly.PemError, "has headers"):
            cimaroly.read_all(TEXT)
        with self.assertRaisesRegex(cimaroly.Refused, "malformed time"):
            cimaroly.read_all(CERTIFICATE + MONTH_13 + ENCRYPTED)
        with self.assertRaisesRegex(cimaroly.PemError, r"no PEM block of kind request \(blocks: CERTIFICATE, PRIVATE KEY\)"):
            cimaroly.read_all(KEY + CERTIFICATE, "request")
        self.assertEqual([it.kind for it in cimaroly.read_all(KEY + block("PKCS7", "MAA="))], ["private-key"])

    def test_one_is_read_in_spite_of_others(self) -> None:
        self.assertEqual(cimaroly.read(ENCRYPTED + CERTIFICATE), cimaroly.read(CERTIFICATE))


class Base64(unittest.TestCase):
    """That of private keys, which isn't decoded by the standard library, against it."""

    def test_every_length(self) -> None:
        for size in range(1, 200):
            der = bytes(it * 37 % 256 for it in range(size))
            text = base64.encodebytes(der).decode()
            with self.assertRaises(cimaroly.Refused) as caught:
                cimaroly.read(block("EC PRIVATE KEY", text), "ec-private-key")
            with self.assertRaises(cimaroly.Refused) as other:
                cimaroly.read(der, "ec-private-key")
            self.assertEqual(str(caught.exception), str(other.exception))
        for name in ("private_key_rsa", "private_key_ec", "rsa_private_key", "ec_private_key"):
            (it,) = cimaroly.read_each(file(f"{name}.pem"))
            self.assertEqual(it.structure and it.structure.der, input_of(f"{name}.pem"))

    def test_what_is_none(self) -> None:
        """Groups of four symbols, of which the last may be padded (RFC 4648, 4)."""
        for size in range(9):
            for parts in itertools.product("A=*", repeat=size):
                text = "".join(parts)
                (it,) = cimaroly.read_each(block("PRIVATE KEY", text))
                is_base64 = re.fullmatch("(A{4})*(A{3}=|A{2}==)?", text) is not None
                self.assertEqual(isinstance(it.refused, cimaroly.Refused), is_base64, text)


if __name__ == "__main__":
    unittest.main()
