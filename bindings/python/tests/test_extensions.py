"""Tests the check of extensions that are kept as octets, on values written by hand (X.690; RFC 5280, 4.2)."""

from __future__ import annotations

import array
import os
import pickle
import unittest

import cimaroly
from cimaroly import Deviation, Reason, Refused, check_extension
from cimaroly._values import content_of, identifier
from tests import made
from tests.test_cimaroly import file

POLICIES, ACCESS, TIMESTAMPS = "2.5.29.32", "1.3.6.1.5.5.7.1.1", "1.3.6.1.4.1.11129.2.4.2"
# One policy, 2.23.140.1.2.1: a SEQUENCE in a SEQUENCE, and the OBJECT IDENTIFIER.
ONE_POLICY = bytes.fromhex("300a300806066781 0c010201")
# Where OCSP answers: the address `a:`, under the constructed form of its tag.
OTHER_FORM = bytes.fromhex("3012301006082b06010505073001a6041602613a")


class Extensions(unittest.TestCase):
    def refused(self, key: str, value: bytes) -> Refused:
        with self.assertRaises(Refused) as caught:
            check_extension(key, value)
        return caught.exception

    def test_policies(self) -> None:
        for key in (POLICIES, "id-ce-certificatePolicies"):
            self.assertEqual(check_extension(key, ONE_POLICY), cimaroly.Verdict({}, 3))

    def test_what_is_refused(self) -> None:
        rows = (
            (POLICIES, ONE_POLICY[:-1], Reason.TRUNCATED, 0),
            (POLICIES, ONE_POLICY[:-1] + b"\x81", Reason.BAD_OID, 6),
            (POLICIES, ONE_POLICY + b"\0", Reason.LEFT_OVER, len(ONE_POLICY)),
            (POLICIES, b"", Reason.TRUNCATED, 0),
            (TIMESTAMPS, b"\5\0", Reason.WRONG_TAG, 0),
        )
        for key, value, reason, place in rows:
            with self.subTest(value=value.hex()):
                error = self.refused(key, value)
                self.assertEqual((error.kind, error.reason, error.place, error.field), ("extension", reason, place, None))
        self.assertEqual(str(self.refused(POLICIES, ONE_POLICY[:-1])), "extension: truncated element at byte 0")

    def test_a_refusal_is_pickled(self) -> None:
        error = self.refused(POLICIES, b"")
        again = pickle.loads(pickle.dumps(error))
        self.assertEqual((again.args, str(again)), (error.args, str(error)))

    def test_a_deviation(self) -> None:
        verdict = check_extension(ACCESS, OTHER_FORM)
        self.assertEqual(verdict, cimaroly.Verdict({Deviation.GENERAL_NAME_FORM: 1}, 5))
        self.assertIs(verdict is not None and verdict.is_der, False)

    def test_timestamps(self) -> None:
        # (what TLS has in the OCTET STRING isn't looked at)
        self.assertEqual(check_extension(TIMESTAMPS, b"\4\1\0"), cimaroly.Verdict({}, 1))

    def test_other_extensions(self) -> None:
        for key in ("2.5.29.17", "id-ce-subjectAltName", "2.5.29", "1.2.3", "0.39", f"2.25.{2**127}", f"1.2{'.3' * 200}"):
            self.assertIsNone(check_extension(key, b"\x30\0"), key)

    def test_a_certificate(self) -> None:
        certificate = cimaroly.read(file("certificate_rsa.pem"))
        told = {it.identifier: check_extension(it.identifier, it.value) for it in certificate.extensions}
        self.assertEqual(len(told), 7)
        self.assertEqual(told.pop(POLICIES), cimaroly.Verdict({}, 3))
        self.assertEqual(set(told.values()), {None})

    def test_as_a_report_tells(self) -> None:
        # (whether a value is malformed a report says too, with a place in the whole)
        for value in (ONE_POLICY, *(ONE_POLICY[:size] for size in range(len(ONE_POLICY)))):
            whole = made.sequence(made.extension("551d20", value))
            (told,) = cimaroly.read(whole, "extensions").report()["Extensions"]["items"]
            if "malformed" not in told:
                self.assertIsNotNone(check_extension(POLICIES, value))
                continue
            error = self.refused(POLICIES, value)
            found = {"reason": error.name, "at": error.place + len(whole) - len(value)}
            self.assertEqual(told["malformed"], found)

    def test_what_is_no_identifier(self) -> None:
        dotted = ("2", "2.", ".5", "3.1", "1.40", "2.5.29.032", "2.5.29.32\n", " 2.5.29.32", "2.5.+29", "٢.٥")
        for key in (*dotted, "", "policies", '"', "\ud800"):
            with self.assertRaisesRegex(ValueError, "no object identifier", msg=key):
                check_extension(key, ONE_POLICY)
        for other in (7, None, b"2.5.29.32"):
            with self.assertRaises(TypeError):
                check_extension(other, ONE_POLICY)  # type: ignore[arg-type]

    def test_data(self) -> None:
        for value in (bytearray(ONE_POLICY), memoryview(ONE_POLICY), memoryview(ONE_POLICY[::-1])[::-1]):
            self.assertEqual(check_extension(POLICIES, value), cimaroly.Verdict({}, 3))
        numbers = array.array("B", ONE_POLICY)
        self.assertEqual(check_extension(POLICIES, numbers), cimaroly.Verdict({}, 3))  # type: ignore[arg-type]
        for other in (ONE_POLICY.hex(), 7, None, [48, 10], os):
            with self.assertRaisesRegex(TypeError, f"not {type(other).__name__}$"):
                check_extension(POLICIES, other)  # type: ignore[arg-type]

    def test_identifiers(self) -> None:
        # (each is told again by the library)
        fronts = ((0, 0), (0, 39), (1, 0), (1, 39), (2, 0), (2, 47), (2, 48), (2, 999), (2, 5, 0), (1, 2, 127), (1, 2, 128))
        for arcs in fronts:
            for last in (0, 1, 16383, 16384, 2**32, 2**63 - 1):
                dots = ".".join(map(str, (*arcs, last)))
                self.assertEqual(identifier(content_of(dots))[0], dots)


if __name__ == "__main__":
    unittest.main()
