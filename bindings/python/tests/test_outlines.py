"""Tests outlines and revocation lists against the package cryptography, where that is there, and against OpenSSL."""

from __future__ import annotations

import hashlib
import os
import pickle
import subprocess
import unittest

import cimaroly

try:
    from cryptography import x509
except ImportError:
    x509 = None  # type: ignore[assignment]

ROOT = os.path.dirname(os.path.dirname(os.path.dirname(os.path.dirname(os.path.abspath(__file__)))))


def data(name: str) -> bytes:
    with open(f"{ROOT}/tools/tests/data/{name}", "rb") as file:
        return file.read()


class Outlines(unittest.TestCase):
    def test_a_refused_certificate_has_an_outline(self) -> None:
        pem = data("certificate_md5.pem")
        with self.assertRaisesRegex(cimaroly.Refused, "unsupported algorithm"):
            cimaroly.read(pem)
        outline = cimaroly.read(pem, "certificate-outline")
        self.assertIsInstance(outline, cimaroly.Outline)
        self.assertTrue(outline.is_der)
        told = outline.report()["Certificate"]["tbsCertificate"]["signature"]["algorithm"]
        self.assertEqual((told["value"]["name"], told["read"]), ("md5WithRSAEncryption", False))
        self.assertEqual(outline.pem(), pem.decode()[pem.index(b"-----BEGIN") :])
        self.assertEqual(outline.encode(), outline.der)
        self.assertEqual(outline.fingerprint(), hashlib.sha256(outline.der).digest())
        self.assertEqual(pickle.loads(pickle.dumps(outline)), outline)

    def test_what_a_signature_covers(self) -> None:
        command = ["openssl", "asn1parse", "-strparse", "4", "-noout", "-out", "/dev/stdout"]
        for file, kind in (("certificate_md5.pem", "certificate-outline"), ("request_md5.pem", "request-outline")):
            (outline,) = cimaroly.read_all(data(file), kind)  # type: ignore[call-overload]
            signed = subprocess.run(command, input=data(file), capture_output=True, check=True).stdout
            self.assertEqual(outline.signed_bytes, signed)
        key = cimaroly.read(data("public_key_dsa.pem"), "public-key-outline")
        self.assertRaises(ValueError, lambda: key.signed_bytes)

    def test_a_private_key_is_kept_secret(self) -> None:
        key = cimaroly.read(data("private_key_dsa.pem"), "private-key-outline")
        self.assertIn("hidden", key.report()["PrivateKeyInfo"]["privateKey"])
        self.assertRegex(repr(key), r"^<private-key-outline, \d+ bytes, in DER>$")


class RevocationLists(unittest.TestCase):
    def test_blocks_are_read_by_their_label(self) -> None:
        (found,) = cimaroly.read_each(data("revocation_list.pem"))
        self.assertIsInstance(found.structure, cimaroly.RevocationList)
        self.assertEqual((found.kind, found.label), ("crl", "X509 CRL"))

    def test_entries(self) -> None:
        found = cimaroly.read(data("revocation_list.pem"), "crl")
        self.assertEqual(sorted(found.revocations), [0xF0, 0x0A01])
        entry = found.find(0x0A01)
        assert entry is not None
        self.assertEqual((entry.date.isoformat(), entry.reason), ("2024-01-01T12:00:00+00:00", "keyCompromise"))
        self.assertIsNone(found.find(1))
        self.assertEqual((found.number, found.issuer.common_name), (0x1001, "example.org"))
        self.assertRegex(repr(found), r"^<crl of 2 entries, \d+ bytes, in DER>$")

    @unittest.skipIf(x509 is None, "the package cryptography isn't here")
    def test_as_cryptography(self) -> None:
        mine, other = cimaroly.read(data("revocation_list.pem"), "crl"), x509.load_pem_x509_crl(data("revocation_list.pem"))
        self.assertEqual((mine.this_update, mine.next_update), (other.last_update_utc, other.next_update_utc))
        self.assertEqual(mine.signed_bytes, other.tbs_certlist_bytes)
        theirs = {it.serial_number: it.revocation_date_utc for it in other}
        self.assertEqual({number: it.date for number, it in mine.revocations.items()}, theirs)


if __name__ == "__main__":
    unittest.main()
