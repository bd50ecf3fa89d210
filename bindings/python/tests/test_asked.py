"""Tests what people ask of a certificate first: compared with the columns of the table of inputs that OpenSSL and the package
cryptography say."""

from __future__ import annotations

import unittest

import cimaroly
from tests.test_cimaroly import READ, read


class Asked(unittest.TestCase):
    def test_certificates(self) -> None:
        rows = [it for it in READ if it["serial_number"] != "-"]
        self.assertGreater(len(rows), 5)
        for row in rows:
            it = read(row)
            assert isinstance(it, cimaroly.Certificate)
            with self.subTest(row["name"]):
                self.same(it, row)

    def same(self, it: cimaroly.Certificate, row: dict[str, str]) -> None:
        key = it.public_key
        told = {
            "common_name": it.subject.common_name or "none",
            "serial_number": str(it.serial_number),
            "unix_times": "..".join(str(int(time.timestamp())) for time in (it.not_before, it.not_after)),
            "dns_names": " ".join(it.alternative_names.dns_names) or "none",
            "rfc4514": it.subject.rfc4514() or "none",
            "key": " ".join(str(part) for part in (key.algorithm, key.curve, key.bits) if part is not None),
            "signature": f"{it.signature_algorithm.identifier} {it.signature_algorithm.digest}".replace("None", "none"),
            "key_identifiers": " ".join(
                "none" if octets is None else octets.hex() for octets in (it.subject_key_identifier, it.authority_key_identifier)
            ),
        }
        self.assertEqual(told, {name: row[name] for name in told})


if __name__ == "__main__":
    unittest.main()
