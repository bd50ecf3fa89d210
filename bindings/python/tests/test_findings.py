"""Tests the rules that certificates and requests break, by some made by hand (RFC 5280, 4.1), and by the program."""

from __future__ import annotations

import json
import os
import pickle
import platform
import subprocess
import unittest
from typing import Any

import cimaroly
from cimaroly._names import element
from tests import made
from tests.test_compared import contents

ROOT = os.path.dirname(os.path.dirname(os.path.dirname(os.path.dirname(os.path.abspath(__file__)))))
PROGRAM = os.environ.get("CIMAROLY") or f"{ROOT}/dist/{platform.machine()}-linux/cimaroly"

NAME = made.name(("550403", 0x0C, b"a"))


def printed(*words: str) -> list[dict[str, Any]]:
    """The objects that the program prints."""
    out = subprocess.run([PROGRAM, "lint", "--json", *words], capture_output=True, check=False).stdout
    return [json.loads(line) for line in out.splitlines()]


def rules(certificate: cimaroly.Certificate) -> list[str]:
    return [it.rule for it in certificate.findings]


class Findings(unittest.TestCase):
    def test_what_is_told_of_one(self) -> None:
        certificate = made.certificate(subject=NAME, serial=b"\0")
        number, issuer, key = certificate.findings
        self.assertIsInstance(number, cimaroly.Finding)
        self.assertEqual((number.rule, number.severity), ("serial-not-positive", "error"))
        self.assertEqual((number.text, number.clause), ("serial number isn't positive", "RFC 5280, 4.1.2.2"))
        self.assertRegex(number.reason, r"^Programs print .*\.$")
        self.assertEqual(certificate.der[number.start : number.end], b"\2\1\0")
        field = certificate.fields["issuer"]
        self.assertEqual((issuer.rule, issuer.start, issuer.end), ("issuer-empty", field.start, field.end))
        self.assertEqual(key.rule, "authority-key-missing")

    def test_rules(self) -> None:
        purposes = made.extension(made.PURPOSES, made.sequence())
        usage = made.extension(made.KEY_USAGE, element(3, b"\2\4"))
        reversed_times = (made.TIMES[1], made.TIMES[0])
        missing = "authority-key-missing"
        broken: list[tuple[cimaroly.Certificate, list[str]]] = [
            (made.certificate(subject=NAME), [missing]),
            (made.certificate(), ["subject-empty"]),
            (made.certificate(subject=NAME, times=reversed_times), ["validity-reversed", missing]),
            (made.certificate(purposes, subject=NAME), [missing, "purposes-empty"]),
            (made.certificate(usage, subject=NAME), [missing, "key-usage-not-critical", "signing-without-authority"]),
        ]
        for certificate, more in broken:
            self.assertEqual(rules(certificate), ["issuer-empty", *more])
        # (a warning)
        constraints = made.extension(made.BASIC_CONSTRAINTS, made.sequence(element(1, b"\xff")))
        (warning,) = [it for it in made.certificate(constraints).findings if it.severity == "warning"]
        self.assertEqual(warning.rule, "authority-without-signing")

    def test_they_are_asked_for_once(self) -> None:
        certificate = made.certificate(serial=b"\0")
        self.assertIs(certificate.findings, certificate.findings)
        again = pickle.loads(pickle.dumps(certificate))
        self.assertEqual(again.findings, certificate.findings)
        self.assertEqual(pickle.loads(pickle.dumps(certificate.findings)), certificate.findings)

    def test_only_certificates_and_requests_have_them(self) -> None:
        for kind in ("public-key", "private-key"):
            for _, _, structure in contents(kind):  # type: ignore[arg-type]
                self.assertFalse(hasattr(structure, "findings"), kind)

    @unittest.skipUnless(os.path.isfile(PROGRAM), f"there is no {PROGRAM}")
    def test_as_the_program_tells(self) -> None:
        reasons = {it["rule"]: it["reason"] for it in printed("--list")}
        total = 0
        for path, _, structure in (*contents("certificate"), *contents("request")):
            assert isinstance(structure, (cimaroly.Certificate, cimaroly.Request))
            told = [it for it in printed(path) if it.get("type") == structure.kind][0]["findings"]
            members = ("rule", "severity", "text", "clause")
            wanted = [(*(it[key] for key in members), reasons[it["rule"]], *it["at"]) for it in told]
            self.assertEqual([tuple(it) for it in structure.findings], wanted, path)
            total += len(told)
        self.assertGreater(total, 3)


if __name__ == "__main__":
    unittest.main()
