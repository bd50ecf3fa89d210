"""Tests that a type checker knows what is read, and finds names that there aren't."""

from __future__ import annotations

import os
import re
import shutil
import subprocess
import sys
import tempfile
import unittest

HERE = os.path.dirname(os.path.abspath(__file__))

PROGRAM = """
import cimaroly
certificate = cimaroly.read(b"")
reveal_type(certificate)
reveal_type(cimaroly.read(b"", "request"))
reveal_type(cimaroly.read(b"", "ec-private-key"))
reveal_type(cimaroly.read(b"", "rsa-public-key"))
reveal_type(cimaroly.read(b"", "name"))
reveal_type(cimaroly.read_all(b"", "certificate"))
reveal_type(cimaroly.read_all(b""))
reveal_type(certificate.not_after)
reveal_type(certificate.alternative_names.dns_names)
reveal_type(certificate.extensions["keyUsage"].value)
reveal_type(certificate.public_key.curve)
reveal_type(certificate.policies)
certificate.not_afterwards
certificate.subject.comon_name
certificate.public_key.sice
cimaroly.read(b"", "request").serial_number
cimaroly.read(b"", "cert")
certificate.matches_host(7)
certificate.serial_number = 7
"""
REVEALED = (
    "cimaroly._certificates.Certificate",
    "cimaroly._certificates.Request",
    "cimaroly._keys.PrivateKey",
    "cimaroly._keys.PublicKey",
    "cimaroly._structure.Structure",
    "builtins.list[cimaroly._certificates.Certificate]",
    "builtins.list[cimaroly._structure.Structure]",
    "datetime.datetime",
    "builtins.tuple[builtins.str, ...]",
    "builtins.bytes",
    "Union[builtins.str, None]",
    "builtins.tuple[cimaroly._services.Policy, ...]",
)
ERRORS = (
    '"Certificate" has no attribute "not_afterwards"',
    '"Name" has no attribute "comon_name"',
    '"PublicKey" has no attribute "sice"',
    '"Request" has no attribute "serial_number"',
    'No overload variant of "read" matches',
    'Argument 1 to "matches_host" of "Certificate" has incompatible type "int"',
    'Property "serial_number" defined in "Certificate" is read-only',
)


def has_mypy() -> bool:
    return shutil.which("mypy") is not None or not subprocess.call(
        [sys.executable, "-c", "import mypy"], stdout=subprocess.DEVNULL, stderr=subprocess.DEVNULL
    )


@unittest.skipUnless(has_mypy(), "there is no mypy")
class Types(unittest.TestCase):
    def test_names(self) -> None:
        mypy = ["mypy"] if shutil.which("mypy") else [sys.executable, "-m", "mypy"]
        with tempfile.TemporaryDirectory() as place:
            path = os.path.join(place, "program.py")
            with open(path, "w", encoding="utf-8") as file:
                file.write(PROGRAM)
            words = [*mypy, "--strict", "--cache-dir", place, "--no-error-summary", path]
            environment = {**os.environ, "MYPYPATH": os.path.dirname(HERE)}
            ran = subprocess.run(words, capture_output=True, encoding="utf-8", check=False, env=environment, cwd=place)
        told = re.findall(r'Revealed type is "(.*)"', ran.stdout)
        # (later versions write an optional type otherwise, and leave out the module of builtins)
        self.assertEqual([self.plain(it) for it in told], [self.plain(it) for it in REVEALED])
        errors = [it for it in ran.stdout.splitlines() if ": error: " in it]
        self.assertEqual(len(errors), len(ERRORS), ran.stdout)
        for error, text in zip(errors, ERRORS):
            self.assertIn(text, error)

    def plain(self, text: str) -> str:
        found = re.sub(r"Union\[(.*), None\]", r"\1 | None", text)
        return found.replace("builtins.", "")


if __name__ == "__main__":
    unittest.main()
