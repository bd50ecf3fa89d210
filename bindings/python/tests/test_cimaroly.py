"""Tests the package over bindings/tests/table.tsv, whose answers come from elsewhere."""

from __future__ import annotations

import array
import base64
import collections
import concurrent.futures
import contextlib
import csv
import json
import mmap
import os
import pathlib
import pickle
import re
import resource
import subprocess
import sys
import unittest
from collections.abc import Callable
from typing import Any

try:
    from cryptography import x509
except ImportError:
    x509 = None  # type: ignore[assignment]

import cimaroly
from cimaroly import Deviation, Reason
from tests.quiet import Quiet

HERE = os.path.dirname(os.path.abspath(__file__))
ROOT = os.path.abspath(f"{HERE}/../../..")
DATA = f"{ROOT}/tools/tests/data"
HEADER = f"{ROOT}/bindings/c/cimaroly.h"
STORE = "/etc/ssl/certs"


def file(name: str) -> bytes:
    with open(f"{DATA}/{name}", "rb") as it:
        return it.read()


def input_of(cell: str) -> bytes:
    if cell.endswith(".pem"):
        return base64.b64decode(re.sub(rb"-----[^-]+-----", b"", file(cell)))
    return bytes.fromhex(file(cell).decode() if cell.endswith(".hex") else cell)


def table() -> list[dict[str, str]]:
    with open(f"{ROOT}/bindings/tests/table.tsv", encoding="utf-8", newline="") as it:
        return list(csv.DictReader(it, delimiter="\t", quoting=csv.QUOTE_NONE))


ROWS = table()
READ = [it for it in ROWS if it["result"] != "refused"]


def mmap_of(data: bytes) -> mmap.mmap:
    found = mmap.mmap(-1, len(data))
    found[:] = data
    return found


def span(text: str) -> tuple[int, int]:
    start, end = text.split("..")
    return int(start), int(end)


def places(row: dict[str, str]) -> list[tuple[int, int, int]]:
    """The deviations that a row states."""
    found = [] if row["deviations"] == "-" else row["deviations"].split()
    return [(int(it.split("@")[0]), *span(it.split("@")[1])) for it in found]


def read(row: dict[str, str]) -> cimaroly.Structure:
    kind: cimaroly.Kind = row["kind"]  # type: ignore[assignment]
    return cimaroly.read(input_of(row["input"]), kind)


def counts(found: list[tuple[int, int, int]]) -> dict[int, int]:
    return dict(collections.Counter(number for number, _, _ in found))


def names(node: Any) -> list[list[list[str]]]:
    """The attributes of a name in a report."""
    return [[[it["name"], it["value"]] for it in rdn["items"]] for rdn in node["items"]]


class Table(unittest.TestCase):
    """Every row."""

    maxDiff = None

    def test_checks(self) -> None:
        for row in READ:
            with self.subTest(row["name"]):
                verdict = cimaroly.check(input_of(row["input"]), row["kind"])  # type: ignore[arg-type]
                self.assertEqual(verdict.counts, counts(places(row)))
                self.assertEqual(verdict.is_der, row["result"] == "ok")
                self.assertEqual(verdict, read(row).verdict)
                self.assertGreater(verdict.headers, 0)

    def test_refused(self) -> None:
        for row in ROWS:
            if row["result"] == "refused":
                with self.subTest(row["name"]):
                    with self.assertRaises(cimaroly.Refused) as caught:
                        read(row)
                    error = caught.exception
                    self.assertEqual(error.kind, row["kind"])
                    self.assertEqual(error.name, error.reason.text)
                    self.assertTrue(str(error).startswith(f"{row['kind']}: {error.name} at byte {error.place}"))
                    if row["error"] != "-":
                        self.assertEqual(f"{error.number}@{error.place}", row["error"])
                    if row["field"] != "-":
                        self.assertEqual(error.field or "none", row["field"])

    def test_refusals_print(self) -> None:
        """As the program prints them (docs/PROGRAMS.md)."""
        with self.assertRaises(cimaroly.Refused) as caught:
            cimaroly.read(file("refused_month_13.pem"))
        error = pickle.loads(pickle.dumps(caught.exception))
        self.assertEqual(str(error), "certificate: malformed time at byte 26 (in tbsCertificate, validity, notBefore)")
        self.assertEqual(error.field, "tbsCertificate.validity.notBefore")
        with self.assertRaisesRegex(cimaroly.Refused, "^name: wrong tag at byte 0$"):
            cimaroly.read(b"1\0", "name")

    def test_deviations(self) -> None:
        for row in READ:
            with self.subTest(row["name"]):
                self.assertEqual(list(read(row).deviations), places(row))

    def test_encodings(self) -> None:
        for row in READ:
            with self.subTest(row["name"]):
                given = input_of(row["input"])
                stated = given if row["encoding"] == "same" else bytes.fromhex(row["encoding"])
                self.assertEqual(read(row).encode(), stated)

    def test_fields(self) -> None:
        for row in READ:
            with self.subTest(row["name"]):
                structure = read(row)
                if row["fields"] == "-":
                    with self.assertRaises(ValueError):
                        structure.fields  # noqa: B018
                    continue
                stated = {name: span(place) for name, place in (it.split("=") for it in row["fields"].split())}
                self.assertEqual({name: it[:2] for name, it in structure.fields.items()}, stated)
                for it in structure.fields.values():
                    self.assertEqual(it.data, structure.der[it.start : it.end])

    def test_extensions(self) -> None:
        for row in READ:
            with self.subTest(row["name"]):
                structure = read(row)
                if row["kind"] == "request":
                    # (tests.test_values has those)
                    continue
                if row["extensions"] == "-":
                    with self.assertRaises(ValueError):
                        structure.extensions  # noqa: B018
                    continue
                stated = [] if row["extensions"] == "none" else row["extensions"].split()
                told = []
                for it in structure.extensions:
                    told.append((it.identifier, (it.start, it.end)))
                    self.assertTrue(structure.der[it.start : it.end].endswith(it.value))
                self.assertEqual(told, [(it.split("=")[0], span(it.split("=")[1].split(",")[0])) for it in stated])

    def test_signed_parts(self) -> None:
        for row in READ:
            with self.subTest(row["name"]):
                structure = read(row)
                if row["signed"] == "-":
                    with self.assertRaises(ValueError):
                        structure.signed_part  # noqa: B018
                    continue
                part = structure.signed_part
                start, end = span(row["signed"])
                self.assertEqual((part.start, part.end, part.data), (start, end, structure.der[start:end]))
                inside = [it for it in places(row) if start <= it[1] and it[2] <= end]
                self.assertEqual(part.inside, counts(inside))
                self.assertEqual(part.outside, counts([it for it in places(row) if it not in inside]))

    def test_reports(self) -> None:
        for row in READ:
            with self.subTest(row["name"]):
                report = read(row).report()
                self.assertEqual((report["type"], report["result"]), (row["kind"], row["result"]))
                self.assertEqual(report["length"], len(input_of(row["input"])))
                told = [(it["name"], *it["at"]) for it in report["deviations"]]
                self.assertEqual(told, [(Deviation(it[0]).text, *it[1:]) for it in places(row)])
                if row["values"] != "-":
                    self.same_values(row, report["Certificate"]["tbsCertificate"])

    def same_values(self, row: dict[str, str], fields: Any) -> None:
        stated = json.loads(row["values"])
        self.assertEqual(int(fields["serialNumber"]["value"].replace(":", ""), 16), int(stated["serialNumber"], 16))
        self.assertEqual(names(fields["subject"]), stated["subject"])
        self.assertEqual(names(fields["issuer"]), stated["issuer"])
        self.assertEqual(fields["validity"]["notBefore"]["value"], row["not_before"])
        self.assertEqual(fields["validity"]["notAfter"]["value"], row["not_after"])

    def test_threads(self) -> None:
        alone = [read(row).report() for row in READ]
        with concurrent.futures.ThreadPoolExecutor(4) as pool:
            for found in pool.map(lambda _: [read(row).report() for row in READ], range(8)):
                self.assertEqual(found, alone)


@unittest.skipIf(x509 is None, "there is no package cryptography")
@unittest.skipUnless(os.path.isdir(STORE), f"there is no {STORE}")
class OfThisMachine(Quiet):
    """The certificates that this machine trusts, as the package cryptography reads them."""

    def test_certificates(self) -> None:
        seen = 0
        for name in sorted(os.listdir(STORE)):
            if not name.endswith(".pem"):
                continue
            with open(f"{STORE}/{name}", "rb") as it:
                data = it.read()
            with self.subTest(name), contextlib.suppress(cimaroly.Refused):
                self.same(cimaroly.read(data), x509.load_pem_x509_certificate(data))
                seen += 1
        self.assertGreater(seen, 0)

    def same(self, mine: cimaroly.Structure, other: x509.Certificate) -> None:
        self.assertEqual(mine.signed_part.data, other.tbs_certificate_bytes)
        self.assertEqual(mine.fields["subject"].data, other.subject.public_bytes())
        self.assertEqual(mine.fields["issuer"].data, other.issuer.public_bytes())
        self.assertEqual(int.from_bytes(mine.fields["serial_number"].data[2:], "big", signed=True), other.serial_number)
        told = [(it.identifier, it.critical) for it in mine.extensions]
        self.assertEqual(told, [(it.oid.dotted_string, it.critical) for it in other.extensions])
        if mine.is_der:
            self.assertEqual(mine.encode(), mine.der)


class Extensions(unittest.TestCase):
    def test_values(self) -> None:
        # BasicConstraints { cA TRUE, pathLenConstraint 5 }, critical; and the same by default, spelled
        structure = cimaroly.read(bytes.fromhex("301430120603551d130101ff040830060101ff020105"), "extensions")
        self.assertEqual(structure.extensions, (("2.5.29.19", True, bytes.fromhex("30060101ff020105"), 2, 22),))
        structure = cimaroly.read(bytes.fromhex("300e300c0603551d1301010004023000"), "extensions")
        self.assertEqual(structure.extensions, (("2.5.29.19", False, bytes.fromhex("3000"), 2, 16),))

    def test_more_than_a_first_buffer_has_room_for(self) -> None:
        items = b"".join(bytes([0x30, 8, 6, 3, 42, 3, number % 128, 4, 1, number % 256]) for number in range(1000))
        der = bytes([0x30, 0x82, *len(items).to_bytes(2, "big")]) + items
        structure = cimaroly.read(der, "extensions")
        self.assertEqual([it.value for it in structure.extensions], [bytes([it % 256]) for it in range(1000)])
        self.assertEqual(structure.encode(), der)
        self.assertGreater(len(structure.report()["Extensions"]["items"]), 999)


class Input(unittest.TestCase):
    """What data can be."""

    def test_forms(self) -> None:
        der, pem = input_of("certificate_ec.pem"), file("certificate_ec.pem")
        forms: list[cimaroly.Data] = [der, bytearray(der), memoryview(der), pem, pem.decode()]
        for data in (*forms, b"text: 1\r\n" + pem, pem.replace(b"\n", b"\r\n")):
            self.assertEqual(cimaroly.read(data).der, der)
            self.assertTrue(cimaroly.check(data).is_der)

    def test_several_blocks(self) -> None:
        data = file("private_key_ec.pem") + file("certificate_ec.pem") + file("deviation_1_rsa_parameters.pem")
        found = cimaroly.read_all(data)
        self.assertEqual([it.kind for it in found], ["private-key", "certificate", "certificate"])
        self.assertEqual([it.is_der for it in found], [True, True, False])
        self.assertEqual(cimaroly.read(data), found[1])
        self.assertEqual(cimaroly.read(data, "private-key"), found[0])
        self.assertEqual(cimaroly.read_all(data, "certificate"), found[1:])
        self.assertEqual(cimaroly.read_all(found[1].der), found[1:2])
        lines = [it.line for it in cimaroly.pem_blocks(data)]
        self.assertEqual([data.splitlines()[it - 1][:10] for it in lines], [b"-----BEGIN"] * 3)

    def test_no_block(self) -> None:
        for data, kind in (("", "certificate"), ("abc", "name"), (file("certificate_ec.pem"), "request")):
            with self.assertRaises(cimaroly.PemError):
                cimaroly.read(data, kind)  # type: ignore[call-overload]
        with self.assertRaisesRegex(cimaroly.PemError, "may be encrypted"):
            cimaroly.read(file("rsa_private_key_encrypted.pem"), "rsa-private-key")
        with self.assertRaisesRegex(cimaroly.PemError, "line [0-9]+: .* has no end"):
            cimaroly.read(file("certificate_ec.pem").replace(b"-----END", b"-----"))
        with self.assertRaisesRegex(cimaroly.PemError, "invalid base64"):
            cimaroly.read("-----BEGIN CERTIFICATE-----\nMII*\n-----END CERTIFICATE-----\n")

    def test_what_is_no_data(self) -> None:
        calls: list[Callable[[Any], object]] = [
            cimaroly.check,
            cimaroly.read,
            cimaroly.read_all,
            cimaroly.read_each,
            cimaroly.pem_blocks,
            cimaroly.Structure,
        ]
        with open(f"{DATA}/certificate_ec.pem", "rb") as opened:
            for call in calls:
                for data, text in (
                    (7, "not int$"),
                    (None, "not NoneType$"),
                    ([48, 0], "not list$"),
                    (pathlib.Path("cert.pem"), "not PosixPath: .*read_bytes"),
                    (opened, "not BufferedReader: .*read"),
                ):
                    with self.assertRaisesRegex(TypeError, text):
                        call(data)

        with self.assertRaisesRegex(TypeError, "read.. takes PEM"):
            cimaroly.Structure(file("certificate_ec.pem").decode())  # type: ignore[arg-type]

    def test_any_buffer(self) -> None:
        whole = memoryview(bytes.fromhex("0030ff00"))
        for data in (whole[1::2], array.array("H", [0x30]), mmap_of(b"0\0")):
            self.assertEqual(cimaroly.read(data, "name").der, b"0\0")  # type: ignore[call-overload]

    def test_unknown_kind(self) -> None:
        with self.assertRaisesRegex(ValueError, "no kind 'cert'"):
            cimaroly.read(b"0\0", "cert")  # type: ignore[call-overload]

    def test_secrets(self) -> None:
        structure = cimaroly.read(file("private_key_ed25519.pem"), "private-key")
        secret = ":".join(f"{it:02x}" for it in structure.fields["private_key"].data[4:])
        self.assertNotIn(secret, json.dumps(structure.report()))
        self.assertIn(secret, json.dumps(structure.report(secrets=True)))


class Objects(unittest.TestCase):
    def test_pickles(self) -> None:
        structure = cimaroly.read(file("deviation_1_rsa_parameters.pem"))
        self.assertEqual(pickle.loads(pickle.dumps(structure)).deviations, structure.deviations)
        with self.assertRaises(cimaroly.Refused) as caught:
            cimaroly.check(b"")
        self.assertEqual(str(pickle.loads(pickle.dumps(caught.exception))), str(caught.exception))

    def test_prints(self) -> None:
        self.assertEqual(repr(cimaroly.read(b"0\0", "name")), "<name, 2 bytes, in DER>")
        self.assertRegex(repr(cimaroly.read(file("deviation_1_rsa_parameters.pem"))), "<certificate, 186 bytes, 2 deviations>")

    def test_names_are_those_of_the_header(self) -> None:
        with open(HEADER, encoding="utf-8") as it:
            header = it.read()
        members: list[Deviation | Reason] = [*Deviation, *Reason]
        for member in members:
            begin = "CIMAROLY_" if isinstance(member, Deviation) else "CIMAROLY_ERROR_"
            self.assertRegex(header, rf"\b{begin}{member.name} = {member.value}\b")
            self.assertIn(f'"{member.text}"', header)
        for number, kind in enumerate(cimaroly.KINDS, 1):
            self.assertRegex(header, rf"\bCIMAROLY_{kind.upper().replace('-', '_')} = {number}\b")


# So many calls, or as many as the variable says.
CALLS = int(os.environ.get("CIMAROLY_CALLS", "100000"))


def peak() -> int:
    """The most memory that this process had, in KB."""
    return resource.getrusage(resource.RUSAGE_SELF).ru_maxrss


class Memory(unittest.TestCase):
    def test_calls_keep_none(self) -> None:
        der, refused = input_of("certificate_rsa.pem"), input_of("refused_month_13.pem")

        def calls(count: int) -> None:
            for number in range(count):
                cimaroly.check(der)
                if number % 10 == 0:
                    with self.assertRaises(cimaroly.Refused):
                        cimaroly.check(refused)
                if number % 100 == 0:
                    structure = cimaroly.read(der)
                    structure.encode(), structure.report(), structure.fields, structure.extensions  # noqa: B018

        calls(2000)
        before = peak()
        calls(CALLS)
        grown = peak() - before
        print(f"{CALLS} calls: {grown} KB more at the peak")
        self.assertLess(grown, 1024)

    def test_too_little(self) -> None:
        program = (
            "import cimaroly, resource\n"
            "resource.setrlimit(resource.RLIMIT_AS, (1 << 30, 1 << 30))\n"
            "try:\n    cimaroly.check(bytes(100_000_000))\n"
            "except MemoryError:\n    print(cimaroly.check(b'0\\0', 'name').is_der)\n"
        )
        ran = subprocess.run(
            [sys.executable, "-c", program], capture_output=True, encoding="utf-8", check=False, cwd=f"{HERE}/..", timeout=60
        )
        self.assertEqual((ran.stdout, ran.stderr), ("True\n", ""))


if __name__ == "__main__":
    unittest.main()
