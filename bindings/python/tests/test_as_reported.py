"""Tests that values which the library's calls tell are those of its report, of any certificate."""

from __future__ import annotations

import copy
import os
import pickle
import threading
import unittest
from collections.abc import Iterator
from typing import Any, Optional

import cimaroly
from cimaroly import _keys, _library, _names, _values
from cimaroly._names import element
from tests import made
from tests.test_cimaroly import DATA
from tests.test_compared import contents

COMMON, TITLE, MAIL = "550403", "55040c", "2a864886f70d010901"


def names() -> Iterator[bytes]:
    """Names with strings of all types, in sets of any size."""
    texts = ("", "a", "Grün", "\u20ac", "04:02", "x" * 200)
    for kind in (COMMON, TITLE):
        for it in texts:
            yield made.name((kind, 0x0C, it.encode()))
            yield made.name((kind, 0x1E, it.encode("utf-16-be")))
            yield made.name((kind, 0x13, it.encode("ascii", "replace")), (kind, 0x12, b"7"))
        yield made.name((kind, 0x1E, b"\xd8\x00"), (kind, 0x0C, b"a"))
    for tag, content in ((0x14, b"a\xe9"), (0x13, b"\xe9"), (0x1A, b"\xc3\xa9"), (0x16, b"\xff"), (0x0C, b"\xff"), (0x04, b"Hi")):
        yield made.name((TITLE, tag, content))
    yield made.name((MAIL, 0x16, b"a@example.org"), ("2b060104018b3a00", 0x0C, b"long"))
    empty, one = element(0x31), made.name((COMMON, 0x0C, b"a"))[2:]
    two = element(0x31, made.name((COMMON, 0x0C, b"a"))[4:] + made.name((TITLE, 0x0C, b"b"))[4:])
    for sets in ((), (empty,), (one, empty), (empty, one), (empty, empty, one, empty), (two, empty, one)):
        yield made.sequence(*sets)
    yield made.sequence(one, empty, empty, two)


def certificates() -> Iterator[tuple[str, cimaroly.Certificate]]:
    for path, _, it in contents("certificate"):
        if path.startswith(DATA):
            assert isinstance(it, cimaroly.Certificate)
            yield os.path.basename(path), it
    for name in names():
        try:
            yield name.hex(), made.certificate(subject=name)
        except cimaroly.Refused:
            continue
    forms = [(0x82, b"a.example"), (0x81, b"a@b"), (0x86, b"urn:a"), (0x87, bytes(4)), (0x87, bytes(16)), (0x87, b"\1" * 5)]
    forms += [(0x88, b"\x2a\3"), (0xA4, made.name((COMMON, 0x0C, b"a"))), (0xA2, element(0x16, b"b.example"))]
    forms += [(0xA0, made.oid("2a0304") + element(0xA0, element(0x0C, b"a")))]
    for size in (*range(len(forms) + 1), 400):
        yield f"{size} names", made.certificate(made.general_names(*(forms * 40)[:size]))
    for digits in ("551d11", "551d12"):
        yield digits, made.certificate(made.extension(digits, made.sequence(element(*made.dns("a.example")))))


class AsReported(unittest.TestCase):
    def test_certificates(self) -> None:
        seen = 0
        for name, it in certificates():
            with self.subTest(name):
                self.same(it, it.report()["Certificate"])
                seen += 1
        self.assertGreater(seen, 50)

    def same(self, mine: cimaroly.Certificate, report: Any) -> None:
        told = report["tbsCertificate"]
        for found, node in ((mine.subject, told["subject"]), (mine.issuer, told["issuer"])):
            other = _names.Name._of(node, mine.der)
            self.assertEqual((found.sets, found.der, found, str(found)), (other.sets, other.der, other, str(other)))
        self.assertEqual(mine.serial_number, _names.integer(told["serialNumber"]["value"]))
        version = told["version"]["value"] if "version" in told else "v1"
        self.assertEqual(f"v{mine.version}", version)
        for time, node in zip(_values.times(mine.der), (told["validity"]["notBefore"], told["validity"]["notAfter"])):
            self.assertEqual("{:04}-{:02}-{:02}T{:02}:{:02}:{:02}Z".format(*time), node["value"])
        key = mine.public_key
        shown = _keys._reported(told["subjectPublicKeyInfo"])
        self.assertEqual((key.algorithm, key.algorithm_identifier, key.curve, key.bits), shown)
        for it in (cimaroly.PublicKey(key.der), pickle.loads(pickle.dumps(key)), copy.copy(key)):
            self.assertEqual((it, it.verdict, repr(it), it.pin()), (key, key.verdict, repr(key), key.pin()))
        signed = report["signatureAlgorithm"]["algorithm"]["value"]
        algorithm = mine.signature_algorithm
        self.assertEqual((algorithm.identifier, algorithm.name), (signed["id"], signed.get("name")))
        self.same_extensions(mine, told.get("extensions", {"items": []})["items"])

    def same_extensions(self, mine: cimaroly.Certificate, nodes: list[Any]) -> None:
        found = [(it.identifier, it.name, it.critical, [it.start, it.end]) for it in mine.extensions]
        self.assertEqual(found, [(it["id"], it.get("name"), it["critical"], it["at"]) for it in nodes])
        for identifier, asked in (("2.5.29.17", "alternative_names"), ("2.5.29.18", "issuer_alternative_names")):
            its = [it for it in nodes if it["id"] == identifier]
            if len(its) < 2:
                other = _names.alternative_names(its[0], mine.der) if its else ()
                self.assertEqual(getattr(mine, asked), other)

    def test_identifiers(self) -> None:
        """Every identifier that the library names has the same name and dots in a report."""
        with open(f"{DATA}/../../object_identifiers.tsv", encoding="utf-8") as table:
            cells = {cell for line in table for cell in line.rstrip("\n").split("\t")}
        found = sorted(it for it in cells if it.count(".") > 1 and it.replace(".", "").isdigit())
        self.assertGreater(len(found), 100)
        for it in (*found, "1.2.3.18446744073709551615", "2.999.1", "1.2" + ".4294967295" * 30):
            content = encoded(it)
            dots, name = _values.identifier(content)
            told = cimaroly.Structure(made.sequence(element(6, content), b"\5\0"), "raw-algorithm").report()
            value = told["AlgorithmIdentifier"]["algorithm"]["value"]
            self.assertEqual((dots, name), (it, value.get("name")))
            self.assertEqual(value["id"], it)


def encoded(dots: str) -> bytes:
    """The content of an object identifier (X.690, 8.19)."""
    first, second, *rest = map(int, dots.split("."))
    found = bytearray()
    for arc in (40 * first + second, *rest):
        digits = [arc & 127]
        while arc > 127:
            arc >>= 7
            digits.append(arc & 127 | 128)
        found += bytes(reversed(digits))
    return bytes(found)


class Rooms(unittest.TestCase):
    """The room that calls write to."""

    def test_more_than_it_has_room_for(self) -> None:
        many = made.name(*((COMMON, 0x0C, str(number).encode()) for number in range(1000)))
        found = made.certificate(subject=many).subject
        self.assertEqual([it.value for it in found], [str(number) for number in range(1000)])
        self.assertTrue(all(it.size == _library._BYTES for it in _library._FREE))

    def test_nobody_else_has_it(self) -> None:
        """What is taken isn't taken again until it is given back, as by a signal's handler or another thread."""
        one = _library.taken()
        other: list[Optional[_library.Room]] = [None]
        thread = threading.Thread(target=lambda: other.__setitem__(0, _library.taken()))
        thread.start()
        thread.join()
        self.assertEqual(len({id(one), id(_library.taken()), id(other[0])}), 3)


if __name__ == "__main__":
    unittest.main()
