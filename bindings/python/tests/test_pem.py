"""Tests PEM by the table that the program, Python and JavaScript are tested with."""

from __future__ import annotations

import pathlib
import unittest

import cimaroly
from cimaroly._pem import RawBlock, raw_blocks

TABLE = pathlib.Path(__file__).parents[2] / "tests" / "pem.tsv"
FAULTS = {"another block": "label", "invalid base64": "base64", "no end": "end", "headers": "headers"}


def rows() -> list[tuple[str, bytes, str]]:
    """The name of each text, the text, and what it has."""
    lines = [line for line in TABLE.read_text(encoding="ascii").split("\n") if line and not line.startswith("#")]
    return [
        (name, text.encode().decode("unicode_escape").encode("latin-1"), answer)
        for name, text, answer in (line.split("\t") for line in lines)
    ]


def told(block: RawBlock) -> str:
    """A block as the table has it."""
    try:
        return f"{block.label}@{block.line}={block.decoded().hex()}"
    except cimaroly.PemError as error:
        return f"{block.label}!{next(name for words, name in FAULTS.items() if words in str(error))}"


class Table(unittest.TestCase):
    def test_blocks(self) -> None:
        for name, text, answer in rows():
            with self.subTest(name):
                self.assertEqual(" ".join(told(it) for it in raw_blocks(memoryview(text))), answer)

    def test_secret_blocks(self) -> None:
        """Private keys have a decoder of their own."""
        for name, text, answer in rows():
            if "=" not in answer and "!base64" not in answer or " " in answer:
                continue
            (block,) = raw_blocks(memoryview(text))
            key = block._replace(label="PRIVATE KEY")
            with self.subTest(name):
                if "!" in answer:
                    self.assertRaises(cimaroly.PemError, key.held)
                else:
                    self.assertEqual(key.held().hex(), answer.rsplit("=", 1)[1])


class Inputs(unittest.TestCase):
    def test_bare_base64(self) -> None:
        text = b"".join((TABLE.parents[2] / "tools/tests/data/certificate_ec.pem").read_bytes().splitlines(True)[1:-1])
        forms: list[cimaroly.Data] = [text, text.decode(), bytearray(b"\n  " + text.replace(b"\n", b"\r\n"))]
        for data in forms:
            self.assertTrue(cimaroly.check(data).is_der)
            (found,) = cimaroly.read_each(data)
            self.assertEqual((found.line, found.kind), (None, "certificate"))
        for other in (text[:-2], text + b"A", b"AQID"):
            self.assertRaises((cimaroly.PemError, cimaroly.Refused), cimaroly.read, other)

    def test_no_data(self) -> None:
        for value in (pathlib.Path("cert.pem"), 7, None):
            self.assertRaises(TypeError, cimaroly.read, value)

    def test_utf_16_is_named(self) -> None:
        for encoding in ("utf-16", "utf-16-be"):
            mark = b"\xfe\xff" if encoding == "utf-16-be" else b""
            text = mark + "-----BEGIN CERTIFICATE-----\n".encode(encoding)
            with self.assertRaisesRegex(cimaroly.PemError, "UTF-16"):
                cimaroly.read(text)
