"""Tests what is shown of a private key, and what is left of it in memory."""

from __future__ import annotations

import base64
import gc
import os
import re
import subprocess
import sys
import tempfile
import unittest
import unittest.mock

import cimaroly
from cimaroly import _library
from cimaroly._secret import Secret
from tests.test_cimaroly import input_of

HERE = os.path.dirname(os.path.abspath(__file__))

# The seed of RFC 8032, 7.1, test 1, and its key in PKCS #8 (RFC 8410, 7).
SEED = bytes.fromhex("9d61b19deffd5a60ba844af492ec2cc44449c5697b326919703bac031cae7f60")
FRONT = bytes.fromhex("302e020100300506032b657004220420")
KEY = FRONT + SEED


def pem(label: str, der: bytes) -> bytes:
    return f"-----BEGIN {label}-----\n{base64.encodebytes(der).decode()}-----END {label}-----\n".encode()


class Shown(unittest.TestCase):
    def test_no_bytes(self) -> None:
        """What is printed of a key is what is printed of another."""
        shown = []
        for key in (KEY, FRONT + bytes(32)):
            text = pem("PRIVATE KEY", key)
            structure = cimaroly.read(text, "private-key")
            found: list[object] = [structure, structure.fields, structure.fields["private_key"], [*cimaroly.pem_blocks(text)]]
            found += [[*cimaroly.read_each(text)], cimaroly.read_all(text), structure.verdict, structure.deviations]
            shown.append([(repr(it), str(it), f"{it}") for it in found])
        self.assertEqual(shown[0], shown[1])

    def test_length_and_place(self) -> None:
        field = cimaroly.read(KEY, "private-key").fields["private_key"]
        self.assertEqual(repr(field), "Field(start=12, end=48, data=<36 bytes>)")
        self.assertEqual(field.data, KEY[12:])
        (block,) = cimaroly.pem_blocks(pem("RSA PRIVATE KEY", KEY))
        self.assertEqual(repr(block), "Block(label='RSA PRIVATE KEY', kind='rsa-private-key', der=<48 bytes>, line=1)")
        (block,) = cimaroly.pem_blocks(pem("PRIVATE KEY", b"0"))
        self.assertIn("der=<1 byte>", repr(block))

    def test_refusals_show_none(self) -> None:
        with self.assertRaises(cimaroly.Refused) as caught:
            cimaroly.read(pem("EC PRIVATE KEY", KEY), "ec-private-key")
        self.assertEqual(repr(caught.exception), "Refused('ec-private-key', 4, 5, 'privateKey')")


def kept() -> bytes:
    """The memory that this thread keeps for calls."""
    lent = _library._KEPT_HERE.lent
    return bytes(lent._map)


class Overwritten(unittest.TestCase):
    def test_what_calls_work_in(self) -> None:
        kinds: dict[cimaroly.Kind, str] = {"private-key": "private_key_rsa", "rsa-private-key": "rsa_private_key"}
        for kind, name in kinds.items():
            structure = cimaroly.read(input_of(f"{name}.pem"), kind)
            structure.encode()
            self.assertEqual(kept().count(0), len(kept()))
            structure.report(secrets=True)
            self.assertEqual(kept().count(0), len(kept()))
        for other in cimaroly.KINDS:
            if other not in ("private-key", "private-key-outline"):
                with self.assertRaises(cimaroly.Refused):
                    cimaroly.read(KEY, other)
                self.assertEqual(kept().count(0), len(kept()))

    def test_what_is_decoded(self) -> None:
        for data in (pem("PRIVATE KEY", KEY), bytearray(KEY)):
            seen: list[bytes] = []
            structure = cimaroly.read(data, "private-key")
            with unittest.mock.patch.object(Secret, "overwrite", lambda it, seen=seen: seen.append(bytes(it))):
                del structure
                gc.collect()
            self.assertEqual(seen, [KEY])
        secret = Secret(KEY)
        secret.overwrite()
        self.assertEqual(secret, bytes(48))

    def test_what_is_refused(self) -> None:
        """Nothing of it stays in the frames of the exception."""
        with self.assertRaises(cimaroly.Refused) as caught:
            cimaroly.read(pem("PRIVATE KEY", KEY[:-1] + b"\0\0"), "private-key")
        frame = caught.exception.__traceback__
        while frame is not None:
            for it in frame.tb_frame.f_locals.values():
                self.assertFalse(isinstance(it, Secret) and any(it))
            frame = frame.tb_next


# A program that reads a key from a file into memory of its own, and overwrites that.
PROGRAM = """
import sys, cimaroly
with open(sys.argv[1], "rb", buffering=0) as file:
    data = bytearray(1000)
    size = file.readinto(data)
view = memoryview(data)[:size]
{}
data[:] = bytes(1000)
print("done", flush=True)
sys.stdin.read()
"""
READS = """
key = cimaroly.read(view, "private-key")
key.report(), key.verdict, key.encode, repr(key), key.algorithm, key.curve, key.bits, key.public_key
for it in cimaroly.read_each(view, "private-key"):
    assert it.structure == key, it
del key, it
"""
REFUSED = """
for kind in cimaroly.KINDS[7:]:
    try:
        cimaroly.read(view, kind)
    except ValueError:
        pass
"""


class Process(unittest.TestCase):
    """What another process finds in the memory of one that has read a key."""

    def left(self, key: bytes, program: str) -> list[bytes]:
        """Which parts of a key's seed, as bytes or in base64, are there."""
        with tempfile.NamedTemporaryFile() as file:
            file.write(key)
            file.flush()
            words = [sys.executable, "-c", PROGRAM.format(program), file.name]
            with subprocess.Popen(words, stdin=subprocess.PIPE, stdout=subprocess.PIPE, cwd=f"{HERE}/..") as child:
                assert child.stdin and child.stdout
                self.assertEqual(child.stdout.readline(), b"done\n")
                memory = self.memory_of(child.pid)
                child.stdin.close()
        parts = [SEED[:8], SEED[12:20], SEED[24:], base64.b64encode(KEY)[24:40], base64.b64encode(KEY)[44:]]
        return [it for it in parts if it in memory]

    def memory_of(self, process: int) -> bytes:
        found = bytearray()
        try:
            with open(f"/proc/{process}/maps", encoding="ascii") as maps, open(f"/proc/{process}/mem", "rb", 0) as memory:
                for start, end in re.findall(r"(?m)^([0-9a-f]+)-([0-9a-f]+) rw.*$", maps.read()):
                    memory.seek(int(start, 16))
                    found += memory.read(int(end, 16) - int(start, 16))
        except OSError as error:
            self.skipTest(f"the memory of a child can't be read: {error}")
        return bytes(found)

    def test_nothing_is_left(self) -> None:
        self.assertEqual(self.left(pem("PRIVATE KEY", KEY), READS), [])
        self.assertEqual(self.left(KEY, READS), [])
        self.assertEqual(self.left(KEY, REFUSED), [])

    def test_this_finds_what_is_left(self) -> None:
        self.assertIn(SEED[:8], self.left(KEY, "key = bytes(view)"))


if __name__ == "__main__":
    unittest.main()
