"""Tests that what cimaroly make makes of a report is the DER encoding of what was reported: of this repository's structures, of
this machine's root certificates, of a certificate with every further extension, and of many with a byte or two changed."""

import base64
import csv
import glob
import json
import random
import re
import unittest

from cimaroly_program import DATA, NEEDS_PROGRAM, ROOT, STORE, read, run

BLOCK = re.compile(rb"-----BEGIN ([A-Z0-9 ]+)-----\n(.*?)-----END", re.DOTALL)
PUBLIC = {b"CERTIFICATE", b"CERTIFICATE REQUEST", b"PUBLIC KEY", b"RSA PUBLIC KEY"}
LABELS = {*PUBLIC, b"PRIVATE KEY", b"RSA PRIVATE KEY", b"EC PRIVATE KEY"}
# What is changed, and how many of each there are.
CHANGED = [
    *["certificate_rsa", "certificate_pss", "certificate_ec", "certificate_ed25519", "request_rsa", "request_ec"],
    *["public_key_ec", "private_key_rsa", "private_key_ec", "private_key_ed25519", "rsa_private_key", "ec_private_key"],
]
MANY = 300
# What has no label: its type, and digits.
OTHERS = [
    *[("name", "name.hex"), ("extensions", "extensions.hex"), ("algorithm", "algorithm.hex"), ("raw-algorithm", "algorithm.hex")],
    *[("raw-algorithm", "deviation_2_raw_algorithm.hex"), ("private-key", "deviation_10_private_key.hex")],
]
RAW = ["300d06092a864886f70d01010b0500", "300b06092a864886f70d01010b", "300806032a030402012a", "300906032a0304 040200ff"]


def blocks_of(text):
    """Each block of a PEM text that can be made again: its label and its bytes."""
    # (a block with headers, which have colons, is encrypted)
    found = [it for it in BLOCK.findall(text) if it[0] in LABELS and b":" not in it[1]]
    return [(label, base64.b64decode(b"".join(lines.split()))) for label, lines in found]


def input_of(data):
    """The bytes of a file with a block of PEM, or of digits."""
    found = BLOCK.search(data)
    return base64.b64decode(b"".join(found[2].split())) if found else bytes.fromhex(data.decode())


def pem_of(blocks):
    """The text of blocks."""
    text = b""
    for label, der in blocks:
        text += b"-----BEGIN %s-----\n%s-----END %s-----\n" % (label, base64.encodebytes(der), label)
    return text


def changed(der, chance):
    """The bytes, of which some are others."""
    some = bytearray(der)
    for _ in range(chance.choice((1, 1, 1, 2, 3))):
        at = chance.randrange(len(some))
        some[at] = chance.choice((some[at] ^ (1 << chance.randrange(8)), chance.randrange(256)))
    return bytes(some)


@NEEDS_PROGRAM
class MadeAgain(unittest.TestCase):
    """make of a report."""

    maxDiff = None

    def encodings(self, text):
        """The DER encodings of the structures of a text that are read, and what is made of the reports of these."""
        reports = []
        for line in run("show", "--json", "--secrets", data=text)[0].splitlines():
            if json.loads(line)["result"] != "refused":
                reports.append(line)
        out, err, code = run("make", "--lines", data=b"\n".join(reports) + b"\n")
        self.assertEqual((err.decode(), code), ("", 0))
        made = [base64.b64decode(line) for line in out.splitlines()]
        return [der for _, der in blocks_of(run("der", "--pem", "-", data=text)[0])], made

    def assert_again(self, text, least):
        wanted, made = self.encodings(text)
        self.assertEqual(made, wanted)
        self.assertGreaterEqual(len(made), least)

    def test_structures_of_the_repository(self):
        blocks = []
        for path in sorted(glob.glob(f"{DATA}/*.pem")) + sorted(glob.glob(f"{ROOT}/web/samples/*.pem")):
            with open(path, "rb") as file:
                blocks += blocks_of(file.read())
        self.assert_again(pem_of(blocks), 20)

    def test_other_types(self):
        inputs = [(kind, read(name)) for kind, name in OTHERS] + [("raw-algorithm", digits.encode()) for digits in RAW]
        for kind, data in inputs:
            with self.subTest(kind, data=data):
                report = run("show", "--json", "--secrets", "--type", kind, "-", data=data)[0]
                self.assertEqual(run("make", "-", data=report), (run("der", "--type", kind, "-", data=data)[0], b"", 0))

    def test_rows_of_the_table(self):
        """Each input of the table that all bindings are tested by, if it is read; outlines and CRLs aren't made."""
        with open(f"{ROOT}/bindings/tests/table.tsv", newline="", encoding="utf-8") as file:
            rows = [it for it in csv.DictReader(file, delimiter="\t", quoting=csv.QUOTE_NONE) if it["result"] != "refused"]
        rows = [it for it in rows if it["kind"] != "crl" and not it["kind"].endswith("-outline")]
        self.assertGreater(len(rows), 50)
        for row in rows:
            data = read(row["input"]) if "." in row["input"] else row["input"].encode()
            wanted = input_of(data) if row["encoding"] == "same" else bytes.fromhex(row["encoding"])
            with self.subTest(row["name"]):
                report = run("show", "--json", "--secrets", "--type", row["kind"], "-", data=data)[0]
                self.assertEqual(run("make", "-", data=report), (wanted, b"", 0))

    def test_secrets(self):
        """A report without secrets isn't made, and no fault shows any."""
        report = run("show", "--json", f"{DATA}/private_key_ec.pem")[0]
        hidden = b"cimaroly: -: PrivateKeyInfo.privateKey.privateKey: hidden: the report was made without --secrets\n"
        self.assertEqual(run("make", "-", data=report), (b"", hidden, 1))
        report = json.loads(run("show", "--json", "--secrets", f"{DATA}/private_key_ed25519.pem")[0])
        secret = report["PrivateKeyInfo"]["privateKey"]["value"]
        report["PrivateKeyInfo"]["privateKey"]["value"] = f"{secret}x"
        out, err, code = run("make", "-", data=json.dumps(report).encode())
        self.assertEqual((out, code), (b"", 1))
        self.assertEqual(err, b"cimaroly: -: PrivateKeyInfo.privateKey: not hexadecimal bytes: pairs of digits\n")

    def test_roots_of_this_machine(self):
        text = b""
        for path in sorted(glob.glob(f"{STORE}/*.pem")):
            with open(path, "rb") as file:
                text += file.read()
        if not text:
            self.skipTest(f"there are no certificates in {STORE}")
        self.assert_again(pem_of(blocks_of(text)), 1)

    def test_changed_ones(self):
        chance = random.Random(61)
        blocks = []
        for name in CHANGED:
            label, der = blocks_of(read(f"{name}.pem"))[0]
            blocks += [(label, changed(der, chance)) for _ in range(MANY)]
        self.assert_again(pem_of(blocks), MANY)


if __name__ == "__main__":
    unittest.main()
