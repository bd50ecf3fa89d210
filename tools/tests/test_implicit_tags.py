"""Tests that no type without a tag of its own can be read under an implicit tag, and none under a tag of the other form (X.680,
31.2.7; X.690, 8.14): such code has no type. It is compiled with rt try, which proves nothing."""

import os
import shutil
import subprocess
import tempfile
import unittest

ROOT = os.path.dirname(os.path.dirname(os.path.dirname(os.path.abspath(__file__))))

CRATES = "x509_der_parts: thiserror\nx509_der: x509_der_parts thiserror\nuses: x509_der\n"
PROGRAM = """//! Reads a type under an implicit tag.
#![tactic(auto)]

use std::alloc::Global;
use x509_der::from_bytes;

/// What is read.
type Under = x509_der::parts::Tagged<x509_der::parts::{tag}, {type}>;

fn main(rt: HostRuntime) {{
    match from_bytes::<Under, Global>(rt.alloc(), b"{bytes}") {{
        Ok(_value) => {{}}
        Err(_refused) => unreachable!(),
    }}
}}
"""
LIST = "x509_der::Asn1SequenceOf<u8, Global>"


@unittest.skipUnless(shutil.which("rt"), "there is no rt")
class ImplicitTags(unittest.TestCase):
    """What is read under an implicit tag."""

    @classmethod
    def setUpClass(cls):
        cls.folder = tempfile.mkdtemp()
        os.makedirs(f"{cls.folder}/crates/uses/src")
        for name in ("x509_der_parts", "x509_der"):
            shutil.copytree(f"{ROOT}/crates/{name}", f"{cls.folder}/crates/{name}", ignore=shutil.ignore_patterns("out"))
        with open(f"{cls.folder}/crates.txt", "w", encoding="utf-8") as it:
            it.write(CRATES)

    @classmethod
    def tearDownClass(cls):
        shutil.rmtree(cls.folder)

    def tried(self, tag, read, sample):
        """What rt try prints of a program that reads the type under the tag from the bytes."""
        with open(f"{self.folder}/crates/uses/src/main.rt", "w", encoding="utf-8") as it:
            it.write(PROGRAM.format(tag=tag, type=read, bytes=sample))
        run = subprocess.run(
            ["rt", "try"], cwd=f"{self.folder}/crates/uses", stdout=subprocess.PIPE, stderr=subprocess.STDOUT, text=True, check=False
        )
        return run.stdout

    def test_of_the_same_form(self):
        self.assertIn("run=ended status=0", self.tried("ContextPrimitive<1>", "u8", "\\x81\\x01\\x05"))

    def test_of_a_choice(self):
        said = self.tried("ContextPrimitive<1>", "x509_der::parts::Choice<u8, bool>", "\\x81\\x01\\x05")
        self.assertIn("`Tagged<ContextPrimitive<1>, Choice<u8, bool>>: FromDer<Global>` is not satisfied", said)

    def test_of_any_element(self):
        said = self.tried("ContextPrimitive<1>", "x509_der::Asn1RawDer<Global>", "\\x81\\x01\\x05")
        self.assertIn("`Tagged<ContextPrimitive<1>, Asn1RawDer>: FromDer<Global>` is not satisfied", said)

    def test_of_a_list_under_a_primitive_tag(self):
        said = self.tried("ContextPrimitive<1>", LIST, "\\x81\\x03\\x02\\x01\\x05")
        self.assertIn("`Tagged<ContextPrimitive<1>, Asn1SequenceOf<u8>>: FromDer<Global>` is not satisfied", said)

    def test_of_a_number_under_a_constructed_tag(self):
        said = self.tried("ContextConstructed<1>", "u8", "\\xA1\\x01\\x05")
        self.assertIn("`Tagged<ContextConstructed<1>, u8>: FromDer<Global>` is not satisfied", said)


if __name__ == "__main__":
    unittest.main()
