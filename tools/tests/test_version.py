"""Tests that VERSION, the licence and its texts agree wherever they stand."""

import json
import os
import re
import subprocess
import unittest

from cimaroly_program import NEEDS_PROGRAM, PROGRAM, ROOT

LICENCE = "MIT OR Apache-2.0"
# Where the version stands, as the one group of a pattern.
VERSIONS = {
    "bindings/c/cimaroly.h": r'^#define CIMAROLY_VERSION "(.*)"$',
    "bindings/python/pyproject.toml": r'^version = "(.*)"$',
    "bindings/python/cimaroly/__init__.py": r'^__version__ = "(.*)"$',
    "bindings/rust/Cargo.toml": r'^version = "(.*)"$',
    "bindings/rust/Cargo.lock": r'^name = "cimaroly"\nversion = "(.*)"$',
    "web/package.json": r'^  "version": "(.*)",$',
    "packaging/share/man/man1/cimaroly.1": r'^\.TH .* "Cimaroly (.*)" ',
    "packaging/share/man/man1/x509_tool.1": r'^\.TH .* "Cimaroly (.*)" ',
    "packaging/share/man/man3/cimaroly.3": r'^\.TH .* "Cimaroly (.*)" ',
}
# Where its three numbers stand one behind another, as the one group of a pattern.
PARTS = {
    "bindings/c/cimaroly.h": r"^#define CIMAROLY_VERSION_(?:MAJOR|MINOR|PATCH) (\d+)$",
    "crates/cimaroly_c/src/version.rt": r"^const (?:MAJOR|MINOR|PATCH): u32 = (\d+);$",
}
# Where the licence stands.
LICENCES = {
    "bindings/c/cimaroly.h": f"/* SPDX-License-Identifier: {LICENCE} */\n",
    "NOTICE": f"\nSPDX-License-Identifier: {LICENCE}\n",
    "bindings/python/pyproject.toml": f'\nlicense = "{LICENCE}"\n',
    "bindings/python/cimaroly/__init__.py": f"# SPDX-License-Identifier: {LICENCE}\n",
    "bindings/rust/Cargo.toml": f'\nlicense = "{LICENCE}"\n',
    "bindings/rust/src/lib.rs": f"// SPDX-License-Identifier: {LICENCE}\n",
    "web/package.json": f'\n  "license": "{LICENCE}",\n',
    "web/cimaroly.mjs": f"// SPDX-License-Identifier: {LICENCE}\n",
    "web/cimaroly.d.ts": f"// SPDX-License-Identifier: {LICENCE}\n",
    "web/index.html": f"<p>Licence: {LICENCE}</p>\n</footer>",
}


def text_of(path):
    with open(f"{ROOT}/{path}", encoding="utf-8") as file:
        return file.read()


class VersionTest(unittest.TestCase):
    version = text_of("VERSION").strip()

    def test_the_file(self):
        self.assertRegex(text_of("VERSION"), r"\A\d+\.\d+\.\d+\n\Z")
        self.assertRegex(text_of("CHANGELOG.md"), rf"^## \[{re.escape(self.version)}\]|will be {re.escape(self.version)},")

    def test_wherever_it_stands(self):
        for path, pattern in VERSIONS.items():
            with self.subTest(path):
                self.assertEqual(re.findall(pattern, text_of(path), re.MULTILINE), [self.version])

    def test_three_numbers(self):
        for path, pattern in PARTS.items():
            with self.subTest(path):
                self.assertEqual(".".join(re.findall(pattern, text_of(path), re.MULTILINE)), self.version)

    @NEEDS_PROGRAM
    def test_the_program(self):
        printed = subprocess.run([PROGRAM, "--version"], capture_output=True, encoding="utf-8", check=True).stdout
        self.assertEqual(printed, f"cimaroly {self.version}\n")


class LicenceTest(unittest.TestCase):
    def test_wherever_it_stands(self):
        for path, line in LICENCES.items():
            with self.subTest(path):
                self.assertIn(line, text_of(path))
        self.assertEqual(json.loads(text_of("web/package.json"))["license"], LICENCE)

    def test_texts(self):
        self.assertIn("Copyright (c) The Cimaroly authors\n", text_of("LICENSE-MIT"))
        self.assertIn("Version 2.0, January 2004", text_of("LICENSE-APACHE"))
        shipped = "/usr/share/common-licenses/Apache-2.0"
        if os.path.exists(shipped):
            with open(shipped, encoding="utf-8") as file:
                self.assertEqual(text_of("LICENSE-APACHE"), file.read())


if __name__ == "__main__":
    unittest.main()
