"""Runs what dist/ has for aarch64 under qemu: the tests of both programs and of the C library, as on x86-64.

It needs Debian's packages qemu-user-static and libc6-dev-arm64-cross, and for the C library gcc-aarch64-linux-gnu.
"""

import os
import platform
import re
import sys
import unittest

from test_bindings import BINDINGS, DATA, ROOT, BindingTest

HERE = os.path.dirname(os.path.abspath(__file__))
SHIPPED = f"{ROOT}/dist/aarch64-linux"
QEMU, SYSTEM, CC = "qemu-aarch64-static", "/usr/aarch64-linux-gnu", "aarch64-linux-gnu-gcc"


@unittest.skipIf(platform.machine() == "aarch64", "this machine is one: the other tests run these files")
@unittest.skipUnless(os.path.isdir(SYSTEM), f"there is no {SYSTEM}: Debian's package libc6-dev-arm64-cross has it")
class Aarch64(BindingTest):
    hidden = ("CIMAROLY_LIB_DIR", "MAKEFLAGS")

    def setUp(self):
        self.needs(QEMU)
        for it in ("cimaroly", "x509_tool", "libcimaroly.a", "libcimaroly.so"):
            self.assertTrue(os.path.isfile(f"{SHIPPED}/{it}"), f"there is no {SHIPPED}/{it}: tools/dist.sh makes it")
        self.place = self.folder()


class Programs(Aarch64):
    """The same tests as of the programs for x86-64."""

    def emulated(self, name):
        """A script that runs a program of dist/."""
        path = f"{self.place}/{name}"
        with open(path, "w", encoding="utf-8") as file:
            file.write(f'#!/bin/sh\nexec {QEMU} -L {SYSTEM} {SHIPPED}/{name} "$@"\n')
        os.chmod(path, 0o755)
        return path

    def passes(self, *tests, **variables):
        variables.update(CC=CC, EMULATED="1")
        printed = self.ran(sys.executable, "-B", f"{HERE}/run.py", *tests, **variables)
        self.assertRegex(printed, r"\n[1-9]\d* passed, 0 failed\n$")

    def test_cimaroly(self):
        self.passes("test_cimaroly", "test_reports", CIMAROLY=self.emulated("cimaroly"))

    def test_x509_tool(self):
        self.passes("test_program", X509_TOOL=self.emulated("x509_tool"))

    def test_debian(self):
        """The programs of the Debian package for arm64."""
        self.needs("make", "readelf", "dpkg-deb")
        maintainer = {"DEBFULLNAME": "Tester", "DEBEMAIL": "tester@example.org"}
        self.ran("make", "-s", "-C", ROOT, "deb", f"OUT={self.place}", **maintainer)
        (package,) = (it for it in os.listdir(self.place) if it.endswith("_arm64.deb"))
        self.ran("dpkg-deb", "-x", f"{self.place}/{package}", f"{self.place}/root")
        program = (QEMU, "-L", SYSTEM, f"{self.place}/root/usr/bin/cimaroly")
        printed = self.ran(*program, "check", f"{DATA}/refused_month_13.pem", status=1)
        self.assertIn("refused: malformed time at byte 26", printed)


class Library(Aarch64):
    """The C library, which is linked and used as docs/BINDINGS.md tells."""

    def compiled(self, source, *words):
        flags = ("-std=c99", "-D_DEFAULT_SOURCE", "-O2", f"-I{BINDINGS}/c")
        self.ran(CC, *flags, f"{BINDINGS}/c/{source}", *words, "-o", f"{self.place}/program")
        return (QEMU, "-L", SYSTEM, f"{self.place}/program")

    def test_calls(self):
        """Every row of the table, with each of many sizes of memory."""
        program = self.compiled("tests/test_cimaroly.c", f"{SHIPPED}/libcimaroly.a")
        self.assertRegex(self.ran(*program, ROOT), r"^[1-9]\d* passed, 0 failed\n$")

    def test_installed(self):
        """The example, linked with the shared library of an installation."""
        self.needs("make", CC, "pkg-config", "readelf")
        prefix = f"{self.place}/prefix"
        self.ran("make", "-s", "-C", ROOT, "install", "MACHINE=aarch64-linux", f"PREFIX={prefix}")
        words = ("pkg-config", "--cflags", "--libs", "cimaroly")
        flags = self.ran(*words, PKG_CONFIG_PATH=f"{prefix}/lib/pkgconfig").split()
        program = self.compiled("examples/inspect.c", *flags, f"-Wl,-rpath,{prefix}/lib")
        self.assertIn("libcimaroly.so", self.ran("readelf", "-d", f"{self.place}/program"))
        printed = self.ran(*program, f"{DATA}/deviation_1_rsa_parameters.pem", status=3)
        self.assertEqual(re.findall(r"at (\d+\.\.\d+)$", printed, re.MULTILINE), ["13..26", "106..119"])


if __name__ == "__main__":
    unittest.main()
