"""Tests what stands over the C library: the header in C and C++, the Python package and the Rust crate of bindings/.

The library is that of dist/ for this machine, or of the folder that the variable CIMAROLY_LIB_DIR names.
"""

import base64
import csv
import importlib.util
import os
import platform
import re
import shutil
import subprocess
import sys
import tempfile
import unittest

ROOT = os.path.dirname(os.path.dirname(os.path.dirname(os.path.abspath(__file__))))
BINDINGS = f"{ROOT}/bindings"
DATA = f"{ROOT}/tools/tests/data"
LIBRARY = os.path.abspath(os.environ.get("CIMAROLY_LIB_DIR") or f"{ROOT}/dist/{platform.machine()}-linux")
ARCHIVE, SHARED = f"{LIBRARY}/libcimaroly.a", f"{LIBRARY}/libcimaroly.so"
SECONDS = 2400

NEEDS_LIBRARY = unittest.skipUnless(os.path.isfile(ARCHIVE), f"there is no {ARCHIVE}")


def table():
    with open(f"{BINDINGS}/tests/table.tsv", encoding="utf-8", newline="") as file:
        return list(csv.DictReader(file, delimiter="\t", quoting=csv.QUOTE_NONE))


def path_of(row, folder):
    """The file of a row's input, which is written to a folder where the table has its digits."""
    if "." in row["input"]:
        return f"{DATA}/{row['input']}"
    path = f"{folder}/{row['name']}.der"
    with open(path, "wb") as file:
        file.write(bytes.fromhex(row["input"]))
    return path


@NEEDS_LIBRARY
class BindingTest(unittest.TestCase):
    """What a command prints, which must end well; where it isn't there, the test isn't run."""

    # Variables that a command isn't to see, as a newcomer's shell has none of them.
    hidden = ()

    def ran(self, *words, folder=ROOT, status=0, **variables):
        self.needs(words[0])
        environment = {**os.environ, "CIMAROLY_LIB_DIR": LIBRARY, **variables}
        for it in self.hidden:
            environment.pop(it, None)
        ran = subprocess.run(
            words, cwd=folder, env=environment, capture_output=True, encoding="utf-8", timeout=SECONDS, check=False
        )
        self.assertEqual(ran.returncode, status, f"{' '.join(words)}\n{ran.stdout[-4000:]}{ran.stderr[-4000:]}")
        return ran.stdout

    def needs(self, *names):
        for it in names:
            if not shutil.which(it):
                self.skipTest(f"there is no {it}")

    def folder(self):
        room = tempfile.TemporaryDirectory(prefix="bindings-")
        self.addCleanup(room.cleanup)
        return room.name


class C(BindingTest):
    def test_calls(self):
        """Every row of the table, under ASan and UBSan, and under valgrind where it is there; and the header in C++."""
        self.needs("make", "cc", "g++")
        printed = self.ran("make", "-C", f"{BINDINGS}/c", "test")
        self.assertRegex(printed, r"\d+ passed, 0 failed")

    def test_installed(self):
        """What is installed builds the example with what pkg-config tells, which prints what OpenSSL does."""
        self.needs("make", "cc", "pkg-config")
        place = self.folder()
        self.ran("make", "-C", f"{BINDINGS}/c", "install", f"PREFIX={place}")
        flags = self.ran("pkg-config", "--cflags", "--libs", "cimaroly", PKG_CONFIG_PATH=f"{place}/lib/pkgconfig").split()
        source = f"{BINDINGS}/c/examples/inspect.c"
        self.ran("cc", "-std=c99", source, *flags, f"-Wl,-rpath,{place}/lib", "-o", f"{place}/inspect")
        for row in table():
            if row["rfc4514"] != "-":
                printed = self.ran(f"{place}/inspect", path_of(row, place))
                told = dict(re.findall(r"^(subject|not before|not after) +(.*)$", printed, re.MULTILINE))
                stated = {"subject": row["rfc4514"], "not before": row["not_before"], "not after": row["not_after"]}
                self.assertEqual(told, stated)
        self.ran("make", "-C", f"{BINDINGS}/c", "uninstall", f"PREFIX={place}")
        self.assertEqual(os.listdir(f"{place}/lib/pkgconfig"), [])

    def test_example(self):
        """It prints deviations and refusals with their places."""
        self.needs("make", "cc")
        place = self.folder()
        self.ran("make", "-C", f"{BINDINGS}/c", "out/inspect")
        for row in table():
            if row["kind"] == "certificate":
                status = {"ok": 0, "deviations": 3, "refused": 1}[row["result"]]
                printed = self.ran(f"{BINDINGS}/c/out/inspect", path_of(row, place), status=status)
                places = re.findall(r"^deviation .*, at (\d+\.\.\d+)$", printed, re.MULTILINE)
                stated = [] if row["deviations"] == "-" else [it.split("@")[1] for it in row["deviations"].split()]
                self.assertEqual(places, stated)
                found = re.findall(r"^refused .* at byte (\d+)$", printed, re.MULTILINE)
                if row["error"] != "-":
                    self.assertEqual(found, [row["error"].split("@")[1]])

    def test_the_shipped_header(self):
        with open(f"{ROOT}/dist/cimaroly.h", "rb") as one, open(f"{BINDINGS}/c/cimaroly.h", "rb") as other:
            self.assertEqual(one.read(), other.read())

    def test_what_the_archive_needs(self):
        """It needs nothing but three functions that copy and fill memory."""
        printed = self.ran("nm", "--undefined-only", "--format=posix", ARCHIVE)
        defined = self.ran("nm", "--defined-only", "--format=posix", ARCHIVE)
        names = {it.split()[0] for it in defined.splitlines() if " " in it}
        wanted = {it.split()[0] for it in printed.splitlines() if " U" in it} - names
        self.assertLessEqual(wanted, {"memcpy", "memmove", "memset"})


class Python(BindingTest):
    def setUp(self):
        self.assertTrue(os.path.isfile(SHARED), f"there is no {SHARED}")

    def test_package(self):
        self.ran(sys.executable, "-m", "unittest", folder=f"{BINDINGS}/python")

    def test_types(self):
        self.needs("mypy")
        self.ran("mypy", "cimaroly", "build_backend", "tests", folder=f"{BINDINGS}/python", MYPY_CACHE_DIR=self.folder())

    def test_dask(self):
        """The example totals a folder of certificates, with two processes."""
        found = [it for it in (sys.executable, "/usr/bin/python3") if has_dask(it)]
        if not found:
            self.skipTest("there is no dask")
        place = self.folder()
        for row in table():
            if row["kind"] == "certificate" and row["input"].endswith(".pem"):
                shutil.copy(f"{DATA}/{row['input']}", place)
        printed = self.ran(found[0], f"{BINDINGS}/python/examples/count_deviations.py", place, PYTHONPATH=f"{BINDINGS}/python")
        told = {what: int(count) for count, what in re.findall(r"^ *(\d+) (.*)$", printed, re.MULTILINE)}
        rows = [it for it in table() if it["kind"] == "certificate" and it["input"].endswith(".pem")]
        self.assertEqual(told["certificates"], len(rows))
        self.assertEqual(told["refused: malformed time"], 1)
        stated = sum(len(it["deviations"].split()) for it in rows if it["deviations"] != "-")
        self.assertEqual(sum(count for what, count in told.items() if what.startswith("deviation: ")), stated)


def has_dask(python):
    words = [python, "-c", "import dask.bag, distributed"]
    return os.path.exists(python) and subprocess.run(words, capture_output=True, check=False).returncode == 0


class InstalledPython(BindingTest):
    def test_pip(self):
        """pip installs the package without a network, and it brings its library."""
        if importlib.util.find_spec("pip") is None:
            self.skipTest("there is no pip")
        place = self.folder()
        words = ("-m", "pip", "--disable-pip-version-check", "install", "--no-index", "--quiet", "--target", place)
        self.ran(sys.executable, *words, f"{BINDINGS}/python")
        self.hidden = ("CIMAROLY_LIB_DIR",)
        program = "import cimaroly; print(cimaroly.__file__, cimaroly.read(b'0\\0', 'name'))"
        printed = self.ran(sys.executable, "-c", program, folder=place, PYTHONPATH=place)
        self.assertEqual(printed, f"{place}/cimaroly/__init__.py <name, 2 bytes, in DER>\n")


class Rust(BindingTest):
    def setUp(self):
        # (cargo links with cc)
        self.needs("cargo", "cc")

    def cargo(self, command, *words, **variables):
        return self.ran("cargo", command, "--offline", *words, folder=f"{BINDINGS}/rust", **variables)

    def test_crate(self):
        for words in ((), ("--no-default-features",), ("--all-features",)):
            printed = self.cargo("test", *words)
            self.assertGreater(sum(map(int, re.findall(r"(\d+) passed; 0 failed", printed))), 10)

    def test_lints(self):
        self.needs("cargo-clippy", "cargo-fmt")
        self.cargo("clippy", "--all-targets", "--all-features", "--", "-D", "warnings")
        self.ran("cargo", "fmt", "--check", folder=f"{BINDINGS}/rust")
        self.cargo("doc", "--quiet", RUSTDOCFLAGS="-D warnings")


def snippet(language, number=0):
    """A code of a language in docs/BINDINGS.md, the first or one behind it."""
    with open(f"{ROOT}/docs/BINDINGS.md", encoding="utf-8") as file:
        return re.findall(rf"^```{language}\n(.*?)^```$", file.read(), re.DOTALL | re.MULTILINE)[number]


class Snippets(BindingTest):
    """What docs/BINDINGS.md shows, on a certificate with two deviations."""

    def setUp(self):
        self.place = self.folder()
        shutil.copy(f"{DATA}/deviation_1_rsa_parameters.pem", f"{self.place}/cert.pem")
        with open(f"{self.place}/cert.pem", encoding="utf-8") as file:
            digits = "".join(it for it in file if not it.startswith("-----"))
        self.write("cert.der", base64.b64decode(digits))

    def write(self, name, content):
        os.makedirs(os.path.dirname(f"{self.place}/{name}"), exist_ok=True)
        with open(f"{self.place}/{name}", "wb") as file:
            file.write(content)

    def test_c(self):
        program = (
            '#include "cimaroly.h"\n#include <stdio.h>\nint main(void) {\nuint8_t der[4096];\n'
            'size_t size = fread(der, 1, sizeof der, fopen("cert.der", "rb"));\n' + snippet("c") + "return 0;\n}\n"
        )
        self.write("main.c", program.encode())
        self.ran("cc", "-Wall", "-Wextra", f"-I{BINDINGS}/c", "main.c", ARCHIVE, "-o", "main", folder=self.place)
        printed = self.ran(f"{self.place}/main", folder=self.place)
        self.assertIn("2 times RSA parameters absent\n0 times algorithm", printed)
        self.assertTrue(printed.endswith("until 2022-10-16\n"), printed)

    def test_python(self):
        self.write("main.py", snippet("python").encode())
        printed = self.ran(sys.executable, "main.py", folder=self.place, PYTHONPATH=f"{BINDINGS}/python")
        places = "RSA parameters absent 13 26\nRSA parameters absent 106 119\n"
        values = " 1 2022-10-16 17:41:28+00:00\nEd25519 256 False\n"
        self.assertEqual(printed, f"{values}{places}3000 deviations\n")

    def test_python_that_makes(self):
        program = f"import cimaroly\ncertificate = cimaroly.read(open('cert.pem', 'rb').read())\n{snippet('python', 2)}"
        self.write("main.py", program.encode())
        printed = self.ran(sys.executable, "main.py", folder=self.place, PYTHONPATH=f"{BINDINGS}/python")
        self.assertEqual(printed, "CN=example.org\n")

    def test_javascript(self):
        self.needs("node")
        if not os.path.isfile(f"{ROOT}/web/cimaroly.wasm"):
            self.skipTest("there is no web/cimaroly.wasm")
        os.symlink(f"{ROOT}/web", f"{self.place}/web")
        self.write("main.mjs", snippet("js").encode())
        printed = self.ran("node", "main.mjs", folder=self.place)
        values = "null 2022-10-16T17:41:28.000Z false\n"
        self.assertEqual(printed, f"{values}RSA parameters absent 13 26\nRSA parameters absent 106 119\n")

    def test_rust(self):
        self.needs("cargo", "cc")
        program = f"fn main() -> Result<(), Box<dyn std::error::Error>> {{\n{snippet('rust')}Ok(())\n}}\n"
        manifest = f'[package]\nname = "snippet"\nedition = "2021"\n[dependencies]\ncimaroly.path = "{BINDINGS}/rust"\n'
        self.write("src/main.rs", program.encode())
        self.write("Cargo.toml", manifest.encode())
        printed = self.ran("cargo", "run", "--offline", "--quiet", folder=self.place)
        places = "13..26: Some(RsaParametersAbsent)\n106..119: Some(RsaParametersAbsent)\n"
        self.assertEqual(printed, f" until 2022-10-16T17:41:28Z\n{places}")


class Table(unittest.TestCase):
    """The table that all bindings are tested with."""

    def test_inputs(self):
        rows = table()
        self.assertEqual(len({it["name"] for it in rows}), len(rows))
        for row in rows:
            if "." in row["input"]:
                self.assertTrue(os.path.isfile(f"{DATA}/{row['input']}"), row["input"])
            else:
                bytes.fromhex(row["input"])
            self.assertIn(row["result"], ("ok", "deviations", "refused"))
            self.assertEqual(row["deviations"] != "-", row["result"] == "deviations")
            self.assertEqual(row["encoding"] == "-", row["result"] == "refused")

    def test_each_deviation_and_each_kind_has_a_row(self):
        rows = table()
        numbers = {it.split("@")[0] for row in rows for it in row["deviations"].split() if "@" in it}
        self.assertEqual(numbers, set(map(str, range(1, 11))))
        self.assertEqual(len({row["kind"] for row in rows if row["result"] != "refused"}), 18)


if __name__ == "__main__":
    unittest.main()
