"""Tests what the Makefile installs and packs: each is made, installed and used in a fresh folder, without a network."""

import os
import platform
import re
import shutil
import subprocess
import sys
import tarfile
import unittest
import zipfile

from test_bindings import ARCHIVE, DATA, ROOT, BindingTest

PACKAGING = f"{ROOT}/packaging"
CERTIFICATE = f"{DATA}/deviation_1_rsa_parameters.pem"
# The processors that packages are made for, as dist/ calls them and as Debian does.
PROCESSORS = {"x86_64": "amd64", "aarch64": "arm64"}
HERE = platform.machine()
with open(f"{ROOT}/VERSION", encoding="utf-8") as it:
    VERSION = it.read().strip()


def files_in(folder):
    """All that isn't a folder, by paths from this one."""
    found = (os.path.join(at, it) for at, _, names in os.walk(folder) for it in names)
    return {os.path.relpath(it, folder) for it in found}


def content(path):
    with open(path, "rb") as file:
        return file.read()


class PackageTest(BindingTest):
    hidden = ("CIMAROLY_LIB_DIR", "MAKEFLAGS", "PYTHONPATH")

    def setUp(self):
        self.place = self.folder()

    def make(self, *words, **how):
        return self.ran("make", "-s", "-C", ROOT, *words, **how)

    def use(self, prefix):
        """Uses the programs of an installation."""
        self.assertEqual(self.ran(f"{prefix}/bin/cimaroly", "--version"), f"cimaroly {VERSION}\n")
        printed = self.ran(f"{prefix}/bin/cimaroly", "check", CERTIFICATE, status=3)
        self.assertIn("2 deviations: RSA parameters absent at 13..26", printed)
        words = ("sh", "-c", f"printf 300a06082a864886f70d0209 | {prefix}/bin/x509_tool raw-algorithm")
        self.assertEqual(self.ran(*words), "300c06082a864886f70d02090500\n0 1 0 0 0 0 0 0 0 0\n")

    def use_library(self, prefix, *flags):
        """Compiles the example with an installed library, and runs it."""
        told = self.ran("pkg-config", "--cflags", "--libs", "cimaroly", PKG_CONFIG_PATH=f"{prefix}/lib/pkgconfig").split()
        self.ran("cc", f"{ROOT}/bindings/c/examples/inspect.c", *told, *flags, "-o", f"{self.place}/inspect")
        self.assertIn("at 13..26", self.ran(f"{self.place}/inspect", CERTIFICATE, status=3))
        return self.ran("readelf", "-d", f"{self.place}/inspect")


class Install(PackageTest):
    def setUp(self):
        super().setUp()
        self.needs("make", "cc", "pkg-config", "readelf")

    def test_prefix(self):
        prefix = f"{self.place}/fresh"
        self.make("install", f"PREFIX={prefix}")
        for name in ("LICENSE-APACHE", "LICENSE-MIT", "NOTICE"):
            self.assertEqual(content(f"{prefix}/share/doc/cimaroly/{name}"), content(f"{ROOT}/{name}"))
        shared = {f"share/{it}" for it in files_in(f"{PACKAGING}/share")}
        self.assertLessEqual(shared, files_in(prefix))
        self.use(prefix)
        self.assertIn("libcimaroly", self.use_library(prefix, f"-Wl,-rpath,{prefix}/lib"))
        self.assertNotIn("libcimaroly", self.use_library(prefix, "-static"))
        # (what is another's stays)
        with open(f"{prefix}/lib/libother.so", "w", encoding="utf-8"):
            self.make("uninstall", f"PREFIX={prefix}")
        self.assertEqual(files_in(prefix), {"lib/libother.so"})
        self.assertFalse(os.path.exists(f"{prefix}/share/doc/cimaroly"))

    def test_a_relative_folder_in_front(self):
        """It is one below that which make is called in; and what is installed knows nothing of it."""
        words = ("make", "-s", "-f", f"{ROOT}/Makefile")
        self.ran(*words, "install", "DESTDIR=a stage", "PREFIX=/usr", folder=self.place)
        stage = f"{self.place}/a stage"
        self.assertEqual(self.ran(f"{stage}/usr/bin/cimaroly", "--version"), f"cimaroly {VERSION}\n")
        self.assertIn(b"\nlibdir=/usr/lib\n", content(f"{stage}/usr/lib/pkgconfig/cimaroly.pc"))
        self.ran(*words, "uninstall", "DESTDIR=a stage", "PREFIX=/usr", folder=self.place)
        self.assertEqual(files_in(self.place), set())

    def test_soname(self):
        """A shared object whose SONAME has a number is found by that, and by the linker by links to it."""
        library, prefix, name = f"{self.place}/library", f"{self.place}/fresh", "libcimaroly.so"
        os.mkdir(library)
        shutil.copy(ARCHIVE, library)
        words = ("-shared", "-nostartfiles", f"-Wl,-soname,{name}.0", "-Wl,--whole-archive", ARCHIVE, "-Wl,--no-whole-archive")
        self.ran("cc", *words, "-o", f"{library}/{name}")
        self.hidden = ()
        self.make("install", f"PREFIX={prefix}", CIMAROLY_LIB_DIR=library)
        self.assertEqual(os.readlink(f"{prefix}/lib/{name}"), f"{name}.0")
        self.assertEqual(os.readlink(f"{prefix}/lib/{name}.0"), f"{name}.{VERSION}")
        self.assertIn(f"[{name}.0]", self.use_library(prefix, f"-Wl,-rpath,{prefix}/lib"))
        self.make("uninstall", f"PREFIX={prefix}")
        self.assertEqual(files_in(prefix), set())


class Debian(PackageTest):
    def setUp(self):
        super().setUp()
        self.needs("make", "readelf", "dpkg-deb")
        self.make("deb", f"OUT={self.place}", DEBFULLNAME="Tester", DEBEMAIL="tester@example.org")
        self.packages = {it: f"cimaroly_{VERSION}-1_{name}.deb" for it, name in PROCESSORS.items()}
        self.assertEqual(sorted(os.listdir(self.place)), sorted(self.packages.values()))

    def test_package(self):
        root = f"{self.place}/root"
        if os.geteuid() == 0 and shutil.which("dpkg"):
            for it in ("info", "updates"):
                os.makedirs(f"{root}/var/lib/dpkg/{it}")
            open(f"{root}/var/lib/dpkg/status", "w", encoding="utf-8").close()
            forced = ("--force-depends", "--force-script-chrootless", "--force-architecture")
            self.ran("dpkg", f"--root={root}", *forced, "--log=/dev/null", "-i", f"{self.place}/{self.packages[HERE]}")
            self.assertIn("ok installed", content(f"{root}/var/lib/dpkg/status").decode())
        else:
            self.ran("dpkg-deb", "-x", f"{self.place}/{self.packages[HERE]}", root)
        self.use(f"{root}/usr")
        self.assertTrue(os.path.isfile(f"{root}/usr/share/man/man1/cimaroly.1.gz"))

    def test_what_they_have(self):
        for processor, package in self.packages.items():
            root = f"{self.place}/{processor}"
            self.ran("dpkg-deb", "-x", f"{self.place}/{package}", root)
            shipped = f"{ROOT}/dist/{processor}-linux"
            for it in ("cimaroly", "x509_tool"):
                self.assertEqual(content(f"{root}/usr/bin/{it}"), content(f"{shipped}/{it}"))
            for it in ("libcimaroly.a", "libcimaroly.so"):
                self.assertEqual(content(f"{root}/usr/lib/{processor}-linux-gnu/{it}"), content(f"{shipped}/{it}"))

    def test_lintian(self):
        self.needs("lintian")
        files = (f"{self.place}/{it}" for it in self.packages.values())
        told = self.ran("lintian", "--allow-root", "--fail-on=error", *files)
        self.assertNotIn("E: ", told)


class Wheel(PackageTest):
    def test_wheel(self):
        self.needs("make")
        self.make("wheel", f"OUT={self.place}")
        names = {it: f"cimaroly-{VERSION}-py3-none-manylinux_2_34_{it}.whl" for it in PROCESSORS}
        self.assertEqual(sorted(os.listdir(self.place)), sorted(names.values()))
        for processor, name in names.items():
            with zipfile.ZipFile(f"{self.place}/{name}") as wheel:
                shared = content(f"{ROOT}/dist/{processor}-linux/libcimaroly.so")
                self.assertEqual(wheel.read("cimaroly/libcimaroly.so"), shared)
                about = f"cimaroly-{VERSION}.dist-info"
                self.assertEqual(wheel.read(f"{about}/licenses/LICENSE-MIT"), content(f"{ROOT}/LICENSE-MIT"))
                self.assertIn(b"\nLicense-Expression: MIT OR Apache-2.0\n", wheel.read(f"{about}/METADATA"))
                self.assertIn(f"\nTag: py3-none-manylinux_2_34_{processor}\n".encode(), wheel.read(f"{about}/WHEEL"))
        made = subprocess.run([sys.executable, "-m", "venv", f"{self.place}/venv"], capture_output=True, check=False)
        if made.returncode:
            self.skipTest("python3 makes no virtual environment: it is in Debian's package python3-venv")
        python = f"{self.place}/venv/bin/python"
        words = ("-m", "pip", "--disable-pip-version-check", "install", "--quiet", "--no-index")
        self.ran(python, *words, f"{self.place}/{names[HERE]}", folder=self.place)
        program = "import cimaroly, sys; print(cimaroly.__file__, cimaroly.read(open(sys.argv[1], 'rb').read()))"
        printed = self.ran(python, "-c", program, CERTIFICATE, folder=self.place)
        self.assertRegex(printed, rf"^{re.escape(self.place)}/venv/lib/.*/cimaroly/__init__.py <certificate, .* bytes, 2 dev")

    def test_another_processor(self):
        """The message names those that there are builds for, and the module that runs anywhere."""
        program = "import platform; platform.machine = lambda: 'riscv64'; import cimaroly"
        how = {"env": {"PYTHONPATH": f"{ROOT}/bindings/python"}, "capture_output": True, "encoding": "utf-8"}
        ended = subprocess.run([sys.executable, "-c", program], check=False, **how)
        self.assertIn("Linux on x86-64 and aarch64, and the WebAssembly module in web/ runs anywhere", ended.stderr)
        self.assertIn("dist/riscv64-linux/libcimaroly.so", ended.stderr)


class Crate(PackageTest):
    def test_archives(self):
        """The build script takes that of the target's processor, or says where there are others."""
        self.needs("rustc", "cc")
        self.ran("rustc", "--edition", "2021", f"{ROOT}/bindings/rust/build.rs", "-o", f"{self.place}/build")
        for processor in (*PROCESSORS, "riscv64"):
            variables = {"CARGO_MANIFEST_DIR": f"{ROOT}/bindings/rust", "CARGO_CFG_TARGET_ARCH": processor}
            printed = self.ran(f"{self.place}/build", **variables)
            self.assertRegex(printed, rf"(?m)^cargo:rustc-link-search=native=.*/dist/{processor}-linux$")
            is_told = "builds for x86-64 and aarch64, and the WebAssembly module in web/ runs anywhere" in printed
            self.assertEqual(is_told, processor not in PROCESSORS)

    def test_crate(self):
        """It is built where there is neither this repository nor a variable that names its archive."""
        self.needs("make", "cargo", "cc")
        self.make("crate", f"OUT={self.place}")
        (name,) = os.listdir(self.place)
        self.assertEqual(name, f"cimaroly-{VERSION}.crate")
        with tarfile.open(f"{self.place}/{name}") as archive:
            self.assertTrue(all(it.isfile() for it in archive))
            archive.extractall(self.place)
        crate = f"{self.place}/cimaroly-{VERSION}"
        for it in PROCESSORS:
            archive = f"{it}-linux/libcimaroly.a"
            self.assertEqual(content(f"{crate}/lib/{archive}"), content(f"{ROOT}/dist/{archive}"))
        self.assertEqual(content(f"{crate}/LICENSE-APACHE"), content(f"{ROOT}/LICENSE-APACHE"))
        user = f"{self.place}/user"
        self.ran("cargo", "new", "--quiet", "--vcs", "none", user)
        with open(f"{user}/Cargo.toml", "a", encoding="utf-8") as file:
            file.write(f'cimaroly = {{ path = "../cimaroly-{VERSION}" }}\n')
        with open(f"{user}/src/main.rs", "w", encoding="utf-8") as file:
            file.write('fn main() { println!("{:?}", cimaroly::check(cimaroly::Kind::Name, b"0\\0").unwrap().is_der()); }\n')
        self.assertEqual(self.ran("cargo", "run", "--quiet", "--offline", folder=user), "true\n")


class Npm(PackageTest):
    def test_package(self):
        self.needs("make", "npm", "node")
        self.make("npm", f"OUT={self.place}", HOME=self.place)
        self.assertFalse(os.path.exists(f"{ROOT}/web/NOTICE"))
        (name,) = (it for it in os.listdir(self.place) if it.endswith(".tgz"))
        self.assertEqual(name, f"cimaroly-{VERSION}.tgz")
        with tarfile.open(f"{self.place}/{name}") as archive:
            names = {it.name.removeprefix("package/") for it in archive}
        self.assertLessEqual({"LICENSE-APACHE", "LICENSE-MIT", "NOTICE", "README.md", "cimaroly.wasm", "cimaroly.d.ts"}, names)
        self.assertEqual([it for it in names if it.startswith(("test", "page", "samples"))], [])
        user = f"{self.place}/user"
        os.mkdir(user)
        with open(f"{user}/package.json", "w", encoding="utf-8") as file:
            file.write('{"private": true}\n')
        words = ("--silent", "--offline", "--no-audit", "--no-fund", f"{self.place}/{name}")
        self.ran("npm", "install", *words, folder=user, HOME=self.place)
        program = 'import { check } from "cimaroly"; console.log(check(Buffer.from("3000", "hex"), "name").isDer);'
        printed = self.ran("node", "--input-type=module", "-e", program, folder=user)
        self.assertEqual(printed, "true\n")
        program = 'const { check } = require("cimaroly"); console.log(check(Buffer.from("3000", "hex"), "name").isDer);'
        self.assertEqual(self.ran("node", "-e", program, folder=user), "true\n")


if __name__ == "__main__":
    unittest.main()
