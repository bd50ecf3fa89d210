"""Tests what dist/ has, and the scripts that make, compare and run it: over a small repository, with a stand-in for the toolchain."""

import os
import platform
import shutil
import subprocess
import sys
import tempfile
import unittest

ROOT = os.path.dirname(os.path.dirname(os.path.dirname(os.path.abspath(__file__))))
SCRIPTS = ("bin/x509_tool", "tools/launch.sh", "tools/dist.sh", "tools/sources.sh")
# The folder of this machine, and the program that is shipped for it.
MACHINE = f"{platform.machine()}-linux"
PROGRAM = f"dist/{MACHINE}/x509_tool"
ARTIFACTS = f"{MACHINE}/x509_tool x509_tool out/x509_tool\n"
# What 'rt run' builds: a script that says what it was built of.
RT = """#!/bin/sh
case $1 in
version) echo "${RT_VERSION:-a toolchain}"; exit ;;
run) ;;
*) exit 2 ;;
esac
echo "built in $(pwd)" >>"$LOG"
mkdir -p out
text='#!/bin/sh\\n[ $# -gt 0 ] || { echo "usage: x509_tool TYPE" >&2; exit 2; }\\necho "%s" "$@"\\n'
printf "$text" "$(cat src/main.rt)" >out/x509_tool
chmod +x out/x509_tool
exit "${RT_STATUS:-0}"
"""

# What 'tools/build_aarch64.py' builds.
BUILD_AARCH64 = """import os, sys
os.makedirs(os.path.dirname(sys.argv[-1]), exist_ok=True)
with open(sys.argv[-1], "w", encoding="utf-8") as it:
    it.write('#!/bin/sh\\n[ $# -gt 0 ] || { echo "usage: x509_tool TYPE" >&2; exit 2; }\\necho aarch64 "$@"\\n')
os.chmod(sys.argv[-1], 0o755)
"""


def write(path, text):
    os.makedirs(os.path.dirname(path), exist_ok=True)
    with open(path, "w", encoding="utf-8") as it:
        it.write(text)


class ShippedTest(unittest.TestCase):
    """What this repository ships."""

    def test_dist_is_of_these_sources(self):
        if os.environ.get("X509_TOOL"):
            self.skipTest("X509_TOOL names another program")
        ran = subprocess.run([f"{ROOT}/tools/dist.sh", "--sums"], stdout=subprocess.PIPE, encoding="utf-8", check=False)
        self.assertEqual(ran.returncode, 0, ran.stdout)


class Repository(unittest.TestCase):
    """A repository of three crates, of which the program stands on one."""

    def setUp(self):
        room = tempfile.TemporaryDirectory(prefix="dist-")
        self.addCleanup(room.cleanup)
        self.root, self.log = f"{room.name}/repository", f"{room.name}/log"
        for it in SCRIPTS:
            os.makedirs(os.path.dirname(f"{self.root}/{it}"), exist_ok=True)
            shutil.copy(f"{ROOT}/{it}", f"{self.root}/{it}")
        write(f"{self.root}/tools/artifacts.txt", f"# what is shipped\n{ARTIFACTS}")
        write(f"{self.root}/crates.txt", "low: thiserror\nx509_tool: low # the program\nother: low\n")
        write(f"{self.root}/crates/low/src/lib.rt", "low")
        write(f"{self.root}/crates/low/specs/Lib.antt", "low")
        write(f"{self.root}/crates/low/proofs/Lib.antt", "low")
        write(f"{self.root}/crates/x509_tool/src/main.rt", "first")
        write(f"{self.root}/crates/x509_tool/args", "raw-algorithm\n")
        write(f"{self.root}/crates/other/src/lib.rt", "other")
        write(f"{room.name}/bin/rt", RT)
        os.chmod(f"{room.name}/bin/rt", 0o755)
        self.bin = f"{room.name}/bin"
        self.ran(["tools/dist.sh"])
        os.remove(self.log)

    def ran(self, words, status=0, has_rt=True, **variables):
        """What a script prints on its two streams, where it ends with this status."""
        path = f"{self.bin}:/usr/bin:/bin" if has_rt else "/usr/bin:/bin"
        how = {"env": {"PATH": path, "LOG": self.log, **variables}, "cwd": self.root, "encoding": "utf-8", "check": False}
        ran = subprocess.run(words, stdin=subprocess.DEVNULL, stdout=subprocess.PIPE, stderr=subprocess.PIPE, **how)
        self.assertEqual(ran.returncode, status, (ran.stdout, ran.stderr))
        return ran.stdout, ran.stderr

    def change(self, path, text):
        write(f"{self.root}/{path}", text)

    def write_sums(self):
        """Writes the checksum of what stands in dist/, as one would who wants it to be believed."""
        how = {"cwd": f"{self.root}/dist", "stdout": subprocess.PIPE, "encoding": "utf-8", "check": True}
        self.change("dist/SHA256SUMS", subprocess.run(["sha256sum", f"{MACHINE}/x509_tool"], **how).stdout)

    def is_built(self):
        return os.path.exists(self.log)


class DistTest(Repository):
    """The scripts."""

    def test_the_shipped_program_runs_at_once(self):
        shutil.rmtree(f"{self.root}/crates/x509_tool/out")
        self.assertEqual(self.ran(["bin/x509_tool", "a", "b c"], has_rt=False), ("first a b c\n", ""))

    def test_a_link_to_it_runs(self):
        os.symlink(f"{self.root}/bin/x509_tool", f"{self.bin}/linked")
        self.assertEqual(self.ran(["linked", "a"], has_rt=True), ("first a\n", ""))

    def test_what_makes_no_other_program(self):
        """A touched source, a proof, another crate, and a comment or a line of another crate in crates.txt."""
        shutil.rmtree(f"{self.root}/crates/x509_tool/out")
        os.utime(f"{self.root}/crates/low/src/lib.rt")
        self.change("crates/low/proofs/Lib.antt", "changed")
        self.change("crates/other/src/lib.rt", "changed")
        self.change("crates.txt", "# crates\nx509_tool: low\nlow: thiserror\nmore: low\n")
        self.assertEqual(self.ran(["bin/x509_tool", "a"], has_rt=False)[0], "first a\n")
        self.assertEqual(self.ran(["tools/dist.sh", "--sums"], has_rt=False), ("1 passed, 0 failed\n", ""))

    def test_a_changed_source_is_built(self):
        for path, text in (
            ("crates/low/src/lib.rt", "changed"),
            ("crates/low/src/more.rt", "low"),
            ("crates/low/specs/Lib.antt", "changed"),
            ("crates.txt", "low: thiserror hex\nx509_tool: low\n"),
        ):
            with self.subTest(path):
                shutil.rmtree(f"{self.root}/crates/x509_tool/out")
                self.change(path, text)
                output, error = self.ran(["bin/x509_tool", "a"])
                self.assertEqual(output, "first a\n")
                self.assertIn("dist/ has none of the sources that stand here", error)
                self.assertIn("can take an hour", error)
                self.assertTrue(self.is_built())
                os.remove(self.log)
                # and what was built runs at once
                self.assertEqual(self.ran(["bin/x509_tool", "a"]), ("first a\n", ""))
                self.assertFalse(self.is_built())
                self.assertIn("other sources", self.ran(["tools/dist.sh", "--sums"], 1)[0])

    def test_a_source_that_is_put_back(self):
        self.change("crates/x509_tool/src/main.rt", "second")
        self.assertEqual(self.ran(["bin/x509_tool", "a"])[0], "second a\n")
        self.change("crates/x509_tool/src/main.rt", "first")
        self.assertEqual(self.ran(["bin/x509_tool", "a"], has_rt=False), ("first a\n", ""))

    def test_a_changed_byte(self):
        """Of the shipped program, which is then not run, and of the one that was built."""
        self.change(PROGRAM, "#!/bin/sh\necho wrong\n")
        self.assertIn(f"{PROGRAM}: its checksum", self.ran(["tools/dist.sh", "--sums"], 1)[0])
        self.assertIn("0 passed, 1 failed", self.ran(["tools/dist.sh", "--check"], 1)[0])
        self.assertEqual(self.ran(["bin/x509_tool", "a"], has_rt=False), ("first a\n", ""))
        self.change("crates/x509_tool/out/x509_tool", "#!/bin/sh\necho wrong\n")
        output, error = self.ran(["bin/x509_tool", "a"])
        self.assertEqual(output, "first a\n")
        self.assertIn("doesn't have the checksum", error)

    def test_checksums_that_were_written_anew(self):
        """Where the shipped program and its checksum are another's, the comparison with what is built tells."""
        text = "#!/bin/sh\necho wrong\n"
        self.change(PROGRAM, text)
        self.write_sums()
        self.assertEqual(self.ran(["tools/dist.sh", "--sums"])[0], "1 passed, 0 failed\n")
        self.assertIn("other bytes", self.ran(["tools/dist.sh", "--check"], 1)[0])

    def test_another_toolchain(self):
        """It may build other bytes of the same sources, which is said; checksums and sources are compared all the same."""
        other = {"RT_VERSION": "another toolchain"}
        self.assertEqual(self.ran(["tools/dist.sh", "--check"], **other), ("1 passed, 0 failed\n", ""))
        self.change(PROGRAM, "#!/bin/sh\necho built by a toolchain\n")
        self.write_sums()
        output, error = self.ran(["tools/dist.sh", "--check"], **other)
        self.assertEqual(output, "1 passed, 0 failed\n")
        self.assertIn("another toolchain builds other bytes than a toolchain", error)
        self.change("dist/SHA256SUMS", "")
        self.assertIn("its checksum", self.ran(["tools/dist.sh", "--check"], 1, **other)[0])

    def test_a_machine_that_cannot_run_it(self):
        # (an executable with the number of another processor in its header)
        with open(sys.executable, "rb") as it:
            header = it.read(4096)
        with open(f"{self.root}/{PROGRAM}", "wb") as it:
            it.write(header[:18] + b"\xf3\x00" + header[20:])
        self.write_sums()
        shutil.rmtree(f"{self.root}/crates/x509_tool/out")
        output, error = self.ran(["bin/x509_tool", "a"])
        self.assertEqual(output, "first a\n")
        self.assertIn("doesn't run on this machine", error)

    def test_what_cannot_be_built(self):
        self.change("crates/low/src/lib.rt", "changed")
        self.assertIn("isn't on the PATH", self.ran(["bin/x509_tool", "a"], 126, has_rt=False)[1])
        self.assertIn("was not proved and built", self.ran(["bin/x509_tool", "a"], 126, RT_STATUS="1")[1])
        # what such a build left is never run
        self.assertIn("was not proved and built", self.ran(["bin/x509_tool", "a"], 126, RT_STATUS="1")[1])

    def test_after_ci(self):
        """What rt ci has just built is taken for what it is."""
        shutil.rmtree(f"{self.root}/crates/x509_tool/out")
        shutil.copytree(f"{self.root}/dist/{MACHINE}", f"{self.root}/crates/x509_tool/out")
        self.assertEqual(self.ran(["tools/dist.sh", "--after-ci", ""])[0], "1 passed, 0 failed\n")
        self.change("crates/x509_tool/out/x509_tool", "other")
        self.assertIn("other bytes", self.ran(["tools/dist.sh", "--after-ci", ""], 1)[0])
        self.assertFalse(self.is_built())

    def test_what_the_gate_sees(self):
        """A changed byte of what is shipped, and a source that was changed without making dist/ anew, end its comparison."""
        shutil.rmtree(f"{self.root}/crates/x509_tool/out")
        shutil.copytree(f"{self.root}/dist/{MACHINE}", f"{self.root}/crates/x509_tool/out")
        self.change(PROGRAM, "#!/bin/sh\necho wrong\n")
        self.assertIn(f"{PROGRAM}: its checksum", self.ran(["tools/dist.sh", "--after-ci", ""], 1)[0])
        self.write_sums()
        self.assertIn(f"{PROGRAM} has other bytes", self.ran(["tools/dist.sh", "--after-ci", ""], 1)[0])
        self.ran(["tools/dist.sh"])
        self.change("crates/low/src/lib.rt", "changed")
        self.assertIn("built of other sources", self.ran(["tools/dist.sh", "--after-ci", ""], 1)[0])

    def test_a_copied_file(self):
        """It is of no crate, and compared with what it is a copy of."""
        self.change("header.h", "a header\n")
        self.change("tools/artifacts.txt", f"{ARTIFACTS}header.h - header.h\n")
        self.ran(["tools/dist.sh"])
        self.assertEqual(self.ran(["tools/dist.sh", "--check"])[0], "2 passed, 0 failed\n")
        self.change("header.h", "another header\n")
        self.assertIn("dist/header.h has other bytes than header.h", self.ran(["tools/dist.sh", "--sums"], 1)[0])

    def test_what_else_stands_in_dist(self):
        self.change("dist/more", "more")
        self.assertIn("dist/more is no artifact", self.ran(["tools/dist.sh", "--sums"], 1)[0])
        os.remove(f"{self.root}/dist/SOURCES")
        self.assertIn("missing", self.ran(["tools/dist.sh", "--sums"], 1)[0])
        self.ran(["tools/dist.sh"])
        self.assertEqual(sorted(os.listdir(f"{self.root}/dist")), ["SHA256SUMS", "SOURCES", MACHINE])
        self.assertEqual(self.ran(["tools/dist.sh", "--check"])[0], "1 passed, 0 failed\n")

    def on(self, system):
        """The variables with which `uname -sm` prints this."""
        write(f"{self.root}/../system/uname", f"#!/bin/sh\necho {system}\n")
        os.chmod(f"{self.root}/../system/uname", 0o755)
        return {"PATH": f"{self.root}/../system:{self.bin}:/usr/bin:/bin"}

    def test_another_processor(self):
        for system in ("Linux riscv64", "Darwin arm64"):
            with self.subTest(system):
                output, error = self.ran(["bin/x509_tool", "a"], 126, **self.on(system))
                self.assertEqual(output, "")
                self.assertIn(f"for Linux on x86-64 and on aarch64, and this is {system}", error)
                self.assertIn("http.server -d web", error)
                self.assertFalse(self.is_built())

    def test_aarch64(self):
        """It has a program of its own, which is also built of the files in tools/aarch64/."""
        write(f"{self.root}/tools/aarch64/support.c", "first")
        write(f"{self.root}/tools/build_aarch64.py", BUILD_AARCH64)
        self.change(
            "tools/artifacts.txt",
            "x86_64-linux/x509_tool x509_tool out/x509_tool\naarch64-linux/x509_tool x509_tool out/aarch64/x509_tool\n",
        )
        self.ran(["tools/dist.sh"])
        self.assertEqual(self.ran(["tools/dist.sh", "--check"])[0], "2 passed, 0 failed\n")
        self.assertEqual(self.ran(["bin/x509_tool", "a"], **self.on("Linux x86_64")), ("first a\n", ""))
        self.assertEqual(self.ran(["bin/x509_tool", "a"], **self.on("Linux aarch64")), ("aarch64 a\n", ""))
        self.change("tools/aarch64/support.c", "second")
        printed = self.ran(["tools/dist.sh", "--sums"], 1)[0]
        self.assertIn("SOURCES: aarch64-linux/x509_tool was built of other", printed)
        self.assertEqual(self.ran(["bin/x509_tool", "a"], **self.on("Linux x86_64")), ("first a\n", ""))
        output, error = self.ran(["bin/x509_tool", "a"], **self.on("Linux aarch64"))
        self.assertEqual(output, "aarch64 a\n")
        self.assertIn("dist/ has none of the sources that stand here", error)


if __name__ == "__main__":
    unittest.main()
