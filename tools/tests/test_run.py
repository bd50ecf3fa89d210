"""Tests run.py: what it prints, and that a missing compiler, make or cargo is said and is no fault."""

import os
import pty
import shutil
import subprocess
import sys
import tempfile
import unittest

HERE = os.path.dirname(os.path.abspath(__file__))
TESTS = """import unittest
class Some(unittest.TestCase):
    def test_1(self): pass
    def test_2(self): self.skipTest("there is no moon")
    def test_3(self): self.assertEqual({result}, 3)
"""
# What needs one of these programs.
NEEDY = (
    "test_aarch64",
    "test_bindings.C",
    "test_bindings.Rust",
    "test_bindings.Snippets.test_c",
    "test_bindings.Snippets.test_rust",
    "test_cimaroly.Program.test_each_request_for_memory_refused",
    "test_packages",
    "test_program.RefusedMemoryTest",
)


class RunTest(unittest.TestCase):
    def setUp(self):
        room = tempfile.TemporaryDirectory(prefix="run-")
        self.addCleanup(room.cleanup)
        self.room = room.name
        shutil.copy(f"{HERE}/run.py", self.room)

    def ran(self, result, **how):
        with open(f"{self.room}/test_some.py", "w", encoding="utf-8") as it:
            it.write(TESTS.format(result=result))
        words = [sys.executable, f"{self.room}/run.py"]
        return subprocess.run(words, stdout=subprocess.PIPE, encoding="utf-8", check=False, **how)

    def test_what_is_printed(self):
        for result, status, counts in ((3, 0, "2 passed, 0 failed"), (4, 1, "1 passed, 1 failed")):
            ran = self.ran(result, stderr=subprocess.PIPE)
            self.assertEqual(ran.returncode, status)
            self.assertEqual(ran.stdout.splitlines()[-2:], ["not run: test_some.Some.test_2: there is no moon", counts])
            self.assertEqual(ran.stderr, "".join(f"test_some.Some.test_{it}, {3 - it} left\n" for it in (1, 2, 3)))

    def test_on_a_terminal(self):
        """One line, which is overwritten and empty at last."""
        ours, theirs = pty.openpty()
        self.ran(3, stderr=theirs, env={**os.environ, "COLUMNS": "80"})
        os.close(theirs)
        shown = os.read(ours, 4096).decode()
        os.close(ours)
        lines = [f"\r{it}\033[K" for it in (*(f"test_some.Some.test_{it}, {3 - it} left" for it in (1, 2, 3)), "")]
        self.assertEqual(shown, "".join(lines))

    def test_without_compilers(self):
        os.mkdir(f"{self.room}/bin")
        environment = {**os.environ, "PATH": f"{self.room}/bin"}
        words = [sys.executable, "-m", "unittest", "-v", *NEEDY]
        ran = subprocess.run(words, cwd=HERE, env=environment, capture_output=True, encoding="utf-8", check=False)
        self.assertEqual(ran.returncode, 0, ran.stderr)
        for it in ("make", "cc", "cargo"):
            self.assertIn(f"skipped 'there is no {it}'", ran.stderr)


if __name__ == "__main__":
    unittest.main()
