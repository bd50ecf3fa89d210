"""Tests what tools/launch.sh records: that it takes checksums once, and again after each change that could matter."""

import os
import shutil
import subprocess
import time
import unittest

import test_dist

PROGRAM, SOURCE = test_dist.PROGRAM, "crates/low/src/lib.rt"


def change_unseen(path, content=None):
    """Changes a byte of a file, and restores its size and its time of modification."""
    with open(path, "rb") as it:
        old = it.read()
    was = os.stat(path)
    with open(path, "r+b") as it:
        it.write(content or old[:-1] + bytes([old[-1] ^ 1]))
    os.utime(path, ns=(was.st_atime_ns, was.st_mtime_ns))
    now = os.stat(path)
    assert (now.st_size, now.st_mtime_ns, now.st_ino) == (was.st_size, was.st_mtime_ns, was.st_ino)


def replace_unseen(path):
    """Puts another file of the same size and time in the place of a file."""
    shutil.copy2(path, f"{path}.new")
    change_unseen(f"{path}.new")
    os.replace(f"{path}.new", path)


def append(path, text):
    with open(path, "a", encoding="utf-8") as it:
        it.write(text)


# What is done to a repository, and what is said of it then, if anything.
CHANGES = {
    "a byte of a source": (lambda it: change_unseen(f"{it}/{SOURCE}"), "none of the sources"),
    "a source in another's place": (lambda it: replace_unseen(f"{it}/{SOURCE}"), "none of the sources"),
    "a source more": (lambda it: append(f"{it}/crates/low/src/more.rt", "more"), "none of the sources"),
    "a source less": (lambda it: os.remove(f"{it}/crates/low/specs/Lib.antt"), "none of the sources"),
    "specs that weren't there": (
        lambda it: test_dist.write(f"{it}/crates/x509_tool/specs/Lib.antt", "more"),
        "none of the sources",
    ),
    "a line of crates.txt": (lambda it: change_unseen(f"{it}/crates.txt", b"low: thiserros"), "none of the sources"),
    "a byte of the program": (lambda it: change_unseen(f"{it}/{PROGRAM}"), "doesn't have the checksum"),
    "a program in another's place": (lambda it: replace_unseen(f"{it}/{PROGRAM}"), "doesn't have the checksum"),
    "a program that can't be run": (lambda it: os.chmod(f"{it}/{PROGRAM}", 0o644), "isn't executable"),
    "no program": (lambda it: os.remove(f"{it}/{PROGRAM}"), "doesn't have the checksum"),
    "a checksum": (lambda it: change_unseen(f"{it}/dist/SHA256SUMS"), "doesn't have the checksum"),
    "a checksum of sources": (lambda it: change_unseen(f"{it}/dist/SOURCES"), "none of the sources"),
    "another crate": (lambda it: append(f"{it}/crates/other/src/lib.rt", "more"), ""),
}


class LaunchTest(test_dist.Repository):
    """The launcher with a cache."""

    def setUp(self):
        super().setUp()
        self.room = os.path.dirname(self.root)
        self.cache, self.sums = f"{self.room}/cache", f"{self.room}/sums"
        shutil.rmtree(f"{self.root}/crates/x509_tool/out")
        with open(f"{self.root}/tools/sources.sh", encoding="utf-8") as it:
            text = it.read()
        test_dist.write(f"{self.root}/tools/sources.sh", text.replace("\n", '\n[ -z "${SUMS-}" ] || echo x >>"$SUMS"\n', 1))

    def run_in(self, root, **how):
        """What the program prints, and what is said, in a repository; and whether checksums were taken."""
        if os.path.exists(self.sums):
            os.remove(self.sums)
        self.root, variables = root, {"XDG_CACHE_HOME": self.cache, "SUMS": self.sums, **how}
        output, error = self.ran(["bin/x509_tool", "a", "b c"], **variables)
        return output, error, os.path.exists(self.sums)

    def settle(self):
        """Waits until what was changed may be recorded."""
        time.sleep(3)

    def recorded(self):
        return sorted(it for _, _, names in os.walk(self.cache) for it in names)

    def test_changes(self):
        """Each is noticed, whatever it leaves as it was, and what is built then is recorded too."""
        roots = {name: f"{self.room}/{at}/repository" for at, name in enumerate(CHANGES)}
        for root in roots.values():
            shutil.copytree(self.root, root)
        self.settle()
        for name, root in roots.items():
            with self.subTest(name):
                self.assertEqual(self.run_in(root), ("first a b c\n", "", True))
                self.assertEqual(self.run_in(root), ("first a b c\n", "", False))
                CHANGES[name][0](root)
                output, error, is_taken = self.run_in(root)
                self.assertTrue(is_taken)
                self.assertEqual(output, "first a b c\n")
                self.assertIn(CHANGES[name][1], error)
                self.assertEqual(bool(error), bool(CHANGES[name][1]))
        self.settle()
        for name, root in roots.items():
            with self.subTest(f"{name}, and again"):
                self.assertEqual(self.run_in(root)[1:], ("", True))
                self.assertEqual(self.run_in(root), ("first a b c\n", "", False))

    def test_what_is_not_recorded(self):
        """What has just changed, and where there is no cache of this user that could be written."""
        self.assertEqual(self.run_in(self.root), ("first a b c\n", "", True))
        self.assertEqual(self.recorded(), [])
        self.settle()
        test_dist.write(f"{self.room}/file", "")
        for cache in ("", "relative", f"{self.room}/file"):
            self.assertEqual(self.run_in(self.root, XDG_CACHE_HOME=cache), ("first a b c\n", "", True))
        self.assertFalse(os.path.exists(f"{self.root}/relative"))
        self.assertEqual(self.run_in(self.root, XDG_CACHE_HOME="", HOME=f"{self.room}/home")[2], True)
        self.assertEqual(self.run_in(self.root, XDG_CACHE_HOME="", HOME=f"{self.room}/home")[2], False)

    def test_other_records(self):
        """One of another user, of another start of the system, or with anything else in it isn't believed."""
        self.settle()
        self.run_in(self.root)
        record = f"{self.cache}/cimaroly/launch{os.path.realpath(self.root)}/x509_tool"
        with open(record, encoding="utf-8") as it:
            lines = it.read().splitlines(keepends=True)
        for text in ("", "\n", "bin/true\n", "".join(lines[:-1]), "".join([lines[0], "another\n", *lines[2:]])):
            test_dist.write(record, text)
            self.assertEqual(self.run_in(self.root), ("first a b c\n", "", True))
            self.assertEqual(self.run_in(self.root), ("first a b c\n", "", False))
        if os.geteuid() == 0:
            os.chown(record, 65534, -1)
            self.assertEqual(self.run_in(self.root), ("first a b c\n", "", True))

    def test_many_at_once(self):
        """All answer alike, and leave one record."""
        self.settle()
        environment = {"PATH": "/usr/bin:/bin", "XDG_CACHE_HOME": self.cache}
        how = {"env": environment, "cwd": self.root, "stdout": subprocess.PIPE, "stderr": subprocess.STDOUT}
        started = [subprocess.Popen(["bin/x509_tool", "a"], **how) for _ in range(12)]
        self.assertEqual([it.communicate()[0] for it in started], [b"first a\n"] * 12)
        self.assertEqual(self.recorded(), ["x509_tool"])
        self.assertEqual(self.run_in(self.root), ("first a b c\n", "", False))

    def test_where_it_is_called_from(self):
        """From its own folder, by a link, and by a link to its folder."""
        os.symlink(f"{self.root}/bin/x509_tool", f"{self.bin}/linked")
        os.symlink(f"{self.root}/bin", f"{self.room}/folder")
        for words, folder in (
            (["./x509_tool"], f"{self.root}/bin"),
            (["sh", "x509_tool"], f"{self.root}/bin"),
            ([f"{self.bin}/linked"], "/"),
            (["../folder/x509_tool"], self.bin),
        ):
            with self.subTest(words):
                how = {"env": {**os.environ, "XDG_CACHE_HOME": self.cache}, "cwd": folder, "encoding": "utf-8"}
                ran = subprocess.run([*words, "a"], capture_output=True, check=False, **how)
                self.assertEqual((ran.stdout, ran.stderr), ("first a\n", ""))


if __name__ == "__main__":
    unittest.main()
