#!/usr/bin/env python3
"""Checks that each crate's files are in rt fmt's layout, before a long run of rt ci ends with their refusal.

usage: tools/check_layout.py

A line is printed for each file that isn't; then the exit status is 1. No file of the repository is changed: a copy is laid out.
"""

import filecmp
import os
import shutil
import subprocess
import sys
import tempfile
from concurrent.futures import ThreadPoolExecutor

from edits import ROOT


def lay_out(folder):
    """Lays out a crate's files; answers what was said if that failed."""
    ended = subprocess.run(["rt", "fmt"], cwd=folder, capture_output=True, text=True, errors="replace", check=False)
    return None if ended.returncode == 0 else ended.stdout + ended.stderr


def sources(crates):
    """The .rt files of all crates, by their paths in crates/."""
    for folder, _, names in os.walk(crates):
        for name in sorted(names):
            if name.endswith(".rt"):
                yield os.path.relpath(os.path.join(folder, name), crates)


def main():
    crates = os.path.join(ROOT, "crates")
    faults = 0
    with tempfile.TemporaryDirectory() as room:
        copy = os.path.join(room, "crates")
        shutil.copytree(crates, copy, ignore=shutil.ignore_patterns("out"))
        shutil.copy(os.path.join(ROOT, "crates.txt"), room)
        folders = [os.path.join(copy, name) for name in sorted(os.listdir(copy))]
        with ThreadPoolExecutor(os.cpu_count()) as pool:
            for folder, said in zip(folders, pool.map(lay_out, folders)):
                if said is not None:
                    print(f"crates/{os.path.basename(folder)}: rt fmt failed: {said.strip()}")
                    faults += 1
        for path in sources(copy):
            if not filecmp.cmp(os.path.join(copy, path), os.path.join(crates, path), shallow=False):
                print(f"crates/{path}: not in rt fmt's layout")
                faults += 1
    sys.exit(1 if faults else 0)


if __name__ == "__main__":
    main()
