#!/usr/bin/env python3
"""Proves and builds a static library, over the libraries below it as they stand built.

usage: tools/build_library.py CRATE [--stood SUMS]

rt ci proves a static library and builds none. With SUMS, what tools/plant.py --before-ci printed before a run of rt ci, the libraries
that are new since then are taken as they are; else rt looks at each, and builds what isn't of the sources that stand here.
"""

import argparse
import os
import subprocess
import sys

from edits import ROOT
from libraries import build, closure, lists, made_since
from trial import check_of, kit


def kept(folder):
    """Where the builds of a crate for several machines keep what was proved, which is the same for all: each takes it from there."""
    path = f"{folder}/out/kept"
    os.makedirs(path, exist_ok=True)
    return path


def main():
    given = argparse.ArgumentParser(description=__doc__, formatter_class=argparse.RawDescriptionHelpFormatter)
    given.add_argument("crate")
    given.add_argument("--stood")
    given = given.parse_args()
    build(closure(given.crate, lists()), set() if given.stood is None else made_since(given.stood))
    folder = f"{ROOT}/crates/{given.crate}"
    words = check_of(given.crate, folder)
    words[1] = "build"
    # (the builds for other machines wait for this proof)
    words[words.index("--jobs") + 1] = str(max(1, len(os.sched_getaffinity(0)) // 2))
    words += ["--links", f"{given.crate}=", "--crate-type", "staticlib", "--toolchain", f"{kit()}/toolchain", "--backend", "llvm"]
    words += ["--incremental", kept(folder), "-o", f"out/lib{given.crate}.a"]
    return subprocess.run(words, cwd=folder, stdin=subprocess.DEVNULL, stdout=sys.stderr, check=False).returncode


if __name__ == "__main__":
    sys.exit(main())
