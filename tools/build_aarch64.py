#!/usr/bin/env python3
"""Proves and builds a program or a static library for aarch64, over the libraries below it as they stand built.

usage: tools/build_aarch64.py [--stood SUMS] CRATE FILE

FILE is made as a static library where its name ends in .a, and else as a program. The libraries below are those that
serve every machine: they have the proved code, and only what links them is compiled. SUMS is as in
tools/build_library.py.
"""

import argparse
import os
import subprocess
import sys

from build_library import kept
from edits import ROOT
from libraries import build, closure, lists, made_since
from trial import check_of, kit

TARGET = "aarch64-unknown-linux-gnu"


def run(words, folder):
    """Runs a command, and ends the build where it fails."""
    if subprocess.run(words, cwd=folder, stdin=subprocess.DEVNULL, stdout=sys.stderr, check=False).returncode:
        sys.exit(f"{os.path.basename(words[0])} failed")


def main():
    given = argparse.ArgumentParser(description=__doc__, formatter_class=argparse.RawDescriptionHelpFormatter)
    given.add_argument("crate")
    given.add_argument("file")
    given.add_argument("--stood")
    given = given.parse_args()
    out = os.path.abspath(given.file)
    is_library = out.endswith(".a")
    build(closure(given.crate, lists()), set() if given.stood is None else made_since(given.stood))
    folder = f"{ROOT}/crates/{given.crate}"
    os.makedirs(os.path.dirname(out), exist_ok=True)
    words = check_of(given.crate, folder)
    words[1] = "build"
    if is_library:
        words += ["--links", f"{given.crate}=", "--crate-type", "staticlib"]
    words += ["--target", TARGET, "--toolchain", f"{kit()}/toolchain", "--backend", "llvm", "--incremental", kept(folder)]
    run([*words, "-o", out if is_library else f"{out}.o"], folder)
    if not is_library:
        run([f"{ROOT}/tools/aarch64/link.sh", f"{out}.o", out], folder)


if __name__ == "__main__":
    main()
