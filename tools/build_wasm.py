#!/usr/bin/env python3
"""Proves and builds the C calls as a WebAssembly module, over the libraries below them as they stand built.

usage: tools/build_wasm.py [--stood SUMS] FILE

The module exports the calls of bindings/c/cimaroly.h, `memory` and `__heap_base`, and imports nothing. Its addresses have 64 bits, as
those of which the contracts speak. Where the name of FILE ends in 32.wasm, wasm-opt (Debian's binaryen) makes of it a module whose
addresses have 32, for browsers without 64-bit memories; no proof covers that step. SUMS is as in tools/build_library.py.
"""

import argparse
import os
import shutil
import subprocess
import sys

from build_library import kept
from edits import ROOT
from libraries import build, closure, lists, made_since
from trial import check_of, kit

CRATE = "cimaroly_c"
TARGET = "wasm64-unknown-unknown"
FEATURES = ["memory64", "bulk-memory", "sign-ext", "mutable-globals", "nontrapping-float-to-int"]


def run(words, folder):
    """Runs a command, and ends the build where it fails."""
    if subprocess.run(words, cwd=folder, stdin=subprocess.DEVNULL, stdout=sys.stderr, check=False).returncode:
        sys.exit(f"{os.path.basename(words[0])} failed")


def built_archive(folder):
    """The archive for WebAssembly, proved and built of the sources that stand here."""
    archive = f"{folder}/out/lib{CRATE}-wasm64.a"
    words = check_of(CRATE, folder)
    words[1] = "build"
    words += ["--links", f"{CRATE}=", "--crate-type", "staticlib", "--target", TARGET, "--toolchain", f"{kit()}/toolchain"]
    words += ["--backend", "llvm", "--incremental", kept(folder), "-o", archive]
    run(words, folder)
    return archive


def main():
    given = argparse.ArgumentParser(description=__doc__, formatter_class=argparse.RawDescriptionHelpFormatter)
    given.add_argument("file")
    given.add_argument("--stood")
    given = given.parse_args()
    out = os.path.abspath(given.file)
    lower = shutil.which("wasm-opt")
    if out.endswith("32.wasm") and not lower:
        sys.exit("wasm-opt is missing: Debian's package binaryen has it")
    build(closure(CRATE, lists()), set() if given.stood is None else made_since(given.stood))
    folder = f"{ROOT}/crates/{CRATE}"
    archive = built_archive(folder)
    module = f"{folder}/out/module64.wasm" if out.endswith("32.wasm") else out
    run([f"{kit()}/bin/rattle-link", "--target", TARGET, "--toolchain", f"{kit()}/toolchain", "-o", module, archive], folder)
    if module != out:
        run([lower, *(f"--enable-{it}" for it in FEATURES), "--memory64-lowering", module, "-o", out], folder)


if __name__ == "__main__":
    main()
