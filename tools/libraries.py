"""The crates of crates.txt, and the libraries that stand built in their out/."""

import hashlib
import os
import shutil
import subprocess
import sys

from edits import ROOT


def lists():
    """What each crate of the repository lists."""
    uses = {}
    with open(f"{ROOT}/crates.txt", encoding="utf-8") as it:
        for line in it:
            name, colon, rest = line.partition("#")[0].partition(":")
            if colon:
                uses[name.split()[0]] = rest.split()
    return uses


def closure(name, uses):
    """The crates of the repository below one, the lowest first."""
    found = []
    for it in uses[name]:
        if it in uses:
            found += [below for below in [*closure(it, uses), it] if below not in found]
    return found


def sum_of(path):
    """The checksum of a file, or an empty text where there is none."""
    made = hashlib.sha256()
    try:
        with open(path, "rb") as it:
            while part := it.read(1 << 20):
                made.update(part)
    except OSError:
        return ""
    return made.hexdigest()


def library(name):
    """The folder of a crate's library."""
    return f"{ROOT}/crates/{name}/out/rlib/{name}.rlib"


def library_sum(name):
    """The checksum of a crate's library, or an empty text: its file format has one of all its files."""
    return sum_of(f"{library(name)}/format")


def sums_before_ci():
    """The checksums of the libraries that stand here, as words NAME=CHECKSUM, once those without a stamp are removed: an earlier
    run of rt ci left them, no other command takes them, and its next run would put them back in the place of its own."""
    for it in lists():
        if library_sum(it) and not os.path.exists(f"{os.path.dirname(library(it))}/stamp"):
            shutil.rmtree(os.path.dirname(library(it)), ignore_errors=True)
    return " ".join(f"{it}={library_sum(it)}" for it in lists() if library_sum(it))


def made_since(stood):
    """The crates whose libraries aren't those of such words: what a run of rt ci since then has built."""
    return {it for it in lists() if library_sum(it) and f"{it}={library_sum(it)}" not in stood.split()}


def build(names, made):
    """Sees that the libraries of these crates, the lowest first, are of the sources that stand here. Where not all are those that
    rt ci has just made, rt looks at each, and proves and builds what has changed or is missing."""
    if all(it in made for it in names):
        return
    print(f"rt looks whether the libraries are built of these sources, and builds the others: {' '.join(names)}", file=sys.stderr)
    for it in names:
        how = {"cwd": f"{ROOT}/crates/{it}", "stdin": subprocess.DEVNULL, "stdout": sys.stderr, "check": False}
        if subprocess.run(["rt", "lib"], **how).returncode:
            sys.exit(f"the library {it} can't be proved and built")
