#!/usr/bin/env python3
"""Checks that the code in README and docs/ is that of the crates, which the gate proves, or of docs/BINDINGS.md, which it runs.

usage: tools/check_calling.py

Each piece of a block that is marked as rust, antt, asn1 or edit, up to a blank line, must stand in one of its page's files word by
word, but for how its lines are broken. A line is printed for each that doesn't, and the exit status is then 1.
"""

import glob
import os
import re
import sys

ROOT = os.path.dirname(os.path.dirname(os.path.abspath(__file__)))
# The pages, and the files whose code each shows.
PAGES = {
    "README.md": ["crates/x509_callers/src/*.rt", "docs/BINDINGS.md"],
    "docs/CALLING.md": ["crates/x509_callers/src/*.rt"],
    "docs/CONTRIBUTING.md": [
        "crates/x509_more_extensions/declarations.asn1",
        "crates/x509_more_extensions/specs/PolicyMapping.antt",
        "crates/x509_more_extensions/src/structures/laws.rt",
        "crates/x509_more_extensions/planted/mapping_as_a_set.edit",
    ],
}
BLOCK = re.compile(r"^```(?:rust|antt|asn1|edit)\n(.*?)^```$", re.S | re.M)


def text_of(path):
    with open(os.path.join(ROOT, path), encoding="utf-8") as it:
        return it.read()


def words_of(text):
    """The words of a text, with one space around each."""
    return f" {' '.join(text.split())} "


def pieces_of(page):
    """The pieces of the code that a page shows."""
    return [piece for block in BLOCK.findall(text_of(page)) for piece in block.strip().split("\n\n")]


def main():
    missing = 0
    for page, patterns in PAGES.items():
        files = [path for pattern in patterns for path in glob.glob(pattern, root_dir=ROOT)]
        sources = [words_of(text_of(path)) for path in files]
        for piece in pieces_of(page):
            if not any(words_of(piece) in source for source in sources):
                missing += 1
                print(f"{page}: not in its crate: {piece.strip().splitlines()[0]}")
    return 1 if missing else 0


if __name__ == "__main__":
    sys.exit(main())
