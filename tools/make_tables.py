#!/usr/bin/env python3
"""Writes what languages, pages and crates have of the tables in tools/tables/: between two texts each, which stay as they are.

usage: tools/make_tables.py [FOLDER]   FOLDER in the place of the repository, to write the files there and leave these as they are

What is written by hand: the definitions in specs/, and what stands around the regions. tools/tests/test_tables.py compares.
"""

import argparse
import pathlib

import make_commonjs
import make_object_identifiers
from generate import c, javascript, pages, python, rattle, rust
from generate.regions import filled
from generate.tables import ROOT

PARTS = (c, python, rust, javascript, pages, rattle)


def made():
    """The text of each file that is written, by its path from the root."""
    texts = {}

    def text_of(path):
        if path not in texts:
            texts[path] = pathlib.Path(ROOT, path).read_text(encoding="utf-8")
        return texts[path]

    for region in (it for part in PARTS for it in part.regions()):
        texts[region.path] = filled(text_of(region.path), region)
    texts |= make_object_identifiers.made()
    texts |= make_commonjs.made(text_of)
    return texts


def main():
    given = argparse.ArgumentParser(description=__doc__, formatter_class=argparse.RawDescriptionHelpFormatter)
    given.add_argument("folder", nargs="?", type=pathlib.Path, default=pathlib.Path(ROOT))
    folder = given.parse_args().folder
    for path, text in made().items():
        target = folder / path
        target.parent.mkdir(parents=True, exist_ok=True)
        if not target.is_file() or target.read_text(encoding="utf-8") != text:
            target.write_text(text, encoding="utf-8")


if __name__ == "__main__":
    main()
