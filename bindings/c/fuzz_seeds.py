#!/usr/bin/env python3
"""Writes the inputs of bindings/tests/table.tsv to a folder, as the fuzzer takes them: a byte that says the kind, and the input.

usage: bindings/c/fuzz_seeds.py FOLDER
"""

import base64
import csv
import os
import re
import sys

ROOT = os.path.dirname(os.path.dirname(os.path.dirname(os.path.abspath(__file__))))


def rows_of(path):
    with open(f"{ROOT}/{path}", encoding="utf-8", newline="") as file:
        return list(csv.DictReader(file, delimiter="\t", quoting=csv.QUOTE_NONE))


def input_of(cell):
    if "." not in cell:
        return bytes.fromhex(cell)
    with open(f"{ROOT}/tools/tests/data/{cell}", encoding="utf-8") as file:
        text = file.read()
    if cell.endswith(".hex"):
        return bytes.fromhex(text)
    return base64.b64decode(re.search("-----BEGIN [^-]+-----([^-]+)-----END", text).group(1))


def main():
    kinds = [it["name"] for table in ("kinds", "outlines") for it in rows_of(f"tools/tables/{table}.tsv")]
    for row in rows_of("bindings/tests/table.tsv"):
        with open(f"{sys.argv[1]}/{row['name']}", "wb") as seed:
            seed.write(bytes([kinds.index(row["kind"])]) + input_of(row["input"]))


if __name__ == "__main__":
    main()
