#!/usr/bin/env python3
"""Writes what `require` loads in web/node/ from the ES modules of web/, and their types: a test compares them.

Run it after a change of one of these modules or of their types in web/, and commit what it writes.
"""
import pathlib
import re

ROOT = pathlib.Path(__file__).resolve().parent.parent
MODULES = "core der digests directory hosts keys making names pem rules services values".split()
# The files of types, and their names in web/node/.
TYPES = {"cimaroly": "index", "fields": "fields"}
HEAD = "// This file is written by tools/make_commonjs.py from web/{}.\n\n"

IMPORT = re.compile(r'^import (\{[^}]*\}) from "\./(\w+)\.mjs";$', re.M)
TYPE_IMPORT = re.compile(r'^((?:import|export) type \{[^}]*\} from "\./\w+)\.js";$', re.M)
EXPORT_LIST = re.compile(r"^export \{([^}]*)\};\n\n?", re.M)
EXPORT = re.compile(r"^export ((?:class|const|(?:async )?function\*?) (\w+))", re.M)


def behind_licence(head, text):
    """The text with a head behind the line that says its licence, if it has one."""
    licence, rest = re.fullmatch(r"(// SPDX-License-Identifier: [^\n]*\n)?\n?(.*)", text, re.S).groups()
    return (licence or "") + head + rest


def common(name, text):
    """The CommonJS module of an ES module."""
    listed = [it.strip() for found in EXPORT_LIST.findall(text) for it in found.split(",")]
    exported = sorted([*(it for it in listed if it), *(name for _, name in EXPORT.findall(text))])
    text = IMPORT.sub(r'const \1 = require("./\2.cjs");', text)
    text = EXPORT.sub(r"\1", EXPORT_LIST.sub("", text))
    lines = "".join(f"  {it},\n" for it in exported)
    head = HEAD.format(f"{name}.mjs") + '"use strict";\n\n'
    return behind_licence(head, f"{text}\nmodule.exports = {{\n{lines}}};\n")


def common_types(name, text):
    """The types of a CommonJS module."""
    return behind_licence(HEAD.format(f"{name}.d.ts"), TYPE_IMPORT.sub(r'\1.cjs";', text))


def text_of(path):
    return (ROOT / path).read_text(encoding="utf-8")


def made(read=text_of):
    """The text of each file that is written, by its path; `read` gives that of a file that it is made of."""
    texts = {f"web/node/{name}.cjs": common(name, read(f"web/{name}.mjs")) for name in MODULES}
    types = {f"web/node/{to}.d.cts": common_types(name, read(f"web/{name}.d.ts")) for name, to in TYPES.items()}
    return {**texts, **types}


if __name__ == "__main__":
    for file, content in made().items():
        (ROOT / file).write_text(content, encoding="utf-8")
