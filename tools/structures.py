#!/usr/bin/env python3
"""Writes the mechanical code of plain ASN.1 structures from their declarations (tools/asn1_declarations.py).

usage: tools/structures.py [--check] [DECLARATIONS ..]   DECLARATIONS such as crates/NAME/declarations.asn1; else each there is

For each declaration of a crate it writes the type and its impls (`src/structures/`), where its fields stand (`specs/fields/`),
facts (`specs/facts/structures/`), the law of fields and the answers that are needed (`proofs/structures/`), and the modules over
them. Then run `rt fmt` in the crate. What it writes is proved like all other code, so that nothing rests on this script; what it
doesn't write any more, it removes. The grammar of each type stands in the crate's `specs/`, by hand, from the standard: for NAME
in snake case `name_parts`, `name_inner` and `name_content` of a SEQUENCE, `name_parts` and `name_base` of a CHOICE, with their
`Fields`, and `name` of each, the outer tag included. A declaration that says otherwise isn't proved.

Types of fields are those of structure_types.tsv here, those of a file of that name beside the declarations, and those declared.
With --check nothing is written: each file that isn't what would be written, but for its layout, is told, with exit status 1.
"""

import glob
import os
import re
import sys

import structure_code as code
import structure_specs as specs
from asn1_declarations import BadDeclaration, Reader, types_in

ROOT = os.path.dirname(os.path.dirname(os.path.abspath(__file__)))
NAME = "declarations.asn1"
WRITTEN = re.compile(r"ritten by `?tools/structures\.py`? from")
# Where this script writes, in a crate.
PLACES = ("src/structures.rt", "src/structures/*.rt", "specs/fields.antt", "specs/fields/*.antt", "specs/facts/structures.antt",
          "specs/facts/structures/*.antt", "proofs/structures/**/Answers.antt")


def read(path):
    with open(path, encoding="utf-8") as file:
        return file.read()


class Grammar:
    """Which module of a crate's specs/ defines a name."""

    def __init__(self, folder, crate):
        self.crate = crate
        self.found = {}
        for path in glob.glob(f"{folder}/specs/*.antt"):
            for name in re.findall(r"^(?:abbrev )?pub (\w+) :", read(path), re.MULTILINE):
                self.found[name] = os.path.basename(path).removesuffix(".antt")

    def __call__(self, name):
        return f"{self.crate}.specs.{self.found[name]}"


def files_of(folder):
    """What is written for the declarations of a crate, by path."""
    crate = os.path.basename(folder)
    known = types_in(f"{ROOT}/tools/structure_types.tsv")
    if os.path.exists(f"{folder}/structure_types.tsv"):
        known |= types_in(f"{folder}/structure_types.tsv")
    module = Grammar(folder, crate)
    declared = Reader(f"{folder}/{NAME}", known, module).read(read(f"{folder}/{NAME}"))
    structures = [it for it in declared if it.kind != "LIST"]
    files = {
        "src/structures.rt": code.modules(declared, NAME),
        "src/structures/laws.rt": code.laws(declared, crate, module, NAME),
        "specs/fields.antt": specs.modules([it.name for it in structures], "Where fields stand", NAME),
        "specs/facts/structures.antt": specs.modules([it.name for it in structures], "Facts about structures", NAME),
    }
    for made in declared:
        files |= files_for(made, crate, module(made.snake))
    return files


def files_for(made, crate, home):
    """What is written for one declaration."""
    source = f"src/structures/{made.snake}.rt"
    law = {f"proofs/structures/laws/{made.snake}_fields/Answers.antt": specs.law(made, crate, home, NAME)}
    decides = f"proofs/structures/{made.snake}/{made.name}SameEq/decides/Answers.antt"
    facts, at = f"specs/facts/structures/{made.name}.antt", f"specs/fields/{made.name}.antt"
    if made.kind == "LIST":
        return {source: code.alias(made, NAME)} | law
    if made.kind == "CHOICE":
        return law | {
            source: code.choice(made, crate, home, NAME),
            facts: specs.choice_facts(made, crate, home, NAME),
            at: specs.choice_at(made, crate, NAME),
            decides: specs.choice_decides(made, crate, NAME),
        }
    return law | {
        source: code.sequence(made, crate, home, NAME),
        facts: specs.sequence_facts(made, crate, home, NAME),
        at: specs.sequence_at(made, crate, NAME),
        decides: specs.sequence_decides(made, crate, home, NAME),
    }


def written_in(folder):
    """The files of a crate that say that they are written by this script."""
    found = [path for place in PLACES for path in glob.glob(f"{folder}/{place}", recursive=True)]
    return {os.path.relpath(path, folder) for path in found if WRITTEN.search(read(path).partition("\n")[0])}


def bare(text):
    """A text without its layout, which `rt fmt` decides."""
    return re.sub(r",(?=[)\]}>])", "", re.sub(r"\s+", "", text.replace("///", "").replace("//!", "")))


def differences(folder):
    """Each file that isn't what would be written."""
    files = files_of(folder)
    for path, text in sorted(files.items()):
        if not os.path.exists(f"{folder}/{path}"):
            yield f"{folder}/{path}: missing"
        elif bare(read(f"{folder}/{path}")) != bare(text):
            yield f"{folder}/{path}: not what is written"
    for path in sorted(written_in(folder) - set(files)):
        yield f"{folder}/{path}: no declaration is left of it"


def write(folder):
    files = files_of(folder)
    for path, text in files.items():
        path = f"{folder}/{path}"
        if not os.path.exists(path) or bare(read(path)) != bare(text):
            os.makedirs(os.path.dirname(path), exist_ok=True)
            with open(path, "w", encoding="utf-8") as file:
                file.write(text)
    for path in written_in(folder) - set(files):
        os.remove(f"{folder}/{path}")
    print(f"{os.path.relpath(folder, ROOT)}: {len(files)} files")


def main():
    arguments = sys.argv[1:]
    check = "--check" in arguments
    named = [os.path.dirname(os.path.abspath(it)) for it in arguments if it != "--check"]
    folders = named or [os.path.dirname(it) for it in sorted(glob.glob(f"{ROOT}/crates/*/{NAME}"))]
    try:
        found = [line for folder in folders for line in differences(folder)] if check else [write(folder) for folder in folders]
    except BadDeclaration as why:
        sys.exit(str(why))
    if check:
        print("\n".join([*found, f"{len(found)} differences"]))
        sys.exit(1 if found else 0)


if __name__ == "__main__":
    main()
