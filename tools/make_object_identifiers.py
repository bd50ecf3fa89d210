#!/usr/bin/env python3
"""Writes the two tables of object identifiers from object_identifiers.tsv, and the names of these and of further_names.tsv.

A further identifier is one more line there; then run tools/make_tables.py, which this is a part of. What names stand for is
written of these two and of short_names.tsv.
"""
import csv
import pathlib

HERE = pathlib.Path(__file__).resolve().parent
TITLES = {
    "x509_oids_algorithms": "Object identifiers of algorithms and curves.",
    "x509_oids_objects": "Object identifiers of content types, attributes, extensions, key purposes and other objects.",
}

HEAD = """//! {title}
//!
//! Each has a constant, its dotted text, and a function that makes it. This file is written by
//! `tools/make_object_identifiers.py` from `tools/object_identifiers.tsv`.
#![tactic(auto, unfolding(x509_der::specs::ObjectIdentifier::digits))]

ghost use Rattle.std.specs.Prelude.{{◌≡◌, ◌∷◌, [], IfOk}};
ghost use Rattle.x509_der.specs.ObjectIdentifier.{{dotted}};

use std::alloc::{{AllocError, Allocator}};
use x509_der::ObjectIdentifier;
use x509_der::parts::from_lawful;
"""

ENTRY = """
/// `{arcs}` ({source}).
pub const {constant}: &'static str = "{arcs}";

/// The object identifier `{constant}`, `{arcs}`.
///
/// # Errors
/// `AllocError` where memory is refused.
{signature}
    ensures arcs {{ IfOk result (λ o. o ≡ {listed}) }}
    ensures text {{ {constant}.now ≡ dotted ({listed}) }}
{{
    from_lawful(alloc, &[{array}])
}}
"""

# What the names under the first arcs stand in: one file for all would be long.
MODULES = {(1, 2): "members", (1, 3): "organizations"}
OTHERS = "itu"
NAMES_TITLES = {
    "itu": "Names of ITU-T's identifiers, under arc 0, and of those that it shares with ISO, under arc 2.",
    "members": "Names of the identifiers of ISO's member bodies, under 1.2.",
    "organizations": "Names of the identifiers of organizations that ISO knows, under 1.3.",
}
NAMES_HEAD = """//! {title}
//! This file is written by `tools/make_object_identifiers.py`.

use crate::table::{{Names, Table}};
"""


def rows_of(name):
    with open(HERE / name, newline="", encoding="utf-8") as file:
        return list(csv.DictReader(file, delimiter="\t"))


def path_of(crate, file="lib.rt"):
    return f"crates/{crate}/src/{file}"


def signature_of(function):
    """The head of a function that makes an identifier, as `rt fmt` breaks it."""
    line = f"pub fn {function}<A: Allocator>(alloc: A) -> Result<ObjectIdentifier<A>, AllocError>"
    return line if len(line) <= 100 else line.replace("(alloc: A)", "(\n    alloc: A,\n)")


def identifiers(crate, rows):
    """The text of a table of identifiers."""
    text = HEAD.format(title=TITLES[crate])
    for row in (it for it in rows if it["crate"] == crate):
        arcs = row["arcs"].split(".")
        listed, array = " ∷ ".join(arcs + ["[]"]), ", ".join(arcs)
        text += ENTRY.format(**row, signature=signature_of(row["function"]), listed=listed, array=array)
    return text


# How long an array may be that `rt fmt` leaves on one line, with what stands round it.
SHORT = 64

# How many lines of a table a function has: a longer one takes long to prove.
LINES = 16


def pair(constant, name):
    """A pair of a table, as `rt fmt` breaks it."""
    if len(f"{constant}, {name}") <= 60:
        return f"    ({constant}, {name}),\n"
    return f"    (\n        {constant},\n        {name},\n    ),\n"


def names_under(front, named):
    """The names under some arcs, and the line of the table that has them, as `rt fmt` breaks it."""
    constant = f"UNDER_{'_'.join(map(str, front))}"
    text = f"\n/// The names under {'.'.join(map(str, front))}.\nconst {constant}: Names = "
    lines = [f'({last}, "{name}")' for last, name in sorted(named)]
    row = f"&[{', '.join(lines)}];\n"
    text += row if len(row) <= SHORT else "".join(["&[\n", *(f"    {line},\n" for line in lines), "];\n"])
    return text, pair(f"&[{', '.join(map(str, front))}]", constant)


def names_texts(rows):
    """The tables of names, by module: a constant for the identifiers under the same arcs, the shortest of these first."""
    fronts = {}
    for row in rows:
        *front, last = row["arcs"].split(".")
        fronts.setdefault(tuple(map(int, front)), []).append((int(last), row["name"]))
    constants, lines = dict.fromkeys(NAMES_TITLES, ""), dict.fromkeys(NAMES_TITLES, "")
    for front, named in sorted(fronts.items(), key=lambda it: (len(it[0]), it[0])):
        module = MODULES.get(front[:2], OTHERS)
        constant, line = names_under(front, named)
        constants[module] += constant
        lines[module] += line
    texts = {}
    for module, title in NAMES_TITLES.items():
        text = NAMES_HEAD.format(title=title) + constants[module]
        text += f"\n/// All of them, by the arcs before the last.\npub const TABLE: Table = &[\n{lines[module]}];\n"
        texts[path_of("x509_oid_names", f"{module}.rt")] = text
    return texts


TESTS_HEAD = """//! The identifiers of the two tables, each with its name. This file is written by `tools/make_object_identifiers.py`.

use super::are_named;
use std::alloc::Global;
use std::process::Abort;
use x509_oids_algorithms as algorithms;
use x509_oids_objects as objects;
"""

def tests_text(rows):
    """The tables of names that a test compares with what the crate of names answers."""
    text = TESTS_HEAD
    parts = [rows[at : at + LINES] for at in range(0, len(rows), LINES)]
    for number, part in enumerate(parts, 1):
        text += f"\nconst NAMES_{number}: &'static [(&'static str, &'static str)] = &[\n"
        for row in part:
            text += pair(f'{row["crate"].removeprefix("x509_oids_")}::{row["constant"]}', f'"{row["name"]}"')
        text += f"];\n\nfn names_{number}(rt: &impl Abort, alloc: Global) {{\n"
        text += f"    are_named(rt, alloc, NAMES_{number});\n}}\n"
    text += "\n/// Asks that each identifier has its name.\npub(super) fn all_named(rt: &impl Abort, alloc: Global) {\n"
    for number in range(1, len(parts) + 1):
        text += f"    names_{number}(rt, alloc);\n"
    return text + "}\n"


BY_NAME_HEAD = """//! {title}
//!
//! This file is written by `tools/make_object_identifiers.py`.

use crate::table::Table;
"""

BY_NAME_TITLES = {
    "algorithms": "What the names of algorithms and curves stand for.",
    "objects": "What the names of attributes, extensions, key purposes and other objects stand for.",
    "further": "What further names stand for, and short ones.",
}


def by_name_texts(parted):
    """The tables of what names stand for, by module: a constant for so many lines, and one for all of these."""
    texts = {}
    for module, rows in parted.items():
        parts = [sorted(rows, key=lambda row: row["name"])[at : at + LINES] for at in range(0, len(rows), LINES)]
        text = BY_NAME_HEAD.format(title=BY_NAME_TITLES[module])
        for number, part in enumerate(parts, 1):
            text += f"\n/// From `{part[0]['name']}` to `{part[-1]['name']}`.\n"
            text += f"const NAMES_{number}: Table = &[\n"
            for row in part:
                text += pair(f'"{row["name"]}"', f'&[{", ".join(row["arcs"].split("."))}]')
            text += "];\n"
        names = ", ".join(f"NAMES_{number}" for number in range(1, len(parts) + 1))
        line = f"pub const TABLES: &'static [Table] = &[{names}];"
        wrapped = f"pub const TABLES: &'static [Table] = &[\n    {names},\n];"
        text += f"\n/// All of them.\n{line if len(line) <= 100 else wrapped}\n"
        texts[path_of("x509_oids_by_name", f"{module}.rt")] = text
    return texts


def made():
    """The text of each file that is written, by its path."""
    rows = rows_of("object_identifiers.tsv")
    texts = {path_of(crate): identifiers(crate, rows) for crate in TITLES}
    texts |= names_texts(rows + rows_of("further_names.tsv"))
    parted = {it.removeprefix("x509_oids_"): [row for row in rows if row["crate"] == it] for it in TITLES}
    texts |= by_name_texts({**parted, "further": rows_of("further_names.tsv") + rows_of("short_names.tsv")})
    return {**texts, "crates/x509_report_tests/src/tests/names.rt": tests_text(rows)}


if __name__ == "__main__":
    for file, content in made().items():
        (HERE.parent / file).write_text(content, encoding="utf-8")
