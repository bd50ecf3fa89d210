#!/usr/bin/env python3
"""Checks that every edit of the crates' must-fail/, planted/ and more-edits/ can be applied, and that none got lost.

usage: tools/check_edits.py

A line is printed for each edit whose texts don't stand in their files (tools/edits.py), that names a function which it doesn't
change, or that is to be planted and names none; for each other file among the edits, and folder that a crate doesn't have. Exit
status 1 where any is printed, or where the gate would try another number of edits of a crate than stands below.
"""

import os
import re
import sys

from edits import FOLDERS, ROOT, BadEdit, Edit, edits_in

# What a crate's folder may hold.
PARTS = {"src", "specs", "proofs", "out", *FOLDERS}

# How many edits the gate tries in these crates together.
BUDGETS = [
    (22, ["x509_der"]),
    (24, ["x509_der_parts"]),
    (7, ["x509_prim", "x509_prim_parts"]),
    (16, ["x509_names", "x509_names_parts"]),
    (16, ["x509_keys_parts"]),
    (12, ["x509_keys"]),
    (14, ["picky_asn1_x509_parts"]),
    (13, ["picky_asn1_x509"]),
    (9, ["x509_tool_parts", "x509_callers", "refusing"]),
    (13, ["x509_fields"]),
    (10, ["x509_values"]),
    (10, ["x509_findings_parts"]),
    (2, ["x509_rules"]),
    (9, ["x509_findings"]),
    (3, ["x509_findings_memory"]),
    (2, ["x509_oids_algorithms", "x509_oids_objects"]),
    (4, ["x509_outline_parts"]),
    (2, ["x509_outline"]),
    (2, ["x509_outline_fields"]),
    (2, ["x509_more_outlines", "x509_list_outlines"]),
    (3, ["x509_outline_kinds", "x509_inspect_outlines"]),
    (4, ["x509_make"]),
    (10, ["x509_signing", "x509_signature_algorithms", "x509_pem_writer", "x509_flat_make"]),
    (4, ["x509_make_parts", "x509_oids_by_name"]),
    (7, ["x509_make_values", "x509_make_names", "x509_make_keys", "x509_make_fields"]),
    (3, ["x509_hosts"]),
    (3, ["x509_more_extensions"]),
    (12, ["x509_policies", "x509_distribution_points", "x509_qualified", "x509_timestamps", "x509_further_extensions"]),
    (10, ["x509_pem"]),
    (9, ["x509_report_parts"]),
    (3, ["x509_fingerprints"]),
    (1, ["x509_report_further"]),
    (10, ["x509_oid_names", "x509_oid_text", "x509_name_text", "x509_report_fields", "x509_inspect_parts"]),
    (15, ["x509_inspect", "cimaroly_work", "cimaroly_parts"]),
    (31, ["lent_memory", "x509_flat", "x509_flat_findings", "x509_flat_report", "cimaroly_c"]),
    (9, ["x509_flat_values"]),
    (2, ["x509_make_whole"]),
    (2, ["cimaroly_make"]),
]


def fault_of(edit, crate):
    """What is wrong with an edit, if anything."""
    try:
        read = Edit(edit, crate)
        read.applied({})
    except BadEdit as why:
        return str(why)
    if "/planted/" in edit and not read.functions:
        return "it names no function"
    return None


def strays_of(crate):
    """What a crate's folder holds that is no edit and nothing else that is known."""
    found = [f"{crate}/{it}" for it in os.listdir(crate) if os.path.isdir(f"{crate}/{it}") and it not in PARTS]
    for folder in [f"{crate}/{it}" for it in FOLDERS if os.path.isdir(f"{crate}/{it}")]:
        found += [f"{folder}/{it}" for it in os.listdir(folder) if not re.fullmatch(r"[A-Za-z0-9_-][A-Za-z0-9_.-]*\.edit", it)]
    return found


def tried(crate):
    """How many edits of a crate the gate tries."""
    return sum(len(edits_in(f"crates/{crate}/{folder}")) for folder in ("must-fail", "planted"))


def faults():
    """Each thing that is wrong, a line each."""
    for crate in [f"crates/{it}" for it in sorted(os.listdir("crates"))]:
        yield from (f"{it}: no edit" for it in strays_of(crate))
        for edit in [it for folder in FOLDERS for it in edits_in(f"{crate}/{folder}")]:
            fault = fault_of(edit, crate)
            if fault:
                yield f"{edit}: {fault}"
    for number, names in BUDGETS:
        count = sum(tried(name) for name in names)
        if count != number:
            yield f"{' and '.join(names)}: the gate tries {count} edits, and BUDGETS has {number}"


def main():
    os.chdir(ROOT)
    found = [*faults()]
    for line in found:
        print(line)
    return 1 if found else 0


if __name__ == "__main__":
    sys.exit(main())
