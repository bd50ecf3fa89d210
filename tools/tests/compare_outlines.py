#!/usr/bin/env python3
"""Compares which certificates and revocation lists are read, whole or in outline, with those that OpenSSL reads.

usage: tools/tests/compare_outlines.py FOLDER ..

It takes every PEM block, and every file in DER, below these folders: such as what `apt-get source` unpacks of gnutls, botan or
openssl, or python3-cryptography-vectors. For each kind a line tells how many OpenSSL reads and how many of these are read whole, in
outline, or not at all; below it, why, and an example. The program is $CIMAROLY, or that of dist/.
"""

import base64
import collections
import json
import os
import platform
import re
import subprocess
import sys
import tempfile

ROOT = os.path.dirname(os.path.dirname(os.path.dirname(os.path.abspath(__file__))))
PROGRAM = os.environ.get("CIMAROLY") or f"{ROOT}/dist/{platform.machine()}-linux/cimaroly"
BLOCK = re.compile(rb"-----BEGIN (X509 CERTIFICATE|TRUSTED CERTIFICATE|CERTIFICATE|X509 CRL)-----(.*?)-----END", re.DOTALL)
# Of each kind the command of OpenSSL.
KINDS = {"certificate": "x509", "crl": "crl"}


def blocks_of(data):
    """The kind and the bytes of each structure in a file."""
    for label, text in BLOCK.findall(data):
        try:
            der = base64.b64decode(b"".join(text.split()), validate=True)
        except ValueError:
            continue
        if label != b"TRUSTED CERTIFICATE":
            yield "crl" if label == b"X509 CRL" else "certificate", der
    if data[:1] == b"\x30":
        yield from ((kind, data) for kind in KINDS)


def structures(folders):
    """Each structure once, with the file that it stands in."""
    found = {}
    for folder in folders:
        for at, _, names in os.walk(folder):
            for name in sorted(names):
                path = os.path.join(at, name)
                if os.path.isfile(path) and os.path.getsize(path) < 1 << 22:
                    with open(path, "rb") as file:
                        for kind, der in blocks_of(file.read()):
                            found.setdefault((kind, der), path)
    return found


def is_read_by_openssl(kind, der):
    words = ["openssl", KINDS[kind], "-inform", "DER", "-noout"]
    return subprocess.run(words, input=der, capture_output=True, check=False).returncode == 0


def outcome_of(path, *words):
    """What the program says of a file in DER: its result, and why it is refused."""
    ran = subprocess.run([PROGRAM, "check", "--json", *words, path], capture_output=True, check=False)
    told = json.loads(ran.stdout.splitlines()[0])
    return told["result"], told.get("reason", "")


def compare(kind, ders, room):
    counts, reasons = collections.Counter(), collections.defaultdict(list)
    for der, origin in ders:
        if not is_read_by_openssl(kind, der):
            continue
        path = f"{room}/input"
        with open(path, "wb") as file:
            file.write(der)
        words = ["--type", "certificate"] if kind == "certificate" else []
        result, _ = outcome_of(path, *words)
        if result in ("ok", "deviations"):
            counts["whole"] += 1
            continue
        result, reason = outcome_of(path, *words, "--outline")
        if result in ("ok", "deviations"):
            counts["in outline"] += 1
        else:
            counts["not at all"] += 1
            reasons[reason or result].append(origin)
    return counts, reasons


def main():
    if len(sys.argv) < 2:
        sys.exit(__doc__)
    found = structures(sys.argv[1:])
    with tempfile.TemporaryDirectory(prefix="outlines-") as room:
        for kind in KINDS:
            ders = [(der, path) for (it, der), path in found.items() if it == kind]
            counts, reasons = compare(kind, ders, room)
            total = sum(counts.values())
            read = total - counts["not at all"]
            share = 100 * read / total if total else 0
            print(f"{kind}: OpenSSL reads {total}; {counts['whole']} are read whole, {counts['in outline']} in outline: {share:.1f} %")
            for reason, origins in sorted(reasons.items(), key=lambda it: -len(it[1])):
                print(f"  {len(origins)} {reason}: {origins[0]}")


if __name__ == "__main__":
    main()
