#!/usr/bin/env python3
"""Makes table.tsv: inputs, and what every binding must tell of them.

usage: bindings/tests/make_table.py

No answer comes from Cimaroly. OpenSSL says where elements stand (asn1parse), and what a certificate's names and times are; the
package cryptography, which bytes are signed, and which extensions there are. By hand, from X.690 and the RFCs, stands below and
in by_hand.py what each input is: which deviations it has and over which element, what its DER encoding is, and why, at which byte
and in which field it is refused.

The table needs to be made again only where a row is added. It wants openssl and cryptography 42 or later. README.md of this
folder tells what the columns are.
"""

import functools
import importlib.util
import json
import os
import re
import subprocess
import sys

from cryptography import x509
from cryptography.hazmat.primitives import serialization

HERE = os.path.dirname(os.path.abspath(__file__))
ROOT = os.path.dirname(os.path.dirname(HERE))
TESTS = f"{ROOT}/tools/tests"
DATA = f"{TESTS}/data"


def module_at(path, name):
    """The module of a file that stands elsewhere in the repository."""
    spec = importlib.util.spec_from_file_location(name, path)
    module = importlib.util.module_from_spec(spec)
    spec.loader.exec_module(module)
    return module


sys.dont_write_bytecode = True
make = module_at(f"{DATA}/make.py", "make")
rows = module_at(f"{TESTS}/program_rows.py", "program_rows")
by_hand = module_at(f"{HERE}/by_hand.py", "by_hand")
made = module_at(f"{HERE}/made.py", "made")
asked = module_at(f"{HERE}/asked.py", "asked")

COLUMNS = [
    "name",
    "kind",
    "input",
    "result",
    "deviations",
    "encoding",
    "error",
    "signed",
    "fields",
    "extensions",
    "subject",
    "not_before",
    "not_after",
    "values",
    "field",
    "common_name",
    "serial_number",
    "unix_times",
    "dns_names",
    "rfc4514",
    "key",
    "signature",
    "key_identifiers",
]

# Steps to an element: the number of a part, from 0, or into the content of an OCTET STRING.
CONTENT = "content"
# The fields of a certificate that has a version: its signature, and its first extension.
SIGNATURE, EXTENSION = (0, 2), (0, 7, 0, 0)
HASH_WITH_NULL = make.sequence(make.oid("2.16.840.1.101.3.4.2.1"), make.NULL)
ORDERED = make.sequence(make.element(0x80, bytes(20)), make.element(0x82, b"\x05"))
ALTERNATIVE = make.sequence(make.element(0x82, b"example.org"))

# A file with deviations: as what it is read, the number of each deviation with the steps to the element that it stands over
# (README's table says what each is), and the DER encoding of the value.
DEVIATIONS = {
    "deviation_1_rsa_parameters.pem": (
        "certificate",
        [(1, SIGNATURE), (1, (1,))],
        make.certificate(signature=make.RSA, outer=make.RSA),
    ),
    "deviation_2_raw_algorithm.hex": (
        "raw-algorithm",
        [(2, ())],
        make.sequence(make.oid("1.2.840.113549.2.9"), make.NULL),
    ),
    "deviation_3_hash_parameters.pem": (
        "certificate",
        [(3, (*it, *steps)) for it in (SIGNATURE, (1,)) for steps in ((1, 0, 0), (1, 1, 0, 1))],
        make.certificate(signature=make.pss(HASH_WITH_NULL, b"\x20")),
    ),
    # (the salt's length of 2^64 - 1)
    "deviation_4_salt.pem": (
        "certificate",
        [(4, (*SIGNATURE, 1)), (4, (1, 1))],
        make.certificate(signature=make.pss(HASH_WITH_NULL, b"\x00" + b"\xff" * 8)),
    ),
    "deviation_5_version.pem": ("certificate", [(5, (0,))], make.certificate(version=b"")),
    "deviation_6_extensions.pem": ("certificate", [(6, (0,))], make.certificate()),
    "deviation_7_critical.pem": (
        "certificate",
        [(7, EXTENSION)],
        make.certificate(extensions=[make.extension("2.5.29.19", make.sequence())]),
    ),
    "deviation_8_authority.pem": (
        "certificate",
        [(8, (*EXTENSION, 1, CONTENT))],
        make.certificate(extensions=[make.extension("2.5.29.35", ORDERED)]),
    ),
    "deviation_9_general_name.pem": (
        "certificate",
        [(9, (*EXTENSION, 1, CONTENT, 0))],
        make.certificate(extensions=[make.extension("2.5.29.17", ALTERNATIVE)]),
    ),
    "deviation_10_private_key.hex": (
        "private-key",
        [(10, ())],
        make.sequence(make.element(2, b"\x00"), make.ED25519, make.element(4, make.element(4, bytes(range(32))))),
    ),
}

# Over which elements the deviations of the program's rows stand, where a row has some, in the order of the rows.
PLACES = [
    [(2, ())],
    [(2, ())],
    [(1, ())],
    [(3, (1, 0, 0)), (3, (1, 1, 0, 1))],
    [(7, (0,))],
    [(8, (0, 1, CONTENT))],
    [(1, (0,))],
    [(10, ())],
    [(10, ())],
    [(1, (1,))],
    # (the signature inside is complete, the one outside isn't)
    [(5, (0,)), (1, (1,))],
    [(6, (0,)), (1, (1,))],
]

# The fields of what has fields, by their names in cimaroly.h: the steps to the structure, and its fields in their order, each
# with the tag that an optional one has.
FIELDS = {
    "certificate": {
        (): ["tbs_certificate", "signature_algorithm", "signature_value"],
        (0,): [
            ("version", "cont [ 0 ]"),
            "serial_number",
            "signature",
            "issuer",
            "validity",
            "subject",
            "subject_public_key_info",
            ("issuer_unique_id", "cont [ 1 ]"),
            ("subject_unique_id", "cont [ 2 ]"),
            ("extensions", "cont [ 3 ]"),
        ],
    },
    "request": {
        (): ["certification_request_info", "signature_algorithm", "signature"],
        (0,): ["version", "subject", "subject_public_key_info", "attributes"],
    },
    "private-key": {
        (): ["version", "private_key_algorithm", "private_key", ("skipped", "cont [ 0 ]"), ("public_key", "cont [ 1 ]")],
    },
    "crl": {
        (): ["tbs_cert_list", "signature_algorithm", "signature_value"],
        (0,): [
            ("version", "INTEGER"),
            "signature",
            "issuer",
            "this_update",
            ("next_update", "UTCTIME"),
            ("revoked_certificates", "SEQUENCE"),
            ("crl_extensions", "cont [ 0 ]"),
        ],
    },
}
FIELDS |= {f"{kind}-outline": FIELDS[kind] for kind in ("certificate", "request", "private-key")}


# The kinds whose first field is what a signature covers.
SIGNED = ("certificate", "request", "certificate-outline", "request-outline", "crl")


def openssl(*words, data):
    """What OpenSSL prints."""
    return subprocess.run(["openssl", *words], input=data, capture_output=True, check=True).stdout


@functools.lru_cache(maxsize=None)
def elements(der):
    """Start, size of the header, end, depth and tag of each element."""
    found = []
    for line in openssl("asn1parse", "-inform", "DER", data=der).decode("utf-8", "replace").splitlines():
        told = re.match(r" *(\d+):d=(\d+) +hl=(\d+) +l= *(\d+) +(?:cons|prim): +(.*)", line)
        # (a line feed in a text begins a line that tells of none)
        if told:
            start, depth, header, length = map(int, told.groups()[:4])
            found.append((start, header, start + header + length, depth, told.group(5).split(":")[0].strip()))
    return found


def parts_of(found, outer):
    """The elements right inside of one."""
    return [it for it in found if outer[0] < it[0] and it[2] <= outer[2] and it[3] == outer[3] + 1]


def span_of(der, steps, start=0):
    """Start and end of the element that steps lead to, from the first one."""
    found = elements(der)
    here = found[0]
    for number, step in enumerate(steps):
        if step == CONTENT:
            inner = here[0] + here[1]
            return span_of(der[inner : here[2]], steps[number + 1 :], start + inner)
        here = parts_of(found, here)[step]
    return start + here[0], start + here[2]


def fields_of(der, kind):
    """Start and end of each field that stands there, by its name."""
    spans = {}
    for steps, names in FIELDS.get(kind, {}).items():
        found = elements(der)
        here = found[0]
        for step in steps:
            here = parts_of(found, here)[step]
        left = parts_of(found, here)
        for it in names:
            name, tag = it if isinstance(it, tuple) else (it, None)
            if tag is None or (left and left[0][4] == tag):
                spans[name] = (left[0][0], left[0][2])
                del left[0]
        assert not left, left
    return spans


def extensions_of(der, kind):
    """Of each extension its identifier, and start and end of it and of its fields; of one that is left out 0 and 0."""
    found = elements(der)
    if kind == "certificate":
        tagged = [it for it in parts_of(found, parts_of(found, found[0])[0]) if it[4] == "cont [ 3 ]"]
        if not tagged:
            return []
        (here,) = parts_of(found, tagged[0])
    else:
        here = found[0]
    told = []
    for it in parts_of(found, here):
        fields = parts_of(found, it)
        critical = fields[1] if len(fields) == 3 else (0, 0, 0)
        spans = [(part[0], part[2]) for part in (it, fields[0], critical, fields[-1])]
        told.append((identifier(der[fields[0][0] + 2 : fields[0][2]]), spans))
    return told


def identifier(content):
    """The arcs of an object identifier, with dots (X.690, 8.19)."""
    arcs, arc = [], 0
    for byte in content:
        arc = arc * 128 + byte % 128
        if byte < 128:
            arcs.append(arc)
            arc = 0
    first = min(arcs[0] // 40, 2)
    return ".".join(map(str, (first, arcs[0] - 40 * first, *arcs[1:])))


def name_of(der, which):
    """The relative names of a name, each a list of pairs: an attribute's long name by OpenSSL, and its value."""
    options = "lname,sep_multiline,utf8,space_eq,esc_ctrl"
    text = openssl("x509", "-inform", "DER", "-noout", f"-{which}", "-nameopt", options, data=der).decode()
    sets = []
    for line in filter(str.strip, text.splitlines()[1:]):
        sets.append([it.split(" = ", 1) for it in re.split(r" \+ (?=[A-Za-z0-9.]+ = )", line.strip())])
    return sets


def told_by_openssl(der):
    """Names, times and the serial number of a certificate that OpenSSL reads."""
    text = openssl(
        *("x509", "-inform", "DER", "-noout", "-startdate", "-enddate", "-dateopt", "iso_8601"),
        *("-subject", "-nameopt", "esc_2253,esc_ctrl,esc_msb,utf8,sep_comma_plus_space,sname", "-serial"),
        data=der,
    ).decode()
    said = dict(line.split("=", 1) for line in text.splitlines())
    values = {"serialNumber": said["serial"].lower(), "subject": name_of(der, "subject"), "issuer": name_of(der, "issuer")}
    return {
        "subject": said["subject"],
        "not_before": said["notBefore"].replace(" ", "T"),
        "not_after": said["notAfter"].replace(" ", "T"),
        "values": json.dumps(values, ensure_ascii=True, separators=(",", ":")),
    }


def same_by_cryptography(der, kind, row):
    """Whether the package cryptography finds the same bytes signed, and the same extensions."""
    if kind == "certificate":
        read = x509.load_der_x509_certificate(der)
        signed = read.tbs_certificate_bytes
        known = [(it.oid.dotted_string, it.critical) for it in read.extensions]
        mine = [(it, spans[2] != (0, 0) and der[spans[2][1] - 1] == 255) for it, spans in extensions_of(der, kind)]
        assert known == mine, (known, mine)
    else:
        signed = x509.load_der_x509_csr(der).tbs_certrequest_bytes
    start, end = map(int, row["signed"].split(".."))
    assert der[start:end] == signed


def written(spans):
    return " ".join(f"{name}={start}..{end}" for name, (start, end) in spans.items())


def row_of(name, kind, given, der, places, encoding):
    """The row of an input that is read."""
    row = dict.fromkeys(COLUMNS, "-") | {"name": name, "kind": kind, "input": given}
    spans = sorted((span_of(der, steps), number) for number, steps in places)
    row["result"] = "deviations" if places else "ok"
    row["deviations"] = " ".join(f"{number}@{start}..{end}" for (start, end), number in spans) or "-"
    row["encoding"] = "same" if encoding == der else encoding.hex()
    assert (row["encoding"] == "same") == (not places), name
    row["fields"] = written(fields_of(der, kind)) or "-"
    if kind in SIGNED:
        row["signed"] = "{}..{}".format(*span_of(der, (0,)))
    if kind in ("certificate", "extensions"):
        told = [f"{it}={','.join(f'{start}..{end}' for start, end in spans)}" for it, spans in extensions_of(der, kind)]
        row["extensions"] = " ".join(told) or "none"
    return row


def refused_row(name, kind, given, number, at, field):
    error = "-" if number is None else f"{number}@{at}"
    row = {"name": name, "kind": kind, "input": given, "result": "refused", "error": error, "field": field}
    return dict.fromkeys(COLUMNS, "-") | row


def bytes_of(name):
    """The bytes of a file of tools/tests/data."""
    with open(f"{DATA}/{name}", "rb") as file:
        text = file.read().decode()
    if name.endswith(".hex"):
        return bytes.fromhex(text)
    return b"".join(make.base64.b64decode(it) for it in re.findall(r"-----BEGIN [A-Z0-9 ]+-----\n([^-]+)-----END", text))


def rows_of_files():
    for name, kind in by_hand.IN_DER.items():
        der = bytes_of(name)
        row = row_of(name.partition(".")[0], kind, name, der, [], der)
        # (names that a terminal obeys are printed as other text, or aren't read)
        is_hostile = name.startswith("hostile")
        if kind == "certificate" and not is_hostile:
            row |= told_by_openssl(der) | asked.asked_of(der)
        if kind in ("certificate", "request") and not is_hostile:
            same_by_cryptography(der, kind, row)
        if kind == "public-key":
            again = serialization.load_der_public_key(der).public_bytes(
                serialization.Encoding.DER, serialization.PublicFormat.SubjectPublicKeyInfo
            )
            assert again == der
        yield row
    for name, (kind, places, encoding) in DEVIATIONS.items():
        yield row_of(name.partition(".")[0], kind, name, bytes_of(name), places, encoding)
    yield from rows_of_outlines()
    # the time of month 13 is the content behind its header
    month = span_of(bytes_of("refused_month_13.pem"), (0, 4, 0))[0] + 2
    yield refused_row("refused_month_13", "certificate", "refused_month_13.pem", 11, month, by_hand.NOT_BEFORE)


def rows_of_outlines():
    """Outlines of files that deviate in their frame, and files that are of no kind that is read whole."""
    for name in ("deviation_5_version.pem", "deviation_6_extensions.pem", "deviation_7_critical.pem"):
        _, places, encoding = DEVIATIONS[name]
        yield row_of(f"outline_{name.partition('.')[0]}", "certificate-outline", name, bytes_of(name), places, encoding)
    for name, kind, steps, field in by_hand.OUTLINES:
        # refused at the algorithm's identifier
        yield refused_row(f"{name.partition('.')[0]}_whole", kind, name, 13, span_of(bytes_of(name), steps)[0], field)


def rows_of_the_program():
    """The rows that the program x509_tool is tested with."""
    left, reasons = list(PLACES), by_hand.reasons(rows)
    for number, (kind, given, encoding, counts) in enumerate(rows.ACCEPTED):
        der, told = bytes.fromhex(given), list(map(int, counts.split()))
        places = left.pop(0) if any(told) else []
        assert told == [sum(it == kind for it, _ in places) for kind in range(1, 11)], given
        yield row_of(f"accepted_{number + 1}", kind, der.hex(), der, places, bytes.fromhex(encoding))
    for number, (kind, given) in enumerate(rows.REFUSED):
        digits = given.strip()
        yield refused_row(f"refused_{number + 1}", kind, digits, *reasons.get(digits, (None, None, "-")))


def rows_by_cryptography():
    for name, kind, der in made.by_cryptography():
        row = row_of(name, kind, der.hex(), der, [], der)
        if kind == "certificate":
            row |= told_by_openssl(der) | asked.asked_of(der)
        if kind in ("certificate", "request"):
            same_by_cryptography(der, kind, row)
        yield row


def rows_by_hand():
    for name, kind, digits in by_hand.FURTHER:
        der = bytes.fromhex(digits)
        yield row_of(name, kind, digits, der, [], der)
    for kind, digits, damages in by_hand.DAMAGES:
        for name, at, byte, *told in damages:
            damaged = bytearray.fromhex(digits)
            damaged[at] = byte
            yield refused_row(name, kind, damaged.hex(), *told)
    for it in by_hand.REFUSED:
        yield refused_row(*it)


def main():
    table = [*rows_of_files(), *rows_of_the_program(), *rows_by_cryptography(), *rows_by_hand()]
    names = [it["name"] for it in table]
    assert len(set(names)) == len(names), "a name stands twice"
    with open(f"{HERE}/table.tsv", "w", encoding="utf-8") as file:
        for it in [dict(zip(COLUMNS, COLUMNS)), *table]:
            assert not any("\t" in it[column] for column in COLUMNS), it["name"]
            file.write("\t".join(it[column] for column in COLUMNS) + "\n")
    print(f"{len(table)} rows")


if __name__ == "__main__":
    main()
