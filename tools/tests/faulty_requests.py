"""Requests that break one rule each, encoded here byte by byte (RFC 2986, 4; X.690), and such as keep every rule.

What a rule looks at is that of faulty_certificates.py; the signatures are no signatures.
"""

from der import element
from faulty_certificates import (
    BROKEN,
    ED25519,
    FAULTY_NAMES,
    NULL,
    RULES_OF_FIELDS,
    SORTED,
    UNSORTED,
    WELL_NAMED,
    algorithm,
    bits,
    ed25519_key,
    extension,
    identifier,
    integer,
    name,
    sequence,
)


def attribute(text, *values):
    return sequence(identifier(text), element(0x31, *values))


def asked(*extensions):
    """That extensions are asked for (RFC 2985, 5.4.2)."""
    return attribute("1.2.840.113549.1.9.14", sequence(*extensions))


# The fields that are signed of a request that keeps every rule.
FIELDS = {
    "version": integer(0),
    "subject": name("subject"),
    "subjectPublicKeyInfo": ed25519_key(),
    "attributes": (),
}


def parts_of(changes):
    """The fields that are signed, by name, and the algorithm of the signature."""
    fields = {**FIELDS, **{key: it for key, it in changes.items() if key in FIELDS}}
    fields["attributes"] = element(0xA0, *fields["attributes"])
    return fields, changes.get("signatureAlgorithm", algorithm(ED25519))


def request(**changes):
    """A request with other fields than those of FIELDS."""
    fields, outer = parts_of(changes)
    return sequence(sequence(*fields.values()), outer, bits(bytes(64)))


def place_of(field, **changes):
    """Where a field of it stands: how many bytes stand before it, and before its end."""
    fields, outer = parts_of(changes)
    part, whole = sequence(*fields.values()), request(**changes)
    start = whole.index(part)
    if field == "signatureAlgorithm":
        return start + len(part), start + len(part) + len(outer)
    at = start + len(part) - sum(map(len, fields.values()))
    for key, it in fields.items():
        if key == field:
            return at, at + len(it)
        at += len(it)
    raise KeyError(field)


# Where a request has what a rule looks at in a certificate.
PLACES = {"signature": "signatureAlgorithm", "extensions": "attributes"}

# What breaks each rule: in its fields, by a name, and by the extensions that it asks for.
BROKEN_BY_REQUEST = {
    **{it: BROKEN[it] for it in RULES_OF_FIELDS},
    "subject-set-order": [{"subject": it} for it in UNSORTED],
    **{f"subject-{it}": [{"subject": changed} for changed in names] for it, names in FAULTY_NAMES.items()},
}


def asking(listed):
    """Requests for the extensions of certificates: in one attribute, and behind others."""
    for changes in listed:
        extensions = changes["extensions"]
        yield {"attributes": (asked(*extensions),)}
        yield {"attributes": (attribute("1.2.3.4", NULL), asked(), asked(*extensions))}


# Rules that are broken by what isn't there, which an authority adds, and those about fields that a request doesn't have.
KEPT_BY_REQUEST = [
    {},
    {"subject": name()},
    {"subject": WELL_NAMED},
    {"subject": SORTED},
    {"attributes": (asked(),)},
    {"attributes": (attribute("1.2.840.113549.1.9.7", element(0x13, b"password")),)},
    {"attributes": (asked(extension("1.2.3.4", NULL)), asked(extension("1.2.3.4", NULL)))},
]
