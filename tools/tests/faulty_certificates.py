"""Certificates that break one rule each, encoded here byte by byte (X.690), and such as come close to one and keep it.

The signatures are no signatures: no rule looks at them.
"""

from der import element

# A modulus of 2,048 bits: odd, its first and its last bit set.
MODULUS = (1 << 2047) | (0x1D << 1000) | 1

ED25519, RSA = "1.3.101.112", "1.2.840.113549.1.1.1"
NULL = b"\x05\x00"


def sequence(*parts):
    return element(0x30, *parts)


def integer(value):
    """In two's complement, with the fewest octets."""
    return element(2, value.to_bytes((value + (value < 0)).bit_length() // 8 + 1, "big", signed=True))


def identifier(text):
    first, second, *arcs = map(int, text.split("."))
    content = b""
    for arc in (40 * first + second, *arcs):
        digits = [arc & 127]
        while arc := arc >> 7:
            digits.insert(0, 128 | arc & 127)
        content += bytes(digits)
    return element(6, content)


def bits(payload, unused=0):
    return element(3, bytes([unused]), payload)


def algorithm(text, *parameters):
    return sequence(identifier(text), *parameters)


def name(*texts):
    """A name with a common name for each text."""
    return sequence(*(element(0x31, sequence(identifier("2.5.4.3"), element(0x0C, it.encode()))) for it in texts))


def attributes(*rows):
    """A name with an attribute for each row: its type, and the tag and the content of its value."""
    return sequence(*(element(0x31, sequence(identifier(text), element(tag, content))) for text, tag, content in rows))


def utc(year):
    return element(0x17, f"{year % 100:02}0101000000Z".encode())


def general(year):
    return element(0x18, f"{year:04}0101000000Z".encode())


def ed25519_key():
    return sequence(algorithm(ED25519), bits(bytes(range(32))))


def rsa_key(modulus=MODULUS, exponent=65537):
    return sequence(algorithm(RSA, NULL), bits(sequence(integer(modulus), integer(exponent))))


def extension(text, value, critical=False):
    return sequence(identifier(text), *([element(1, b"\xff")] if critical else []), element(4, value))


def key_identifier(critical=False):
    return extension("2.5.29.14", element(4, b"\x01\x02\x03\x04"), critical)


KEY_IDENTIFIER = element(0x80, b"\x01\x02\x03\x04")
CERT_ISSUER = element(0xA1, element(0xA4, name("issuer")))
CERT_SERIAL = element(0x82, b"\x01")


def authority_key(*fields, critical=False):
    """Which key signed: as it stands, by its identifier."""
    return extension("2.5.29.35", sequence(*(fields or [KEY_IDENTIFIER])), critical)


def usage(payload=b"\x06", unused=1, critical=True):
    """A key usage: as it stands, keyCertSign and cRLSign."""
    return extension("2.5.29.15", bits(payload, unused), critical)


def constraints(*fields, critical=True):
    return extension("2.5.29.19", sequence(*fields), critical)


def purposes(*texts, critical=False):
    return extension("2.5.29.37", sequence(*map(identifier, texts)), critical)


def alternative_names(text="2.5.29.17", *names, others=(), critical=False):
    return extension(text, sequence(*(element(0x82, it.encode()) for it in names), *others), critical)


def address(size):
    return element(0x87, bytes(size))


def signed(*extensions):
    """These extensions, and which key signed."""
    return {"extensions": (*extensions, authority_key())}


TRUE, FALSE = element(1, b"\xff"), element(1, b"\x00")

# The fields of a certificate of an authority that keeps every rule.
FIELDS = {
    "version": element(0xA0, integer(2)),
    "serialNumber": integer(1),
    "signature": algorithm(ED25519),
    "issuer": name("issuer"),
    "validity": sequence(utc(2020), utc(2049)),
    "subject": name("subject"),
    "subjectPublicKeyInfo": ed25519_key(),
    "issuerUniqueID": b"",
    "subjectUniqueID": b"",
    "extensions": (constraints(TRUE), usage(), key_identifier(), authority_key()),
}

# The extensions of a certificate of an authority, but which key signed, and those of a certificate of somebody else.
AUTHORITY = FIELDS["extensions"][:3]
LEAF = (usage(b"\x80", 7), alternative_names("2.5.29.17", "leaf.example.org"))


def parts_of(changes):
    """The fields that are signed, by name, and the algorithm beside the signature."""
    outer = changes.get("signatureAlgorithm", algorithm(ED25519))
    fields = {**FIELDS, **{key: it for key, it in changes.items() if key in FIELDS}}
    if fields["extensions"]:
        fields["extensions"] = element(0xA3, sequence(*fields["extensions"]))
    else:
        fields |= {"extensions": b"", "version": b""}
    return fields, outer


def certificate(**changes):
    """A certificate with other fields than those of FIELDS."""
    fields, outer = parts_of(changes)
    return sequence(sequence(*fields.values()), outer, bits(bytes(64)))


def place_of(field, **changes):
    """Where a field of it stands: how many bytes stand before it, and before its end. One that is absent is in all that is signed."""
    fields, _ = parts_of(changes)
    part = sequence(*fields.values())
    whole = certificate(**changes)
    start = whole.index(part)
    if not fields[field]:
        return start, start + len(part)
    at = start + len(part) - sum(map(len, fields.values()))
    for key, it in fields.items():
        if key == field:
            return at, at + len(it)
        at += len(it)
    raise KeyError(field)


# Values of extensions: a policy that is taken for another, names that are permitted, and from where on a policy is demanded; and the
# identifiers of lists of names.
MAPPINGS = sequence(sequence(identifier("1.2.3.4"), identifier("1.2.3.5")))
PERMITTED = sequence(element(0xA0, sequence(element(0x82, b"example.org"))))
DEMANDED = sequence(element(0x80, b"\x00"))
NAMES = ("2.5.29.17", "2.5.29.18")
MAIL, URI = element(0x81, b"a@example.org"), element(0x86, b"a:b")

# Names, with the rules about texts that they break: emailAddress, countryName and so on, by their types (RFC 5280, A.1).
EMAIL, COMMON, SERIAL, COUNTRY, LOCALITY, STREET = "1.2.840.113549.1.9.1", "2.5.4.3", "2.5.4.5", "2.5.4.6", "2.5.4.7", "2.5.4.9"
PRINTABLE, UTF8, IA5, BMP = 0x13, 0x0C, 0x16, 0x1E
FAULTY_NAMES = {
    "set-empty": [sequence(element(0x31)), sequence(element(0x31, sequence(identifier(COMMON), element(UTF8, b"a"))), element(0x31))],
    "text-empty": [attributes((it, tag, b"")) for it, tag in ((COMMON, UTF8), (COMMON, PRINTABLE), (STREET, UTF8), (EMAIL, IA5))],
    "text-long": [
        attributes((COMMON, UTF8, b"a" * 65)),
        attributes((COMMON, UTF8, "\u00e9".encode() * 65)),
        attributes((COMMON, PRINTABLE, b"a" * 64), (LOCALITY, UTF8, "\U0001f600".encode() * 129)),
        attributes((SERIAL, PRINTABLE, b"1" * 65)),
        attributes((EMAIL, IA5, b"a@" + b"b" * 254)),
    ],
    "country": [attributes((COUNTRY, tag, it)) for tag, it in ((PRINTABLE, b"DEU"), (PRINTABLE, b"D"), (PRINTABLE, b"D1"), (UTF8, b"DE"))],
    "string-type": [attributes((COMMON, BMP, b"\0a")), attributes((SERIAL, UTF8, b"1")), attributes((STREET, BMP, b"\0a" * 64))],
}
WELL_NAMED = attributes(
    (COUNTRY, PRINTABLE, b"DE"),
    (COUNTRY, PRINTABLE, b"de"),
    (COMMON, UTF8, b"a" * 64),
    (COMMON, UTF8, "\U0001f600".encode() * 64),
    (SERIAL, PRINTABLE, b"1" * 64),
    (LOCALITY, UTF8, b"a" * 128),
    (STREET, UTF8, b"a" * 1000),
    ("2.5.4.4", UTF8, b"a" * 32768),
    ("2.5.4.46", BMP, b""),
)
MAILED = attributes((EMAIL, IA5, b"a@" + b"b" * 253))


def name_of_sets(*sets):
    """A name with a set for each list of common names, in the order in which they stand there."""
    return sequence(*(element(0x31, *(sequence(identifier(COMMON), element(UTF8, it)) for it in one)) for one in sets))


# Sets whose attributes aren't in the order of their encodings, and such as are (X.690, 11.6).
UNSORTED = [name_of_sets([b"b", b"a"]), name_of_sets([b"a"], [b"a", b"b", b"a"]), name_of_sets([b"aa", b"b"], [b"a"])]
SORTED = name_of_sets([b"a", b"a"], [b"b", b"aa"], [b"a", b"b", b"c"], [b"a"])


def pss(salt):
    """RSASSA-PSS with SHA-256 and a salt of so many octets, beside the signature and in what is signed."""
    sha256 = algorithm("2.16.840.1.101.3.4.2.1", NULL)
    mask = algorithm("1.2.840.113549.1.1.8", sha256)
    parameters = sequence(element(0xA0, sha256), element(0xA1, mask), element(0xA2, integer(salt)))
    both = algorithm("1.2.840.113549.1.1.10", parameters)
    return {"signature": both, "signatureAlgorithm": both}


# Names in subjectAltName that are no hosts, and that are no URIs.
NO_HOSTS = ["a b", "a..b", ".a", "a.", "-a", "a-", "a.-b", "a_b.example", "*", "a.*", "a.*.b", "**.a", "*.", "192.0.2.7", "a" * 64, "a." * 126 + "bc"]
HOSTS = ["a", "1.a", "*.a", "a-b.c", "A1", "a" * 63, "a." * 126 + "b", "1-2.3a"]
NO_URIS = [b"//example.org/", b"example.org", b":a", b"1a:b", b"a:", b"a b:c"]
URIS = [b"a:b", b"a+1-.:/", b"HTTP://example.org/"]


def named(*names, tag=0x86):
    """A certificate with these alternative names of its subject."""
    return signed(alternative_names("2.5.29.17", others=[element(tag, it) for it in names]))


# A certificate of an authority with a mail address among its subject's names.
MAIL_NAMED = {"extensions": (*FIELDS["extensions"], alternative_names("2.5.29.17", others=[MAIL]))}

# What breaks each rule, and the field at which that is told.
BROKEN = {
    "serial-not-positive": [{"serialNumber": integer(0)}, {"serialNumber": integer(-1)}],
    "serial-too-long": [{"serialNumber": integer(1 << 160)}],
    "algorithms-differ": [{"signatureAlgorithm": algorithm("1.3.101.113")}],
    "salt-length-spelled": [pss(20)],
    "issuer-empty": [{"issuer": name()}],
    "issuer-set-order": [{"issuer": it} for it in UNSORTED],
    "subject-set-order": [{"subject": it} for it in UNSORTED],
    "validity-reversed": [{"validity": sequence(utc(2049), utc(2020))}],
    "not-before-form": [{"validity": sequence(general(2049), general(2050))}],
    "not-after-form": [{"validity": sequence(utc(2020), general(2049))}],
    "subject-empty": [{"subject": name(), **signed(*LEAF)}],
    "modulus-not-positive": [{"subjectPublicKeyInfo": rsa_key(-(1 << 2048) - 1)}],
    "modulus-even": [{"subjectPublicKeyInfo": rsa_key(MODULUS + 1)}],
    "modulus-short": [{"subjectPublicKeyInfo": rsa_key((1 << 2047) - 1)}],
    "exponent-low": [{"subjectPublicKeyInfo": rsa_key(exponent=1)}, {"subjectPublicKeyInfo": rsa_key(exponent=-3)}],
    "exponent-even": [{"subjectPublicKeyInfo": rsa_key(exponent=65536)}],
    **{f"issuer-{it}": [{"issuer": changed} for changed in names] for it, names in FAULTY_NAMES.items()},
    **{f"subject-{it}": [{"subject": changed, **MAIL_NAMED} for changed in names] for it, names in FAULTY_NAMES.items()},
    "subject-mailbox-unnamed": [{"subject": MAILED}, {"subject": MAILED, **signed(alternative_names("2.5.29.17", "a"))}],
    "extension-repeated": [
        signed(extension("1.2.3.4", NULL), extension("1.2.3.4", NULL)),
        signed(alternative_names("2.5.29.17", "a"), extension("1.2.3.4", NULL), alternative_names("2.5.29.17", "b")),
        {"extensions": (authority_key(), *LEAF, authority_key())},
    ],
    "critical-unknown": [signed(extension(it, NULL, critical=True)) for it in ("1.2.3.4", "2.5.29.16", "1.3.6.1.5.5.7.1.24")],
    "host-name": [signed(alternative_names(text, "a", it)) for text in NAMES for it in NO_HOSTS],
    "uri-without-scheme": [named(b"a:b", it) for it in NO_URIS],
    "issuer-unique-id": [{"issuerUniqueID": element(0x81, b"\x00\x01")}],
    "subject-unique-id": [{"subjectUniqueID": element(0x82, b"\x00\x01")}],
    "authority-key-critical": [{"extensions": (*LEAF, authority_key(critical=True))}],
    "authority-key-missing": [{"extensions": LEAF}, {"extensions": (*LEAF, authority_key(CERT_ISSUER, CERT_SERIAL))}],
    "authority-key-partial": [
        {"extensions": (*LEAF, authority_key(KEY_IDENTIFIER, CERT_ISSUER))},
        {"extensions": (*LEAF, authority_key(KEY_IDENTIFIER, CERT_SERIAL))},
    ],
    "subject-key-critical": [signed(*LEAF, key_identifier(critical=True))],
    "subject-key-missing": [signed(constraints(TRUE), usage())],
    "key-usage-empty": [signed(usage(b"", 0))],
    "key-usage-padded": [signed(usage(b"\x80", 6)), signed(usage(b"\x80\x00", 7))],
    "key-usage-not-critical": [signed(usage(b"\x80", 7, critical=False))],
    "signing-without-authority": [signed(usage()), signed(usage(), constraints())],
    "authority-without-signing": [signed(constraints(TRUE), usage(b"\x02", 1), key_identifier())],
    "policy-mappings-not-critical": [signed(*AUTHORITY, extension("2.5.29.33", MAPPINGS))],
    "subject-names-empty": [signed(alternative_names("2.5.29.17"))],
    "subject-names-critical": [signed(alternative_names("2.5.29.17", "leaf.example.org", critical=True))],
    "alternative-name-empty": [
        signed(alternative_names(text, "a.example.org", others=[it]))
        for text in NAMES
        for it in (element(0x82), element(0x86), element(0xA4, name()))
    ],
    "address-length": [signed(alternative_names(text, others=[address(it)])) for text in NAMES for it in (0, 3, 5, 8, 15, 17, 32)],
    "mailbox-without-at": [signed(alternative_names(text, others=[element(0x81, b"mail.example.org")])) for text in NAMES],
    "issuer-names-empty": [signed(alternative_names("2.5.29.18"))],
    "issuer-names-critical": [signed(alternative_names("2.5.29.18", "issuer.example.org", critical=True))],
    "directory-attributes-critical": [signed(extension("2.5.29.9", sequence(), critical=True))],
    "authority-not-critical": [signed(constraints(TRUE, critical=False), usage(), key_identifier())],
    "path-length-idle": [signed(constraints(integer(0)))],
    "authority-default-spelled": [signed(constraints(FALSE))],
    "name-constraints-not-critical": [signed(*AUTHORITY, extension("2.5.29.30", PERMITTED))],
    "name-constraints-without-authority": [signed(extension("2.5.29.30", PERMITTED, critical=True))],
    "policy-constraints-not-critical": [signed(*AUTHORITY, extension("2.5.29.36", DEMANDED))],
    "purposes-empty": [signed(purposes())],
    "any-purpose-critical": [signed(purposes("1.3.6.1.5.5.7.3.1", "2.5.29.37.0", critical=True))],
    "revocation-points-critical": [signed(extension("2.5.29.31", sequence(), critical=True))],
    "any-policy-not-critical": [signed(*AUTHORITY, extension("2.5.29.54", integer(0)))],
    "freshest-list-critical": [signed(extension("2.5.29.46", sequence(), critical=True))],
    "authority-access-critical": [signed(extension("1.3.6.1.5.5.7.1.1", sequence(), critical=True))],
    "subject-access-critical": [signed(extension("1.3.6.1.5.5.7.1.11", sequence(), critical=True))],
}

# The rules about a key, and about the algorithm of a signature alone.
RULES_OF_FIELDS = ("salt-length-spelled", *(it for it in BROKEN if it.startswith(("modulus-", "exponent-"))))

# What breaks two at once, since one can't be broken without the other.
BOTH = {
    ("subject-empty", "authority-unnamed"): {"subject": name()},
    ("subject-empty", "authority-key-missing"): {"subject": name(), "extensions": ()},
    ("alternative-name-empty", "mailbox-without-at"): signed(alternative_names("2.5.29.17", others=[element(0x81)])),
    ("issuer-text-long", "issuer-string-type"): {"issuer": attributes((COMMON, BMP, b"\0a" * 65))},
    ("issuer-text-empty", "issuer-country"): {"issuer": attributes((COUNTRY, PRINTABLE, b""))},
    ("key-usage-empty", "key-usage-padded"): signed(usage(b"\x00", 7)),
    ("authority-without-signing", "path-length-without-signing"): signed(constraints(TRUE, integer(0)), usage(b"\x02", 1), key_identifier()),
}

# What comes close to breaking a rule, and breaks none.
KEPT = [
    {},
    signed(*LEAF),
    {"issuer": name("subject"), "extensions": ()},
    {"issuer": name("subject"), "extensions": LEAF},
    {"extensions": (*LEAF, authority_key(KEY_IDENTIFIER, CERT_ISSUER, CERT_SERIAL))},
    {"serialNumber": integer((1 << 159) - 1)},
    pss(19),
    pss(21),
    pss(32),
    {"issuer": SORTED},
    {"subject": SORTED},
    {"issuer": WELL_NAMED},
    {"subject": WELL_NAMED},
    {"issuer": MAILED, "subject": MAILED, **MAIL_NAMED},
    signed(*(extension(it, NULL) for it in ("1.2.3.4", "1.2.3.5", "1.2.3", "1.2.3.4.1"))),
    signed(alternative_names("2.5.29.17", *HOSTS), alternative_names("2.5.29.18", *HOSTS)),
    named(*URIS),
    {"validity": sequence(utc(2049), general(2050))},
    {"validity": sequence(utc(2020), utc(2020))},
    {"subject": name(), **signed(alternative_names("2.5.29.17", "leaf.example.org", critical=True))},
    {"subjectPublicKeyInfo": rsa_key()},
    {"subjectPublicKeyInfo": rsa_key(exponent=3)},
    signed(constraints(TRUE, integer(0)), usage(b"\x07\x80", 7), key_identifier()),
    signed(usage(b"\x00\x80", 7), constraints()),
    signed(purposes("1.3.6.1.5.5.7.3.1")),
    signed(purposes("2.5.29.37.0")),
    signed(purposes("1.3.6.1.5.5.7.3.1", critical=True)),
    signed(*(alternative_names(text, "a", others=[address(4), address(16), MAIL, URI, element(0xA4, name("a"))]) for text in NAMES)),
    signed(*AUTHORITY, extension("2.5.29.30", PERMITTED, critical=True), extension("2.5.29.33", MAPPINGS, critical=True)),
    signed(*AUTHORITY, extension("2.5.29.36", DEMANDED, critical=True), extension("2.5.29.54", integer(0), critical=True)),
    signed(*(extension(text, sequence()) for text in ("2.5.29.9", "2.5.29.31", "2.5.29.46", "1.3.6.1.5.5.7.1.1", "1.3.6.1.5.5.7.1.11"))),
]
