"""What the program is run on and what it must print, from the grammar, README and docs/PROGRAMS.md, and never from its own output."""

from der import element

NONE = "0 0 0 0 0 0 0 0 0 0"

# The parts of a certificate of 78 bytes: an empty subject and issuer, an Ed25519 key without bits, and RSA without its NULL.
SERIAL = "020101300506032b65703000301e170d3139313031373137343132385a170d3232313031363137343132385a3000300a300506032b6570030100"
SIGNED = "300b06092a864886f70d01010b030100"
CERTIFICATE = f"304e303a{SERIAL}300d06092a864886f70d01010b0500030100"
REQUEST = "301f30130201003000300a300506032b6570030100a000300506032b6570030100"
PSS = "303d06092a864886f70d01010a3030a00d300b0609608648016503040201a11a301806092a864886f70d010108300b0609608648016503040201a203020120"
PSS_WRITTEN = (
    "304106092a864886f70d01010a3034a00f300d06096086480165030402010500a11c301a06092a864886f70d010108300d06096086480165030402010500"
    "a203020120"
)
NAME = "30143112301006092a864886f70d0109011603614062"
KEY_IDENTIFIERS = (
    "304b30090603551d1304023000301d0603551d0e041604141f74d63f29c17474453b05122c3da8bd435902a6301f0603551d23041830168014b45ae4a5b3"
    "ded252f6b9d5a6950feb3ebcc7fdff"
)

# The type's name, the text, and the two lines that must be printed.
ACCEPTED = [
    ("raw-algorithm", "300a06082a864886f70d0209", "300c06082a864886f70d02090500", "0 1 0 0 0 0 0 0 0 0"),
    ("raw-algorithm", "300A06082A864886F70D0209\n", "300c06082a864886f70d02090500", "0 1 0 0 0 0 0 0 0 0"),
    ("raw-algorithm", "300c06082a864886f70d02090500\n", "300c06082a864886f70d02090500", NONE),
    ("algorithm", "300B06092A864886F70D010101\n", "300d06092a864886f70d0101010500", "1 0 0 0 0 0 0 0 0 0"),
    ("algorithm", "300b0609608648016503040129", "300b0609608648016503040129", NONE),
    ("algorithm", PSS, PSS_WRITTEN, "0 0 2 0 0 0 0 0 0 0"),
    ("name", "3000", "3000", NONE),
    ("name", NAME, NAME, NONE),
    ("extensions", KEY_IDENTIFIERS, KEY_IDENTIFIERS, NONE),
    # critical FALSE; and the serial number in front of the issuer
    ("extensions", "300e300c0603551d1301010004023000", "300b30090603551d1304023000", "0 0 0 0 0 0 1 0 0 0"),
    ("extensions", "3011300f0603551d2304083006820101800100", "3011300f0603551d2304083006800100820101", "0 0 0 0 0 0 0 1 0 0"),
    (
        "public-key",
        "3018300b06092a864886f70d0101010309003006020105020103",
        "301a300d06092a864886f70d01010105000309003006020105020103",
        "1 0 0 0 0 0 0 0 0 0",
    ),
    ("private-key", "3011020100300506032b657004030401aaa000", "300f020100300506032b657004030401aa", "0 0 0 0 0 0 0 0 0 1"),
    (
        "private-key",
        "3017020100300506032b657004030401aaa000a104030200bb",
        "3015020100300506032b657004030401aaa104030200bb",
        "0 0 0 0 0 0 0 0 0 1",
    ),
    ("request", REQUEST, REQUEST, NONE),
    ("certificate", CERTIFICATE, CERTIFICATE, NONE),
    ("certificate", f"304c303a{SERIAL}{SIGNED}", CERTIFICATE, "1 0 0 0 0 0 0 0 0 0"),
    # version 1, and an empty list of extensions
    ("certificate", f"3051303fa003020100{SERIAL}{SIGNED}", CERTIFICATE, "1 0 0 0 1 0 0 0 0 0"),
    ("certificate", f"3050303e{SERIAL}a3023000{SIGNED}", CERTIFICATE, "1 0 0 0 0 1 0 0 0 0"),
]

# The type's name, and text whose bytes encode no value of the type.
REFUSED = [
    ("raw-algorithm", ""),
    ("raw-algorithm", "\n"),
    ("raw-algorithm", "300a06082a864886f70d02"),
    ("algorithm", "300b0609608648016503040201"),
    ("algorithm", "300e06092a864886f70d010101050100"),
    ("name", "3100\n"),
    ("name", "300000"),
    ("name", "3088ffffffffffffffff"),
    ("extensions", "300d300b0603551d13040430000500"),
    ("public-key", "301a300d06092a864886f70d01010105000309013006020105020103"),
    ("private-key", "3015020100300506032b657004030401aaa000810200bb"),
    ("request", "301d30110201003000300a300506032b6570030100300506032b6570030100"),
    # extensions without version 3
    ("certificate", f"305b3049{SERIAL}a30d300b30090603551d1304023000{SIGNED}"),
    ("certificate", "30800000"),
]

# Arguments, and text that is none of hexadecimal digits or that isn't looked at.
USAGE = [
    (["raw-algorithm"], "3"),
    (["raw-algorithm"], "300"),
    (["raw-algorithm"], "30 00"),
    (["raw-algorithm"], "30g0"),
    (["raw-algorithm"], "3000\n\n"),
    (["raw-algorithm"], "3000\r\n"),
    (["raw-algorithm"], "\n3000"),
    (["certificate"], "-----BEGIN CERTIFICATE-----\n"),
    ([], "3000"),
    (["names"], "3000"),
    (["Name"], "3000"),
    ([""], "3000"),
    (["--help"], "3000"),
    (["name", "name"], "3000"),
    (["name", "certificate"], "3000"),
    (["name", ""], "3000"),
    (["name", "name", "name"], "3000"),
    ([b"name\xff"], "3000"),
    ([b"\xc3\x28"], "3000"),
    ([b"name", b"\xff"], "3000"),
]


def long_list(size, spelled=b""):
    """A list of one extension that isn't known, 1.2.3.4, whose value has a number of bytes; spelled stands in front of it."""
    value = bytes(range(251)) * (size // 251 + 1)
    return element(0x30, element(0x30, b"\x06\x03\x2a\x03\x04" + spelled + element(4, value[:size])))


def long_row(size):
    """A row of a long text, in which critical FALSE is written out."""
    return long_list(size, b"\x01\x01\x00").hex(), f"{long_list(size).hex()}\n0 0 0 0 0 0 1 0 0 0\n"


def list_of_length(length):
    """The text of a list, in so many digits."""
    # (its headers have 10 bytes at least, and 20 at the most)
    found = [it for it in range(length // 2 - 25, length // 2) if 2 * len(long_list(it)) == length]
    return long_list(found[0]).hex()
