"""What is stated of inputs by hand, from X.690 and the RFCs: which are in DER, and why, where and in which field others are refused.

An error's number is that of bindings/c/cimaroly.h. The byte is the first of the element, or of the primitive content, that can't be
read, the first that is left over, or the first of the structure whose fields don't go together. The field is the path of the
fields around that byte, as their standard names them, `none` where it stands in no field but the whole, and `-` where the
standards leave open which field it belongs to.
"""

# What OpenSSL made, which is in DER.
IN_DER = {
    "certificate_rsa.pem": "certificate",
    "certificate_pss.pem": "certificate",
    "certificate_ec.pem": "certificate",
    "certificate_ed25519.pem": "certificate",
    "request_rsa.pem": "request",
    "request_ec.pem": "request",
    "private_key_rsa.pem": "private-key",
    "private_key_ec.pem": "private-key",
    "private_key_ed25519.pem": "private-key",
    "public_key_rsa.pem": "public-key",
    "public_key_ec.pem": "public-key",
    "public_key_ed25519.pem": "public-key",
    "rsa_private_key.pem": "rsa-private-key",
    "rsa_public_key.pem": "rsa-public-key",
    "ec_private_key.pem": "ec-private-key",
    # and by hand
    "set_of_two.pem": "certificate",
    "hostile_names.pem": "certificate",
    "hostile_others.pem": "certificate",
    "name.hex": "name",
    "extensions.hex": "extensions",
    "algorithm.hex": "algorithm",
    # of OpenSSL, of algorithms that aren't read whole; and a revocation list
    "certificate_md5.pem": "certificate-outline",
    "request_md5.pem": "request-outline",
    "private_key_dsa.pem": "private-key-outline",
    "public_key_dsa.pem": "public-key-outline",
    "revocation_list.pem": "crl",
}

# Files that are outlines alone: as what they are refused, the steps to the algorithm's identifier, and the field.
OUTLINES = [
    ("certificate_md5.pem", "certificate", (0, 2, 0), "tbsCertificate.signature.algorithm"),
    ("request_md5.pem", "request", (1, 0), "signatureAlgorithm.algorithm"),
    ("private_key_dsa.pem", "private-key", (1, 0), "privateKeyAlgorithm.algorithm"),
    ("public_key_dsa.pem", "public-key", (0, 0), "algorithm.algorithm"),
]

# A certificate with all that may be left out, and another without.
FULL = (
    "3078306ca003020102020101300506032b65703000301e170d3139313031373137343132385a170d3232313031363137343132385a300d310b3009060355"
    "040313026162300a300506032b65700301008102070082020780a316301430120603551d130101ff040830060101ff020105300506032b6570030100"
)
# (the fields of its signed part; what stands around them in a certificate of version 1)
SHORT = "020101300506032b65703000301e170d3139313031373137343132385a170d3232313031363137343132385a3000300a300506032b6570030100"
OUTER = "300506032b6570030100"

# Further inputs in DER.
FURTHER = [
    ("full_certificate", "certificate", FULL),
    ("version_1", "certificate", f"3046303a{SHORT}{OUTER}"),
    (
        "request_attribute",
        "request",
        "303230260201003000300a300506032b6570030100a013301106092a864886f70d010907310413027077" + OUTER,
    ),
    ("private_key_with_public_key", "private-key", "3013020101300506032b657004020400a103030100"),
    ("empty_name", "name", "3000"),
    ("empty_extensions", "extensions", "3000"),
    ("critical_extension", "extensions", "301430120603551d130101ff040830060101ff020105"),
    ("unknown_algorithm", "raw-algorithm", "300c06032a030404050102030405"),
]

# Fields of a certificate (RFC 5280, 4.1), of a name (4.1.2.4) and of an extension (4.1).
NOT_BEFORE = "tbsCertificate.validity.notBefore"
SIGNATURE = "tbsCertificate.signature.algorithm"
IN_NAME = "RelativeDistinguishedName.AttributeTypeAndValue"
IN_EXTENSIONS = "tbsCertificate.extensions.Extensions.Extension"


def reasons(rows):
    """What of the program's refused rows follows from the grammar."""
    return {
        "": (2, 0, "none"),
        "300a06082a864886f70d02": (2, 0, "none"),
        # the identifier of a hash function without its NULL, which is wanted here, and told at the identifier
        "300b0609608648016503040201": (2, 2, "-"),
        "3100": (4, 0, "none"),
        "300000": (3, 2, "none"),
        # behind the value of an extension
        "300d300b0603551d13040430000500": (3, 13, "Extension.extnValue"),
        # a second element behind a private key
        "3015020100300506032b657004030401aaa000810200bb": (3, 19, "-"),
        # no attributes
        "301d30110201003000300a300506032b6570030100300506032b6570030100": (2, 21, "-"),
        "30800000": (5, 0, "none"),
        # extensions in a certificate of version 1
        f"305b3049{rows.SERIAL}a30d300b30090603551d1304023000{rows.SIGNED}": (15, 2, "tbsCertificate"),
    }


# An encoding of a kind, and damages of it, each by itself: its name, the byte that is changed, what stands there then, and the
# error's number, byte and field.
DAMAGES = [
    (
        "certificate",
        FULL,
        [
            ("another_tag", 0, 0x31, 4, 0, "none"),
            ("indefinite_length", 1, 0x80, 5, 0, "none"),
            ("longer_than_the_input", 1, 0x79, 2, 0, "none"),
            ("last_field_cut_short", 1, 0x77, 2, 119, "signatureValue"),
            ("no_version", 8, 0x05, 12, 6, "tbsCertificate.version"),
            ("version_2_with_extensions", 8, 0x01, 15, 2, "tbsCertificate"),
            ("serial_number_of_another_tag", 9, 0x04, 4, 9, "tbsCertificate.serialNumber"),
            ("unknown_signature_algorithm", 18, 0x7F, 13, 14, SIGNATURE),
            ("arc_without_end", 18, 0xF0, 9, 16, SIGNATURE),
            ("no_digit_in_a_time", 25, 0x78, 11, 25, NOT_BEFORE),
            ("month_13", 28, 0x33, 11, 25, NOT_BEFORE),
            ("time_without_z", 37, 0x59, 11, 25, NOT_BEFORE),
            ("star_in_a_printable_string", 66, 0x2A, 10, 66, f"tbsCertificate.subject.{IN_NAME}.value"),
            ("nine_unused_bits", 79, 0x09, 8, 79, "tbsCertificate.subjectPublicKeyInfo.subjectPublicKey"),
            ("truth_value_of_one", 101, 0x01, 7, 101, f"{IN_EXTENSIONS}.critical"),
            ("path_length_below_0", 111, 0x80, 6, 111, f"{IN_EXTENSIONS}.extnValue"),
        ],
    ),
    (
        "name",
        "300d310b3009060355040313026162",
        [("indefinite_attribute", 5, 0x80, 5, 4, IN_NAME), ("padded_arc", 8, 0x80, 9, 8, f"{IN_NAME}.type")],
    ),
    (
        "rsa-private-key",
        "301b020100020101020102020103020104020105020106020107020108",
        # RFC 8017, A.1.2
        [("number_of_another_tag", 5, 0x1F, 4, 5, "modulus")],
    ),
    ("ec-private-key", "30180201010401aaa00a06082a8648ce3d030107a10403020004", [("version_2", 4, 0x02, 12, 0, "none")]),
    (
        "private-key",
        "300e020100300506032b657004020400",
        # RFC 5958, 2
        [("version_3", 4, 0x02, 12, 0, "none"), ("key_cut_short", 15, 0x01, 2, 14, "privateKey")],
    ),
]

# What else is refused: its name, the kind, the bytes, and the error's number, byte and field, where the grammar says them.
REFUSED = [
    # RFC 5280, 4.1.2.8
    ("unique_identifier_in_version_1", "certificate", f"304a303e{SHORT}81020700{OUTER}", 14, 2, "tbsCertificate"),
    ("no_bytes", "certificate", "", 2, 0, "none"),
    ("a_tag_alone", "certificate", "30", None, None, "-"),
    ("a_tag_of_two_bytes", "certificate", "1f0100", 4, 0, "none"),
    # docs/DIFFERENCES.md: a length of paths above 255
    ("path_length_300", "extensions", "301530130603551d130101ff040930070101ff0202012c", 6, 21, "Extension.extnValue"),
    # X.690, 10.1: not the fewest digits
    ("a_needless_length_digit", "name", "308100", 5, 0, "none"),
]
