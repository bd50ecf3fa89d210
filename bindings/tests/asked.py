"""What people ask of a certificate first, as the package cryptography tells it, and OpenSSL how a name is written: for the
columns of table.tsv that have values."""

import re
import subprocess

from cryptography import x509
from cryptography.hazmat.primitives.asymmetric import ec, ed25519, rsa
from cryptography.x509.oid import NameOID

# The types of attributes that have a short name (RFC 4514, 3).
SHORT = {"CN", "L", "ST", "O", "OU", "C", "STREET", "DC", "UID"}


def subject_by_rfc_4514(der):
    """The subject as RFC 4514 writes it: what has no short name there by its identifier, and its encoding in hexadecimal."""
    found = []
    for options in ("RFC2253,-dn_rev,-esc_msb,utf8", "RFC2253,-dn_rev,oid,dump_all,dump_der"):
        words = ["openssl", "x509", "-inform", "DER", "-noout", "-subject", "-nameopt", options]
        said = subprocess.run(words, input=der, capture_output=True, check=True).stdout.decode()
        found.append([re.split(r"(?<!\\)\+", it) for it in re.split(r"(?<!\\),", said.rstrip("\n").removeprefix("subject="))])
    texts, digits = found
    assert [*map(len, texts)] == [*map(len, digits)], found
    sets = []
    for text, other in zip(texts, digits):
        both = zip(text, (it.partition("#") for it in other))
        sets.append("+".join(one if one.split("=")[0] in SHORT else f"{kind}#{bare.lower()}" for one, (kind, _, bare) in both))
    return ",".join(reversed(sets))


def key_of(key):
    """The algorithm of a key, its curve if it has one, and its size in bits."""
    if isinstance(key, rsa.RSAPublicKey):
        return f"RSA {key.key_size}"
    if isinstance(key, ec.EllipticCurvePublicKey):
        return f"EC {key.curve.name} {key.key_size}"
    assert isinstance(key, ed25519.Ed25519PublicKey)
    return "Ed25519 256"


def identifiers_of(extensions):
    """The octets that identify the subject's key, and those that identify the issuer's, in hexadecimal."""
    own = [it.value.digest.hex() for it in extensions if isinstance(it.value, x509.SubjectKeyIdentifier)]
    others = [it.value.key_identifier for it in extensions if isinstance(it.value, x509.AuthorityKeyIdentifier)]
    return " ".join([own[0] if own else "none", others[0].hex() if others and others[0] is not None else "none"])


def signature_of(read):
    """The algorithm of a signature by its identifier, and the digest."""
    digest = read.signature_hash_algorithm
    return f"{read.signature_algorithm_oid.dotted_string} {'none' if digest is None else digest.name}"


def asked_of(der):
    """What people ask of a certificate first, by the package cryptography, and by OpenSSL how its subject is written."""
    read = x509.load_der_x509_certificate(der)
    common = read.subject.get_attributes_for_oid(NameOID.COMMON_NAME)
    names = [it.value for it in read.extensions if isinstance(it.value, x509.SubjectAlternativeName)]
    hosts = names[0].get_values_for_type(x509.DNSName) if names else []
    times = (read.not_valid_before_utc, read.not_valid_after_utc)
    return {
        "common_name": common[-1].value if common else "none",
        "serial_number": str(read.serial_number),
        "unix_times": "..".join(str(int(it.timestamp())) for it in times),
        "dns_names": " ".join(hosts) or "none",
        "rfc4514": subject_by_rfc_4514(der) or "none",
        "key": key_of(read.public_key()),
        "signature": signature_of(read),
        "key_identifiers": identifiers_of(read.extensions),
    }
