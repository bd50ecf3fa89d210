#!/usr/bin/env python3
"""Makes the files of this folder that the tests of cimaroly are run on: structures of all types by OpenSSL, and others by hand.

usage: tools/tests/data/make.py [--hand]

What OpenSSL makes has new keys and times each time, so the files are made once and committed; the tests compare what is told of
them with what OpenSSL tells. What is made by hand (--hand: that alone) is the same each time: each of the ten deviations, names
with characters that a terminal obeys, and a refused certificate.
"""

import base64
import os
import subprocess
import sys
import tempfile

HERE = os.path.dirname(os.path.abspath(__file__))
sys.path.insert(0, os.path.dirname(HERE))
from der import element  # noqa: E402

CONFIG = """
[req]
distinguished_name = dn
prompt = no
string_mask = utf8only
utf8 = yes
[dn]
C = DE
O = Example Gründe GmbH
0.OU = Dept A
1.OU = Dept B
CN = example.org
emailAddress = admin@example.org
[ca]
subjectAltName = DNS:example.org,DNS:*.example.org,IP:192.0.2.7,IP:2001:db8::1,email:admin@example.org,URI:https://example.org/x,\
dirName:dn,otherName:1.3.6.1.4.1.311.20.2.3;UTF8:someone@example.org,RID:1.2.3.4
keyUsage = critical,digitalSignature,keyCertSign,cRLSign
extendedKeyUsage = serverAuth,clientAuth,1.3.6.1.4.1.99999.1
basicConstraints = critical,CA:TRUE,pathlen:2
subjectKeyIdentifier = hash
authorityKeyIdentifier = keyid:always,issuer:always
certificatePolicies = 2.23.140.1.2.1
[leaf]
subjectAltName = DNS:leaf.example.org
keyUsage = digitalSignature,keyAgreement,decipherOnly
basicConstraints = CA:FALSE
authorityKeyIdentifier = keyid
[request]
subjectAltName = DNS:request.example.org
keyUsage = digitalSignature,keyEncipherment
"""


def openssl(*words, data=None):
    made = subprocess.run(["openssl", *words], input=data, capture_output=True, check=True)
    return made.stdout


def by_openssl(room):
    """What OpenSSL makes, by the name of the file."""
    config = f"{room}/config"
    with open(config, "w", encoding="utf-8") as file:
        file.write(CONFIG)
    rsa, ec, ed, small = (f"{room}/{it}" for it in ("rsa", "ec", "ed", "small"))
    openssl("genpkey", "-algorithm", "RSA", "-pkeyopt", "rsa_keygen_bits:2048", "-out", rsa)
    openssl("genpkey", "-algorithm", "RSA", "-pkeyopt", "rsa_keygen_bits:1024", "-out", small)
    openssl("genpkey", "-algorithm", "EC", "-pkeyopt", "ec_paramgen_curve:secp384r1", "-out", ec)
    openssl("genpkey", "-algorithm", "ED25519", "-out", ed)
    new = ["req", "-new", "-config", config]
    pss = ["-sigopt", "rsa_padding_mode:pss", "-sigopt", "rsa_pss_saltlen:32"]
    return {
        "certificate_rsa.pem": openssl(*new, "-x509", "-key", rsa, "-extensions", "ca", "-days", "3650"),
        "certificate_pss.pem": openssl(*new, "-x509", "-key", rsa, "-extensions", "leaf", "-sha256", *pss),
        "certificate_ec.pem": openssl(*new, "-x509", "-key", ec, "-extensions", "leaf", "-days", "20000", "-sha384"),
        "certificate_ed25519.pem": openssl(*new, "-x509", "-key", ed, "-extensions", "leaf", "-set_serial", "1"),
        "request_rsa.pem": openssl(*new, "-key", small, "-reqexts", "request"),
        "request_ec.pem": openssl(*new, "-key", ec),
        "private_key_rsa.pem": openssl("pkcs8", "-topk8", "-nocrypt", "-in", small),
        "private_key_ec.pem": openssl("pkcs8", "-topk8", "-nocrypt", "-in", ec),
        "private_key_ed25519.pem": openssl("pkcs8", "-topk8", "-nocrypt", "-in", ed),
        "rsa_private_key.pem": openssl("rsa", "-in", small, "-traditional"),
        "rsa_private_key_encrypted.pem": openssl("rsa", "-in", small, "-traditional", "-aes128", "-passout", "pass:secret"),
        "ec_private_key.pem": openssl("ec", "-in", ec),
        "public_key_rsa.pem": openssl("pkey", "-in", rsa, "-pubout"),
        "public_key_ec.pem": openssl("pkey", "-in", ec, "-pubout"),
        "public_key_ed25519.pem": openssl("pkey", "-in", ed, "-pubout"),
        "rsa_public_key.pem": openssl("rsa", "-in", rsa, "-RSAPublicKey_out"),
        "certificate_deviations.pem": pem("CERTIFICATE", deviating(room, rsa)),
    }


REVOKING = """
[ca]
default_ca = authority
[authority]
database = {room}/index
crlnumber = {room}/number
default_md = sha256
default_crl_days = 30
crl_extensions = extensions
[extensions]
authorityKeyIdentifier = keyid
"""
# Two certificates that were revoked: until when they are valid, when that was and why, and their numbers.
INDEX = """R\t301231235959Z\t240101120000Z,keyCompromise\t0A01\tunknown\t/CN=one
R\t301231235959Z\t240102120000Z\t00F0\tunknown\t/CN=two
"""


def outlines_by_openssl(room):
    """What OpenSSL makes of algorithms that aren't read whole, and a revocation list."""
    for name, text in (("config", CONFIG), ("authority", REVOKING.format(room=room)), ("index", INDEX), ("number", "1001\n")):
        with open(f"{room}/{name}", "w", encoding="utf-8") as file:
            file.write(text)
    rsa, dsa, parameters, certificate = (f"{room}/{it}" for it in ("rsa", "dsa", "parameters", "certificate"))
    openssl("genpkey", "-algorithm", "RSA", "-pkeyopt", "rsa_keygen_bits:1024", "-out", rsa)
    openssl("genpkey", "-genparam", "-algorithm", "DSA", "-pkeyopt", "dsa_paramgen_bits:1024", "-out", parameters)
    openssl("genpkey", "-paramfile", parameters, "-out", dsa)
    new = ["req", "-new", "-config", f"{room}/config"]
    openssl(*new, "-x509", "-key", rsa, "-extensions", "ca", "-out", certificate)
    return {
        "certificate_md5.pem": openssl(*new, "-x509", "-key", rsa, "-md5", "-extensions", "ca", "-days", "3650"),
        "request_md5.pem": openssl(*new, "-key", rsa, "-md5", "-reqexts", "request"),
        "private_key_dsa.pem": openssl("pkcs8", "-topk8", "-nocrypt", "-in", dsa),
        "public_key_dsa.pem": openssl("pkey", "-in", dsa, "-pubout"),
        "revocation_list.pem": openssl("ca", "-config", f"{room}/authority", "-gencrl", "-keyfile", rsa, "-cert", certificate),
    }


def sequence(*items):
    return element(0x30, *items)


def oid(text):
    """The content of an object identifier (X.690, 8.19), as an element."""
    first, second, *rest = map(int, text.split("."))
    content = b""
    for arc in (40 * first + second, *rest):
        digits = [arc % 128]
        while arc := arc // 128:
            digits.append(128 + arc % 128)
        content += bytes(reversed(digits))
    return element(6, content)


NULL = bytes([5, 0])
RSA = sequence(oid("1.2.840.113549.1.1.11"), NULL)
RSA_BARE = sequence(oid("1.2.840.113549.1.1.11"))
ED25519 = sequence(oid("1.3.101.112"))
TIMES = sequence(element(0x17, b"191017174128Z"), element(0x17, b"221016174128Z"))
KEY = sequence(ED25519, element(3, bytes([0]), bytes(range(32))))


def name(*values, kind="2.5.4.3"):
    """A name of attributes of one type, each of a tag and its bytes."""
    return sequence(*(element(0x31, sequence(oid(kind), element(tag, value))) for tag, value in values))


def extension(identifier, value, critical=b""):
    return sequence(oid(identifier), critical, element(4, value))


def certificate(subject=name(), version=bytes.fromhex("a003020102"), signature=ED25519, extensions=None, outer=None):
    """A certificate whose signature is nothing."""
    held = b"" if extensions is None else element(0xA3, sequence(*extensions))
    fields = sequence(version, element(2, b"\x01"), signature, name(), TIMES, subject, KEY, held)
    return sequence(fields, outer or signature, element(3, bytes([0]), bytes(64)))


HASH = sequence(oid("2.16.840.1.101.3.4.2.1"))


def pss(hash_algorithm, salt):
    mask = sequence(oid("1.2.840.113549.1.1.8"), hash_algorithm)
    return sequence(
        oid("1.2.840.113549.1.1.10"),
        sequence(element(0xA0, hash_algorithm), element(0xA1, mask), element(0xA2, element(2, salt))),
    )


# A key identifier behind a serial number.
AUTHORITY = sequence(element(0x82, b"\x05"), element(0x80, bytes(20)))
# What a terminal obeys, and what makes text look like another.
HOSTILE = [
    (0x0C, "\x1b[31mred\x1b[0m".encode()),
    (0x0C, "line\nC=forged".encode()),
    (0x0C, "abc\u202egnp.exe".encode()),
    (0x0C, "zero\u200bwidth\ufeff\U000e0041".encode()),
    (0x0C, 'quote" and \\ and, comma'.encode()),
    (0x0C, "Gründe 中文 \U0001f600".encode()),
    (0x1E, "bmp\u202e\x07".encode("utf-16-be")),
    (0x1E, b"\xd8\x00\x00a"),
]
# The same where the attribute isn't looked into.
HOSTILE_OTHERS = [(0x0C, "\x1b]0;title\x07".encode()), (0x14, b"teletex \xff\x9b"), (0x0C, b"no utf-8 \xff")]


def person(*pairs):
    """A name of attributes of several types."""
    return sequence(*(element(0x31, sequence(oid(kind), element(tag, text.encode()))) for kind, tag, text in pairs))


def deviating(room, signing_key):
    """A certificate as a server's, with four kinds of deviations in seven places, whose signature is right."""
    key = f"{room}/p256"
    openssl("genpkey", "-algorithm", "EC", "-pkeyopt", "ec_paramgen_curve:P-256", "-out", key)
    country, organization = ("2.5.4.6", 0x13, "DE"), ("2.5.4.10", 0x0C, "Example Gründe GmbH")
    names = sequence(
        element(0xA2, element(0x16, b"example.org")),
        element(0x82, b"www.example.org"),
        element(0xA6, element(0x16, b"https://example.org/imprint")),
        element(0x87, bytes([192, 0, 2, 7])),
    )
    authority = sequence(element(0x82, bytes.fromhex("4bd1a07e")), element(0x80, os.urandom(20)))
    extensions = [
        extension("2.5.29.35", authority),
        extension("2.5.29.14", element(4, os.urandom(20))),
        extension("2.5.29.15", bytes.fromhex("03020780"), element(1, b"\xff")),
        extension("2.5.29.19", sequence(), element(1, b"\x00")),
        extension("2.5.29.37", sequence(oid("1.3.6.1.5.5.7.3.1"), oid("1.3.6.1.5.5.7.3.2")), element(1, b"\x00")),
        extension("2.5.29.17", names),
    ]
    fields = sequence(
        bytes.fromhex("a003020102"),
        element(2, b"\x5a" + os.urandom(15)),
        RSA_BARE,
        person(country, organization, ("2.5.4.3", 0x0C, "Example Issuing CA 1")),
        sequence(element(0x17, b"261126090000Z"), element(0x17, b"271126090000Z")),
        person(country, organization, ("2.5.4.3", 0x0C, "example.org")),
        openssl("pkey", "-in", key, "-pubout", "-outform", "DER"),
        element(0xA3, sequence(*extensions)),
    )
    signature = openssl("dgst", "-sha256", "-sign", signing_key, data=fields)
    return sequence(fields, RSA_BARE, element(3, b"\x00", signature))


def by_hand():
    """What is made by hand, by the name of the file."""
    strict = certificate()
    return {
        "deviation_1_rsa_parameters.pem": certificate(signature=RSA_BARE, outer=RSA_BARE),
        "deviation_3_hash_parameters.pem": certificate(signature=pss(HASH, b"\x20")),
        "deviation_4_salt.pem": certificate(signature=pss(sequence(oid("2.16.840.1.101.3.4.2.1"), NULL), b"\x01" + bytes(8))),
        "deviation_5_version.pem": certificate(version=bytes.fromhex("a003020100")),
        "deviation_6_extensions.pem": certificate(extensions=[]),
        "deviation_7_critical.pem": certificate(extensions=[extension("2.5.29.19", sequence(), element(1, b"\x00"))]),
        "deviation_8_authority.pem": certificate(extensions=[extension("2.5.29.35", AUTHORITY)]),
        "deviation_9_general_name.pem": certificate(
            extensions=[extension("2.5.29.17", sequence(element(0xA2, element(0x16, b"example.org"))))]
        ),
        "hostile_names.pem": certificate(subject=name(*HOSTILE)),
        "hostile_others.pem": certificate(subject=name(*HOSTILE_OTHERS, kind="2.5.4.13")),
        "set_of_two.pem": certificate(
            subject=sequence(
                element(0x31, sequence(oid("2.5.4.3"), element(0x0C, b"a")), sequence(oid("2.5.4.10"), element(0x0C, b"b")))
            )
        ),
        "refused_month_13.pem": strict.replace(b"191017174128Z", b"191317174128Z"),
    }


def hexadecimal():
    """What has no label of its own, as hexadecimal digits."""
    return {
        "algorithm.hex": RSA,
        "deviation_2_raw_algorithm.hex": sequence(oid("1.2.840.113549.2.9")),
        "name.hex": name((0x0C, b"example.org")),
        "extensions.hex": sequence(extension("2.5.29.14", element(4, bytes(20)))),
        "deviation_10_private_key.hex": sequence(
            element(2, b"\x00"), ED25519, element(4, element(4, bytes(range(32)))), element(0xA0, b"")
        ),
    }


def pem(label, der):
    text = base64.b64encode(der).decode()
    lines = [text[at : at + 64] for at in range(0, len(text), 64)]
    return "\n".join([f"-----BEGIN {label}-----", *lines, f"-----END {label}-----", ""]).encode()


def main():
    files = {}
    if "--hand" not in sys.argv:
        with tempfile.TemporaryDirectory() as room:
            files = by_openssl(room) | outlines_by_openssl(room)
    files |= {it: pem("CERTIFICATE", der) for it, der in by_hand().items()}
    files |= {it: (der.hex(" ", 16) + "\n").encode() for it, der in hexadecimal().items()}
    for it, data in files.items():
        with open(f"{HERE}/{it}", "wb") as file:
            file.write(data)


if __name__ == "__main__":
    main()
