"""Tests the values of fields, compared with those that the package cryptography tells, and names with OpenSSL's."""

from __future__ import annotations

import base64
import datetime
import hashlib
import ipaddress
import os
import random
import subprocess
import unittest
from collections.abc import Callable, Iterator
from typing import Any, Union

try:
    from cryptography import x509
    from cryptography.hazmat.primitives import hashes, serialization
    from cryptography.hazmat.primitives.asymmetric import ec, ed25519, rsa
except ImportError:
    x509 = None  # type: ignore[assignment]

import cimaroly
from tests.quiet import Quiet
from tests.test_cimaroly import DATA, STORE

# How many certificates are made, or as many as the variable says.
MADE = int(os.environ.get("CIMAROLY_MADE", "200"))

# The names that cryptography has for bits of a key's usage, in the order of RFC 5280, 4.2.1.3.
USAGES = {
    "digital_signature": "digitalSignature",
    "content_commitment": "nonRepudiation",
    "key_encipherment": "keyEncipherment",
    "data_encipherment": "dataEncipherment",
    "key_agreement": "keyAgreement",
    "key_cert_sign": "keyCertSign",
    "crl_sign": "cRLSign",
}
# The types of attributes that have a short name (RFC 4514, 3).
SHORT = {"CN", "L", "ST", "O", "OU", "C", "STREET", "DC", "UID"}


def paths() -> list[str]:
    """The PEM files of the tests, and those that this machine trusts."""
    found = []
    for folder in (DATA, STORE):
        if os.path.isdir(folder):
            found += [f"{folder}/{it}" for it in sorted(os.listdir(folder)) if it.endswith(".pem")]
    return found


def contents(kind: cimaroly.Kind) -> Iterator[tuple[str, bytes, cimaroly.Structure]]:
    """What there is of a kind: each with the path of its file, and the text."""
    for path in paths():
        with open(path, "rb") as opened:
            text = opened.read()
        try:
            yield path, text, cimaroly.read(text, kind)
        except (cimaroly.Refused, cimaroly.PemError):
            continue


def text_of(attribute: Any, encoding: bytes) -> str:
    """An attribute of cryptography's as RFC 4514 writes it: of one without a short name, cryptography writes the text."""
    text: str = attribute.rfc4514_string()
    if text.partition("=")[0] in SHORT:
        return text
    assert encoding.endswith(attribute.value.encode())
    return f"{attribute.oid.dotted_string}=#{encoding.hex()}"


def general(name: Any) -> Any:
    """A general name of cryptography, as it is told here."""
    value = name.value
    if isinstance(name, x509.DirectoryName):
        return [(it.oid.dotted_string, it.value) for it in value]
    if isinstance(name, x509.RegisteredID):
        return value.dotted_string
    if isinstance(name, x509.OtherName):
        return name.type_id.dotted_string
    return value


def told(name: cimaroly.GeneralName) -> Any:
    """The same of one that is told here."""
    if isinstance(name.value, cimaroly.Name):
        return [(it.identifier, it.value) for it in name.value]
    return name.value.identifier if isinstance(name.value, cimaroly.OtherName) else name.value


def name(chance: random.Random) -> Any:
    """A name of up to six sets, of which some have several attributes."""
    types = ("COMMON_NAME", "ORGANIZATION_NAME", "SURNAME", "TITLE", "DOMAIN_COMPONENT", "EMAIL_ADDRESS", "LOCALITY_NAME")
    sets = []
    for _ in range(chance.randint(0, 6)):
        kinds = chance.sample(types, chance.choice((1, 1, 1, 2, 3)))
        oids = [getattr(x509.NameOID, it) for it in kinds]
        sets.append(x509.RelativeDistinguishedName([x509.NameAttribute(it, text(chance)) for it in oids]))
    return x509.Name(sets)


def text(chance: random.Random) -> str:
    """A text with what RFC 4514 escapes, and what looks as bytes do in a report."""
    whole = chance.choice(("31", "0c:01:61", " a ", "#1", "a=b+c,d", '"', "\\", "<;>", ":", "a"))
    return whole + "".join(chance.choices("abC0: #+,", k=chance.randint(0, 40)))


def host(chance: random.Random) -> str:
    labels = ("".join(chance.choices("abc0", k=chance.randint(1, 8))) for _ in range(chance.randint(1, 4)))
    return chance.choice(("*.", "", "")) + ".".join(labels)


def general_name(chance: random.Random) -> Any:
    forms: tuple[Callable[[], Any], ...] = (
        lambda: x509.DNSName(host(chance)),
        lambda: x509.RFC822Name(f"a@{host(chance).strip('*.')}"),
        lambda: x509.UniformResourceIdentifier(f"https://{host(chance).strip('*.')}/"),
        lambda: x509.IPAddress(ipaddress.ip_address(chance.randbytes(chance.choice((4, 16))))),
        lambda: x509.DirectoryName(name(chance)),
        lambda: x509.RegisteredID(x509.ObjectIdentifier("1.2.3.4")),
        lambda: x509.OtherName(x509.ObjectIdentifier("1.2.3"), bytes.fromhex("0c0161")),
    )
    return chance.choice(forms)()


def certificate(key: Any, chance: random.Random) -> Any:
    """A certificate of any contents."""
    first = datetime.datetime(1950, 1, 1) + datetime.timedelta(seconds=chance.randrange(3_000_000_000))
    made = x509.CertificateBuilder(name(chance), name(chance), key.public_key(), chance.getrandbits(chance.randint(1, 159)) or 1)
    made = made.not_valid_before(first).not_valid_after(first + datetime.timedelta(seconds=chance.randrange(10_000_000_000)))
    if chance.random() < 0.8:
        names = [general_name(chance) for _ in range(chance.randint(1, 6))]
        made = made.add_extension(x509.SubjectAlternativeName(names), chance.random() < 0.3)
    if chance.random() < 0.8:
        bits = [chance.random() < 0.5 for _ in range(9)]
        bits[7:] = [it and bits[4] for it in bits[7:]]
        made = made.add_extension(x509.KeyUsage(*bits), chance.random() < 0.7)
    if chance.random() < 0.5:
        is_ca = chance.random() < 0.5
        # (larger ones are refused: docs/DIFFERENCES.md)
        length = chance.choice((None, 0, 1, 127, 128, 255)) if is_ca else None
        made = made.add_extension(x509.BasicConstraints(is_ca, length), True)
    if chance.random() < 0.5:
        purposes = ["1.3.6.1.5.5.7.3.1", "1.3.6.1.5.5.7.3.2", "1.3.6.1.5.5.7.3.4", "1.2.3.4"]
        chosen = chance.sample(purposes, chance.randint(1, 4))
        made = made.add_extension(x509.ExtendedKeyUsage([x509.ObjectIdentifier(it) for it in chosen]), False)
    if chance.random() < 0.5:
        made = made.add_extension(x509.SubjectKeyIdentifier(chance.randbytes(20)), False)
        made = made.add_extension(x509.AuthorityKeyIdentifier(chance.randbytes(20), None, None), False)
    return made.sign(key, None)


@unittest.skipIf(x509 is None, "there is no package cryptography")
class Compared(Quiet):
    """With the package cryptography, over the files of the tests and the certificates that this machine trusts."""

    maxDiff = None

    def test_certificates(self) -> None:
        seen = 0
        for path, text, mine in contents("certificate"):
            assert isinstance(mine, cimaroly.Certificate)
            try:
                other = x509.load_pem_x509_certificate(text)
                # (it refuses these later: names with control characters, say)
                other.subject, other.extensions, other.public_key()  # noqa: B018
            except ValueError:
                continue
            with self.subTest(path):
                self.same_certificate(mine, other)
                self.same_asked(mine, other)
                self.same_key(mine.public_key, other.public_key())
                seen += 1
        self.assertGreater(seen, 5)

    def test_made_certificates(self) -> None:
        """Certificates of any contents: names in sets, alternative names, usages, constraints, numbers and dates."""
        key, chance = ed25519.Ed25519PrivateKey.generate(), random.Random(60)
        for number in range(MADE):
            der = certificate(key, chance).public_bytes(serialization.Encoding.DER)
            other = x509.load_der_x509_certificate(der)
            with self.subTest(number=number, der=der.hex()):
                mine = cimaroly.Certificate(der)
                self.same_certificate(mine, other)
                self.same_asked(mine, other)
                self.same_key(mine.public_key, other.public_key())

    def same_certificate(self, mine: cimaroly.Certificate, other: Any) -> None:
        self.assertEqual(mine.version, other.version.value + 1)
        self.assertEqual(mine.serial_number, other.serial_number)
        self.assertEqual((mine.not_before, mine.not_after), (other.not_valid_before_utc, other.not_valid_after_utc))
        self.same_name(mine.issuer, other.issuer)
        self.assertEqual(mine.signature, other.signature)
        self.assertEqual(mine.fingerprint(), other.fingerprint(hashes.SHA256()))
        self.assertEqual(mine.fingerprint("sha1"), other.fingerprint(hashes.SHA1()))
        self.assertEqual(mine.pem().encode(), other.public_bytes(serialization.Encoding.PEM))
        for it, get in ((x509.SubjectKeyIdentifier, "digest"), (x509.AuthorityKeyIdentifier, "key_identifier")):
            found = self.found(other, it)
            expected = None if found is None else getattr(found, get)
            is_subject = it is x509.SubjectKeyIdentifier
            self.assertEqual(mine.subject_key_identifier if is_subject else mine.authority_key_identifier, expected)

    def found(self, other: Any, kind: Any) -> Any:
        try:
            return other.extensions.get_extension_for_class(kind).value
        except x509.ExtensionNotFound:
            return None

    def same_asked(self, mine: Union[cimaroly.Certificate, cimaroly.Request], other: Any) -> None:
        """What certificates and requests have alike."""
        self.same_name(mine.subject, other.subject)
        signed = other.tbs_certificate_bytes if mine.kind == "certificate" else other.tbs_certrequest_bytes
        self.assertEqual(mine.signed_bytes, signed)
        self.assertEqual(mine.signature_algorithm.identifier, other.signature_algorithm_oid.dotted_string)
        digest = other.signature_hash_algorithm
        self.assertEqual(mine.signature_algorithm.digest, None if digest is None else digest.name)
        expected = [(it.oid.dotted_string, it.critical) for it in other.extensions]
        self.assertEqual([(it.identifier, it.critical) for it in mine.extensions], expected)
        names = self.found(other, x509.SubjectAlternativeName) or ()
        self.assertEqual([told(it) for it in mine.alternative_names], [general(it) for it in names])
        usage = self.found(other, x509.KeyUsage)
        if usage is not None:
            agreed = ("encipher", "decipher") if usage.key_agreement else ()
            bits = {name for key, name in USAGES.items() if getattr(usage, key)}
            usage = bits | {f"{it}Only" for it in agreed if getattr(usage, f"{it}_only")}
        self.assertEqual(mine.key_usage, usage)
        purposes = self.found(other, x509.ExtendedKeyUsage)
        # (cryptography's private names are those of the RFC, but for one)
        named = {"1.3.6.1.5.5.7.3.1": "serverAuth", "1.3.6.1.5.5.7.3.2": "clientAuth", "1.3.6.1.5.5.7.3.4": "emailProtection"}
        if purposes is not None:
            self.assertEqual(mine.extended_key_usage, {named.get(it.dotted_string, it.dotted_string) for it in purposes})
        self.assertEqual(mine.extended_key_usage is None, purposes is None)
        basic = self.found(other, x509.BasicConstraints)
        self.assertEqual((mine.is_ca, mine.path_length), (basic.ca, basic.path_length) if basic else (False, None))

    def same_name(self, mine: cimaroly.Name, other: Any) -> None:
        sets = [[(it.oid.dotted_string, it.value) for it in one] for one in other.rdns]
        self.assertEqual([[(it.identifier, it.value) for it in one] for one in mine.sets], sets)
        self.assertEqual([(it.identifier, it.value) for it in mine], [it for one in sets for it in one])
        self.assertEqual(mine.der, other.public_bytes())
        common = other.get_attributes_for_oid(x509.NameOID.COMMON_NAME)
        self.assertEqual(mine.common_name, common[-1].value if common else None)
        texts = iter([text_of(one, its.der) for one, its in zip((it for one in other.rdns for it in one), mine)])
        parts = ["+".join(next(texts) for _ in one) for one in mine.sets]
        if "".join(str(it.value) for it in mine).isprintable():
            self.assertEqual(mine.rfc4514(), ",".join(reversed(parts)))

    def same_key(self, mine: cimaroly.PublicKey, other: Any) -> None:
        form = serialization.PublicFormat.SubjectPublicKeyInfo
        der = other.public_bytes(serialization.Encoding.DER, form)
        self.assertEqual(mine.subject_public_key_info, der)
        self.assertEqual(mine.pin(), base64.b64encode(hashlib.sha256(der).digest()).decode())
        if mine.is_der and mine.kind == "public-key":
            self.assertEqual(mine.der, der)
        is_rsa, is_ec = isinstance(other, rsa.RSAPublicKey), isinstance(other, ec.EllipticCurvePublicKey)
        self.assertEqual((mine.algorithm == "RSA", mine.algorithm == "EC"), (is_rsa, is_ec))
        self.assertEqual(mine.curve, other.curve.name if is_ec else None)
        self.assertEqual(mine.bits, other.key_size if is_rsa or is_ec else 256)
        numbers = other.public_numbers() if is_rsa else None
        self.assertEqual((mine.modulus, mine.exponent), (numbers.n, numbers.e) if numbers else (None, None))

    def test_requests(self) -> None:
        seen = 0
        for path, text, mine in contents("request"):
            assert isinstance(mine, cimaroly.Request)
            with self.subTest(path):
                other = x509.load_pem_x509_csr(text)
                self.same_asked(mine, other)
                self.same_key(mine.public_key, other.public_key())
                self.assertEqual((mine.signature, mine.version), (other.signature, 1))
                self.assertEqual(mine.pem().encode(), other.public_bytes(serialization.Encoding.PEM))
                seen += 1
        self.assertGreater(seen, 1)

    def test_public_keys(self) -> None:
        kinds: list[cimaroly.Kind] = ["public-key", "rsa-public-key"]
        for kind in kinds:
            seen = 0
            for path, text, mine in contents(kind):
                assert isinstance(mine, cimaroly.PublicKey)
                with self.subTest(path):
                    self.same_key(mine, serialization.load_pem_public_key(text))
                    self.assertEqual(cimaroly.read(mine.pem(), kind), mine)
                    seen += 1
            self.assertGreater(seen, 0)

    def test_private_keys(self) -> None:
        """The public key in each, which one of Ed25519 doesn't have, as OpenSSL writes it."""
        kinds: list[cimaroly.Kind] = ["private-key", "rsa-private-key", "ec-private-key"]
        for kind in kinds:
            seen = 0
            for path, text, mine in contents(kind):
                assert isinstance(mine, cimaroly.PrivateKey)
                with self.subTest(path):
                    other = serialization.load_pem_private_key(text, None)
                    if mine.algorithm == "Ed25519":
                        self.assertEqual((mine.public_key, mine.bits, mine.curve), (None, 256, None))
                    else:
                        assert mine.public_key is not None
                        self.same_key(mine.public_key, other.public_key())
                        self.assertEqual((mine.bits, mine.curve), (mine.public_key.bits, mine.public_key.curve))
                        self.assertEqual(mine.algorithm, mine.public_key.algorithm)
                    self.assertEqual(cimaroly.read(mine.pem(), kind), mine)
                    seen += 1
            self.assertGreater(seen, 0)

    def test_keys_of_other_curves(self) -> None:
        for curve in (ec.SECP224R1(), ec.SECP256R1(), ec.SECP521R1(), ec.SECP256K1(), ec.BrainpoolP384R1()):
            key = ec.generate_private_key(curve)
            form, none = serialization.PrivateFormat, serialization.NoEncryption()
            for one, kind in ((form.PKCS8, "private-key"), (form.TraditionalOpenSSL, "ec-private-key")):
                with self.subTest(curve.name, kind=kind):
                    der = key.private_bytes(serialization.Encoding.DER, one, none)
                    mine = cimaroly.PrivateKey(der, kind)  # type: ignore[arg-type]
                    assert mine.public_key is not None
                    self.same_key(mine.public_key, key.public_key())


class ByOpenssl(unittest.TestCase):
    def test_names(self) -> None:
        """Names as RFC 4514 writes them."""
        seen = 0
        for path, _, mine in contents("certificate"):
            assert isinstance(mine, cimaroly.Certificate)
            if path.startswith(STORE) and "=#" not in str(mine.subject):
                words = ["openssl", "x509", "-in", path, "-noout", "-subject", "-nameopt", "RFC2253,-esc_msb,utf8"]
                try:
                    ran = subprocess.run(words, capture_output=True, check=True)
                except FileNotFoundError:
                    self.skipTest("there is no openssl")
                with self.subTest(path):
                    self.assertEqual(f"subject={mine.subject.rfc4514()}\n", ran.stdout.decode())
                seen += 1
                if seen == 20:
                    return


if __name__ == "__main__":
    unittest.main()
