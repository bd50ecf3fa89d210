"""Tests what cimaroly reports of the files in data/ and of the certificates of this machine, against what OpenSSL tells of them."""

import base64
import ipaddress
import json
import os
import re
import subprocess
import unittest

from cimaroly_program import CERTIFICATES, DATA, NEEDS_OPENSSL, NEEDS_PROGRAM, STORE, name_of, openssl, read, run, shown
from der import element

USAGES = {
    "Digital Signature": "digitalSignature",
    "Non Repudiation": "nonRepudiation",
    "Key Encipherment": "keyEncipherment",
    "Data Encipherment": "dataEncipherment",
    "Key Agreement": "keyAgreement",
    "Certificate Sign": "keyCertSign",
    "CRL Sign": "cRLSign",
    "Encipher Only": "encipherOnly",
    "Decipher Only": "decipherOnly",
}

# OpenSSL's names of attributes where they aren't the standards'.
ATTRIBUTES = {"userId": "userId", "generationQualifier": "generationQualifier", "jurisdictionC": "jurisdictionCountryName"}


def extensions_of(certificate):
    fields = certificate["Certificate"]["tbsCertificate"]
    return {it["id"]: it for it in fields.get("extensions", {}).get("items", [])}


def name_by_openssl(pem, which):
    """The same by OpenSSL."""
    text = openssl("x509", "-noout", f"-{which}", "-nameopt", "lname,sep_multiline,utf8,space_eq,esc_ctrl", data=pem)
    sets = []
    for line in filter(str.strip, text.splitlines()[1:]):
        parts = re.split(r" \+ (?=[A-Za-z0-9.]+ = )", line.strip())
        sets.append([tuple(it.split(" = ", 1)) for it in parts])
    return sets


def stamp(text):
    """A time as RFC 3339 writes it, of OpenSSL's `2026-11-26 10:06:40Z`."""
    return text.strip().replace(" ", "T")


def address(text):
    try:
        return str(ipaddress.ip_address(text))
    except ValueError:
        return text


def alternatives(extension):
    """The alternative names of the four usual forms."""
    forms = {"dNSName": "DNS", "rfc822Name": "email", "uniformResourceIdentifier": "URI", "iPAddress": "IP Address"}
    return [(forms[it["field"]], it["value"]) for it in extension["items"] if it["field"] in forms]


def alternatives_by_openssl(text):
    found = re.findall(r"(?:^|, )(DNS|email|URI|IP Address):([^,\n]*)", text)
    return [(form, address(value) if form == "IP Address" else value) for form, value in found]


@NEEDS_PROGRAM
@NEEDS_OPENSSL
class AgainstOpenSsl(unittest.TestCase):
    """What is told of a certificate is what OpenSSL tells."""

    maxDiff = None

    def same_certificate(self, pem, told):
        fields = told["Certificate"]["tbsCertificate"]
        text = openssl("x509", "-noout", "-serial", "-startdate", "-enddate", "-dateopt", "iso_8601", data=pem)
        said = dict(line.split("=", 1) for line in text.splitlines())
        serial = int.from_bytes(bytes.fromhex(fields["serialNumber"]["value"].replace(":", "")), "big", signed=True)
        self.assertEqual(serial, int(said["serial"], 16))
        self.assertEqual(fields["validity"]["notBefore"]["value"], stamp(said["notBefore"]))
        self.assertEqual(fields["validity"]["notAfter"]["value"], stamp(said["notAfter"]))
        for which in ("subject", "issuer"):
            self.assertEqual(name_of(fields[which]), name_by_openssl(pem, which))
        self.same_extensions(pem, told)

    def same_extensions(self, pem, told):
        mine = extensions_of(told)
        text = openssl("x509", "-noout", "-ext", "subjectAltName,keyUsage", data=pem)
        if "2.5.29.17" in mine and "DirName" not in text and "othername" not in text:
            line = text.split("X509v3 Subject Alternative Name:", 1)[1].split("\n", 2)[1].strip()
            self.assertEqual(alternatives(mine["2.5.29.17"]), alternatives_by_openssl(line))
        self.assertEqual("2.5.29.17" in mine, "X509v3 Subject Alternative Name" in text)
        self.assertEqual("2.5.29.15" in mine, "X509v3 Key Usage" in text)
        if "2.5.29.15" in mine:
            head, line = text.split("X509v3 Key Usage:", 1)[1].split("\n", 2)[:2]
            self.assertEqual(mine["2.5.29.15"]["value"], [USAGES[it] for it in line.strip().split(", ")])
            self.assertEqual(mine["2.5.29.15"]["critical"], "critical" in head)

    def test_certificates_of_the_repository(self):
        for it in CERTIFICATES:
            with self.subTest(it):
                with open(f"{DATA}/{it}.pem", "rb") as file:
                    pem = file.read()
                (told,) = shown(f"{DATA}/{it}.pem")
                self.same_certificate(pem, told)

    @unittest.skipUnless(os.path.isdir(STORE), f"there is no {STORE}")
    def test_certificates_of_this_machine(self):
        seen = 0
        for it in sorted(os.listdir(STORE)):
            path = f"{STORE}/{it}"
            if not it.endswith(".pem"):
                continue
            with open(path, "rb") as file:
                pem = file.read()
            (told,) = shown(path)
            if told["result"] == "refused":
                continue
            with self.subTest(it):
                self.same_certificate(pem, told)
            seen += 1
        self.assertGreater(seen, 0)

    def test_alternative_names(self):
        (told,) = shown(f"{DATA}/certificate_rsa.pem")
        self.assertEqual(
            alternatives(extensions_of(told)["2.5.29.17"]),
            [
                ("DNS", "example.org"),
                ("DNS", "*.example.org"),
                ("IP Address", "192.0.2.7"),
                ("IP Address", "2001:db8::1"),
                ("email", "admin@example.org"),
                ("URI", "https://example.org/x"),
            ],
        )

    def test_keys(self):
        for it in ("private_key_rsa", "rsa_private_key"):
            (told,) = shown(f"{DATA}/{it}.pem")
            key = told["PrivateKeyInfo"]["privateKey"] if "PrivateKeyInfo" in told else told["RSAPrivateKey"]
            text = openssl("rsa", "-in", f"{DATA}/{it}.pem", "-noout", "-modulus")
            modulus = key["modulus"]
            self.assertEqual(int(modulus["value"].replace(":", ""), 16), int(text.strip().split("=")[1], 16))
            self.assertEqual(modulus["bits"], 1024)

    def test_trees(self):
        for it in sorted(os.listdir(DATA)):
            if it.endswith(".pem") and "encrypted" not in it:
                with self.subTest(it):
                    self.same_tree(f"{DATA}/{it}")

    def same_tree(self, path):
        out, _, status = run("tree", path)
        self.assertEqual(status, 0)
        form = re.compile(r" *(\d+)\.\.(\d+) .*?(, which holds)?")
        lines = [form.fullmatch(line).groups() for line in out.decode().splitlines()]
        with open(path, "rb") as file:
            der = base64.b64decode(b"".join(it for it in file.read().splitlines() if b"-" not in it))
        self.same_lines([(int(start), int(end), bool(holds)) for start, end, holds in lines], der, 0)

    def same_lines(self, lines, der, at):
        """The elements of bytes are those that OpenSSL tells, and so are those in their strings."""
        rest, found = list(lines), []
        while rest:
            start, end, holds = rest.pop(0)
            found.append((start - at, end - at))
            if holds:
                inside = [it for it in rest if it[1] <= end]
                rest = rest[len(inside) :]
                first = inside[0][0]
                self.same_lines(inside, der[first - at : end - at], first)
        self.assertEqual(found, [(start, end) for start, end, _, _ in elements("-inform", "DER", data=der)])


def names_of_text(text):
    """The labels and places of a report's lines below its summary."""
    lines = text.split("\n\n", 1)[1].splitlines()
    return [(it.split(maxsplit=1)[0], tuple(map(int, re.search(r"(\d+)\.\.(\d+)$", it).groups()))) for it in lines]


def names_of_json(name, node):
    """The names and places of a node and of those in it, in their order."""
    yield name, tuple(node["at"])
    for key, inner in node.items():
        if key == "items":
            for it in inner:
                yield from names_of_json(it.get("field") or it.get("name") or it["id"], it)
        elif isinstance(inner, dict) and "at" in inner:
            yield from names_of_json(key, inner)


@NEEDS_PROGRAM
class Texts(unittest.TestCase):
    """The report as text."""

    maxDiff = None

    @NEEDS_OPENSSL
    def test_summaries(self):
        for it in CERTIFICATES:
            with self.subTest(it):
                pem = read(f"{it}.pem")
                self.same_summary(run("show", f"{DATA}/{it}.pem")[0].decode(), pem)

    def same_summary(self, text, pem):
        said = dict(re.findall(r"^  (subject|issuer|valid) +(.*)$", text, re.M))
        if said["issuer"] == "the same":
            said["issuer"] = said["subject"]
        form = ["-nameopt", "sname,utf8,sep_comma_plus_space,esc_2253,esc_ctrl", "-dateopt", "iso_8601"]
        told = openssl("x509", "-noout", "-subject", "-issuer", "-startdate", "-enddate", *form, data=pem)
        told = dict(line.split("=", 1) for line in told.splitlines())
        self.assertEqual(said["subject"], told["subject"] or "(empty)")
        self.assertEqual(said["issuer"], told["issuer"] or "(empty)")
        self.assertEqual(said["valid"], f"{stamp(told['notBefore'])} to {stamp(told['notAfter'])}")

    def test_secrets_of_one_byte(self):
        """What isn't shown is counted in words: one byte, several bytes."""
        _, _, status = run("check", "-q", "--type", "private-key", "-", data=edwards_key(b"\1"))
        self.assertEqual(status, 0)
        for secret, said in ((b"\1", "1 byte, not shown"), (bytes(32), "32 bytes, not shown")):
            out, _, _ = run("show", "--type", "private-key", "-", data=edwards_key(secret))
            self.assertRegex(out.decode(), rf"\n  privateKey +{said} ")

    @NEEDS_OPENSSL
    def test_constraints_left_out(self):
        """Basic constraints without anything in them are those of no authority."""
        text = run("show", f"{DATA}/certificate_ed25519.pem")[0].decode()
        self.assertRegex(text, r"\n +id-ce-basicConstraints +cA false +420\.\.431\n")
        told = openssl("x509", "-in", f"{DATA}/certificate_ed25519.pem", "-noout", "-ext", "basicConstraints")
        self.assertIn("CA:FALSE", told)

    @NEEDS_OPENSSL
    def test_keys(self):
        for it, words in (("certificate_rsa", ["RSA"]), ("certificate_pss", ["RSA"]), ("certificate_ec", ["EC"])):
            with self.subTest(it):
                text = openssl("x509", "-in", f"{DATA}/{it}.pem", "-noout", "-text")
                words = [*words, *re.findall(r"ASN1 OID: (\S+)", text), re.search(r"Public-Key: \((\d+) bit\)", text)[1] + " bits"]
                line = re.search(r"^  key +(.*)$", run("show", f"{DATA}/{it}.pem")[0].decode(), re.M)[1]
                self.assertEqual(line.replace("secp256r1", "prime256v1"), ", ".join(words))

    def test_lines_are_those_of_json(self):
        """Each line has the label and the place of a node of the JSON, in the same order, and no part of a node is missing."""
        for it in sorted(os.listdir(DATA)):
            if not it.endswith(".pem") or "encrypted" in it or "refused" in it:
                continue
            with self.subTest(it):
                found = names_of_text(run("show", f"{DATA}/{it}")[0].decode())
                (told,) = shown(f"{DATA}/{it}")
                # (of what is of an algorithm that isn't read, the outline is told)
                told = told.get("outline", told)
                (name,) = [key for key, node in told.items() if isinstance(node, dict)]
                wanted = list(names_of_json(name, told[name]))
                self.assertEqual([node for node in wanted if node in found], found)
                for start, end in {place for _, place in wanted}:
                    self.assertTrue(any(a <= start and end <= b for _, (a, b) in found))


def integer(number):
    """A number in DER (X.690, 8.3)."""
    bits = (number if number >= 0 else ~number).bit_length()
    return element(2, number.to_bytes(bits // 8 + 1, "big", signed=True))


@NEEDS_PROGRAM
class Keys(unittest.TestCase):
    """Numbers and sizes of keys that aren't as they should be."""

    def key(self, kind, der):
        """What the summary says of a key, and the whole report."""
        out, _, status = run("show", "--type", kind, "-", data=der)
        self.assertEqual(status, 0)
        return re.search(r"^  key +(.*)$", out.decode(), re.MULTILINE)[1], out.decode()

    def test_numbers(self):
        """Numbers of any sign and size are shown as what they are: up to 64 bits in decimal."""
        few = [*range(-260, -250), *range(-130, -125), *range(-4, 3), 127, 128, 255, 256]
        for number in (*few, 2**64 - 1, 2**64, -(2**63), -(2**63) - 1, -(2**64), 5 - 2**512):
            with self.subTest(number):
                der = element(0x30, integer(number) + integer(3))
                said, text = self.key("rsa-public-key", der)
                size = number.bit_length()
                self.assertEqual(said, f"RSA, {size} bit{'s' * (size != 1)}" if number > 0 else "RSA, with a modulus that isn't positive")
                shown_as = re.search(r"^  modulus +(.*?)  ", text, re.MULTILINE)[1]
                if -(2**63) <= number < 2**64:
                    self.assertEqual(shown_as, str(number))
                else:
                    self.assertTrue(shown_as.startswith(f"{'negative, ' * (number < 0)}{size} bits, "), shown_as)
                out, _, _ = run("show", "--json", "--type", "rsa-public-key", "-", data=der)
                told = json.loads(out)["RSAPublicKey"]["modulus"]
                content = bytes.fromhex(told["value"].replace(":", ""))
                self.assertEqual((int.from_bytes(content, "big", signed=True), told["bits"]), (number, size))

    def public(self, algorithm, bits, unused=0):
        return element(0x30, element(0x30, bytes.fromhex(algorithm)) + element(3, bytes([unused]) + bits))

    def test_sizes_of_public_keys(self):
        """The size is the key's own, and where the algorithm's is another, both are said."""
        curve = "06072a8648ce3d020106082a8648ce3d030107"
        for said, der in (
            ("Ed25519, 256 bits", self.public("06032b6570", bytes(32))),
            ("Ed25519, 0 bits instead of 256", self.public("06032b6570", b"")),
            ("Ed448, 3 bits instead of 456", self.public("06032b6571", b"\x80", 5)),
            ("Ed448, 1 bit instead of 456", self.public("06032b6571", b"\x80", 7)),
            ("X25519, 264 bits instead of 256", self.public("06032b656e", bytes(33))),
            ("EC, secp256r1, 256 bits", self.public(curve, b"\4" + bytes(64))),
            ("EC, secp256r1, 256 bits", self.public(curve, b"\2" + bytes(32))),
            ("EC, secp256r1, 256 bits, with a point of 264 bits", self.public(curve, b"\4" + bytes(32))),
            ("EC, secp256r1, 256 bits, with a point of 0 bits", self.public(curve, b"")),
        ):
            with self.subTest(said):
                self.assertEqual(self.key("public-key", der)[0], said)

    def test_sizes_of_private_keys(self):
        curve = element(0xA0, bytes.fromhex("06082a8648ce3d030107"))
        for said, kind, der in (
            ("Ed25519, 256 bits", "private-key", edwards_key(bytes(32))),
            ("Ed25519, 8 bits instead of 256", "private-key", edwards_key(b"\1")),
            ("EC, secp256r1, 256 bits", "ec-private-key", element(0x30, integer(1) + element(4, bytes(32)) + curve)),
            (
                "EC, secp256r1, 256 bits, with a private key of 24 bits",
                "ec-private-key",
                element(0x30, integer(1) + element(4, bytes(3)) + curve),
            ),
        ):
            with self.subTest(said):
                self.assertEqual(self.key(kind, der)[0], said)


def edwards_key(secret):
    """A private key of Ed25519 (RFC 8410, 7)."""
    return element(0x30, integer(0) + element(0x30, bytes.fromhex("06032b6570")) + element(4, element(4, secret)))


def elements(*words, data=None):
    """Start, end, depth and tag of each element of a file or of bytes, as `openssl asn1parse` tells them."""
    found = []
    for line in openssl("asn1parse", *words, data=data).splitlines():
        told = re.match(r" *(\d+):d=(\d+) +hl=(\d+) +l= *(\d+) +(?:cons|prim): +(.*)", line)
        # (a line feed in a text begins a line that tells of none)
        if told:
            start, depth, header, length, tag = told.groups()
            found.append((int(start), int(start) + int(header) + int(length), int(depth), tag.split(":")[0].strip()))
    return found


def inner(found, outer):
    """The elements right inside of one."""
    start, end, depth, _ = outer
    return [it for it in found if start <= it[0] and it[1] <= end and it[2] == depth + 1]


@NEEDS_PROGRAM
@NEEDS_OPENSSL
class Places(unittest.TestCase):
    """Fields stand where `openssl asn1parse` finds the elements that the grammar gives them (RFC 5280, 4.1)."""

    def same(self, node, outer):
        self.assertEqual(tuple(node["at"]), outer[:2])

    def test_certificates(self):
        for it in CERTIFICATES:
            with self.subTest(it):
                (told,) = shown(f"{DATA}/{it}.pem")
                found = elements("-in", f"{DATA}/{it}.pem")
                self.certificate(told, found)

    @unittest.skipUnless(os.path.isdir(STORE), f"there is no {STORE}")
    def test_certificates_of_this_machine(self):
        for it in sorted(os.listdir(STORE)):
            if it.endswith(".pem"):
                (told,) = shown(f"{STORE}/{it}")
                if told["result"] != "refused":
                    with self.subTest(it):
                        self.certificate(told, elements("-in", f"{STORE}/{it}"))

    def certificate(self, told, found):
        node = told["Certificate"]
        self.same(node, found[0])
        tbs, algorithm, signature = inner(found, found[0])
        self.same(node["tbsCertificate"], tbs)
        self.assertEqual(tuple(told["signed"]), tbs[:2])
        self.same(node["signatureAlgorithm"], algorithm)
        self.same(node["signatureValue"], signature)
        names = ["version", "serialNumber", "signature", "issuer", "validity", "subject", "subjectPublicKeyInfo"]
        fields = inner(found, tbs)
        if "version" not in node["tbsCertificate"]:
            # (of version 1, which isn't encoded)
            self.assertEqual(fields[0][3], "INTEGER")
            fields.insert(0, None)
        for name, field in zip(names, fields):
            if field:
                self.same(node["tbsCertificate"][name], field)
        self.name(node["tbsCertificate"]["subject"], found, fields[5])
        self.name(node["tbsCertificate"]["issuer"], found, fields[3])
        self.public_key(node["tbsCertificate"]["subjectPublicKeyInfo"], found, fields[6])
        for name, field in zip(("notBefore", "notAfter"), inner(found, fields[4])):
            self.same(node["tbsCertificate"]["validity"][name], field)
        if len(fields) > 7:
            (items,) = inner(found, fields[7])
            for extension, item in zip(node["tbsCertificate"]["extensions"]["items"], inner(found, items), strict=True):
                self.same(extension, item)

    def name(self, node, found, outer):
        for rdn, element in zip(node["items"], inner(found, outer), strict=True):
            self.same(rdn, element)
            for attribute, item in zip(rdn["items"], inner(found, element), strict=True):
                self.same(attribute, item)

    def test_requests(self):
        """RFC 2986, 4."""
        for it in ("request_rsa", "request_ec"):
            with self.subTest(it):
                (told,) = shown(f"{DATA}/{it}.pem")
                found = elements("-in", f"{DATA}/{it}.pem")
                node = told["CertificationRequest"]
                info, algorithm, signature = inner(found, found[0])
                self.same(node["certificationRequestInfo"], info)
                self.assertEqual(tuple(told["signed"]), info[:2])
                self.same(node["signatureAlgorithm"], algorithm)
                self.same(node["signature"], signature)
                fields = inner(found, info)
                for name, field in zip(("version", "subject", "subjectPKInfo", "attributes"), fields, strict=True):
                    self.same(node["certificationRequestInfo"][name], field)
                self.name(node["certificationRequestInfo"]["subject"], found, fields[1])
                self.public_key(node["certificationRequestInfo"]["subjectPKInfo"], found, fields[2])

    def public_key(self, node, found, outer):
        for name, field in zip(("algorithm", "subjectPublicKey"), inner(found, outer), strict=True):
            self.same(node[name], field)

    def test_keys(self):
        """RFC 5280, 4.1.2.7; RFC 5958, 2; RFC 8017, A.1; RFC 5915, 3."""
        numbers = ["modulus", "publicExponent", "privateExponent", "prime1", "prime2", "exponent1", "exponent2", "coefficient"]
        info = ["version", "privateKeyAlgorithm", "privateKey"]
        for it, name, fields in (
            ("public_key_rsa", "SubjectPublicKeyInfo", ["algorithm", "subjectPublicKey"]),
            ("public_key_ec", "SubjectPublicKeyInfo", ["algorithm", "subjectPublicKey"]),
            ("public_key_ed25519", "SubjectPublicKeyInfo", ["algorithm", "subjectPublicKey"]),
            ("private_key_rsa", "PrivateKeyInfo", info),
            ("private_key_ec", "PrivateKeyInfo", info),
            ("private_key_ed25519", "PrivateKeyInfo", info),
            ("rsa_private_key", "RSAPrivateKey", ["version", *numbers]),
            ("rsa_public_key", "RSAPublicKey", numbers[:2]),
            ("ec_private_key", "ECPrivateKey", ["version", "privateKey", "parameters", "publicKey"]),
        ):
            with self.subTest(it):
                (told,) = shown(f"{DATA}/{it}.pem")
                found = elements("-in", f"{DATA}/{it}.pem")
                self.same(told[name], found[0])
                for field, element in zip(fields, inner(found, found[0]), strict=True):
                    self.same(told[name][field], element)

    def test_fields_inside_of_extensions(self):
        # each place inside an extension holds one element, by its own header
        (told,) = shown(f"{DATA}/certificate_rsa.pem")
        der = subprocess.run(
            ["openssl", "x509", "-in", f"{DATA}/certificate_rsa.pem", "-outform", "DER"], capture_output=True, check=True
        ).stdout
        for start, end in places(told["Certificate"]["tbsCertificate"]["extensions"]):
            size = der[start + 1]
            header = 2 if size < 128 else 2 + size - 128
            length = size if size < 128 else int.from_bytes(der[start + 2 : start + header], "big")
            self.assertEqual(start + header + length, end)

    def test_authority_fields_out_of_order(self):
        (told,) = shown(f"{DATA}/deviation_8_authority.pem")
        key = extensions_of(told)["2.5.29.35"]
        self.assertEqual(key["keyIdentifier"]["value"], ":".join(["00"] * 20))
        self.assertEqual(key["authorityCertSerialNumber"]["value"], "05")
        # the serial number stands first
        self.assertEqual(key["authorityCertSerialNumber"]["at"][1], key["keyIdentifier"]["at"][0])
        self.assertEqual(key["keyIdentifier"]["at"][1] - key["keyIdentifier"]["at"][0], 22)


def places(node):
    """All places in a node."""
    if isinstance(node, dict):
        if "at" in node:
            yield tuple(node["at"])
        for it in node.values():
            yield from places(it)
    elif isinstance(node, list):
        for it in node:
            yield from places(it)
