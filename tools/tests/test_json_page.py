"""Tests that docs/JSON.md says what cimaroly prints, over structures that are made by hand (X.690 and the RFCs)."""

import json
import unittest

from cimaroly_program import NEEDS_PROGRAM, run
from der import element


def sequence(*parts):
    return element(0x30, *parts)


def integer(number):
    return element(2, number.to_bytes(number.bit_length() // 8 + 1, "big", signed=True))


def oid(digits):
    return element(6, bytes.fromhex(digits))


# Object identifiers: of nothing known, and of algorithms, extensions and attributes (RFC 8410, RFC 5280, X.520, RFC 2985).
UNKNOWN, ED25519 = oid("2a0304"), sequence(oid("2b6570"))
AUTHORITY_KEY, ALTERNATIVE_NAME, TITLE = oid("551d23"), oid("551d11"), oid("55040c")
KEY_USAGE, SIGNING_TIME = oid("551d0f"), oid("2a864886f70d010905")
PUBLIC_KEY = sequence(ED25519, element(3, b"\0\1"))


def extensions(identifier, *value):
    return sequence(sequence(identifier, element(4, *value)))


def rsa_key(version, exponent=5):
    """An RSA private key of small numbers, with this version and this private exponent (RFC 8017, A.1.2)."""
    return sequence(integer(version), *map(integer, (33, 3, exponent, 11, 3, 1, 1, 2)))


def private_key(*behind):
    return sequence(integer(0), ED25519, element(4, element(4, bytes(32))), *behind)


def request(attribute):
    info = sequence(integer(0), sequence(), PUBLIC_KEY, element(0xA0, attribute))
    return sequence(info, ED25519, element(3, b"\0"))


@NEEDS_PROGRAM
class Page(unittest.TestCase):
    def told(self, kind, der):
        out, _, _ = run("show", "--json", "--type", kind, "-", data=der)
        return json.loads(out)

    def test_order_of_authority_key_fields(self):
        """That of their tags, of several with one tag the last."""
        fields = [element(0x82, b"\5"), element(0x80, b"\1"), element(0x80, b"\2")]
        told = self.told("extensions", extensions(AUTHORITY_KEY, sequence(*fields)))["Extensions"]["items"][0]
        self.assertEqual(list(told)[-2:], ["keyIdentifier", "authorityCertSerialNumber"])
        self.assertEqual((told["keyIdentifier"]["value"], told["authorityCertSerialNumber"]["value"]), ("02", "05"))

    def test_versions(self):
        for version, value in (
            (0, "two-prime"),
            (1, 1),
            (2**64 - 1, 2**64 - 1),
            (2**64, "01:00:00:00:00:00:00:00:00"),
            (-1, "ff"),
        ):
            told = self.told("rsa-private-key", rsa_key(version))
            self.assertEqual(told["RSAPrivateKey"]["version"]["value"], value)

    def test_hidden(self):
        """The zero that keeps a number from being negative isn't counted."""
        for exponent, hidden in ((127, 1), (128, 1), (255, 1), (256, 2), (2**2047, 256)):
            told = self.told("rsa-private-key", rsa_key(0, exponent))["RSAPrivateKey"]["privateExponent"]
            self.assertEqual((told["hidden"], "value" in told), (hidden, False))

    def test_skipped(self):
        """Its place is that of the element, its value that of the content."""
        told = self.told("private-key", private_key(element(0xA0, UNKNOWN)))["PrivateKeyInfo"]["skipped"]
        self.assertEqual(told, {"at": [48, 55], "value": UNKNOWN.hex(":")})

    def test_hash_algorithms(self):
        """By their names in RFC 4055, 2.1."""
        sha384 = sequence(oid("608648016503040202"), element(5))
        mask = sequence(oid("2a864886f70d010108"), sha384)
        parameters = sequence(element(0xA0, sha384), element(0xA1, mask), element(0xA2, integer(48)))
        told = self.told("algorithm", sequence(oid("2a864886f70d01010a"), parameters))["AlgorithmIdentifier"]["parameters"]
        self.assertEqual(told["hashAlgorithm"]["value"], "id-sha384")
        self.assertEqual(told["maskGenAlgorithm"]["parameters"]["value"], "id-sha384")

    def test_values_that_are_not_known(self):
        """The strings of ASCII and UTF-8 are text (X.680, 41), and other elements stand whole."""
        for tag, content, is_text in (
            (0x0C, "\u00fc", True),
            (0x12, "12", True),
            (0x13, "ab", True),
            (0x16, "a@b", True),
            (0x1A, "ab", True),
            (0x14, "ab", False),
            (0x1E, "\0a", False),
            (0x04, "ab", False),
        ):
            value = element(tag, content.encode())
            expected = content if is_text else value.hex(":")
            name = self.told("name", sequence(element(0x31, sequence(TITLE, value))))
            self.assertEqual(name["Name"]["items"][0]["items"][0]["value"], expected)
            other = extensions(ALTERNATIVE_NAME, sequence(element(0xA0, UNKNOWN, element(0xA0, value))))
            told = self.told("extensions", other)["Extensions"]["items"][0]["items"][0]
            self.assertEqual(told["value"]["value"], expected)
        values = element(0x31, element(0x0C, b"text"))
        told = self.told("request", request(sequence(UNKNOWN, values)))["CertificationRequest"]
        item = told["certificationRequestInfo"]["attributes"]["items"][0]
        self.assertEqual((item["value"], "items" in item), (values.hex(":"), False))

    def test_types_of_values(self):
        """By `asn1` and `value`, or by `der`, each element can be made again."""
        for tag, name, content in (
            (0x0C, "UTF8String", "\u00fc"),
            (0x12, "NumericString", "1 2"),
            (0x13, "PrintableString", "a-b'(c)?"),
            (0x16, "IA5String", "a@b\x01"),
            (0x1A, "VisibleString", "a@b"),
        ):
            value = element(tag, content.encode())
            told = self.told("name", sequence(element(0x31, sequence(TITLE, value))))["Name"]["items"][0]["items"][0]
            self.assertEqual((told["asn1"], told["value"], told.get("der")), (name, content, None))
        for tag, content in ((0x12, b"1a"), (0x13, b"a@b"), (0x16, "\u00fc".encode()), (0x1A, b"a\x01")):
            value = element(tag, content)
            told = self.told("name", sequence(element(0x31, sequence(TITLE, value))))["Name"]["items"][0]["items"][0]
            self.assertEqual(told["der"], value.hex(":"))
        long = element(0x13, 300 * b"@")
        told = self.told("name", sequence(element(0x31, sequence(TITLE, long))))["Name"]["items"][0]["items"][0]
        self.assertEqual(told["der"], long.hex(":"))

    def test_what_is_told_of_bits_and_addresses(self):
        for bits, expected in (("0780", {"bits": 1}), ("0080", {"bits": 8}), ("05a0 20", {"bits": 11, "der": "03:03:05:a0:20"})):
            usage = element(0x03, bytes.fromhex(bits))
            told = self.told("extensions", extensions(KEY_USAGE, usage))["Extensions"]["items"][0]
            self.assertEqual({it: told[it] for it in ("bits", "der") if it in told}, expected)
        for size, length in ((4, None), (16, None), (8, 8), (0, 0)):
            names = sequence(element(0x87, bytes(size)))
            told = self.told("extensions", extensions(ALTERNATIVE_NAME, names))["Extensions"]["items"][0]["items"][0]
            self.assertEqual(told.get("length"), length)

    def test_addresses(self):
        """Those of RFC 5952, 4: an IPv4 address in one of IPv6 has no dots."""
        for digits, text in (
            ("c0000201", "192.0.2.1"),
            ("20010db8000000000001000000000001", "2001:db8::1:0:0:1"),
            ("00000000000000000000ffffc0000201", "::ffff:c000:201"),
            ("c000020100", "c0:00:02:01:00"),
        ):
            names = sequence(element(0x87, bytes.fromhex(digits)))
            told = self.told("extensions", extensions(ALTERNATIVE_NAME, names))["Extensions"]["items"][0]["items"][0]
            self.assertEqual(told["value"], text)

    def test_fields_of_deviations_and_refusals(self):
        default = sequence(sequence(UNKNOWN, element(1, b"\0"), element(4)))
        self.assertEqual(self.told("extensions", default)["deviations"][0]["field"], "1.2.3.4")
        bad = sequence(SIGNING_TIME, element(0x31, element(0x17, b"x91017174128Z")))
        attribute = "certificationRequestInfo.attributes.Attribute"
        self.assertEqual(self.told("request", request(bad))["field"], f"{attribute}.value")
        wrong = sequence(sequence(oid("551d13"), element(1, b"\1"), element(4)))
        self.assertEqual(self.told("extensions", wrong)["field"], "Extension.critical")
        name = sequence(element(0x31, sequence(oid("550403"), element(0x13, b"*"))))
        inside = "RelativeDistinguishedName.AttributeTypeAndValue"
        self.assertEqual(self.told("name", name)["field"], f"{inside}.value")


if __name__ == "__main__":
    unittest.main()
