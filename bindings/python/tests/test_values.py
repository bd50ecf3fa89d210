"""Tests the values of fields by hand, from the RFCs."""

from __future__ import annotations

import copy
import datetime
import doctest
import hashlib
import io
import ipaddress
import pickle
import unittest
from collections.abc import Callable
from typing import IO

import cimaroly
from cimaroly._names import element
from tests import made
from tests.test_cimaroly import HERE, file, input_of
from tests.test_secrets import FRONT, KEY, SEED, pem

UTC = datetime.timezone.utc


class Names(unittest.TestCase):
    def name(self, *attributes: tuple[str, int, bytes]) -> cimaroly.Name:
        return cimaroly.Name(made.name(*attributes))

    def test_rfc4514(self) -> None:
        """The examples of RFC 4514, 4, and what 2.4 says to escape."""
        dc, common, unit = "0992268993f22c640119", "550403", "55040b"
        examples = [
            ([(dc, "net"), (dc, "example"), ("0992268993f22c640101", "jsmith")], "UID=jsmith,DC=example,DC=net"),
            ([(dc, "net"), (common, 'James "Jim" Smith, III')], 'CN=James \\"Jim\\" Smith\\, III,DC=net'),
            ([(dc, "net"), (dc, "example"), (common, "Before\rAfter")], "CN=Before\\0DAfter,DC=example,DC=net"),
            ([(common, "Lu\u010di\u0107")], "CN=Lu\u010di\u0107"),
            ([(unit, "#1"), (unit, "a#1")], "OU=a#1,OU=\\#1"),
            ([(unit, " a b "), (unit, " "), (unit, "")], "OU=,OU=\\ ,OU=\\ a b\\ "),
            ([(unit, "a+b,c;d<e>f\\g=h\0")], "OU=a\\+b\\,c\\;d\\<e\\>f\\\\g=h\\00"),
            ([(common, "a\u202eb\u200b")], "CN=a\\E2\\80\\AEb\\E2\\80\\8B"),
        ]
        for attributes, text in examples:
            with self.subTest(text):
                name = self.name(*((kind, 0x0C, value.encode()) for kind, value in attributes))
                self.assertEqual((name.rfc4514(), str(name), repr(name)), (text, text, f"<Name {text}>"))
                self.assertEqual([it.value for it in name], [value for _, value in attributes])

    def test_types_without_a_short_name(self) -> None:
        """They are written by their identifier, and the value by its encoding: the example of RFC 4514, 4."""
        name = self.name(("2b060104018b3a00", 0x04, b"Hi"), ("550461", 0x0C, b"text"))
        self.assertEqual(name.rfc4514(), "2.5.4.97=#0c0474657874,1.3.6.1.4.1.1466.0=#04024869")
        self.assertEqual([it.value for it in name], [bytes.fromhex("04024869"), "text"])
        self.assertEqual(name.values("1.3.6.1.4.1.1466.0"), (b"\4\2Hi",))

    def test_text_that_looks_like_bytes(self) -> None:
        """Text of digits and colons stays text."""
        for text in ("04:02:48:69", "0c", "31", "3a:33:32", "04:00", ""):
            for kind in ("2b060104018b3a00", "550403", "55040d"):
                (attribute,) = self.name((kind, 0x0C, text.encode()))
                self.assertEqual((attribute.value, attribute.der), (text, element(0x0C, text.encode())))
                (attribute,) = self.name(("55040d", 0x04, text.encode()))
                self.assertEqual((attribute.value, attribute.der), (element(4, text.encode()),) * 2)
        for size in (100, 117, 118, 120, 127, 128, 129, 250, 260, 70000):
            for kind in ("2b060104018b3a00", "550403"):
                (attribute,) = self.name((kind, 0x0C, b"a" * size))
                self.assertEqual((attribute.value, attribute.der), ("a" * size, element(0x0C, b"a" * size)))
            (attribute,) = self.name(("2b060104018b3a00", 0x04, b"a" * size))
            self.assertEqual(attribute.value, element(4, b"a" * size))

    def test_sets(self) -> None:
        name = cimaroly.read(file("set_of_two.pem")).subject
        self.assertEqual([[it.name for it in one] for one in name.sets], [["commonName", "organizationName"]])
        self.assertEqual((name.rfc4514(), len(name), name.common_name), ("CN=a+O=b", 2, "a"))

    def test_values_by_type(self) -> None:
        name = cimaroly.read(file("certificate_rsa.pem")).subject
        for key in ("2.5.4.11", "organizationalUnitName", "OU"):
            self.assertEqual(name.values(key), ("Dept A", "Dept B"))
        self.assertEqual(name.values("L"), ())
        several = self.name(("550403", 0x0C, b"first"), ("550403", 0x0C, b"last"))
        self.assertEqual((several.common_name, self.name().common_name), ("last", None))

    def test_equality(self) -> None:
        first, other = self.name(("550403", 0x0C, b"a")), self.name(("550403", 0x0C, b"a"))
        self.assertEqual((first, hash(first)), (other, hash(other)))
        for unlike in (self.name(("550403", 0x0C, b"A")), self.name(("550403", 0x13, b"a")), self.name(), "CN=a"):
            self.assertNotEqual(first, unlike)
        self.assertFalse(self.name())
        self.assertEqual(pickle.loads(pickle.dumps(first)), first)
        self.assertEqual(cimaroly.Name(first.der), first)
        for read in (cimaroly.read(file("certificate_rsa.pem")), cimaroly.read(file("certificate_pss.pem"))):
            self.assertEqual(read.subject, read.issuer)
        with self.assertRaises(cimaroly.Refused):
            cimaroly.Name(b"1\0")
        with self.assertRaisesRegex(TypeError, "bytes, not str"):
            cimaroly.Name("CN=a")


class Certificates(unittest.TestCase):
    def test_alternative_names(self) -> None:
        """Every form, as make.py asks OpenSSL for them."""
        found = cimaroly.read(file("certificate_rsa.pem")).alternative_names
        self.assertEqual(found.dns_names, ("example.org", "*.example.org"))
        self.assertEqual(found.ip_addresses, (ipaddress.ip_address("192.0.2.7"), ipaddress.ip_address("2001:db8::1")))
        self.assertEqual((found.email_addresses, found.uris), (("admin@example.org",), ("https://example.org/x",)))
        self.assertEqual([it.common_name for it in found.directory_names], ["example.org"])
        other = ("otherName", cimaroly.OtherName("1.3.6.1.4.1.311.20.2.3", "someone@example.org"))
        self.assertEqual(found.others, (other, ("registeredID", "1.2.3.4")))
        self.assertEqual(len(found), 9)
        self.assertEqual(made.certificate().alternative_names, ())

    def test_addresses_of_odd_lengths(self) -> None:
        for size in (0, 1, 3, 5, 8, 15, 17, 18, 32, 200):
            content = bytes(range(0x11, 0x11 + size)) if size < 200 else bytes(size)
            found = made.certificate(made.general_names((0x87, content))).alternative_names
            self.assertEqual((found, found.ip_addresses, found.others), ((("iPAddress", content),), (), found))
        # (8 bytes print like an address of 16)
        for form in (0x87, 0xA7):
            for digits in ("1122334455667788", "00110022003300440055006600770088", "00" * 4, "00" * 18):
                content = bytes.fromhex(digits)
                value = element(4, content) if form == 0xA7 else content
                (name,) = made.certificate(made.general_names((form, value))).alternative_names
                same = ipaddress.ip_address(content) if len(content) in (4, 16) else content
                self.assertEqual(name, ("iPAddress", same))

    def test_names_of_the_directory(self) -> None:
        """Under an explicit tag as the RFC has it, and under an implicit one, which is a deviation."""
        name = made.name(("550403", 0x0C, b"a"))
        for tag, content in ((0xA4, name), (0x84, name[2:])):
            (found,) = made.certificate(made.general_names((tag, content))).alternative_names.directory_names
            self.assertEqual((found, found.der), (cimaroly.Name(name), name))
        (found,) = made.certificate(made.general_names((0xA4, made.sequence()))).alternative_names.directory_names
        self.assertEqual(found.der, b"0\0")

    def test_other_forms(self) -> None:
        identifier, text = made.oid("2a0304"), element(0x0C, b"04:00")
        for value, same in ((text, "04:00"), (element(4, b""), b"\4\0"), (made.sequence(), b"0\0")):
            content = identifier + element(0xA0, value)
            (found,) = made.certificate(made.general_names((0xA0, content))).alternative_names
            self.assertEqual(found, ("otherName", ("1.2.3.4", same)))
        party = element(0xA1, element(0x0C, b"party"))
        assigner = element(0xA0, element(0x0C, b"assigner"))
        for content, who in ((party, None), (assigner + party, "assigner")):
            (found,) = made.certificate(made.general_names((0xA5, content))).alternative_names
            self.assertEqual(found, ("ediPartyName", (who, "party")))

    def test_what_isnt_said(self) -> None:
        plain = made.certificate()
        self.assertEqual((plain.key_usage, plain.extended_key_usage, plain.is_ca, plain.path_length), (None, None, False, None))
        self.assertEqual((plain.subject_key_identifier, plain.authority_key_identifier), (None, None))
        self.assertEqual((plain.extensions, plain.issuer_alternative_names, len(plain.subject)), ((), (), 0))
        self.assertEqual(cimaroly.read(file("deviation_5_version.pem")).version, 1)

    def test_extensions_that_stand_twice(self) -> None:
        """RFC 5280, 4.2 forbids it, and no rule says which counts."""
        twice = made.certificate(made.general_names(made.dns("a.example")), made.general_names(made.dns("b.example")))
        self.assertEqual(len(twice.extensions), 2)
        calls: list[Callable[[], object]] = [
            lambda: twice.alternative_names,
            lambda: twice.matches_host("a.example"),
            lambda: twice.extensions["subjectAltName"],
            lambda: twice.extensions.get("2.5.29.17"),
        ]
        for asked in calls:
            with self.assertRaisesRegex(ValueError, "2 extensions"):
                asked()
        self.assertIn("subjectAltName", twice.extensions)
        self.assertIn("in DER", repr(twice))

    def test_numbers(self) -> None:
        for content, number in ((b"\0", 0), (b"\0\x80", 128), (b"\xff", -1), (b"\x7f" * 20, int("7f" * 20, 16))):
            self.assertEqual(made.certificate(serial=content).serial_number, number)

    def test_times(self) -> None:
        """RFC 5280, 4.1.2.5: years of two digits are those from 1950 to 2049."""
        for first, last in ((b"500101000000Z", b"491231235959Z"), (b"20500101000000Z", b"99991231235959Z")):
            found = made.certificate(times=(first, last))
            years = (1950, 2049) if len(first) == 13 else (2050, 9999)
            self.assertEqual(found.not_before, datetime.datetime(years[0], 1, 1, tzinfo=UTC))
            self.assertEqual(found.not_after, datetime.datetime(years[1], 12, 31, 23, 59, 59, tzinfo=UTC))
            self.assertEqual(found.not_after.utcoffset(), datetime.timedelta(0))

    def test_versions_of_requests(self) -> None:
        """RFC 2986, 4.1 has the first alone, which stands as 0."""
        der = input_of("request_ec.pem")
        for number in (0, 1, 5):
            self.assertEqual(cimaroly.Request(der[:10] + bytes([number]) + der[11:]).version, number + 1)

    def test_year_0(self) -> None:
        try:
            found = made.certificate(times=(b"00000101000000Z", b"20500101000000Z"))
        except cimaroly.Refused:
            return
        self.assertEqual(found.not_after.year, 2050)
        with self.assertRaises(ValueError):
            found.not_before  # noqa: B018

    def test_purposes(self) -> None:
        identifiers = ("551d2500", "2b06010505070301", "2b06010505070309", "2b0601050507031f", "2a0304")
        value = made.sequence(*map(made.oid, identifiers))
        found = made.certificate(made.extension(made.PURPOSES, value)).extended_key_usage
        self.assertEqual(found, {"anyExtendedKeyUsage", "serverAuth", "OCSPSigning", "1.3.6.1.5.5.7.3.31", "1.2.3.4"})

    def test_constraints(self) -> None:
        contents = (("", False, None), ("0101ff", True, None), ("0101ff020100", True, 0), ("010100", False, None))
        for content, is_ca, length in contents:
            value = made.sequence(bytes.fromhex(content))
            found = made.certificate(made.extension(made.BASIC_CONSTRAINTS, value))
            self.assertEqual((found.is_ca, found.path_length), (is_ca, length))

    def test_signature_algorithms(self) -> None:
        for name, told in (
            ("certificate_rsa", ("sha256WithRSAEncryption", "sha256")),
            ("certificate_pss", ("id-RSASSA-PSS", "sha256")),
            ("certificate_ec", ("ecdsa-with-SHA384", "sha384")),
            ("certificate_ed25519", ("id-Ed25519", None)),
        ):
            found = cimaroly.read(file(f"{name}.pem")).signature_algorithm
            self.assertEqual((str(found), found.digest), told)

    def test_forms_of_input(self) -> None:
        """A deviation is kept in the bytes, but not in the pin, which is of the DER encoding."""
        found = cimaroly.read(file("certificate_deviations.pem"))
        self.assertFalse(found.is_der)
        self.assertEqual(found.fingerprint(), hashlib.sha256(found.der).digest())
        usual = cimaroly.read(file("public_key_rsa.pem"), "public-key")
        # (rsaEncryption without its NULL)
        key = cimaroly.PublicKey(made.sequence(made.sequence(usual.der[6:17]), usual.der[19:]))
        self.assertEqual((key.is_der, key.pin(), key.bits), (False, usual.pin(), usual.bits))
        self.assertNotEqual(key.der, usual.der)

    def test_prints(self) -> None:
        text = repr(cimaroly.read(file("certificate_ed25519.pem")))
        self.assertRegex(text, "^<certificate CN=example.org until 2026-12-26, 536 bytes, in DER>$")
        self.assertTrue(repr(cimaroly.read(file("hostile_names.pem"))).isprintable())
        long = made.certificate(subject=made.name(("550403", 0x0C, b"a" * 5000)))
        self.assertLess(len(repr(long)), 200)
        key = cimaroly.read(file("public_key_ec.pem"), "public-key")
        self.assertEqual(repr(key), "<public-key EC secp384r1, 120 bytes, in DER>")
        self.assertRegex(repr(cimaroly.read(file("request_rsa.pem"), "request")), "^<request CN=example.org, 521 bytes, in DER>$")


class Readme(unittest.TestCase):
    def test_values(self) -> None:
        """What the page of the package shows."""
        with open(f"{HERE}/../README.md", encoding="utf-8") as page:
            text = page.read().replace("\n```", "\n\n")

        def opened(name: str, mode: str) -> IO[bytes]:
            self.assertEqual(mode, "rb")
            return io.BytesIO(file({"leaf.pem": "certificate_ed25519.pem", "md5.pem": "certificate_md5.pem"}[name]))

        shown = doctest.DocTestParser().get_doctest(text, {"cimaroly": cimaroly, "open": opened}, "README", None, 0)
        found = doctest.DocTestRunner().run(shown)
        self.assertEqual(found.failed, 0)
        self.assertGreater(found.attempted, 5)


class Extensions(unittest.TestCase):
    def test_mapping(self) -> None:
        found = cimaroly.read(file("certificate_rsa.pem")).extensions
        for key in ("2.5.29.15", "id-ce-keyUsage", "keyUsage"):
            self.assertEqual(found[key], found[1])
            self.assertIn(key, found)
        self.assertEqual((found["keyUsage"].critical, found["keyUsage"].name), (True, "id-ce-keyUsage"))
        self.assertEqual(found["subjectKeyIdentifier"].value[:2], b"\4\x14")
        for key in ("2.5.29.1", "keyusage", "", "nameConstraints"):
            self.assertNotIn(key, found)
            self.assertIsNone(found.get(key))
            with self.assertRaises(KeyError):
                found[key]  # noqa: B018
        self.assertIn(found[0], found)
        self.assertEqual((len(found), found[-1], found[1:3]), (7, list(found)[6], (found[1], found[2])))
        plain = cimaroly.Structure(input_of("certificate_rsa.pem")).extensions
        self.assertEqual([(it, it.name) for it in plain], [(it, it.name) for it in found])
        restored = pickle.loads(pickle.dumps(found))
        self.assertEqual((restored, restored["keyUsage"].name), (found, "id-ce-keyUsage"))

    def test_of_a_list(self) -> None:
        found = cimaroly.read(bytes.fromhex("300e300c0603551d1301010004023000"), "extensions").extensions
        self.assertEqual(found["basicConstraints"], ("2.5.29.19", False, b"0\0", 2, 16))

    def test_of_requests(self) -> None:
        request = cimaroly.read(file("request_rsa.pem"), "request")
        self.assertEqual([it.name for it in request.extensions], ["id-ce-subjectAltName", "id-ce-keyUsage"])
        for it in request.extensions:
            alone = cimaroly.read(element(0x30, request.der[it.start : it.end]), "extensions")
            self.assertEqual([one[:3] for one in alone.extensions], [it[:3]])
        self.assertEqual(request.alternative_names.dns_names, ("request.example.org",))
        self.assertTrue(request.matches_host("request.example.org"))
        self.assertEqual(cimaroly.read(file("request_ec.pem"), "request").extensions, ())


class Objects(unittest.TestCase):
    def test_classes(self) -> None:
        """What each call gives, by kind."""
        bundle = b"".join(map(file, ("certificate_ec.pem", "request_ec.pem", "private_key_ec.pem", "public_key_ec.pem")))
        kinds = [cimaroly.Certificate, cimaroly.Request, cimaroly.PrivateKey, cimaroly.PublicKey]
        self.assertEqual([type(it) for it in cimaroly.read_all(bundle)], kinds)
        self.assertEqual([type(it.structure) for it in cimaroly.read_each(bundle)], kinds)
        for it in cimaroly.read_all(bundle):
            self.assertIs(type(cimaroly.read(it.der, it.kind)), type(it))
            self.assertEqual(it, cimaroly.Structure(it.der, it.kind))
        self.assertEqual(cimaroly.read_all(bundle, "certificate")[0].not_after.year, 2081)

    def test_copies(self) -> None:
        for it in cimaroly.read_all(file("certificate_rsa.pem") + file("request_rsa.pem") + file("private_key_rsa.pem")):
            repr(it)
            text = pickle.dumps(it)
            # (not what was asked for before)
            self.assertLess(len(text), len(it.der) + 500)
            for other in (pickle.loads(text), copy.copy(it), copy.deepcopy(it)):
                self.assertEqual((type(other), other, hash(other), repr(other)), (type(it), it, hash(it), repr(it)))

    def test_secrets(self) -> None:
        """What is printed and told of a key is the same of another, without the secret."""
        shown = []
        for der in (KEY, FRONT + bytes(32)):
            key = cimaroly.read(pem("PRIVATE KEY", der), "private-key")
            shown.append((repr(key), str(key), key.algorithm, key.bits, key.curve, key.public_key, key.report()))
        self.assertEqual(shown[0], shown[1])
        self.assertEqual(shown[0][0], "<private-key Ed25519, 256 bits, 48 bytes, in DER>")

    def test_public_key_of_a_key(self) -> None:
        """`publicKey` under the implicit tag of RFC 5958, 2, and under an explicit one, as it is written here."""
        public = b"\0" + bytes(range(32))
        for behind in (element(0x81, public), element(0xA1, element(3, public))):
            key = made.sequence(b"\2\1\1", made.ED25519, element(4, element(4, SEED)), behind)
            found = cimaroly.PrivateKey(key).public_key
            assert found is not None
            self.assertEqual(found.der, made.sequence(made.ED25519, element(3, public)))
        other = made.sequence(b"\2\1\1", made.ED25519, element(4, element(4, SEED)), element(0xA0))
        self.assertIsNone(cimaroly.PrivateKey(other).public_key)

    def test_pem(self) -> None:
        for it in cimaroly.read_all(file("certificate_rsa.pem") + file("request_rsa.pem") + file("private_key_rsa.pem")):
            assert isinstance(it, (cimaroly.Certificate, cimaroly.Request, cimaroly.PrivateKey))
            self.assertEqual(cimaroly.read(it.pem(), it.kind), it)
        self.assertEqual(cimaroly.read(file("certificate_ec.pem")).pem().encode(), file("certificate_ec.pem"))
        self.assertEqual(input_of("certificate_ec.pem"), cimaroly.read(file("certificate_ec.pem")).der)


if __name__ == "__main__":
    unittest.main()
