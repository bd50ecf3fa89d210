"""Tests which hosts a certificate is for, by RFC 9525."""

from __future__ import annotations

import ipaddress
import shutil
import subprocess
import unittest

import cimaroly
from cimaroly._names import Address
from tests.made import certificate, dns, general_names
from tests.test_cimaroly import file

# What a certificate presents, a host, whether it matches, and the section of RFC 9525 that says so. Names are those of its
# examples.
TABLE = (
    # 6.3: each label, in any case of letters
    ("www.example.com", "www.example.com", True, "6.3"),
    ("www.example.com", "WWW.Example.COM", True, "6.3, by RFC 4343"),
    ("WWW.EXAMPLE.COM", "www.example.com", True, "6.3, by RFC 4343"),
    ("www.example.com", "example.com", False, "6.3"),
    ("example.com", "www.example.com", False, "6.3"),
    ("www.example.com", "www.example.org", False, "6.3"),
    ("mail.example.net", "mail.example.net", True, "3"),
    ("im.example.org", "im.example.org", True, "3"),
    ("voice.example.edu", "voice.example.edu", True, "3"),
    ("_xmpp-client.im.example.org", "im.example.org", False, "6.3"),
    # 6.3: the wildcard
    ("*.example.com", "foo.example.com", True, "6.3"),
    ("*.example.com", "FOO.example.com", True, "6.3"),
    ("*.example.com", "bar.foo.example.com", False, "6.3: it stands for one label"),
    ("*.example.com", "example.com", False, "6.3: it stands for one label"),
    ("foo.*.example.com", "foo.bar.example.com", False, "6.3: not the left-most label"),
    ("*.*.example.com", "foo.bar.example.com", False, "6.3: more than one"),
    ("f*.example.com", "foo.example.com", False, "6.3: not the whole label"),
    ("*oo.example.com", "foo.example.com", False, "6.3: not the whole label"),
    ("f*o.example.com", "foo.example.com", False, "6.3: not the whole label"),
    ("**.example.com", "foo.example.com", False, "6.3: more than one"),
    ("*", "localhost", False, "6.3: nothing behind it"),
    ("*.", "localhost", False, "6.3: nothing behind it"),
    ("*", "example.com", False, "6.3"),
    # 6.3: labels that are encoded for international names
    ("xn--bcher-kva.example", "xn--bcher-kva.example", True, "6.3"),
    ("xn--bcher-kva.example", "XN--BCHER-KVA.example", True, "6.3"),
    ("*.example.com", "xn--bcher-kva.example.com", True, "6.3: a whole label"),
    ("xn--*.example.com", "xn--bcher-kva.example.com", False, "6.3: within a label"),
    # what is no name of a host
    ("www.example.com.", "www.example.com", False, "2, by RFC 1034, 3.5"),
    ("www.example.com", "www.example.com.", True, "the root's dot of a host isn't looked at"),
    ("", "www.example.com", False, "2"),
    (".example.com", "www.example.com", False, "2"),
    ("www..com", "www.example.com", False, "2"),
    ("www.example.com\0.example.org", "www.example.com", False, "2"),
    (" www.example.com", "www.example.com", False, "2"),
    # 6.4: an address is no name
    ("192.0.2.7", "192.0.2.7", False, "6.4"),
    ("*.0.2.7", "192.0.2.7", False, "6.4"),
    ("2001:db8::1", "2001:db8::1", False, "6.4"),
)

# The same of addresses, as the bytes that a certificate presents.
ADDRESSES = (
    ("c0000207", "192.0.2.7", True),
    ("c0000207", "192.0.2.8", False),
    ("c0000207", "www.example.com", False),
    ("20010db8000000000000000000000001", "2001:db8::1", True),
    ("20010db8000000000000000000000001", "2001:0DB8:0:0:0:0:0:1", True),
    ("20010db8000000000000000000000001", "[2001:db8::1]", True),
    ("20010db8000000000000000000000001", "2001:db8::2", False),
    ("fe800000000000000000000000000001", "fe80::1%eth0", True),
    # (the bytes count: an address in another is another)
    ("00000000000000000000ffffc0000207", "192.0.2.7", False),
    ("c0000207", "::ffff:192.0.2.7", False),
    ("c0000207ffffffff", "192.0.2.7", False),
    ("1122334455667788", "11:22:33:44:55:66:77:88", False),
    ("", "192.0.2.7", False),
)

# Where OpenSSL answers otherwise: it lets a wildcard stand for a part of a label, takes an address for a name where it is asked
# for one, and doesn't leave out the root's dot.
OTHERWISE = {
    ("f*.example.com", "foo.example.com"),
    ("*oo.example.com", "foo.example.com"),
    ("www.example.com", "www.example.com."),
    ("192.0.2.7", "192.0.2.7"),
    ("*.0.2.7", "192.0.2.7"),
    ("2001:db8::1", "2001:db8::1"),
}


def by_openssl(made: cimaroly.Certificate, option: str, host: str) -> bool:
    words = ["openssl", "x509", "-noout", option, host]
    ran = subprocess.run(words, input=made.pem(), capture_output=True, encoding="utf-8", check=True)
    return "does match" in ran.stdout


class Hosts(unittest.TestCase):
    def test_names(self) -> None:
        for presented, host, is_match, section in TABLE:
            with self.subTest(presented, host=host, section=section):
                self.assertEqual(certificate(general_names(dns(presented))).matches_host(host), is_match)
                # (each of several names counts)
                several = general_names(dns("other.example"), dns(presented))
                self.assertEqual(certificate(several).matches_host(host), is_match)

    def test_addresses(self) -> None:
        for presented, host, is_match in ADDRESSES:
            with self.subTest(presented, host=host):
                made = certificate(general_names((0x87, bytes.fromhex(presented))))
                self.assertEqual(made.matches_host(host), is_match)
                if "example" not in host:
                    self.assertEqual(made.matches_host(ipaddress.ip_address(host.strip("[]"))), is_match)

    @unittest.skipUnless(shutil.which("openssl"), "there is no openssl")
    def test_by_openssl(self) -> None:
        for presented, host, is_match, _ in TABLE:
            with self.subTest(presented, host=host):
                found = by_openssl(certificate(general_names(dns(presented))), "-checkhost", host)
                self.assertEqual(found, is_match is not ((presented, host) in OTHERWISE))
        for digits, host, is_match in ADDRESSES:
            if "example" not in host and not set(host) & set("[%"):
                with self.subTest(digits, host=host):
                    made = certificate(general_names((0x87, bytes.fromhex(digits))))
                    self.assertEqual(by_openssl(made, "-checkip", host), is_match)

    def test_other_forms(self) -> None:
        """Those of mail, of URIs and of the directory aren't for a host (RFC 9525, 6.1), nor is the common name (6.3)."""
        for tag, value in ((0x81, "www.example.com"), (0x86, "https://www.example.com/"), (0x86, "www.example.com")):
            self.assertFalse(certificate(general_names((tag, value.encode()))).matches_host("www.example.com"))
        leaf = cimaroly.read(file("certificate_ed25519.pem"))
        self.assertEqual(leaf.subject.common_name, "example.org")
        self.assertFalse(leaf.matches_host("example.org"))
        self.assertTrue(leaf.matches_host("leaf.example.org"))
        self.assertFalse(certificate(None).matches_host("www.example.com"))

    def test_what_is_no_host(self) -> None:
        made = certificate(general_names(dns("*.example.com")))
        for host in ("", ".", "..", ".example.com", "*.example.com", "a..example.com", "a b.example.com", "a.example.com/"):
            with self.subTest(host), self.assertRaisesRegex(ValueError, "neither the name of a host nor an address"):
                made.matches_host(host)
        for host in ("1.2.3", "1.2.3.4.5", "256.1.1.1", "[192.0.2.7]", "[::1", "[]", "-a.com"):
            with self.subTest(host), self.assertRaises(ValueError):
                made.matches_host(host)
        for host in ("a" * 64 + ".example.com", "a." * 127 + "com"):
            with self.subTest(host), self.assertRaises(ValueError):
                made.matches_host(host)
        for host in ("b\u00fccher.example.com", "\uff57\uff57\uff57.example.com", "\u212a.example.com"):
            with self.subTest(host), self.assertRaisesRegex(ValueError, "A-labels"):
                made.matches_host(host)

    def test_forms_of_addresses(self) -> None:
        made = cimaroly.read(file("certificate_rsa.pem"))
        hosts: list[str | Address] = ["192.0.2.7", ipaddress.IPv4Address("192.0.2.7"), ipaddress.IPv6Address("2001:db8::1")]
        self.assertTrue(all(map(made.matches_host, hosts)))
        self.assertFalse(made.matches_host(ipaddress.ip_address("192.0.2.8")))


if __name__ == "__main__":
    unittest.main()
