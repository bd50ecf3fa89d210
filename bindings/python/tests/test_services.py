"""Tests where the status of certificates is asked for, their policies and the timestamps of logs, compared with those that the
package cryptography tells."""

from __future__ import annotations

import datetime
import random
import unittest
from typing import Any, Optional, Union

try:
    from cryptography import x509
    from cryptography.hazmat.primitives.asymmetric import ed25519
    from cryptography.hazmat.primitives.serialization import Encoding
    from cryptography.x509.oid import AuthorityInformationAccessOID
except ImportError:
    x509 = None  # type: ignore[assignment]

import cimaroly
from cimaroly._names import element
from tests import made
from tests.quiet import Quiet
from tests.test_compared import contents

UTC = datetime.timezone.utc

# The contents of identifiers, in hexadecimal.
ACCESS, POINTS, POLICIES, TIMESTAMPS = "2b06010505070101", "551d1f", "551d20", "2b06010401d679020402"

LOG, TIME, SIGNATURE = bytes(range(32)), 1_764_324_000_123, bytes(40)


def timestamp(version: int = 0) -> bytes:
    """A timestamp of a log (RFC 6962, 3.2), with its length in front."""
    signed = bytes((4, 3)) + len(SIGNATURE).to_bytes(2, "big") + SIGNATURE
    whole = bytes((version,)) + LOG + TIME.to_bytes(8, "big") + bytes(2) + signed
    return len(whole).to_bytes(2, "big") + whole


def timestamps(*items: bytes) -> bytes:
    """The extension with timestamps (RFC 6962, 3.3)."""
    found = b"".join(items)
    return made.extension(TIMESTAMPS, element(4, len(found).to_bytes(2, "big") + found))


def addresses(names: Any) -> list[str]:
    return [it.value for it in names or () if isinstance(it, x509.UniformResourceIdentifier)]


def policy(found: Any) -> Any:
    """A policy of cryptography, as it is told here: its identifier, addresses and texts."""
    said = found.policy_qualifiers or ()
    statements = tuple(it for it in said if isinstance(it, str))
    notices = (it for it in said if isinstance(it, x509.UserNotice))
    texts = tuple(it.explicit_text or (it.notice_reference.organization if it.notice_reference else "") for it in notices)
    return found.policy_identifier.dotted_string, statements, texts


def uri(chance: random.Random) -> Any:
    host = "".join(chance.choices("abc0", k=chance.randint(1, 20)))
    return x509.UniformResourceIdentifier(f"http://{host}.example/{chance.choice(('', 'a,b', '?q=1'))}")


def any_name(chance: random.Random) -> Any:
    return chance.choice((uri(chance), uri(chance), x509.DNSName("example.org")))


def notice(chance: random.Random) -> Any:
    reference = x509.NoticeReference("Org", [1, 2]) if chance.random() < 0.5 else None
    return x509.UserNotice(reference, chance.choice(("Gründe", "plain", None)))


def information(chance: random.Random) -> Any:
    said: list[Any] = [chance.choice(("http://cps.example/", notice(chance))) for _ in range(chance.randint(0, 3))]
    return x509.PolicyInformation(x509.ObjectIdentifier(chance.choice(("2.23.140.1.2.1", "2.5.29.32.0", "1.2.3"))), said or None)


def point(chance: random.Random) -> Any:
    names = [any_name(chance) for _ in range(chance.randint(1, 3))]
    reasons = frozenset({x509.ReasonFlags.key_compromise}) if chance.random() < 0.3 else None
    return x509.DistributionPoint(names, None, reasons, None)


def certificate(key: Any, chance: random.Random) -> bytes:
    """A certificate with services, points and policies."""
    first = datetime.datetime(2026, 1, 1)
    name = x509.Name([])
    built = x509.CertificateBuilder(name, name, key.public_key(), 1).not_valid_before(first).not_valid_after(first)
    methods = (AuthorityInformationAccessOID.OCSP, AuthorityInformationAccessOID.CA_ISSUERS)
    services = [x509.AccessDescription(chance.choice(methods), any_name(chance)) for _ in range(chance.randint(0, 4))]
    if services:
        built = built.add_extension(x509.AuthorityInformationAccess(services), False)
    points = [point(chance) for _ in range(chance.randint(0, 3))]
    if points:
        built = built.add_extension(x509.CRLDistributionPoints(points), False)
    policies = [information(chance) for _ in range(chance.randint(0, 3))]
    if policies:
        built = built.add_extension(x509.CertificatePolicies(policies), chance.random() < 0.5)
    return bytes(built.sign(key, None).public_bytes(Encoding.DER))


@unittest.skipIf(x509 is None, "there is no package cryptography")
class Compared(Quiet):
    def test_certificates(self) -> None:
        """Those of the tests, and those that this machine trusts."""
        seen = 0
        for path, text, mine in contents("certificate"):
            assert isinstance(mine, cimaroly.Certificate)
            try:
                extensions = x509.load_pem_x509_certificate(text).extensions
            except ValueError:
                continue
            with self.subTest(path):
                seen += self.same(mine, extensions)
        self.assertGreater(seen, 0)

    def test_made_certificates(self) -> None:
        key, chance, seen = ed25519.Ed25519PrivateKey.generate(), random.Random(63), 0
        for number in range(200):
            der = certificate(key, chance)
            with self.subTest(number=number, der=der.hex()):
                seen += self.same(cimaroly.Certificate(der), x509.load_der_x509_certificate(der).extensions)
        self.assertGreater(seen, 300)

    def test_timestamps(self) -> None:
        mine = made.certificate(timestamps(timestamp(), timestamp()))
        (other,) = x509.load_der_x509_certificate(mine.der).extensions
        found = [(it.log_id, it.timestamp.replace(tzinfo=UTC), it.signature) for it in other.value]
        self.assertEqual([(it.log_id, it.time, it.signature) for it in mine.certificate_timestamps], found)
        self.assertEqual(len(found), 2)

    def test_requests(self) -> None:
        key, place = ed25519.Ed25519PrivateKey.generate(), x509.UniformResourceIdentifier("http://ocsp.example/")
        services = x509.AuthorityInformationAccess([x509.AccessDescription(AuthorityInformationAccessOID.OCSP, place)])
        request = x509.CertificateSigningRequestBuilder(x509.Name([])).add_extension(services, False).sign(key, None)
        mine = cimaroly.Request(request.public_bytes(Encoding.DER))
        self.assertEqual(mine.ocsp_addresses, ("http://ocsp.example/",))
        self.same(mine, request.extensions)

    def same(self, mine: Union[cimaroly.Certificate, cimaroly.Request], extensions: Any) -> int:
        """Asks that the same is told, and answers how many extensions tell it."""
        access = self.found(extensions, x509.AuthorityInformationAccess)
        methods = ((mine.ocsp_addresses, "OCSP"), (mine.issuer_addresses, "CA_ISSUERS"))
        for told, method in methods:
            oid = getattr(AuthorityInformationAccessOID, method)
            self.assertEqual(list(told), addresses(it.access_location for it in access or () if it.access_method == oid))
        points = self.found(extensions, x509.CRLDistributionPoints)
        self.assertEqual(list(mine.crl_addresses), [one for it in points or () for one in addresses(it.full_name)])
        policies = self.found(extensions, x509.CertificatePolicies)
        self.assertEqual([(it.identifier, it.statements, it.notices) for it in mine.policies], [policy(it) for it in policies or ()])
        return sum(it is not None for it in (access, points, policies))

    def found(self, extensions: Any, kind: Any) -> Optional[Any]:
        try:
            return extensions.get_extension_for_class(kind).value
        except x509.ExtensionNotFound:
            return None


class Told(unittest.TestCase):
    def test_none(self) -> None:
        mine = made.certificate()
        self.assertEqual((mine.ocsp_addresses, mine.issuer_addresses, mine.crl_addresses), ((), (), ()))
        self.assertEqual((mine.policies, mine.certificate_timestamps), ((), ()))

    def test_policies_by_name(self) -> None:
        known, unknown = made.sequence(made.oid("67810c010201")), made.sequence(made.oid("2a0304"))
        mine = made.certificate(made.extension(POLICIES, made.sequence(known, unknown)))
        self.assertEqual([(str(it), it.name) for it in mine.policies], [("domain-validated",) * 2, ("1.2.3.4", None)])

    def test_timestamps(self) -> None:
        """Those of another version aren't told."""
        (only,) = made.certificate(timestamps(timestamp(1), timestamp())).certificate_timestamps
        self.assertEqual((only.log_id, only.milliseconds, only.signature), (LOG, TIME, SIGNATURE))
        self.assertEqual(only.time, datetime.datetime(2025, 11, 28, 10, 0, 0, 123000, UTC))
        with self.assertRaisesRegex(ValueError, "too many"):
            _ = cimaroly.Timestamp(LOG, 2**63, SIGNATURE).time

    def test_malformed(self) -> None:
        """What is wrong is told with its place: the tag of the set behind the extension's identifier and header."""
        mine = made.certificate(made.extension(ACCESS, b"\x31\0"))
        at = mine.der.index(b"\x31\0", mine.der.index(bytes.fromhex(ACCESS)))
        with self.assertRaisesRegex(ValueError, f"id-pe-authorityInfoAccess is malformed: wrong tag at byte {at}$"):
            _ = mine.ocsp_addresses
        with self.assertRaisesRegex(ValueError, "signedCertificateTimestampList is malformed: malformed length at byte"):
            _ = made.certificate(made.extension(TIMESTAMPS, element(4, b"\0"))).certificate_timestamps
        with self.assertRaisesRegex(ValueError, "SignedCertificateTimestamp is malformed: malformed length at byte"):
            _ = made.certificate(timestamps(b"\0\1\0")).certificate_timestamps
        said = made.sequence(made.oid("2b06010505070201"), element(0x0C))
        qualified = made.sequence(made.oid("2a03"), made.sequence(said))
        with self.assertRaisesRegex(ValueError, "id-qt-cps is malformed: wrong tag at byte"):
            _ = made.certificate(made.extension(POLICIES, made.sequence(qualified))).policies

    def test_twice(self) -> None:
        one = made.extension(POINTS, made.sequence())
        with self.assertRaisesRegex(ValueError, "2 extensions"):
            _ = made.certificate(one, one).crl_addresses


if __name__ == "__main__":
    unittest.main()
