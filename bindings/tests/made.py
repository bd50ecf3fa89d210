"""What the package cryptography makes, as inputs for table.tsv."""

import datetime
import ipaddress

from cryptography import x509
from cryptography.hazmat.primitives import serialization
from cryptography.hazmat.primitives.asymmetric import ed25519, rsa
from cryptography.x509.oid import AuthorityInformationAccessOID, ExtendedKeyUsageOID, NameOID, ObjectIdentifier

# A key that is the same each time, whose signatures are too.
KEY = ed25519.Ed25519PrivateKey.from_private_bytes(bytes(range(32)))


def name_with(*values):
    return x509.Name([x509.NameAttribute(kind, value) for kind, value in values])


def extensions_by_cryptography():
    """Extensions of many kinds, with whether they are critical."""
    issuer = name_with((NameOID.COUNTRY_NAME, "AT"), (NameOID.COMMON_NAME, "Root"))
    names = [
        x509.DNSName("example.org"),
        x509.RFC822Name("someone@example.org"),
        x509.UniformResourceIdentifier("https://example.org/"),
        x509.IPAddress(ipaddress.ip_address("192.0.2.1")),
        x509.IPAddress(ipaddress.ip_address("2001:db8::1")),
        x509.DirectoryName(issuer),
        x509.RegisteredID(ObjectIdentifier("1.2.3.4.5")),
        x509.OtherName(ObjectIdentifier("1.3.6.1.4.1.311.20.2.3"), b"\x0c\x01a"),
    ]
    points = [x509.DistributionPoint([x509.UniformResourceIdentifier("http://example.org/crl")], None, None, None)]
    responder = x509.UniformResourceIdentifier("http://example.org/ocsp")
    access = x509.AccessDescription(AuthorityInformationAccessOID.OCSP, responder)
    usage = [True, True, False, False, True, False, False, True, False]
    net = ipaddress.ip_network("192.0.2.0/24")
    policy = x509.PolicyInformation(ObjectIdentifier("2.5.29.32.0"), ["https://example.org/cps"])
    return [
        (x509.SubjectAlternativeName(names), False),
        (x509.IssuerAlternativeName(names[:3]), False),
        (x509.KeyUsage(*usage), True),
        (x509.ExtendedKeyUsage([ExtendedKeyUsageOID.SERVER_AUTH, ObjectIdentifier("1.2.3.4294967296")]), False),
        (x509.BasicConstraints(ca=True, path_length=3), True),
        (x509.NameConstraints([x509.DNSName("example.org")], [x509.IPAddress(net)]), True),
        (x509.CertificatePolicies([policy]), False),
        (x509.PolicyConstraints(0, 3), True),
        (x509.InhibitAnyPolicy(2), True),
        (x509.CRLDistributionPoints(points), False),
        (x509.FreshestCRL(points), False),
        (x509.AuthorityInformationAccess([access]), False),
        (x509.SubjectKeyIdentifier(bytes(20)), False),
        (x509.AuthorityKeyIdentifier(bytes(range(20)), [x509.DirectoryName(issuer)], 2**100 + 1), False),
        (x509.TLSFeature([x509.TLSFeatureType.status_request]), False),
        (x509.OCSPNoCheck(), False),
        (x509.UnrecognizedExtension(ObjectIdentifier("1.2.3.4.5.6"), b""), True),
    ]


def certificate_by_cryptography(first, last, extensions):
    subject = name_with(
        *((NameOID.COUNTRY_NAME, "DE"), (NameOID.ORGANIZATION_NAME, "Käse, Brot & Co."), (NameOID.COMMON_NAME, "example.org")),
        *((NameOID.SERIAL_NUMBER, "0815"), (NameOID.DOMAIN_COMPONENT, "example"), (NameOID.EMAIL_ADDRESS, "a@example.org")),
    )
    builder = x509.CertificateBuilder(subject_name=subject, issuer_name=subject, public_key=KEY.public_key())
    builder = builder.serial_number(2**158 + 3).not_valid_before(first).not_valid_after(last)
    for value, is_critical in extensions:
        builder = builder.add_extension(value, is_critical)
    return builder.sign(KEY, None).public_bytes(serialization.Encoding.DER)


def request_by_cryptography():
    builder = x509.CertificateSigningRequestBuilder(name_with((NameOID.COMMON_NAME, "request")))
    for value, is_critical in extensions_by_cryptography()[:5]:
        builder = builder.add_extension(value, is_critical)
    return builder.sign(KEY, None).public_bytes(serialization.Encoding.DER)


def by_cryptography():
    """What the package cryptography makes, the same each time: a name, a kind, and the bytes."""
    first, last = datetime.datetime(1999, 12, 31, 23, 59, 59), datetime.datetime(2049, 12, 31)
    late, never = datetime.datetime(2050, 1, 1), datetime.datetime(9999, 12, 31, 23, 59, 59)
    numbers = rsa.RSAPublicNumbers(65537, 2**2047 + 1)
    public = numbers.public_key()
    certificate = certificate_by_cryptography(first, last, extensions_by_cryptography())
    return [
        ("many_extensions", "certificate", certificate),
        ("tbs_certificate", "tbs-certificate", x509.load_der_x509_certificate(certificate).tbs_certificate_bytes),
        ("request_info", "request-info", x509.load_der_x509_csr(request_by_cryptography()).tbs_certrequest_bytes),
        ("generalized_times", "certificate", certificate_by_cryptography(late, never, [])),
        ("request_with_extensions", "request", request_by_cryptography()),
        (
            "rsa_public_key_2048",
            "public-key",
            public.public_bytes(serialization.Encoding.DER, serialization.PublicFormat.SubjectPublicKeyInfo),
        ),
        (
            "private_key_by_cryptography",
            "private-key",
            KEY.private_bytes(serialization.Encoding.DER, serialization.PrivateFormat.PKCS8, serialization.NoEncryption()),
        ),
    ]
