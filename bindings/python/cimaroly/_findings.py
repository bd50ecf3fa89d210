"""Rules that a certificate may break though it is read, in the order of the library's numbers, from 1.

The list is written by tools/make_tables.py; docs/FINDINGS.md says more of each.
"""

from __future__ import annotations

from typing import Literal, NamedTuple

Severity = Literal["error", "warning"]


class Finding(NamedTuple):
    """A rule that a certificate breaks, and the bytes of the field that it is about."""

    rule: str
    """Its name, such as `serial-not-positive`."""
    severity: Severity
    """`error` if the clause forbids it; `warning` if it is allowed, or was, and mostly a mistake."""
    text: str
    """What is wrong, in plain words."""
    clause: str
    """The clause that the rule is from, such as `RFC 5280, 4.1.2.2`."""
    reason: str
    """Why it matters."""
    start: int
    end: int
    """The field is the bytes `start` up to `end`; of a field that isn't there, these are what is signed."""


def finding(number: int, start: int, end: int) -> Finding:
    """A finding, by the number of its rule."""
    return Finding(*_RULES[number - 1], start, end)


_RULES: tuple[tuple[str, Severity, str, str, str], ...] = (
    (
        "serial-not-positive",
        "error",
        "serial number isn't positive",
        "RFC 5280, 4.1.2.2",
        "Programs print such numbers in different ways, so that entries of revocation lists may miss the certificate.",
    ),
    (
        "serial-too-long",
        "error",
        "serial number has more than 20 octets",
        "RFC 5280, 4.1.2.2",
        "Programs need not read longer ones, and many cut or refuse them.",
    ),
    (
        "algorithms-differ",
        "error",
        "the algorithm in the signed part isn't the one beside the signature",
        "RFC 5280, 4.1.1.2",
        "The one beside the signature isn't signed, so anybody can change it.",
    ),
    (
        "salt-length-spelled",
        "error",
        "a salt length of 20 is encoded, though it is the default",
        "X.690, 11.5",
        "One value has two encodings, so that the certificate isn't in DER.",
    ),
    (
        "issuer-empty",
        "error",
        "issuer is empty",
        "RFC 5280, 4.1.2.4",
        "The issuer's own certificate is looked for by this name.",
    ),
    (
        "issuer-set-empty",
        "error",
        "issuer has a set without attributes",
        "RFC 5280, 4.1.2.4",
        "A set has at least one, and some programs refuse an empty one.",
    ),
    (
        "issuer-set-order",
        "error",
        "issuer has a set whose attributes aren't in order",
        "X.690, 11.6",
        "Such a name has several encodings, so that the certificate isn't in DER.",
    ),
    (
        "issuer-text-empty",
        "error",
        "issuer has a text without characters",
        "RFC 5280, A.1",
        "A text has at least one, and programs compare such names in different ways.",
    ),
    (
        "issuer-text-long",
        "error",
        "issuer has a text that is longer than its attribute may be",
        "RFC 5280, A.1",
        "Programs may cut such a text or refuse it.",
    ),
    (
        "issuer-country",
        "error",
        "countryName in issuer isn't a PrintableString of two letters",
        "RFC 5280, A.1",
        "It is no code of a country (ISO 3166), which is what policies look for.",
    ),
    (
        "issuer-string-type",
        "warning",
        "issuer has a string type that isn't for new names",
        "RFC 5280, 4.1.2.4",
        "Programs compare texts of other string types in different ways, or not at all.",
    ),
    (
        "validity-reversed",
        "error",
        "notAfter is before notBefore",
        "RFC 5280, 4.1.2.5",
        "The certificate is never valid.",
    ),
    (
        "not-before-form",
        "error",
        "notBefore is a GeneralizedTime before 2050",
        "RFC 5280, 4.1.2.5",
        "From 1950 to 2049 a time has one form only, UTCTime, and some programs refuse the other.",
    ),
    (
        "not-after-form",
        "error",
        "notAfter is a GeneralizedTime before 2050",
        "RFC 5280, 4.1.2.5",
        "From 1950 to 2049 a time has one form only, UTCTime, and some programs refuse the other.",
    ),
    (
        "subject-empty",
        "error",
        "subject is empty, and no critical subjectAltName names it",
        "RFC 5280, 4.1.2.6",
        "A program that doesn't know subjectAltName doesn't know whose key it is.",
    ),
    (
        "authority-unnamed",
        "error",
        "subject of an authority is empty",
        "RFC 5280, 4.1.2.6",
        "Certificates that it issues name it as their issuer.",
    ),
    (
        "subject-set-empty",
        "error",
        "subject has a set without attributes",
        "RFC 5280, 4.1.2.4",
        "A set has at least one, and some programs refuse an empty one.",
    ),
    (
        "subject-set-order",
        "error",
        "subject has a set whose attributes aren't in order",
        "X.690, 11.6",
        "Such a name has several encodings, so that the certificate isn't in DER.",
    ),
    (
        "subject-text-empty",
        "error",
        "subject has a text without characters",
        "RFC 5280, A.1",
        "A text has at least one, and programs compare such names in different ways.",
    ),
    (
        "subject-text-long",
        "error",
        "subject has a text that is longer than its attribute may be",
        "RFC 5280, A.1",
        "Programs may cut such a text or refuse it.",
    ),
    (
        "subject-country",
        "error",
        "countryName in subject isn't a PrintableString of two letters",
        "RFC 5280, A.1",
        "It is no code of a country (ISO 3166), which is what policies look for.",
    ),
    (
        "subject-string-type",
        "warning",
        "subject has a string type that isn't for new names",
        "RFC 5280, 4.1.2.4",
        "Programs compare texts of other string types in different ways, or not at all.",
    ),
    (
        "subject-mailbox-unnamed",
        "error",
        "subject has an emailAddress, but no rfc822Name is among the alternative names",
        "RFC 5280, 4.1.2.6",
        "Programs look for mail addresses among the alternative names, and name constraints are about those.",
    ),
    (
        "modulus-not-positive",
        "error",
        "RSA modulus isn't positive",
        "RFC 8017, 3.1",
        "No key has such a modulus: it is mostly one whose sign octet was left out.",
    ),
    (
        "modulus-even",
        "error",
        "RSA modulus is even",
        "RFC 8017, 3.1",
        "It isn't a product of odd primes, so that the private key can be found.",
    ),
    (
        "modulus-short",
        "warning",
        "RSA modulus has fewer than 2048 bits",
        "NIST SP 800-131A, 3",
        "It can be factored, or will be soon.",
    ),
    (
        "exponent-low",
        "error",
        "RSA exponent is below 3",
        "RFC 8017, 3.1",
        "With the exponent 1 a signature is the message itself.",
    ),
    (
        "exponent-even",
        "error",
        "RSA exponent is even",
        "RFC 8017, 3.1",
        "No private exponent belongs to it.",
    ),
    (
        "issuer-unique-id",
        "error",
        "issuer has a unique identifier",
        "RFC 5280, 4.1.2.8",
        "Authorities must not issue such certificates: names are not used again.",
    ),
    (
        "subject-unique-id",
        "error",
        "subject has a unique identifier",
        "RFC 5280, 4.1.2.8",
        "Authorities must not issue such certificates: names are not used again.",
    ),
    (
        "extension-repeated",
        "error",
        "an extension stands twice",
        "RFC 5280, 4.2",
        "Some programs go by the first one, others by the last.",
    ),
    (
        "critical-unknown",
        "warning",
        "an extension is critical that RFC 5280 doesn't define",
        "RFC 5280, 4.2",
        "Programs that don't know it refuse the certificate.",
    ),
    (
        "authority-key-critical",
        "error",
        "authority key identifier is critical",
        "RFC 5280, 4.2.1.1",
        "Programs that don't know it refuse the certificate, though they could do without it.",
    ),
    (
        "authority-key-missing",
        "error",
        "no authority key identifier has a keyIdentifier, though issuer and subject differ",
        "RFC 5280, 4.2.1.1",
        "Among several keys of the issuer the one that signed is found by it.",
    ),
    (
        "authority-key-partial",
        "error",
        "authority key identifier has one of authorityCertIssuer and authorityCertSerialNumber without the other",
        "RFC 5280, A.2",
        "Only both together name the issuer's certificate.",
    ),
    (
        "subject-key-critical",
        "error",
        "subject key identifier is critical",
        "RFC 5280, 4.2.1.2",
        "Programs that don't know it refuse the certificate, though they could do without it.",
    ),
    (
        "subject-key-missing",
        "error",
        "authority has no subject key identifier",
        "RFC 5280, 4.2.1.2",
        "Among several keys of an authority the right one is found by it.",
    ),
    (
        "key-usage-empty",
        "error",
        "key usage allows nothing",
        "RFC 5280, 4.2.1.3",
        "Some programs let such a key do nothing, others anything.",
    ),
    (
        "key-usage-padded",
        "error",
        "key usage has trailing zero bits",
        "X.690, 11.2.2",
        "One set of usages has two encodings, so that the certificate isn't in DER.",
    ),
    (
        "key-usage-not-critical",
        "warning",
        "key usage isn't critical",
        "RFC 5280, 4.2.1.3",
        "Programs that don't know the extension use the key for anything.",
    ),
    (
        "signing-without-authority",
        "error",
        "key may sign certificates, but the subject isn't an authority",
        "RFC 5280, 4.2.1.9",
        "Programs that look at one of the two extensions alone trust what the subject signs.",
    ),
    (
        "authority-without-signing",
        "warning",
        "subject is an authority, but no key usage lets the key sign certificates",
        "RFC 5280, 4.2.1.3",
        "Programs refuse the certificates that it signs.",
    ),
    (
        "policy-mappings-not-critical",
        "warning",
        "policy mappings aren't critical",
        "RFC 5280, 4.2.1.5",
        "Programs that don't know the extension take the issuer's policies for unrelated ones.",
    ),
    (
        "subject-names-empty",
        "error",
        "subjectAltName has no names",
        "RFC 5280, 4.2.1.6",
        "A list of names has at least one, and programs refuse an empty one.",
    ),
    (
        "subject-names-critical",
        "warning",
        "subjectAltName is critical, though the subject isn't empty",
        "RFC 5280, 4.2.1.6",
        "Programs that don't know some form of a name refuse the certificate.",
    ),
    (
        "alternative-name-empty",
        "error",
        "an alternative name is empty",
        "RFC 5280, 4.2.1.6",
        "Some programs take an empty name for any name.",
    ),
    (
        "address-length",
        "error",
        "an iPAddress has neither four nor sixteen octets",
        "RFC 5280, 4.2.1.6",
        "It is no address: mostly one with a mask, or written as text, which no host has.",
    ),
    (
        "mailbox-without-at",
        "error",
        "an rfc822Name has no @",
        "RFC 5280, 4.2.1.6",
        "It is no address of a mailbox: mostly a host name in the wrong form.",
    ),
    (
        "host-name",
        "error",
        "a dNSName isn't the name of a host",
        "RFC 5280, 4.2.1.6",
        "No host is found by it: mostly an address, or a name with an underscore or a blank.",
    ),
    (
        "uri-without-scheme",
        "error",
        "a uniformResourceIdentifier has no scheme",
        "RFC 5280, 4.2.1.6",
        "It is relative, but to nothing.",
    ),
    (
        "issuer-names-empty",
        "error",
        "issuerAltName has no names",
        "RFC 5280, 4.2.1.7",
        "A list of names has at least one, and programs refuse an empty one.",
    ),
    (
        "issuer-names-critical",
        "warning",
        "issuerAltName is critical",
        "RFC 5280, 4.2.1.7",
        "Programs that don't know it refuse the certificate, though they could do without it.",
    ),
    (
        "directory-attributes-critical",
        "error",
        "subjectDirectoryAttributes is critical",
        "RFC 5280, 4.2.1.8",
        "Programs that don't know it refuse the certificate, though they could do without it.",
    ),
    (
        "authority-not-critical",
        "error",
        "basic constraints of an authority that may sign certificates aren't critical",
        "RFC 5280, 4.2.1.9",
        "Programs that don't know the extension ignore the limits in it.",
    ),
    (
        "path-length-idle",
        "error",
        "path length is limited, but the subject isn't an authority",
        "RFC 5280, 4.2.1.9",
        "The limit says nothing, and whoever set it meant an authority.",
    ),
    (
        "path-length-without-signing",
        "error",
        "path length is limited, but no key usage lets the key sign certificates",
        "RFC 5280, 4.2.1.9",
        "The limit is about certificates that the key may not sign.",
    ),
    (
        "authority-default-spelled",
        "error",
        "cA FALSE is encoded, though it is the default",
        "X.690, 11.5",
        "One value has two encodings, so that the certificate isn't in DER.",
    ),
    (
        "name-constraints-not-critical",
        "error",
        "name constraints aren't critical",
        "RFC 5280, 4.2.1.10",
        "Programs that don't know the extension accept names that the authority may not give.",
    ),
    (
        "name-constraints-without-authority",
        "error",
        "name constraints are there, but the subject isn't an authority",
        "RFC 5280, 4.2.1.10",
        "The constraints say nothing, and whoever set them meant an authority.",
    ),
    (
        "policy-constraints-not-critical",
        "error",
        "policy constraints aren't critical",
        "RFC 5280, 4.2.1.11",
        "Programs that don't know the extension accept paths that the issuer forbids.",
    ),
    (
        "purposes-empty",
        "error",
        "extKeyUsage has no purposes",
        "RFC 5280, 4.2.1.12",
        "A list of purposes has at least one, and some programs take an empty one for any purpose.",
    ),
    (
        "any-purpose-critical",
        "warning",
        "extKeyUsage has anyExtendedKeyUsage, and is critical",
        "RFC 5280, 4.2.1.12",
        "Programs that don't know the extension refuse the certificate, though it allows any purpose.",
    ),
    (
        "revocation-points-critical",
        "warning",
        "cRLDistributionPoints is critical",
        "RFC 5280, 4.2.1.13",
        "Programs that look for revoked certificates elsewhere refuse the certificate.",
    ),
    (
        "any-policy-not-critical",
        "error",
        "inhibitAnyPolicy isn't critical",
        "RFC 5280, 4.2.1.14",
        "Programs that don't know the extension accept policies that the issuer forbids.",
    ),
    (
        "freshest-list-critical",
        "error",
        "freshestCRL is critical",
        "RFC 5280, 4.2.1.15",
        "Programs that don't know it refuse the certificate, though they could do without it.",
    ),
    (
        "authority-access-critical",
        "error",
        "authorityInfoAccess is critical",
        "RFC 5280, 4.2.2.1",
        "Programs that don't know it refuse the certificate, though they could do without it.",
    ),
    (
        "subject-access-critical",
        "error",
        "subjectInfoAccess is critical",
        "RFC 5280, 4.2.2.2",
        "Programs that don't know it refuse the certificate, though they could do without it.",
    ),
)
