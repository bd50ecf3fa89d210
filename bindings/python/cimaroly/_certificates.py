"""Certificates and requests: the values of their fields, as the library tells them by calls for them, or in its report."""

from __future__ import annotations

import datetime
import hashlib
from functools import cached_property
from typing import Any, NamedTuple, Optional, Union

from . import _hosts, _library, _services, _values
from ._armour import encoded
from ._findings import Finding, finding
from ._keys import Algorithm, PublicKey, signature_algorithm
from ._names import COMMON_NAME, Address, AlternativeNames, Name, alternative_names, alternative_names_in
from ._names import element, integer, octets
from ._services import Policy, Timestamp
from ._structure import Extensions, Structure, inside, listed

# The extensions of which values are told (RFC 5280, 4.2.1).
_SUBJECT_KEY, _KEY_USAGE, _SUBJECT_NAMES, _ISSUER_NAMES = "2.5.29.14", "2.5.29.15", "2.5.29.17", "2.5.29.18"
_CONSTRAINTS, _AUTHORITY_KEY, _PURPOSES = "2.5.29.19", "2.5.29.35", "2.5.29.37"
# Those that the library keeps as octets (RFC 5280, 4.2.1.4, 4.2.1.13 and 4.2.2.1; RFC 6962, 3.3).
_POLICIES, _POINTS, _SERVICES, _TIMESTAMPS = "2.5.29.32", "2.5.29.31", "1.3.6.1.5.5.7.1.1", "1.3.6.1.4.1.11129.2.4.2"
_TOLD = frozenset((_SUBJECT_KEY, _KEY_USAGE, _SUBJECT_NAMES, _ISSUER_NAMES, _CONSTRAINTS, _AUTHORITY_KEY, _PURPOSES))
_TOLD |= {_POLICIES, _POINTS, _SERVICES, _TIMESTAMPS}

# The names of purposes (RFC 5280, 4.2.1.12).
_PURPOSE = "1.3.6.1.5.5.7.3"
_PURPOSE_NAMES = {
    "2.5.29.37.0": "anyExtendedKeyUsage",
    f"{_PURPOSE}.1": "serverAuth",
    f"{_PURPOSE}.2": "clientAuth",
    f"{_PURPOSE}.3": "codeSigning",
    f"{_PURPOSE}.4": "emailProtection",
    f"{_PURPOSE}.8": "timeStamping",
    f"{_PURPOSE}.9": "OCSPSigning",
}

# The elements of the identifiers of alternative names.
_NAMES = {_SUBJECT_NAMES: bytes.fromhex("0603551d11"), _ISSUER_NAMES: bytes.fromhex("0603551d12")}

_UTC = datetime.timezone.utc

# How much of a name `repr` shows.
_SHOWN = 100


def _time(numbers: tuple[int, ...]) -> datetime.datetime:
    """A time, by its numbers from the year on."""
    year, month, day, hour, minute, second = numbers
    return datetime.datetime(year, month, day, hour, minute, second, 0, _UTC)


def _version(told: Any) -> int:
    """A version that a report tells: by its name, `v1`, or if it has none by the number that stands there, which is one less."""
    return told + 1 if isinstance(told, int) else int(told[1:])


class _Asked(NamedTuple):
    """What is kept of a request's report: not the places of all fields, which take much memory."""

    version: int
    subject: Name
    nodes: list[Any]
    lists: list[tuple[int, int]]


class _Signed(Structure):
    """What certificates and requests tell alike."""

    _SIGNATURE: str

    @property
    def _nodes(self) -> list[Any]:
        """The report's nodes of the extensions of which values are told."""
        raise NotImplementedError

    @property
    def version(self) -> int:
        """The version: of a certificate 1, 2 or 3 (RFC 5280, 4.1.2.1), of a request 1 (RFC 2986, 4.1)."""
        raise NotImplementedError

    @property
    def subject(self) -> Name:
        """The subject's name (RFC 5280, 4.1.2.6); it may be empty."""
        raise NotImplementedError

    @cached_property
    def findings(self) -> tuple[Finding, ...]:
        """The rules of RFC 5280, X.690 and RFC 8017 that it breaks (docs/FINDINGS.md), in their order, each once. No
        signature is checked, and no clock is read."""
        found = _library.findings(self.kind, self._der)
        return tuple(finding(it.rule, it.at.start, it.at.end) for it in found)

    @cached_property
    def public_key(self) -> PublicKey:
        """The subject's public key (RFC 5280, 4.1.2.7)."""
        return PublicKey._within(self._bytes(*self._span("subject_public_key_info")))

    @property
    def signature_algorithm(self) -> Algorithm:
        """The algorithm by which it is signed (RFC 5280, 4.1.1.2). Its `str` is the name, such as `ecdsa-with-SHA384`."""
        return signature_algorithm(self._bytes(*self._span("signature_algorithm")))

    @property
    def signature(self) -> bytes:
        """The signature's bytes (RFC 5280, 4.1.1.3)."""
        start, end = self._span(self._SIGNATURE)
        # (the first byte of the content counts unused bits: X.690, 8.6)
        return self._bytes(inside(self._der, start)[0] + 1, end)

    @property
    def signed_bytes(self) -> bytes:
        """The bytes over which the signature is verified (RFC 5280, 4.1.1.1)."""
        return self.signed_part.data

    def _told_of(self, identifier: str) -> Any:
        """The node of an extension, or None. Raises `ValueError` if there are several."""
        found = [it for it in self._nodes if it["id"] == identifier]
        if len(found) > 1:
            raise ValueError(f"{len(found)} extensions {found[0].get('name')}: RFC 5280, 4.2 allows only one")
        return found[0] if found else None

    def _names(self, identifier: str) -> AlternativeNames:
        told = self._told_of(identifier)
        return AlternativeNames() if told is None else alternative_names(told, self._der)

    @cached_property
    def alternative_names(self) -> AlternativeNames:
        """The subject's alternative names (RFC 5280, 4.2.1.6), in their order: of a certificate without them, none.

        >>> certificate.alternative_names.dns_names  # doctest: +SKIP
        ('example.org', '*.example.org')
        """
        return self._names(_SUBJECT_NAMES)

    @property
    def key_usage(self) -> Optional[frozenset[str]]:
        """What the key is for (RFC 5280, 4.2.1.3), as `digitalSignature` and `keyCertSign`; None if that isn't said."""
        told = self._told_of(_KEY_USAGE)
        return None if told is None else frozenset(told["value"])

    @property
    def extended_key_usage(self) -> Optional[frozenset[str]]:
        """For which purposes the key is (RFC 5280, 4.2.1.12), as `serverAuth`; those that this RFC doesn't name by their
        identifiers, with dots. None if that isn't said."""
        told = self._told_of(_PURPOSES)
        if told is None:
            return None
        identifiers = (it["value"]["id"] for it in told["items"])
        return frozenset(_PURPOSE_NAMES.get(it, it) for it in identifiers)

    @property
    def is_ca(self) -> bool:
        """Whether the key may sign certificates, as basic constraints say (RFC 5280, 4.2.1.9)."""
        told = self._told_of(_CONSTRAINTS)
        return told is not None and told.get("cA", {}).get("value") is True

    @property
    def path_length(self) -> Optional[int]:
        """How many certificates of authorities may stand below in a chain (RFC 5280, 4.2.1.9); None if there is no limit."""
        told = self._told_of(_CONSTRAINTS)
        if told is None or "pathLenConstraint" not in told:
            return None
        found = told["pathLenConstraint"]["value"]
        return found if isinstance(found, int) else integer(found)

    @property
    def subject_key_identifier(self) -> Optional[bytes]:
        """What names the subject's key (RFC 5280, 4.2.1.2)."""
        told = self._told_of(_SUBJECT_KEY)
        return None if told is None else octets(told["value"])

    @cached_property
    def ocsp_addresses(self) -> tuple[str, ...]:
        """Where the status is asked for by OCSP (RFC 5280, 4.2.2.1): addresses, as `http://ocsp.example.org`. Raises `ValueError`
        if the extension is malformed, and so do the following."""
        return tuple(_services.addresses(self._told_of(_SERVICES), _services.OCSP))

    @cached_property
    def issuer_addresses(self) -> tuple[str, ...]:
        """Where the issuer's certificates are found (RFC 5280, 4.2.2.1)."""
        return tuple(_services.addresses(self._told_of(_SERVICES), _services.ISSUERS))

    @cached_property
    def crl_addresses(self) -> tuple[str, ...]:
        """Where revocation lists are found (RFC 5280, 4.2.1.13)."""
        return tuple(_services.point_addresses(self._told_of(_POINTS)))

    @cached_property
    def policies(self) -> tuple[Policy, ...]:
        """The policies under which it was issued (RFC 5280, 4.2.1.4). The `str` of one is its name, such as `domain-validated`,
        or if it has none its identifier."""
        return tuple(_services.policies(self._told_of(_POLICIES)))

    @cached_property
    def certificate_timestamps(self) -> tuple[Timestamp, ...]:
        """The timestamps of logs of certificates, in version 1 (RFC 6962, 3.3)."""
        return tuple(_services.timestamps(self._told_of(_TIMESTAMPS)))

    def matches_host(self, host: Union[str, Address]) -> bool:
        """Whether it is for a host: a DNS name, or an address, as `str` or of `ipaddress` (RFC 9525, 6.3 and 6.4).

        Only alternative names are looked at, and never the common name. A wildcard stands for one label: as the whole of the
        left-most. Addresses are compared as bytes. Raises `ValueError` for what is no host, such as a name that isn't ASCII:
        its labels are given as A-labels.

        This says nothing of the signature, the chain or the time.
        """
        return _hosts.matches(self.alternative_names, host)

    def fingerprint(self, algorithm: str = "sha256") -> bytes:
        """The digest of the bytes that were read, by an algorithm of `hashlib`: `fingerprint("sha256").hex(":")`."""
        return hashlib.new(algorithm, self.der).digest()

    def pem(self) -> str:
        """The bytes as they were read, as PEM (RFC 7468)."""
        return encoded(self._kind, self.der)

    def _shown(self) -> str:
        """The subject's common name, or else the whole name, as far as a line has room for it."""
        attributes = reversed(list(self.subject))
        found = next((it.rfc4514() for it in attributes if it.identifier == COMMON_NAME), str(self.subject))
        return f" {found[:_SHOWN]}{'...' if len(found) > _SHOWN else ''}" if found else ""

    def _summary(self) -> str:
        return self._shown()


def _of_values(told: Any) -> list[Any]:
    """The items of a report's node of extensions of which values are told."""
    return [it for it in told["items"] if it["id"] in _TOLD]


class Certificate(_Signed):
    """A certificate (RFC 5280, 4.1).

    >>> certificate = cimaroly.read(open("cert.pem", "rb").read())  # doctest: +SKIP
    >>> certificate.subject.common_name, certificate.not_after  # doctest: +SKIP
    ('example.org', datetime.datetime(2026, 12, 26, 10, 24, 46, tzinfo=datetime.timezone.utc))
    """

    _SIGNATURE = "signature_value"

    def __init__(self, der: Union[bytes, bytearray, memoryview]) -> None:
        """Reads bytes in DER. Raises `Refused`."""
        super().__init__(der, "certificate")

    @cached_property
    def _nodes(self) -> list[Any]:
        told = self.report()["Certificate"]["tbsCertificate"]
        return _of_values(told.get("extensions", {"items": []}))

    @property
    def version(self) -> int:
        """The version: 1, 2 or 3 (RFC 5280, 4.1.2.1)."""
        _, end = self._span("version")
        # (the last byte is that of a number which is one less)
        return self._der[end - 1] + 1 if end > 0 else 1

    @property
    def serial_number(self) -> int:
        """The number that the issuer gave it (RFC 5280, 4.1.2.2)."""
        return self._number

    @cached_property
    def _number(self) -> int:
        return _values.serial_number(self.der)

    @property
    def subject(self) -> Name:
        """The subject's name (RFC 5280, 4.1.2.6); it may be empty."""
        return self._subject

    @cached_property
    def _subject(self) -> Name:
        return Name._at(self.der, *self._span("subject"), _values.subject_attributes(self.der))

    @property
    def issuer(self) -> Name:
        """The issuer's name (RFC 5280, 4.1.2.4)."""
        return self._issuer

    @cached_property
    def _issuer(self) -> Name:
        return Name._at(self.der, *self._span("issuer"), _values.issuer_attributes(self.der))

    @cached_property
    def _times(self) -> tuple[tuple[int, ...], tuple[int, ...]]:
        return _values.times(self.der)

    @property
    def not_before(self) -> datetime.datetime:
        """The first second at which it is valid, in UTC (RFC 5280, 4.1.2.5). Raises `ValueError` for the year 0, which `datetime`
        doesn't have."""
        return _time(self._times[0])

    @property
    def not_after(self) -> datetime.datetime:
        """The last second at which it is valid, in UTC (RFC 5280, 4.1.2.5). Raises `ValueError` for the year 0."""
        return _time(self._times[1])

    @cached_property
    def issuer_alternative_names(self) -> AlternativeNames:
        """The issuer's alternative names (RFC 5280, 4.2.1.7)."""
        return self._names(_ISSUER_NAMES)

    @property
    def authority_key_identifier(self) -> Optional[bytes]:
        """What names the issuer's key (RFC 5280, 4.2.1.1)."""
        told = self._told_of(_AUTHORITY_KEY)
        return octets(told["keyIdentifier"]["value"]) if told is not None and "keyIdentifier" in told else None

    def matches_host(self, host: Union[str, Address]) -> bool:
        # (by the library, which looks at the first list of names: of two, neither counts)
        if self.der.count(_NAMES[_SUBJECT_NAMES]) > 1:
            self._told_of(_SUBJECT_NAMES)
        return _values.is_for(self.der, _hosts.text(host))

    matches_host.__doc__ = _Signed.matches_host.__doc__

    def _names(self, identifier: str) -> AlternativeNames:
        der, sought = self.der, _NAMES[identifier]
        if der.count(sought) > 1:
            # (there may be several such extensions)
            return super()._names(identifier)
        value = _values.extension(der, sought[2:])
        if value is None:
            return AlternativeNames()
        found = alternative_names_in(value)
        if found is not None:
            return found
        alone = element(0x30, element(0x30, sought, element(4, value)))
        (told,) = _library.report("extensions", alone, False)["Extensions"]["items"]
        return alternative_names(told, alone)

    def _summary(self) -> str:
        shown = self._shown()
        year, month, day = self._times[1][:3]
        return f"{shown} until {year:04}-{month:02}-{day:02}" if shown else ""


class Request(_Signed):
    """A certification request (RFC 2986, 4). What it asks for of extensions is told as of a certificate (RFC 2985, 5.4.2)."""

    _SIGNATURE = "signature"

    def __init__(self, der: Union[bytes, bytearray, memoryview]) -> None:
        """Reads bytes in DER. Raises `Refused`."""
        super().__init__(der, "request")

    @cached_property
    def _told(self) -> _Asked:
        told = self.report()["CertificationRequest"]["certificationRequestInfo"]
        extensions = [it for one in _requested(told) for it in one["items"]]
        return _Asked(
            version=_version(told["version"]["value"]),
            subject=Name._of(told["subject"], self._der),
            nodes=_of_values({"items": extensions}),
            lists=[(one["at"][0], one["at"][1]) for one in _requested(told)],
        )

    @property
    def _nodes(self) -> list[Any]:
        return self._told.nodes

    @property
    def version(self) -> int:
        """The version, which is 1 (RFC 2986, 4.1)."""
        return self._told.version

    @property
    def subject(self) -> Name:
        """The subject's name (RFC 2986, 4.1); it may be empty."""
        return self._told.subject

    def _found_extensions(self) -> Extensions:
        return Extensions(it for start, end in self._told.lists for it in self._listed(start, end))

    def _listed(self, start: int, end: int) -> Extensions:
        """The extensions of a list that stands there."""
        der = self._bytes(start, end)
        return listed(der, _library.extensions("extensions", der), start)


def _requested(told: Any) -> list[Any]:
    """The nodes of the lists of extensions among a request's attributes."""
    attributes = told.get("attributes", {}).get("items", [])
    return [one for it in attributes for one in it.get("items", ()) if one.get("field") == "Extensions"]
