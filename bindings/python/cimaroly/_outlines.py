"""Outlines, which are structures of any algorithm, and certificate revocation lists."""

from __future__ import annotations

import datetime
import hashlib
from dataclasses import dataclass
from functools import cached_property
from typing import Any, Literal, Optional, Union

from ._armour import encoded
from ._kinds import Kind
from ._names import Name
from ._structure import Structure

OutlineKind = Literal["certificate-outline", "request-outline", "private-key-outline", "public-key-outline"]
WHOLE: dict[Kind, Kind] = {
    "certificate-outline": "certificate",
    "request-outline": "request",
    "private-key-outline": "private-key",
    "public-key-outline": "public-key",
}
"""What each outline is the frame of, by which PEM blocks are labelled."""


class Outline(Structure):
    """A certificate, a request or a key of any algorithm, of which the frame is read.

    What isn't understood stands in it as it is. `report()` tells its fields, and `signed_part` what its signature covers.
    """

    @property
    def signed_bytes(self) -> bytes:
        """The bytes that the signature covers. Raises `ValueError` for a key."""
        return self.signed_part.data

    def fingerprint(self, algorithm: str = "sha256") -> bytes:
        """The digest of the bytes that were read, by an algorithm of `hashlib`."""
        return hashlib.new(algorithm, self.der).digest()

    def pem(self) -> str:
        """The bytes as they were read, as PEM (RFC 7468)."""
        return encoded(self._kind, self.der)


@dataclass(frozen=True)
class Revocation:
    """An entry of a revocation list (RFC 5280, 5.1.2.6)."""

    serial_number: int
    """The number of the certificate."""
    date: datetime.datetime
    """When it was revoked."""
    reason: Optional[str] = None
    """Why, as `keyCompromise` (RFC 5280, 5.3.1), if that is said."""


class RevocationList(Outline):
    """A certificate revocation list (RFC 5280, 5)."""

    @cached_property
    def _told(self) -> dict[str, Any]:
        told: dict[str, Any] = self.report()["CertificateList"]["tbsCertList"]
        return told

    @property
    def issuer(self) -> Name:
        """Who issued it. Raises `Refused` for a name with a string of a type that `Name` doesn't read."""
        return Name(self._bytes(*self._told["issuer"]["at"]))

    @property
    def this_update(self) -> datetime.datetime:
        """When it was issued, in UTC (RFC 5280, 5.1.2.4)."""
        return _time(self._told["thisUpdate"])

    @property
    def next_update(self) -> Optional[datetime.datetime]:
        """By when the next one is issued (RFC 5280, 5.1.2.5), if that is said."""
        return _time(self._told["nextUpdate"]) if "nextUpdate" in self._told else None

    @property
    def number(self) -> Optional[int]:
        """Its number (RFC 5280, 5.2.3), if it has one."""
        items = self._told.get("crlExtensions", {}).get("items", ())
        return next((_integer(it) for it in items if it["id"] == "2.5.29.20"), None)

    @cached_property
    def revocations(self) -> dict[int, Revocation]:
        """The entries, by the serial numbers of the certificates; of several for one number, the last.

        In an indirect list (RFC 5280, 5.2.5) these may be numbers of several issuers, whom `report()` tells.
        """
        items = self._told.get("revokedCertificates", {}).get("items", ())
        return {it.serial_number: it for it in map(_revocation, items)}

    def find(self, serial_number: int) -> Optional[Revocation]:
        """The entry of a certificate by its serial number; None if it isn't revoked by this list."""
        return self.revocations.get(serial_number)

    def _summary(self) -> str:
        count = len(self._told.get("revokedCertificates", {}).get("items", ()))
        return f" of {count} {'entry' if count == 1 else 'entries'}"


def _time(node: dict[str, Any]) -> datetime.datetime:
    return datetime.datetime.strptime(node["value"], "%Y-%m-%dT%H:%M:%SZ").replace(tzinfo=datetime.timezone.utc)


def _integer(node: dict[str, Any]) -> int:
    return int.from_bytes(bytes.fromhex(node["value"].replace(":", "")), "big", signed=True)


def _revocation(node: dict[str, Any]) -> Revocation:
    items = node.get("crlEntryExtensions", {}).get("items", ())
    reason: Union[str, None] = next((it["value"] for it in items if it["id"] == "2.5.29.21"), None)
    return Revocation(_integer(node["userCertificate"]), _time(node["revocationDate"]), reason)
