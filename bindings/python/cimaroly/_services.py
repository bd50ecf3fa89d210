# SPDX-License-Identifier: MIT OR Apache-2.0
"""Where the status of a certificate is asked for, under which policies it was issued, and which logs have it, as a report of
the library tells it."""

from __future__ import annotations

import datetime
from collections.abc import Iterator
from dataclasses import dataclass, field
from typing import Any, Optional

from ._names import octets

# Services of an issuer (RFC 5280, 4.2.2.1).
OCSP, ISSUERS = "1.3.6.1.5.5.7.48.1", "1.3.6.1.5.5.7.48.2"
# What qualifies a policy (RFC 5280, 4.2.1.4).
_STATEMENT, _NOTICE = "1.3.6.1.5.5.7.2.1", "1.3.6.1.5.5.7.2.2"
_URI = "uniformResourceIdentifier"

_EPOCH = datetime.datetime(1970, 1, 1, tzinfo=datetime.timezone.utc)


@dataclass(frozen=True)
class Policy:
    """A policy under which a certificate was issued (RFC 5280, 4.2.1.4)."""

    identifier: str
    """The policy, with dots."""
    name: Optional[str]
    """The name that the library has for it, such as `domain-validated`."""
    statements: tuple[str, ...]
    """Where statements of practices are found."""
    notices: tuple[str, ...]
    """What is to be shown to whoever relies on the certificate: a text, or else whose notice it is."""

    def __str__(self) -> str:
        return self.name or self.identifier


@dataclass(frozen=True)
class Timestamp:
    """A log's promise to have the certificate among its own (RFC 6962, 3.2)."""

    log_id: bytes
    """Which log it is: the SHA-256 of its public key."""
    milliseconds: int
    """When it was issued: since the beginning of 1970, without leap seconds."""
    signature: bytes = field(repr=False)
    """The log's signature."""

    @property
    def time(self) -> datetime.datetime:
        """When it was issued, in UTC. Raises `ValueError` for a time that `datetime` doesn't have."""
        try:
            return _EPOCH + datetime.timedelta(milliseconds=self.milliseconds)
        except OverflowError as error:
            raise ValueError(f"{self.milliseconds} milliseconds are too many for a datetime") from error


def items(told: Any) -> list[Any]:
    """The nodes in that of an extension. Raises `ValueError` if its octets don't encode what its identifier says."""
    if told is None:
        return []
    _well(told)
    return list(told["items"])


def _well(told: Any) -> None:
    """Raises `ValueError` for a node whose octets don't encode what they should."""
    if "malformed" in told:
        why = told["malformed"]
        raise ValueError(f"{told.get('name') or told.get('field')} is malformed: {why['reason']} at byte {why['at']}")


def addresses(told: Any, method: str) -> Iterator[str]:
    """Where services of one kind are found, by the node of their extension: addresses alone."""
    for it in items(told):
        if it["id"] == method and _URI in it:
            yield it[_URI]["value"]


def point_addresses(told: Any) -> Iterator[str]:
    """Where revocation lists are found, by the node of their extension: addresses alone."""
    for point in items(told):
        for it in point.get("fullName", {"items": ()})["items"]:
            if it["field"] == _URI:
                yield it["value"]


def policies(told: Any) -> Iterator[Policy]:
    """The policies, by the node of their extension."""
    for it in items(told):
        # (one that says nothing of itself is a value)
        policy = it["value"] if "value" in it else it
        said = it.get("items", ())
        for one in said:
            _well(one)
        yield Policy(
            policy["id"],
            policy.get("name"),
            tuple(one["value"] for one in said if one["id"] == _STATEMENT),
            tuple(one["value"] for one in said if one["id"] == _NOTICE),
        )


def timestamps(told: Any) -> Iterator[Timestamp]:
    """The timestamps of version 1, by the node of their extension."""
    for it in items(told):
        _well(it)
        if "logID" in it:
            yield Timestamp(octets(it["logID"]["value"]), it["timestamp"]["value"], octets(it["signature"]["value"]))
