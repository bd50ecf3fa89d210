"""PEM (RFC 7468) of what was read."""

from __future__ import annotations

import base64

from ._kinds import Kind

_COLUMNS = 64
_LABELS: dict[Kind, str] = {
    "certificate": "CERTIFICATE",
    "request": "CERTIFICATE REQUEST",
    "private-key": "PRIVATE KEY",
    "public-key": "PUBLIC KEY",
    "rsa-private-key": "RSA PRIVATE KEY",
    "rsa-public-key": "RSA PUBLIC KEY",
    "ec-private-key": "EC PRIVATE KEY",
    "certificate-outline": "CERTIFICATE",
    "request-outline": "CERTIFICATE REQUEST",
    "private-key-outline": "PRIVATE KEY",
    "public-key-outline": "PUBLIC KEY",
    "crl": "X509 CRL",
}


def encoded(kind: Kind, der: bytes) -> str:
    """One block, in the strict form of RFC 7468, 3."""
    digits, label = base64.b64encode(der).decode(), _LABELS[kind]
    lines = (digits[at : at + _COLUMNS] for at in range(0, len(digits), _COLUMNS))
    return "\n".join((f"-----BEGIN {label}-----", *lines, f"-----END {label}-----", ""))
