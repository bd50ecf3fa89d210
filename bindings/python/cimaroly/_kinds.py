"""Kinds of structures, deviations and reasons of refusal, with the numbers that the library has for them.

The lists are written by tools/make_tables.py.
"""

from __future__ import annotations

import enum
from typing import Literal, Optional, Union, get_args

Kind = Literal[
    "certificate",
    "request",
    "private-key",
    "public-key",
    "rsa-private-key",
    "rsa-public-key",
    "ec-private-key",
    "name",
    "extensions",
    "algorithm",
    "raw-algorithm",
    "request-info",
    "tbs-certificate",
    "certificate-outline",
    "request-outline",
    "private-key-outline",
    "public-key-outline",
    "crl",
]
"""What bytes can be read as: `Certificate`, `CertificationRequest`, `PrivateKeyInfo`, `SubjectPublicKeyInfo`, `RSAPrivateKey`,
`RSAPublicKey`, `ECPrivateKey`, `Name`, `Extensions`, `AlgorithmIdentifier` of a known algorithm, one with any parameters, or
what signatures cover: `CertificationRequestInfo` or `TBSCertificate`."""

KINDS: tuple[Kind, ...] = get_args(Kind)
"""Every kind, in the order of the library's numbers, from 1."""


class Deviation(enum.IntEnum):
    """How bytes that are read deviate from the one form that is written."""

    RSA_PARAMETERS_ABSENT = 1
    ALGORITHM_PARAMETERS_ABSENT = 2
    HASH_PARAMETERS_ABSENT = 3
    SALT_TOO_LARGE = 4
    DEFAULT_VERSION_ENCODED = 5
    EMPTY_EXTENSIONS_ENCODED = 6
    DEFAULT_CRITICALITY_ENCODED = 7
    AUTHORITY_KEY_FIELD_ORDER = 8
    GENERAL_NAME_FORM = 9
    SKIPPED_KEY_ELEMENT = 10

    @property
    def text(self) -> str:
        """The name in plain words."""
        return _DEVIATIONS[self - 1]


class Reason(enum.IntEnum):
    """Why bytes are refused."""

    OUT_OF_MEMORY = 1
    TRUNCATED = 2
    LEFT_OVER = 3
    WRONG_TAG = 4
    BAD_LENGTH = 5
    BAD_NUMBER = 6
    BAD_BOOLEAN = 7
    BAD_BITS = 8
    BAD_OID = 9
    BAD_TEXT = 10
    BAD_TIME = 11
    BAD_VERSION = 12
    UNSUPPORTED = 13
    UNIQUE_ID_NEEDS_V2 = 14
    EXTENSIONS_NEED_V3 = 15

    @property
    def text(self) -> str:
        """The name in plain words."""
        return _REASONS[self - 1]


_DEVIATIONS = (
    "RSA parameters absent",
    "algorithm parameters absent",
    "hash parameters absent",
    "salt length too large",
    "default version encoded",
    "empty extensions encoded",
    "default criticality encoded",
    "authority key fields repeated or out of order",
    "general name under the other kind of tag",
    "element skipped behind a private key",
)

_REASONS = (
    "out of memory",
    "truncated element",
    "bytes left over",
    "wrong tag",
    "malformed length",
    "malformed number",
    "malformed boolean",
    "malformed bit string",
    "malformed object identifier",
    "character not allowed",
    "malformed time",
    "unknown version",
    "unsupported algorithm or choice",
    "unique identifier without version 2",
    "extensions without version 3",
)


class Refused(ValueError):
    """The bytes encode no value of the kind."""

    def __init__(self, kind: Union[Kind, Literal["extension"]], number: int, place: int, field: Optional[str] = None) -> None:
        super().__init__(kind, number, place, field)
        self.kind: Union[Kind, Literal["extension"]] = kind
        """What they were read as; `extension` if `check_extension` refuses them."""
        self.reason = Reason(number)
        """Why they are refused."""
        self.number = number
        """The reason's number, from 1 to 15."""
        self.name = self.reason.text
        """The reason in plain words."""
        self.place = place
        """The byte, from 0, that could not be read."""
        self.field = field
        """The fields around that byte, outermost first, joined by dots; None if none has a name."""

    def __str__(self) -> str:
        inside = f" (in {self.field.replace('.', ', ')})" if self.field else ""
        return f"{self.kind}: {self.name} at byte {self.place}{inside}"
