# SPDX-License-Identifier: MIT OR Apache-2.0
"""Values of certificates, and object identifiers, by calls of the library, which take no memory unless they look up a name."""

from __future__ import annotations

import functools
import json
import re
import struct
from collections.abc import Callable, Iterator
from typing import Optional

from ._library import BUFFER_TOO_SHORT, CALLS, OK, given_back, made, taken

# The numbers of two `struct cimaroly_time`, of `cimaroly_span`, `cimaroly_attribute` and `cimaroly_general_name`; a bool.
_TIMES, _SPAN = struct.Struct("@qH5BxqH5Bx"), struct.Struct("@2N")
_ATTRIBUTE, _GENERAL_NAME = struct.Struct("@3NB2N"), struct.Struct("@B2N")
_ONE_TIME = _TIMES.size // 2
_FLAG = struct.Struct("@?")

# An object identifier with dots (X.690, 8.19.4).
_DOTTED = re.compile(r"(?:[01]\.[1-3]?[0-9]|2\.(?:0|[1-9][0-9]*))(?:\.(?:0|[1-9][0-9]*))*")
# Longer identifiers than these aren't kept.
_SHORT = 64

Numbers = list[tuple[int, ...]]

_VALIDITY, _SERIAL_NUMBER = CALLS["cimaroly_validity"], CALLS["cimaroly_serial_number"]
_FIND_EXTENSION, _GENERAL_NAMES = CALLS["cimaroly_find_extension"], CALLS["cimaroly_general_names"]
_SUBJECT, _ISSUER = CALLS["cimaroly_subject_attributes"], CALLS["cimaroly_issuer_attributes"]
_HOST_MATCHES = CALLS["cimaroly_host_matches"]


def _items(call: Callable[..., int], numbers: struct.Struct, given: bytes) -> tuple[int, Numbers]:
    """The status of a call, and the items that it writes."""
    room = taken()
    while True:
        status = call(given, len(given), room.items, room.size // numbers.size, room.count)
        if status != BUFFER_TOO_SHORT:
            break
        room = room.larger(numbers.size)
    found = room.listed(numbers, status)
    given_back(room)
    return status, found


def times(certificate: bytes) -> tuple[tuple[int, ...], tuple[int, ...]]:
    """Between which times a certificate is valid: of each the year, the month, the day, the hour, the minute, the second."""
    room = taken()
    _VALIDITY(certificate, len(certificate), room.items, room.items + _ONE_TIME)
    found = room.item(_TIMES)
    given_back(room)
    return found[1:7], found[8:14]


def serial_number(certificate: bytes) -> int:
    """The serial number of a certificate."""
    room = taken()
    _SERIAL_NUMBER(certificate, len(certificate), room.items)
    start, end = room.item(_SPAN)
    given_back(room)
    return int.from_bytes(certificate[start:end], "big", signed=True)


def subject_attributes(certificate: bytes) -> Numbers:
    """Where the attributes of the subject of a certificate stand: of each the number of its set, start and end of the
    identifier, the tag of the value, and start and end of what stands in that."""
    return _items(_SUBJECT, _ATTRIBUTE, certificate)[1]


def issuer_attributes(certificate: bytes) -> Numbers:
    """The same of the issuer."""
    return _items(_ISSUER, _ATTRIBUTE, certificate)[1]


def extension(certificate: bytes, identifier: bytes) -> Optional[bytes]:
    """What the first extension with an identifier holds, which is given by the content of its element; or None."""
    room = taken()
    _FIND_EXTENSION(certificate, len(certificate), identifier, len(identifier), room.items)
    start, end = room.item(_SPAN)
    given_back(room)
    return certificate[start:end] if end > 0 else None


def is_for(certificate: bytes, host: bytes) -> bool:
    """Whether a certificate is for a host, which is a DNS name in ASCII or an address."""
    room = taken()
    _HOST_MATCHES(certificate, len(certificate), host, len(host), room.items)
    (found,) = room.item(_FLAG)
    given_back(room)
    return bool(found)


def general_names(encoded: bytes) -> Optional[Numbers]:
    """Where the general names of a list stand: of each the tag, and start and end of what stands under it. None if the
    bytes encode no list of them."""
    status, found = _items(_GENERAL_NAMES, _GENERAL_NAME, encoded)
    return found if status == OK else None


def identifier(content: bytes) -> tuple[str, Optional[str]]:
    """An object identifier with dots, and the name that the library has for it, by the content of its element."""
    return _kept_identifier(content) if len(content) <= _SHORT else _identifier(content)


def _identifier(content: bytes) -> tuple[str, Optional[str]]:
    return _text(CALLS["cimaroly_oid_text"], content), _text(CALLS["cimaroly_oid_name"], content) or None


_kept_identifier = functools.lru_cache(maxsize=1024)(_identifier)


def content_of(identifier: str) -> bytes:
    """The content of the element of an object identifier, by the identifier with dots or by the name that the library has for
    it. Raises `ValueError` for other text."""
    if _DOTTED.fullmatch(identifier):
        first, second, *rest = map(int, identifier.split("."))
        return bytes(digit for arc in (40 * first + second, *rest) for digit in _base128(arc))
    # (by an AlgorithmIdentifier with it; that it is known keeps both lengths within a byte)
    description = {"type": "raw-algorithm", "AlgorithmIdentifier": {"algorithm": identifier}}
    der = made("cimaroly_make", json.dumps(description).encode())
    if der is None:
        raise ValueError(f"no object identifier, by a name that is known or with dots: {identifier!r}")
    return der[4 : 4 + der[3]]


def _base128(arc: int) -> Iterator[int]:
    """An arc in base 128, all digits but the last marked (X.690, 8.19.2)."""
    for shift in range((max(arc.bit_length(), 1) - 1) // 7 * 7, 0, -7):
        yield arc >> shift & 127 | 128
    yield arc & 127


def _text(call: Callable[..., int], content: bytes) -> str:
    """What a call writes of an object identifier."""
    room = taken()
    while call(content, len(content), room.items, room.size, room.count) == BUFFER_TOO_SHORT:
        room = room.larger(1)
    text = room.text()
    given_back(room)
    return text
