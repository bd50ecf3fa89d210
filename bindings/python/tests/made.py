"""Certificates for tests, made by hand (X.690; RFC 5280, 4.1)."""

from __future__ import annotations

from typing import Optional

import cimaroly
from cimaroly._names import element


def sequence(*parts: bytes) -> bytes:
    return element(0x30, *parts)


def oid(digits: str) -> bytes:
    """An object identifier, by the digits of its content."""
    return element(6, bytes.fromhex(digits))


ED25519 = sequence(oid("2b6570"))
KEY = sequence(ED25519, element(3, bytes(33)))
TIMES = (b"191017174128Z", b"20501017174128Z")
ALTERNATIVE_NAMES, BASIC_CONSTRAINTS, KEY_USAGE, PURPOSES = "551d11", "551d13", "551d0f", "551d25"


def time(text: bytes) -> bytes:
    return element(0x17 if len(text) == 13 else 0x18, text)


def name(*attributes: tuple[str, int, bytes]) -> bytes:
    """A name of attributes, each by the digits of its type, and the tag and the content of its value."""
    return sequence(*(element(0x31, sequence(oid(kind), element(tag, value))) for kind, tag, value in attributes))


def general_names(*names: tuple[int, bytes]) -> bytes:
    """The extension of alternative names, each a tag and a content."""
    return extension(ALTERNATIVE_NAMES, sequence(*(element(tag, content) for tag, content in names)))


def dns(text: str) -> tuple[int, bytes]:
    return 0x82, text.encode()


def extension(digits: str, value: bytes) -> bytes:
    return sequence(oid(digits), element(4, value))


def certificate(
    *extensions: Optional[bytes],
    subject: bytes = sequence(),
    serial: bytes = b"\1",
    times: tuple[bytes, bytes] = TIMES,
) -> cimaroly.Certificate:
    """A certificate that nobody has signed."""
    items = [it for it in extensions if it is not None]
    held = element(0xA3, sequence(*items)) if items else b""
    version = bytes.fromhex("a003020102")
    signed = sequence(version, element(2, serial), ED25519, name(), sequence(*map(time, times)), subject, KEY, held)
    return cimaroly.Certificate(sequence(signed, ED25519, element(3, bytes(65))))
