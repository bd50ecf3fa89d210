"""PEM (RFC 7468): the blocks of a text, with other text around them."""

from __future__ import annotations

import os
from collections.abc import Iterator
from typing import NamedTuple, Optional, Union

from ._kinds import Kind
from ._library import PEM_HAS_HEADERS, PEM_LABEL_MISMATCH, PEM_NO_END, pem_decoded
from ._library import pem_blocks as pem_blocks_in
from ._secret import PRIVATE, Held, Secret, measured

Data = Union[bytes, bytearray, memoryview, str]
"""DER or PEM. A `str` is PEM."""

_LABELS: dict[str, Kind] = {
    "CERTIFICATE": "certificate",
    "X509 CERTIFICATE": "certificate",
    "CERTIFICATE REQUEST": "request",
    "NEW CERTIFICATE REQUEST": "request",
    "PRIVATE KEY": "private-key",
    "PUBLIC KEY": "public-key",
    "RSA PRIVATE KEY": "rsa-private-key",
    "RSA PUBLIC KEY": "rsa-public-key",
    "EC PRIVATE KEY": "ec-private-key",
    "X509 CRL": "crl",
}
_UTF_16 = (b"\xff\xfe", b"\xfe\xff")
_FAULTS = {
    PEM_LABEL_MISMATCH: "the end of another block than {}",
    PEM_NO_END: "the block {} has no end",
    PEM_HAS_HEADERS: "the block {} has headers, and may be encrypted",
}


class PemError(ValueError):
    """A text has no PEM block of the kind, or one that can't be decoded."""


class Block(NamedTuple):
    """A PEM block."""

    label: str
    """The label in its first line."""
    kind: Optional[Kind]
    """What the label says to read its bytes as; None if it names no kind."""
    der: bytes
    """Its bytes."""
    line: int
    """The number of its first line, from 1."""

    def __repr__(self) -> str:
        # (they may be a private key's)
        return f"Block(label={self.label!r}, kind={self.kind!r}, der=<{measured(self.der)}>, line={self.line})"


class RawBlock(NamedTuple):
    """A PEM block that isn't decoded."""

    number: int
    line: int
    label: str
    symbols: Held
    room: int
    last_line: int
    fault: str

    @property
    def kind(self) -> Optional[Kind]:
        return _LABELS.get(self.label)

    def decoded(self) -> bytes:
        """Its bytes. Raises `PemError`."""
        return bytes(self._secret())

    def held(self) -> Held:
        """Its bytes, which are overwritten later if they are a private key's. Raises `PemError`."""
        return self._secret() if self.kind in PRIVATE else self.decoded()

    def _secret(self) -> Secret:
        if self.fault:
            raise PemError(self.fault)
        found = pem_decoded(self.symbols, self.room)
        if found is None:
            raise PemError(f"line {self.last_line}: invalid base64 in the block {escaped(self.label)}")
        return found


def viewed(data: Data) -> memoryview:
    """The bytes of what a caller gives. Raises `TypeError` for what has none."""
    if isinstance(data, str):
        return memoryview(data.encode())
    try:
        view = memoryview(data)
    except TypeError:
        raise TypeError(
            f"data is DER or PEM, as bytes, bytearray, memoryview or str, not {type(data).__name__}{_hint(data)}"
        ) from None
    return view.cast("B") if view.c_contiguous else memoryview(view.tobytes())


def _hint(data: object) -> str:
    """What to give in the place of what names or holds data."""
    if isinstance(data, os.PathLike):
        return ": pass what its file holds, as read_bytes() of a pathlib.Path gives it"
    return ": pass what its read() gives" if hasattr(data, "read") else ""


def escaped(label: str) -> str:
    """A label for a message: it may have any characters."""
    return label.encode("unicode_escape").decode("ascii")


def is_pem(data: Union[bytes, memoryview]) -> bool:
    """Whether a line begins a PEM block. What begins as an element of the whole data's length is none.

    Raises `PemError` for UTF-16.
    """
    if bytes(data[:2]) in _UTF_16:
        raise PemError("UTF-16 text: PEM is read as UTF-8 or ASCII")
    return not is_one_element(data) and next(pem_blocks_in(_text(data)), None) is not None


def _text(data: Union[bytes, memoryview]) -> Held:
    """A text as the library takes it: as it is, if it is bytes, else a copy that is overwritten later."""
    if isinstance(data, bytes):
        return data
    whole = data.obj
    return whole if isinstance(whole, bytes) and len(whole) == len(data) else Secret(data)


def bare_base64(data: Union[bytes, memoryview]) -> Optional[Secret]:
    """What base64 without a BEGIN line stands for, if that begins as a SEQUENCE does; else None."""
    # (which is M and one of A to P)
    if bytes(data[:64]).lstrip()[:1] != b"M":
        return None
    found = pem_decoded(_text(data), len(data) * 3 // 4)
    return found if found and found[0] == 0x30 else None


def raw_blocks(view: memoryview) -> Iterator[RawBlock]:
    """The PEM blocks of a text, and among them, with their fault, those that aren't whole."""
    text = _text(view)
    for number, (answer, it) in enumerate(pem_blocks_in(text), 1):
        label = bytes(text[it.label.start : it.label.end]).decode(errors="backslashreplace")
        fault = f"line {it.last_line}: {_FAULTS[answer].format(escaped(label))}" if answer else ""
        symbols = Secret(memoryview(text)[it.text.start : it.text.end])
        yield RawBlock(number, it.first_line, label, symbols, it.room, it.last_line, fault)


def pem_blocks(data: Data) -> Iterator[Block]:
    """The PEM blocks of a text, those of other labels among them.

    Raises `PemError` at a block that has no end, headers (as an encrypted key of OpenSSL's has), or no base64.
    """
    return (Block(it.label, it.kind, it.decoded(), it.line) for it in raw_blocks(viewed(data)))


def is_one_element(data: Union[bytes, memoryview]) -> bool:
    """Whether the data is a SEQUENCE, by its tag and its length."""
    if len(data) < 2 or data[0] != 0x30:
        return False
    size = data[1] - 128 if data[1] > 128 else 0
    length = int.from_bytes(data[2 : 2 + size], "big") if size else data[1]
    return len(data) == 2 + size + length
