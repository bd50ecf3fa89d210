"""The calls of the shared object: over memory that each thread keeps for them, or over none where they need none."""

from __future__ import annotations

import ctypes
import json
import mmap
import os
import platform
import struct
import threading
from collections.abc import Callable, Iterator
from ctypes import byref, c_bool, c_size_t, c_uint32, c_uint64, c_void_p
from typing import Any, Optional

from ._kinds import KINDS, Kind, Refused
from ._secret import PRIVATE, Held, Secret

# What a call answers.
OK, REFUSED, OUT_OF_MEMORY, BUFFER_TOO_SHORT, UNKNOWN_KIND, TOO_LONG = range(6)

# What the search for a PEM block answers.
PEM_BLOCK, PEM_NO_MORE, PEM_LABEL_MISMATCH, PEM_NO_END, PEM_HAS_HEADERS = range(5)

_HERE = os.path.dirname(os.path.abspath(__file__))
_NAME = "libcimaroly.so"

_NUMBERS = {kind: number for number, kind in enumerate(KINDS, 1)}
# The calls that are for one kind each, and aren't told it.
_FINDINGS = {"certificate": "cimaroly_findings", "request": "cimaroly_request_findings"}

# How much memory a thread keeps between calls, and how many items or bytes a first answer has room for.
_KEPT = 1 << 20
_ITEMS = 64
_BYTES = 8192
# The bytes of room before its items: their count.
_FRONT = 8
# More bytes than a report of what is refused has.
_SHORT = 512


class Span(ctypes.Structure):
    """`struct cimaroly_span`."""

    _fields_ = [("start", c_size_t), ("end", c_size_t)]


class Place(ctypes.Structure):
    """`struct cimaroly_place`."""

    _fields_ = [("deviation", c_size_t), ("start", c_size_t), ("end", c_size_t)]


class FoundAt(ctypes.Structure):
    """`struct cimaroly_finding`."""

    _fields_ = [("rule", c_uint32), ("at", Span)]


class Signed(ctypes.Structure):
    """`struct cimaroly_signed`."""

    _fields_ = [("part", Span), ("inside", c_size_t * 10), ("outside", c_size_t * 10)]


class PemBlock(ctypes.Structure):
    """`struct cimaroly_pem_block`."""

    _fields_ = [
        ("label", Span),
        ("text", Span),
        ("room", c_size_t),
        ("first_line", c_uint64),
        ("last_line", c_uint64),
        ("next", c_size_t),
        ("next_line", c_uint64),
    ]


class Memory(ctypes.Structure):
    """`struct cimaroly_memory`."""

    _fields_ = [("block", c_void_p), ("size", c_size_t)]


# The kinds that have fields, with the names of these in the order of their structure in the header.
FIELDS: dict[Kind, tuple[str, ...]] = {
    "certificate": (
        "tbs_certificate",
        "version",
        "serial_number",
        "signature",
        "issuer",
        "validity",
        "subject",
        "subject_public_key_info",
        "issuer_unique_id",
        "subject_unique_id",
        "extensions",
        "signature_algorithm",
        "signature_value",
    ),
    "request": (
        "certification_request_info",
        "version",
        "subject",
        "subject_public_key_info",
        "attributes",
        "signature_algorithm",
        "signature",
    ),
    "private-key": ("version", "private_key_algorithm", "private_key", "skipped", "public_key"),
    "crl": (
        "tbs_cert_list",
        "version",
        "signature",
        "issuer",
        "this_update",
        "next_update",
        "revoked_certificates",
        "crl_extensions",
        "signature_algorithm",
        "signature_value",
    ),
}
# An outline has the fields of what it is the outline of.
FIELDS["certificate-outline"] = FIELDS["certificate"]
FIELDS["request-outline"] = FIELDS["request"]
FIELDS["private-key-outline"] = FIELDS["private-key"]
# The numbers of `struct cimaroly_verdict` and of `struct cimaroly_extension`.
_VERDICT, _EXTENSION = struct.Struct("@13N"), struct.Struct("@8N")


def _folder() -> str:
    """Where the shared object is: in the folder that CIMAROLY_LIB_DIR names, in this package, or in the repository's dist/,
    in the folder for this machine."""
    named = os.environ.get("CIMAROLY_LIB_DIR")
    if named:
        return named
    if os.path.exists(os.path.join(_HERE, _NAME)):
        return _HERE
    return os.path.join(_HERE, "..", "..", "..", "dist", f"{platform.machine()}-linux")


def _load() -> dict[str, Callable[..., int]]:
    """The calls of the shared object, by their names."""
    path = os.path.abspath(os.path.join(_folder(), _NAME))
    try:
        library = ctypes.CDLL(path)
    except OSError as error:
        builds = "there are builds for Linux on x86-64 and aarch64, and the WebAssembly module in web/ runs anywhere"
        raise ImportError(f"the shared object of cimaroly can't be loaded ({builds}): {error}", path=path) from error
    given, buffer = (c_void_p, c_size_t), (c_void_p, c_size_t, c_void_p)
    making = (c_void_p, *given, *buffer)
    of_a_kind = (c_uint32, *given)
    lent = (c_void_p, *of_a_kind)
    calls: dict[str, tuple[Any, ...]] = {
        "cimaroly_check": (*of_a_kind, c_void_p),
        "cimaroly_encode": (*lent, *buffer),
        "cimaroly_places": (*lent, *buffer),
        "cimaroly_findings": making,
        "cimaroly_request_findings": making,
        "cimaroly_signed_part": (*of_a_kind, c_void_p),
        "cimaroly_extensions": (*of_a_kind, *buffer),
        "cimaroly_report": (*lent, c_bool, *buffer),
        "cimaroly_certificate_fields": (*given, c_void_p),
        "cimaroly_request_fields": (*given, c_void_p),
        "cimaroly_private_key_fields": (*given, c_void_p),
        "cimaroly_certificate_outline_fields": (*given, c_void_p),
        "cimaroly_request_outline_fields": (*given, c_void_p),
        "cimaroly_private_key_outline_fields": (*given, c_void_p),
        "cimaroly_crl_fields": (*given, c_void_p),
        "cimaroly_validity": (*given, c_void_p, c_void_p),
        "cimaroly_serial_number": (*given, c_void_p),
        "cimaroly_subject_attributes": (*given, *buffer),
        "cimaroly_issuer_attributes": (*given, *buffer),
        "cimaroly_find_extension": (*given, *given, c_void_p),
        "cimaroly_check_extension": (*given, *given, c_void_p),
        "cimaroly_general_names": (*given, *buffer),
        "cimaroly_host_matches": (*given, *given, c_void_p),
        "cimaroly_oid_text": (*given, *buffer),
        "cimaroly_oid_name": (*given, *buffer),
        "cimaroly_pem_next": (*given, c_size_t, c_uint64, c_void_p),
        "cimaroly_pem_decode": (*given, *buffer),
        "cimaroly_make": making,
        "cimaroly_why_not_made": making,
        "cimaroly_signature_algorithm": making,
        "cimaroly_ecdsa_signature": making,
        "cimaroly_assemble": (c_void_p, c_uint32, *given, *given, *given, *buffer),
    }
    loaded: dict[str, Callable[..., int]] = {}
    for name, arguments in calls.items():
        function = getattr(library, name)
        function.argtypes, function.restype = arguments, c_uint32
        loaded[name] = function
    return loaded


CALLS = _load()
# The calls that tell fields, with the numbers of their structures.
_FIELDS_OF = {
    kind: (CALLS[f"cimaroly_{kind.replace('-', '_')}_fields"], struct.Struct(f"@{2 * len(names)}N"))
    for kind, names in FIELDS.items()
}


class Room:
    """Room for what a call answers: a count, and items behind it.

    A call takes some that is free, and gives it back when the answer has been taken out: so neither another thread nor the
    handler of a signal writes to it meanwhile.
    """

    __slots__ = ("size", "words", "bytes", "count", "items")

    def __init__(self, size: int = _BYTES) -> None:
        words = (c_uint64 * (size // 8 + 2))()
        self.size = size
        self.bytes = memoryview(words).cast("B")
        self.words = self.bytes.cast("Q")
        self.count = ctypes.addressof(words)
        self.items = self.count + _FRONT

    def item(self, numbers: struct.Struct) -> tuple[int, ...]:
        """The numbers of the first item."""
        return numbers.unpack_from(self.bytes, _FRONT)

    def listed(self, numbers: struct.Struct, status: int) -> list[tuple[int, ...]]:
        """The numbers of the items that a call has written, by its status."""
        end = _FRONT + (self.words[0] * numbers.size if status == OK else 0)
        return list(numbers.iter_unpack(self.bytes[_FRONT : end]))

    def text(self) -> str:
        """The text that a call has written."""
        return str(self.bytes[_FRONT : _FRONT + self.words[0]], "ascii")

    def larger(self, numbers: int) -> Room:
        """Room for as many items as a call tells, of so many bytes."""
        return Room(self.words[0] * numbers)


_FREE: list[Room] = []


def taken() -> Room:
    """Room that nobody else has until it is given back."""
    try:
        return _FREE.pop()
    except IndexError:
        return Room()


def given_back(room: Room) -> None:
    """Lets others have it, unless it is larger than others need."""
    if room.size == _BYTES:
        _FREE.append(room)


class _Lent:
    """Memory that calls work in, aligned to a page."""

    def __init__(self, size: int) -> None:
        try:
            self._map = mmap.mmap(-1, size, flags=mmap.MAP_PRIVATE | mmap.MAP_ANONYMOUS)
        except (OSError, OverflowError, ValueError):
            raise MemoryError(f"{size} bytes") from None
        self.size = size
        self.of_library = Memory(ctypes.addressof(ctypes.c_char.from_buffer(self._map)), size)

    def overwrite(self) -> None:
        """Puts zeros in the place of what a call has left. What isn't kept goes back to the system as it is."""
        if self.size <= _KEPT:
            ctypes.memset(self.of_library.block, 0, self.size)


class _Kept(threading.local):
    """What a thread keeps between calls: no call of another thread works in it."""

    def __init__(self) -> None:
        self.lent = _Lent(1 << 16)


_KEPT_HERE = _Kept()


def _lent(size: int) -> _Lent:
    """Memory of this size or more; what isn't too large is kept for further calls."""
    kept = _KEPT_HERE.lent
    if size <= kept.size:
        return kept
    lent = _Lent(size)
    if size <= _KEPT:
        _KEPT_HERE.lent = lent
    return lent


def input_at(der: Held) -> Any:
    """The place of an input, as calls take it."""
    if isinstance(der, Secret):
        return byref(ctypes.c_char.from_buffer(der)) if der else b""
    return der


def _asked(name: str, kind: Kind, der: Held, *arguments: Any) -> int:
    """The status of a call on an input of a kind, which is given more memory until that is enough."""
    call, size = CALLS[name], 16 * len(der) + 16384
    kinds = () if name in _FINDINGS.values() else (_NUMBERS[kind],)
    while True:
        lent = _lent(size)
        status = call(byref(lent.of_library), *kinds, input_at(der), len(der), *arguments)
        if kind in PRIVATE:
            lent.overwrite()
        if status != OUT_OF_MEMORY:
            return status
        size = 4 * lent.size


def made(name: str, *given: Any) -> Optional[bytes]:
    """What a call makes of bytes, and of the number before them if it takes one; None if they are refused."""
    words: list[Any] = []
    for it in given:
        words += [it] if isinstance(it, int) else [it, len(it)]
    room = sum(len(it) for it in given if not isinstance(it, int)) + _BYTES
    size, count = 16 * room, c_size_t()
    while True:
        lent, out = _lent(size), ctypes.create_string_buffer(room)
        status = CALLS[name](byref(lent.of_library), *words, out, room, byref(count))
        lent.overwrite()
        if status == OK:
            return out.raw[: count.value]
        if status == OUT_OF_MEMORY:
            size = 4 * lent.size
        elif status == BUFFER_TOO_SHORT:
            room = count.value
        elif status == TOO_LONG:
            raise OverflowError("the encoding has 2^64 bytes or more")
        else:
            return None


def kind_number(kind: Kind) -> int:
    """The number of a kind."""
    return _NUMBERS[kind]


def pem_blocks(text: Held) -> Iterator[tuple[int, PemBlock]]:
    """What the search for PEM blocks answers, one behind the other, and where each block stands."""
    at = line = 0
    while True:
        block = PemBlock()
        answer = CALLS["cimaroly_pem_next"](input_at(text), len(text), at, line, byref(block))
        if answer == PEM_NO_MORE:
            return
        yield answer, block
        at, line = block.next, block.next_line


def pem_decoded(symbols: Held, room: int) -> Optional[Secret]:
    """What base64 text stands for, or None if it is none."""
    out, size = Secret(room), c_size_t()
    if CALLS["cimaroly_pem_decode"](input_at(symbols), len(symbols), input_at(out), room, byref(size)) != OK:
        return None
    return out if size.value == room else Secret(memoryview(out)[: size.value])


_CHECK, _CHECK_EXTENSION = CALLS["cimaroly_check"], CALLS["cimaroly_check_extension"]


def check(kind: Kind, der: Held) -> tuple[int, ...]:
    """What a check finds: how often there is each of the ten deviations, and how many headers were decoded. Raises
    `Refused`."""
    room = taken()
    status = _CHECK(_NUMBERS[kind], der if type(der) is bytes else input_at(der), len(der), room.items)
    found = room.item(_VERDICT)
    given_back(room)
    if status == REFUSED:
        raise Refused(kind, found[11], found[12], _refused_in(kind, der))
    return found[:11]


def check_extension(identifier: bytes, value: bytes) -> Optional[tuple[int, ...]]:
    """The same of the value of an extension, whose identifier is given by the content of its element; None if no extension
    that is kept as octets has it."""
    room = taken()
    status = _CHECK_EXTENSION(identifier, len(identifier), value, len(value), room.items)
    found = room.item(_VERDICT)
    given_back(room)
    if status == REFUSED:
        raise Refused("extension", found[11], found[12])
    return found[:11] if status == OK else None


def _refused_in(kind: Kind, der: Held) -> Optional[str]:
    """The field in which bytes are refused, as their report tells it."""
    try:
        told: dict[str, Any] = json.loads(str(_written("cimaroly_report", kind, der, False, room=_SHORT), "utf-8"))
        return told.get("field")
    finally:
        # (it may be a key that was taken for something else)
        _KEPT_HERE.lent.overwrite()


def _is_ok(status: int, kind: Kind, der: Held) -> bool:
    """Whether a call is done; False where its buffer was too short. Raises why there is no answer."""
    if status == REFUSED:
        check(kind, der)
    if status == TOO_LONG:
        raise OverflowError("the encoding has 2^64 bytes or more")
    if status == UNKNOWN_KIND:
        raise ValueError(f"not for a {kind}")
    return status == OK


def _written(name: str, kind: Kind, der: Held, *further: Any, room: int = 0) -> memoryview:
    """What a call writes to a buffer, which is as large as it is told to be. It is overwritten after use."""
    size = c_size_t(room or len(der) + _BYTES)
    while True:
        out = Secret(size.value)
        at = ctypes.addressof(ctypes.c_char.from_buffer(out))
        status = _asked(name, kind, der, *further, at, len(out), byref(size))
        if _is_ok(status, kind, der):
            return memoryview(out)[: size.value]


def encode(kind: Kind, der: Held) -> bytes:
    """The DER encoding of what the bytes encode."""
    return bytes(_written("cimaroly_encode", kind, der))


def report(kind: Kind, der: Held, secrets: bool) -> dict[str, Any]:
    """What stands in the bytes, as docs/JSON.md tells."""
    told: dict[str, Any] = json.loads(str(_written("cimaroly_report", kind, der, secrets), "utf-8"))
    return told


def _items(name: str, kind: Kind, der: Held, item: type[ctypes.Structure]) -> list[Any]:
    """What a call writes to a buffer of items."""
    count = c_size_t(_ITEMS)
    while True:
        out = (item * count.value)()
        if _is_ok(_asked(name, kind, der, out, len(out), byref(count)), kind, der):
            return list(out[: count.value])


def places(kind: Kind, der: Held) -> list[Place]:
    """Where each deviation stands."""
    return _items("cimaroly_places", kind, der, Place)


def findings(kind: Kind, der: Held) -> list[FoundAt]:
    """Which rules a certificate or request breaks, and where."""
    return _items(_FINDINGS[kind], kind, der, FoundAt)


def extensions(kind: Kind, der: Held) -> list[tuple[int, ...]]:
    """Where each extension stands: start and end of it, of `extnID`, of `critical` and of `extnValue`."""
    call, given, room = CALLS["cimaroly_extensions"], input_at(der), taken()
    while True:
        most = room.size // _EXTENSION.size
        status = call(_NUMBERS[kind], given, len(der), room.items, most, room.count)
        if status != BUFFER_TOO_SHORT:
            break
        room = room.larger(_EXTENSION.size)
    found = room.listed(_EXTENSION, status)
    given_back(room)
    _is_ok(status, kind, der)
    return found


def signed_part(kind: Kind, der: Held) -> Signed:
    """What the signature covers."""
    part = Signed()
    _is_ok(CALLS["cimaroly_signed_part"](_NUMBERS[kind], input_at(der), len(der), byref(part)), kind, der)
    return part


def fields(kind: Kind, der: Held) -> tuple[int, ...]:
    """Start and end of each field, in the order of `FIELDS`; 0 and 0 of one that isn't there."""
    if kind not in FIELDS:
        raise ValueError(f"not for a {kind}")
    call, numbers = _FIELDS_OF[kind]
    room = taken()
    status = call(input_at(der), len(der), room.items)
    found = room.item(numbers)
    given_back(room)
    if status != OK:
        _is_ok(status, kind, der)
    return found
