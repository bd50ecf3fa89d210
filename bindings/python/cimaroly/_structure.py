"""Structures that were read, and what they can be asked."""

from __future__ import annotations

from collections.abc import Iterable, Mapping, Sequence
from functools import cached_property
from typing import Any, NamedTuple, Optional, SupportsIndex, Union, overload

from . import _library, _values
from ._kinds import Deviation, Kind
from ._pem import viewed
from ._secret import PRIVATE, Held, Secret, measured


class Verdict(NamedTuple):
    """What a check finds of bytes that aren't refused."""

    counts: Mapping[Deviation, int]
    """How often each deviation occurs; those that don't are left out."""
    headers: int
    """How many headers of elements were decoded."""

    @property
    def is_der(self) -> bool:
        """Whether the bytes are the DER encoding of what they encode."""
        return not self.counts


class Place(NamedTuple):
    """A deviation, and the bytes that it covers."""

    deviation: Deviation
    start: int
    end: int


class Field(NamedTuple):
    """A field with its tag and its length: the bytes `start` up to `end` of the structure."""

    start: int
    end: int
    data: bytes

    def __repr__(self) -> str:
        # (they may be a private key's)
        return f"Field(start={self.start}, end={self.end}, data=<{measured(self.data)}>)"


class _Extension(NamedTuple):
    identifier: str
    """`extnID`, with dots."""
    critical: bool
    value: bytes
    """What `extnValue` holds."""
    start: int
    end: int


class Extension(_Extension):
    """An extension (RFC 5280, 4.1)."""

    name: Optional[str] = None
    """The name that the library has for the identifier, such as `id-ce-keyUsage`."""

    def is_called(self, key: str) -> bool:
        """Whether a key is the identifier, as `2.5.29.15`, or the name, as `id-ce-keyUsage` or `keyUsage`."""
        if self.name is None:
            return key == self.identifier
        return key in (self.identifier, self.name, self.name.removeprefix("id-ce-").removeprefix("id-pe-"))


class Extensions(tuple[Extension, ...]):
    """Extensions (RFC 5280, 4.1.2.9), in the order of the encoding, which iteration keeps. They are found by identifier or name:

    >>> certificate.extensions["2.5.29.15"] == certificate.extensions["keyUsage"]  # doctest: +SKIP
    True
    >>> "nameConstraints" in certificate.extensions  # doctest: +SKIP
    False
    """

    @overload
    def __getitem__(self, key: Union[str, SupportsIndex]) -> Extension: ...
    @overload
    def __getitem__(self, key: slice) -> tuple[Extension, ...]: ...
    def __getitem__(self, key: Union[str, SupportsIndex, slice]) -> Union[Extension, tuple[Extension, ...]]:
        """The extension of an identifier or a name, or at a place. Raises `KeyError` if there is none, and `ValueError` if there
        are several, of which RFC 5280, 4.2 says not which counts."""
        if not isinstance(key, str):
            return super().__getitem__(key)
        found = self.get(key)
        if found is None:
            raise KeyError(key)
        return found

    def get(self, key: str) -> Optional[Extension]:
        """The extension of an identifier or a name, or None. Raises `ValueError` if there are several."""
        found = [it for it in self if it.is_called(key)]
        if len(found) > 1:
            raise ValueError(f"{len(found)} extensions {key}: RFC 5280, 4.2 allows only one")
        return found[0] if found else None

    def __contains__(self, key: object) -> bool:
        """Whether there is an extension of an identifier or a name."""
        return any(it.is_called(key) for it in self) if isinstance(key, str) else super().__contains__(key)

    def __repr__(self) -> str:
        return f"Extensions({', '.join(it.name or it.identifier for it in self)})"


class SignedPart(NamedTuple):
    """What the signature of a certificate or a request covers."""

    start: int
    end: int
    data: bytes
    """The bytes over which the signature is verified."""
    inside: Mapping[Deviation, int]
    """How often each deviation occurs in them: if none does, they are in DER."""
    outside: Mapping[Deviation, int]
    """How often each deviation occurs outside of them."""


def _counted(counts: Sequence[int]) -> dict[Deviation, int]:
    return {Deviation(number): count for number, count in enumerate(counts, 1) if count} if any(counts) else {}


def inside(der: Held, start: int) -> tuple[int, int]:
    """Where the content stands of an element that was read (X.690, 8.1.3)."""
    size = der[start + 1]
    at = start + 2
    if size < 128:
        return at, at + size
    digits = at + size - 128
    return digits, digits + int.from_bytes(der[at:digits], "big")


def listed(der: Held, places: Iterable[tuple[int, ...]], offset: int = 0) -> Extensions:
    """The extensions that stand at these places of bytes, which stand at an offset of the structure."""

    def content(start: int) -> bytes:
        at, end = inside(der, start)
        return bytes(der[at:end])

    def extension(start: int, end: int, oid: int, _1: int, _2: int, critical_end: int, value: int, _3: int) -> Extension:
        identifier, name = _values.identifier(content(oid))
        critical = critical_end > 0 and der[critical_end - 1] != 0
        found = Extension(identifier, critical, content(value), start + offset, end + offset)
        found.name = name
        return found

    return Extensions(extension(*it) for it in places)


def checked(der: Held, kind: Kind) -> Verdict:
    """What a check finds. Raises `Refused`, and keeps no secret then."""
    try:
        found = _library.check(kind, der)
    except BaseException:
        # (the frames of what is raised would keep it)
        if isinstance(der, Secret):
            der.overwrite()
        raise
    return Verdict(_counted(found[:10]), found[10])


def checked_extension(identifier: bytes, value: bytes) -> Optional[Verdict]:
    """The same of the value of an extension that is kept as octets; None if no such extension has the identifier."""
    found = _library.check_extension(identifier, value)
    return None if found is None else Verdict(_counted(found[:10]), found[10])


class Structure:
    """A structure that was read. It keeps its bytes, and asks the library again for what is told of them.

    What it keeps of a private key that came as PEM or in a `bytearray` is overwritten when the structure is freed.
    """

    _KEPT = ("_kind", "_verdict", "_der")

    def __init__(self, der: Union[bytes, bytearray, memoryview], kind: Kind = "certificate") -> None:
        """Reads bytes in DER. Raises `Refused`."""
        if isinstance(der, str):
            raise TypeError("DER is bytes, not str: read() takes PEM")
        self._kind = kind
        # (what is refused as something else may be a private key, too)
        copy: Held = der if isinstance(der, (bytes, Secret)) else Secret(viewed(der))
        self.__dict__["_verdict"] = checked(copy, kind)
        self._der: Held = copy if kind in PRIVATE else bytes(copy)

    @cached_property
    def _verdict(self) -> Verdict:
        """What a check finds; of what stands in something that was read it is asked for later."""
        return checked(self._der, self._kind)

    @property
    def der(self) -> bytes:
        """The bytes that were read."""
        return bytes(self._der)

    @property
    def kind(self) -> Kind:
        """What they were read as."""
        return self._kind

    @property
    def verdict(self) -> Verdict:
        """How often each deviation occurs, and how many headers were decoded."""
        return self._verdict

    @property
    def is_der(self) -> bool:
        """Whether the bytes are the DER encoding of what they encode: there are no deviations."""
        return self._verdict.is_der

    @cached_property
    def deviations(self) -> tuple[Place, ...]:
        """Each deviation with its place, by start and then by number."""
        if self.is_der:
            return ()
        return tuple(Place(Deviation(it.deviation), it.start, it.end) for it in _library.places(self._kind, self._der))

    @property
    def fields(self) -> Mapping[str, Field]:
        """The fields that a certificate, a request, a private key, an outline of one or a CRL has, by their names in
        `cimaroly.h`.

        Raises `ValueError` for another kind.
        """
        return self._found_fields() if self._kind in PRIVATE else self._kept_fields

    @cached_property
    def _kept_fields(self) -> Mapping[str, Field]:
        return self._found_fields()

    def _found_fields(self) -> Mapping[str, Field]:
        spans = self._spans
        each = zip(_library.FIELDS[self._kind], spans[::2], spans[1::2])
        return {name: Field(start, end, self._bytes(start, end)) for name, start, end in each if end > 0}

    @cached_property
    def _spans(self) -> tuple[int, ...]:
        """Start and end of each field, in the order of the library."""
        return _library.fields(self._kind, self._der)

    def _span(self, name: str) -> tuple[int, int]:
        """Start and end of a field; 0 and 0 if it isn't there."""
        spans, at = self._spans, 2 * _library.FIELDS[self._kind].index(name)
        return spans[at], spans[at + 1]

    def _bytes(self, start: int, end: int) -> bytes:
        der = self._der
        return der[start:end] if isinstance(der, bytes) else bytes(memoryview(der)[start:end])

    @cached_property
    def extensions(self) -> Extensions:
        """The extensions of a certificate, a request or a list of extensions. Raises `ValueError` for another kind."""
        return self._found_extensions()

    def _found_extensions(self) -> Extensions:
        return listed(self._der, _library.extensions(self._kind, self._der))

    @cached_property
    def signed_part(self) -> SignedPart:
        """What the signature of a certificate or a request covers. Raises `ValueError` for another kind."""
        found = _library.signed_part(self._kind, self._der)
        start, end = found.part.start, found.part.end
        return SignedPart(start, end, self._bytes(start, end), _counted(found.inside[:]), _counted(found.outside[:]))

    def encode(self) -> bytes:
        """The DER encoding: if there are no deviations, the bytes that were read."""
        return _library.encode(self._kind, self._der)

    def report(self, *, secrets: bool = False) -> dict[str, Any]:
        """The contents, as docs/JSON.md describes them. The secret numbers of private keys are left out unless asked for."""
        return _library.report(self._kind, self._der, secrets)

    def _summary(self) -> str:
        """What `repr` says first of the contents; nothing secret."""
        return ""

    def __repr__(self) -> str:
        total = sum(self._verdict.counts.values())
        how = "in DER" if total == 0 else f"{total} deviation{'s' if total > 1 else ''}"
        return f"<{self._kind}{self._summary()}, {measured(self._der)}, {how}>"

    def __getstate__(self) -> dict[str, Any]:
        # (what was asked for once is asked for again)
        return {name: getattr(self, name) for name in self._KEPT}

    def __eq__(self, other: object) -> bool:
        return isinstance(other, Structure) and (self._kind, self._der) == (other._kind, other._der)

    def __hash__(self) -> int:
        return hash((self._kind, len(self._der) if self._kind in PRIVATE else self._der))
