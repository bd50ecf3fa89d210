"""Reading DER, and PEM block by block."""

from __future__ import annotations

from collections.abc import Iterator
from dataclasses import dataclass
from typing import Any, Literal, Optional, Union, overload

from . import _values
from ._certificates import Certificate, Request
from ._keys import PrivateKey, PrivateKind, PublicKey, PublicKind
from ._kinds import KINDS, Kind, Refused
from ._outlines import WHOLE, Outline, OutlineKind, RevocationList
from ._pem import Data, PemError, RawBlock, bare_base64, escaped, is_one_element, is_pem, raw_blocks, viewed
from ._secret import PRIVATE, Held, Secret
from ._structure import Structure, Verdict, checked, checked_extension

OtherKind = Literal["name", "extensions", "algorithm", "raw-algorithm", "request-info", "tbs-certificate"]


def _structure(der: Union[bytes, bytearray, memoryview], kind: Kind) -> Structure:
    """Reads bytes as a kind, by the class for it. Raises `Refused`."""
    if kind == "certificate":
        return Certificate(der)
    if kind == "request":
        return Request(der)
    if kind == "public-key" or kind == "rsa-public-key":
        return PublicKey(der, kind)
    if kind == "private-key" or kind == "rsa-private-key" or kind == "ec-private-key":
        return PrivateKey(der, kind)
    if kind == "crl":
        return RevocationList(der, kind)
    return Outline(der, kind) if kind in WHOLE else Structure(der, kind)


@dataclass(frozen=True)
class Outcome:
    """What came of one block of a PEM text, or of DER: a structure, or why there is none.

    A block whose label names no kind has neither.
    """

    number: int
    """The number of the block in its text, from 1."""
    line: Optional[int]
    """The number of the line that begins it, from 1; None for DER."""
    label: Optional[str]
    """The label in this line; None for DER."""
    kind: Optional[Kind]
    """What it is read as; None if the label names no kind."""
    structure: Optional[Structure] = None
    """What was read."""
    refused: Union[Refused, PemError, None] = None
    """Why it is refused: `PemError` if the block itself can't be decoded."""


def _known(kind: str) -> None:
    if kind not in KINDS:
        raise ValueError(f"no kind {kind!r}: there are {', '.join(KINDS)}")


def _no_block(view: memoryview, kind: Optional[Kind]) -> PemError:
    labels = ", ".join(sorted({escaped(it.label) for it in raw_blocks(view)})) or "none"
    return PemError(f"no PEM block of {'a known kind' if kind is None else 'kind ' + kind} (blocks: {labels})")


def _bare(view: memoryview, kind: Kind) -> Optional[Held]:
    """What bare base64 stands for, or None."""
    found = bare_base64(view)
    return found if found is None or kind in PRIVATE else bytes(found)


def _der(data: Data, kind: Kind) -> Held:
    """DER as it is, or what is in the first block that the kind fits, or in bare base64."""
    _known(kind)
    if isinstance(data, bytes) and is_one_element(data):
        return data
    view = viewed(data)
    if not (isinstance(data, str) or is_pem(view)):
        return _bare(view, kind) or (data if isinstance(data, bytes) else Secret(view))
    blocks = list(raw_blocks(view))
    for it in blocks:
        if it.kind == WHOLE.get(kind, kind):
            return it.held()
    found = None if blocks else _bare(view, kind)
    if found is None:
        raise _no_block(view, kind)
    return found


def check(data: Data, kind: Kind = "certificate") -> Verdict:
    """Whether bytes encode a structure of a kind, and how they deviate from its DER encoding.

    Of PEM the first block of the kind is taken; a text without blocks may be bare base64. Raises `Refused`, `PemError` if
    there is no such block or it can't be decoded, `TypeError` for what isn't data, and `MemoryError`.
    """
    return checked(_der(data, kind), kind)


def check_extension(identifier: str, value: Union[bytes, bytearray, memoryview]) -> Optional[Verdict]:
    """Whether the value of an extension that `check` takes as octets, such as policies (RFC 5280, 4.2.1.4), distribution points
    (4.2.1.13) or information access (4.2.2), encodes what its identifier says, and how it deviates from the DER encoding of that.

    The identifier is given with dots, or by its name, as `id-ce-certificatePolicies`; None if no such extension has it. Of
    certificate timestamps (RFC 6962, 3.3) the OCTET STRING is checked, and not what TLS has in it. Raises `Refused`, with a
    place in the value, `ValueError` for text that is no identifier, and `TypeError` for a value that isn't bytes.

    >>> extension = certificate.extensions["certificatePolicies"]  # doctest: +SKIP
    >>> cimaroly.check_extension(extension.identifier, extension.value).is_der  # doctest: +SKIP
    True
    """
    content = _values.content_of(identifier)
    try:
        given = bytes(memoryview(value))
    except TypeError:
        raise TypeError(f"the value of an extension is bytes, not {type(value).__name__}") from None
    return checked_extension(content, given)


@overload
def read(data: Data, kind: Literal["certificate"] = ...) -> Certificate: ...
@overload
def read(data: Data, kind: Literal["request"]) -> Request: ...
@overload
def read(data: Data, kind: PublicKind) -> PublicKey: ...
@overload
def read(data: Data, kind: PrivateKind) -> PrivateKey: ...
@overload
def read(data: Data, kind: Literal["crl"]) -> RevocationList: ...
@overload
def read(data: Data, kind: OutlineKind) -> Outline: ...
@overload
def read(data: Data, kind: Kind) -> Structure: ...
def read(data: Data, kind: Kind = "certificate") -> Structure:
    """Reads one structure: a `Certificate`, a `Request`, a `PublicKey`, a `PrivateKey`, a `RevocationList` or an `Outline`, and of
    the other kinds a `Structure`. Of PEM the first block of the kind is taken; outlines are those of the blocks of what they
    are the frame of.

    Raises what `check` does.
    """
    return _structure(_der(data, kind), kind)


def read_each(data: Data, kind: Optional[Kind] = None) -> Iterator[Outcome]:
    """Reads a PEM text block by block, each as the kind that its label says, and goes on behind those that are refused; with
    a kind, only the blocks of that kind. DER is one structure, a certificate if no kind is given.

    Raises `TypeError` for what isn't data, and `MemoryError`. A text without blocks gives nothing.

        >>> for it in cimaroly.read_each(open("bundle.pem", "rb").read()):  # doctest: +SKIP
        ...     print(it.number, it.line, it.structure or it.refused or f"{it.label} is passed over")
    """
    if kind is not None:
        _known(kind)
    view = viewed(data)
    if is_pem(view) or (isinstance(data, str) and next(raw_blocks(view), None) is not None):
        found = raw_blocks(view)
        return (_outcome(it, kind or it.kind) for it in found if kind is None or it.kind == WHOLE.get(kind, kind))
    bare = _bare(view, kind or "certificate")
    if bare is not None:
        return iter((_outcome_of_der(bare, kind or "certificate"),))
    return iter(()) if isinstance(data, str) else iter((_outcome_of_der(data, kind or "certificate"),))


def _outcome(block: RawBlock, kind: Optional[Kind]) -> Outcome:
    number, line, label = block.number, block.line, block.label
    if kind is None:
        return Outcome(number, line, label, kind)
    try:
        return Outcome(number, line, label, kind, _structure(block.held(), kind))
    except (Refused, PemError) as error:
        # (without the frames, which keep what they read)
        return Outcome(number, line, label, kind, refused=error.with_traceback(None))


def _outcome_of_der(data: Union[bytes, bytearray, memoryview], kind: Kind) -> Outcome:
    try:
        return Outcome(1, None, None, kind, _structure(data, kind))
    except Refused as error:
        return Outcome(1, None, None, kind, refused=error.with_traceback(None))


@overload
def read_all(data: Data, kind: Literal["certificate"]) -> list[Certificate]: ...
@overload
def read_all(data: Data, kind: Literal["request"]) -> list[Request]: ...
@overload
def read_all(data: Data, kind: PublicKind) -> list[PublicKey]: ...
@overload
def read_all(data: Data, kind: PrivateKind) -> list[PrivateKey]: ...
@overload
def read_all(data: Data, kind: Literal["crl"]) -> list[RevocationList]: ...
@overload
def read_all(data: Data, kind: OutlineKind) -> list[Outline]: ...
@overload
def read_all(data: Data, kind: Optional[OtherKind] = None) -> list[Structure]: ...
def read_all(data: Data, kind: Optional[Kind] = None) -> list[Any]:
    """The structures of `read_each`, if none is refused.

    Raises `Refused` or `PemError` at the first that is, `PemError` if there is no block of a known kind or of this one, and
    what `read_each` does.
    """
    found = []
    for it in read_each(data, kind):
        if it.refused is not None:
            raise it.refused
        if it.structure is not None:
            found.append(it.structure)
    if not found:
        raise _no_block(viewed(data), kind)
    return found
