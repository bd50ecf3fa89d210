"""Distinguished names and general names, of the places that the library tells, or else of its report.

Bytes are only sliced where the library says that something stands; how long what stands inside is follows from its size.
The report says what a value is that isn't plain text.
"""

from __future__ import annotations

import functools
import ipaddress
import re
from collections.abc import Iterable, Iterator
from dataclasses import dataclass, field
from typing import Any, NamedTuple, Optional, Union

from . import _library, _values
from ._pem import Data, viewed
from ._secret import Held
from ._structure import inside

Address = Union[ipaddress.IPv4Address, ipaddress.IPv6Address]
"""An address of the internet protocol."""

# The types of attributes that have a short name (RFC 4514, 3).
_SHORT = {
    "2.5.4.3": "CN",
    "2.5.4.7": "L",
    "2.5.4.8": "ST",
    "2.5.4.10": "O",
    "2.5.4.11": "OU",
    "2.5.4.6": "C",
    "2.5.4.9": "STREET",
    "0.9.2342.19200300.100.1.25": "DC",
    "0.9.2342.19200300.100.1.1": "UID",
}
COMMON_NAME = "2.5.4.3"


def octets(text: str) -> bytes:
    """The bytes that a report tells in hexadecimal with colons."""
    return bytes.fromhex(text.replace(":", " "))


def integer(text: str) -> int:
    """The number that a report tells by the bytes of its content: two's complement, high bytes first (X.690, 8.3)."""
    return int.from_bytes(octets(text), "big", signed=True)


def header_size(size: int) -> int:
    """How many bytes stand before a content of this size: its tag and its length (X.690, 8.1.3 and 10.1)."""
    return 2 if size < 128 else 2 + (size.bit_length() + 7) // 8


def content_size(size: int) -> int:
    """How many bytes the content of an element of this size has."""
    if size < 130:
        return size - 2
    return next(it for it in range(size - 2, -1, -1) if it + header_size(it) == size)


@functools.lru_cache(maxsize=256)
def _identifier_size(identifier: str) -> int:
    """How many bytes an object identifier has, with its tag and its length (X.690, 8.19)."""
    first, second, *rest = map(int, identifier.split("."))
    size = sum(max(1, -(-arc.bit_length() // 7)) for arc in (40 * first + second, *rest))
    return size + header_size(size)


def _text_or_bytes(told: str, size: int) -> Union[str, bytes]:
    """What a report tells of an element of this size: its text, or the whole of it in hexadecimal, which no text is as long
    as."""
    return octets(told) if len(told) == 3 * size - 1 else told


# What is written as it stands, and can be printed: with one of these alone in front, at the end and between.
_PLAIN = re.compile(r"[\w.@-](?:[\w.@ /()'*:=-]*[\w.@-])?")


def _escaped(text: str) -> str:
    """A text as RFC 4514, 2.4 escapes it. What can't be printed, or changes the direction of text, is escaped as well."""
    if _PLAIN.fullmatch(text):
        return text
    found = []
    for at, symbol in enumerate(text):
        if symbol in '"+,;<>\\' or (at == 0 and symbol in " #") or (at == len(text) - 1 and symbol == " "):
            found.append("\\" + symbol)
        elif symbol.isprintable():
            found.append(symbol)
        else:
            found += [f"\\{byte:02X}" for byte in symbol.encode(errors="surrogatepass")]
    return "".join(found)


@dataclass(frozen=True)
class Attribute:
    """An attribute of a name: a type, and its value (RFC 5280, 4.1.2.4)."""

    identifier: str
    """The type, with dots."""
    name: Optional[str]
    """The name that the library has for the type, such as `commonName`."""
    value: Union[str, bytes]
    """The text; of a value that isn't text, its encoding."""
    der: bytes = field(repr=False)
    """The value's encoding, with its tag and its length."""

    def rfc4514(self) -> str:
        """The attribute as text (RFC 4514, 2.3 and 2.4): `CN=example.org`, or, if its type has no short name there, the type
        with dots and the bytes of the encoding in hexadecimal."""
        return _written(self.identifier, self.name, self.value, self.der)

    def __str__(self) -> str:
        return self.rfc4514()


# The fields of an attribute.
_Parts = tuple[str, Optional[str], Union[str, bytes], bytes]


def _written(identifier: str, _: Optional[str], value: Union[str, bytes], der: bytes) -> str:
    """An attribute of these fields as text."""
    short = _SHORT.get(identifier)
    if short is None or isinstance(value, bytes):
        return f"{short or identifier}=#{der.hex()}"
    return f"{short}={_escaped(value)}"


# The tags of strings whose characters are ASCII or UTF-8 (X.680, 41): UTF8String, NumericString, PrintableString, IA5String
# and VisibleString.
_UTF8 = 12
_STRINGS = frozenset((_UTF8, 18, 19, 22, 26))


def _plain(tag: int, content: bytes) -> Optional[str]:
    """The text of a string, or None where the report is asked what its value is."""
    if content.isascii():
        return content.decode("ascii") if tag in _STRINGS else None
    try:
        return content.decode() if tag == _UTF8 else None
    except UnicodeDecodeError:
        return None


def _parts(told: Any, der: Held) -> _Parts:
    """The fields of the attribute that a report's node tells of."""
    start, end = told["at"]
    size = content_size(end - start) - _identifier_size(told["id"])
    value = _text_or_bytes(told["value"], size)
    return told["id"], told.get("name"), value, bytes(memoryview(der)[end - size : end])


class Name:
    """A distinguished name (RFC 5280, 4.1.2.4): attributes in sets, of which most have one.

    Iteration gives the attributes in the order of the encoding. Two names are equal if they are the same bytes: case, spaces and
    string types count (RFC 5280, 7.1 allows for a laxer comparison).

        >>> [it.value for it in certificate.subject]  # doctest: +SKIP
        ['DE', 'Example GmbH', 'example.org']
    """

    __slots__ = ("_content", "_parts", "_sets")

    _sets: Optional[tuple[tuple[Attribute, ...], ...]]

    def __init__(self, der: Data) -> None:
        """Reads a `Name` in DER. Raises `Refused`."""
        if isinstance(der, str):
            raise TypeError("a name is in DER, which is bytes, not str")
        data = bytes(viewed(der))
        _library.check("name", data)
        self._tell(_library.report("name", data, False)["Name"], data)

    @classmethod
    def _at(cls, der: bytes, start: int, end: int, places: Iterable[tuple[int, ...]]) -> Name:
        """The name that stands from one byte to another, of attributes at these places."""
        content, last = der[inside(der, start)[0] : end], end
        sets: list[list[_Parts]] = []
        for number, oid, oid_end, tag, at, last in places:
            value = _plain(tag, der[at:last])
            if value is None:
                return cls(element(0x30, content))
            # (a set may be empty)
            while number >= len(sets):
                sets.append([])
            sets[number].append((*_values.identifier(der[oid:oid_end]), value, der[oid_end:last]))
        if last != end or (content and not sets):
            # (and so may the last ones)
            return cls(element(0x30, content))
        name = cls.__new__(cls)
        name._content, name._parts, name._sets = content, tuple(map(tuple, sets)), None
        return name

    @classmethod
    def _of(cls, told: Any, der: Held) -> Name:
        """The name that a report tells of."""
        found = cls.__new__(cls)
        found._tell(told, der)
        return found

    def _tell(self, told: Any, der: Held) -> None:
        sets = told["items"]
        self._parts: tuple[tuple[_Parts, ...], ...] = tuple(tuple(_parts(it, der) for it in one["items"]) for one in sets)
        self._sets = None
        # (a name under a tag begins behind that: with its first set)
        self._content: bytes = bytes(memoryview(der)[sets[0]["at"][0] : sets[-1]["at"][1]]) if sets else b""

    @property
    def sets(self) -> tuple[tuple[Attribute, ...], ...]:
        """The relative distinguished names, each a set of attributes, in the order of the encoding."""
        if self._sets is None:
            self._sets = tuple(tuple(Attribute(*it) for it in one) for one in self._parts)
        return self._sets

    @property
    def der(self) -> bytes:
        """The encoding."""
        return element(0x30, self._content)

    @property
    def common_name(self) -> Optional[str]:
        """The common name; of several the last, which is the most specific; None if there is none."""
        found = [it[2] for one in self._parts for it in one if it[0] == COMMON_NAME]
        return str(found[-1]) if found else None

    def values(self, key: str) -> tuple[Union[str, bytes], ...]:
        """The values of the attributes of a type, by its identifier, as `2.5.4.10`, its name, as `organizationName`, or its
        short name in RFC 4514, as `O`."""
        each = (it for one in self._parts for it in one)
        return tuple(value for identifier, name, value, _ in each if key in (identifier, name, _SHORT.get(identifier)))

    def rfc4514(self) -> str:
        """The name as text (RFC 4514): the last set first, `CN=example.org,O=Example GmbH,C=DE`."""
        return ",".join(["+".join([_written(*it) for it in one]) for one in reversed(self._parts)])

    def __iter__(self) -> Iterator[Attribute]:
        return (it for one in self.sets for it in one)

    def __len__(self) -> int:
        """How many attributes there are."""
        return sum(map(len, self._parts))

    def __str__(self) -> str:
        return self.rfc4514()

    def __repr__(self) -> str:
        return f"<Name {self.rfc4514()}>"

    def __eq__(self, other: object) -> bool:
        if not isinstance(other, Name):
            return NotImplemented
        return self._content == other._content

    def __hash__(self) -> int:
        return hash(self._content)


def element(tag: int, *parts: bytes) -> bytes:
    """An element of a tag of one byte (X.690, 8.1 and 10.1)."""
    content = b"".join(parts)
    size = len(content)
    if size < 128:
        return bytes([tag, size]) + content
    digits = header_size(size) - 2
    return bytes([tag, 128 + digits]) + size.to_bytes(digits, "big") + content


class OtherName(NamedTuple):
    """A name of a form of its own, `otherName` (RFC 5280, 4.2.1.6)."""

    identifier: str
    """The form, with dots."""
    value: Union[str, bytes]
    """The text; of a value that isn't text, its encoding."""


class EdiPartyName(NamedTuple):
    """A party to electronic data interchange, `ediPartyName` (RFC 5280, 4.2.1.6)."""

    name_assigner: Optional[str]
    party_name: str


class GeneralName(NamedTuple):
    """A name of one of the forms of RFC 5280, 4.2.1.6."""

    form: str
    """The form as the RFC names it: `dNSName`, `iPAddress`, `rfc822Name`, `uniformResourceIdentifier`, `directoryName`,
    `registeredID`, `otherName` or `ediPartyName`."""
    value: Union[str, Address, Name, OtherName, EdiPartyName, bytes]
    """A `str`; of `iPAddress` an address of `ipaddress`, or its bytes if there are neither 4 nor 16 of them; of `directoryName` a
    `Name`; of `registeredID` the identifier with dots; of the last two a value of their class."""


class AlternativeNames(tuple[GeneralName, ...]):
    """General names, in the order of the encoding (RFC 5280, 4.2.1.6)."""

    @property
    def dns_names(self) -> tuple[str, ...]:
        """Names of the DNS, as they stand in the certificate: a wildcard is an asterisk."""
        return self._texts("dNSName")

    @property
    def ip_addresses(self) -> tuple[Address, ...]:
        """Addresses of the internet protocol."""
        return tuple(it.value for it in self if isinstance(it.value, (ipaddress.IPv4Address, ipaddress.IPv6Address)))

    @property
    def email_addresses(self) -> tuple[str, ...]:
        """Addresses of electronic mail."""
        return self._texts("rfc822Name")

    @property
    def uris(self) -> tuple[str, ...]:
        """Uniform resource identifiers."""
        return self._texts("uniformResourceIdentifier")

    @property
    def directory_names(self) -> tuple[Name, ...]:
        """Distinguished names."""
        return tuple(it.value for it in self if isinstance(it.value, Name))

    @property
    def others(self) -> tuple[GeneralName, ...]:
        """Names of all other forms, and what isn't an address for its length."""
        return tuple(it for it in self if it.form not in _USUAL or isinstance(it.value, bytes))

    def _texts(self, form: str) -> tuple[str, ...]:
        return tuple(it.value for it in self if it.form == form and isinstance(it.value, str))

    def __repr__(self) -> str:
        return f"AlternativeNames({list(self)!r})"


_USUAL = frozenset(("dNSName", "iPAddress", "rfc822Name", "uniformResourceIdentifier", "directoryName"))
# The least size of an address of 16 bytes with its tag and its length.
_LONG = 18


def _address(told: str, size: int) -> Union[Address, bytes]:
    """An address that stands in an element of this size."""
    if "." in told:
        return ipaddress.IPv4Address(told)
    # (hexadecimal of 8 bytes could be taken for one of 16, and more bytes than these can't)
    if size >= _LONG and len(told.split(":")) <= 8:
        return ipaddress.IPv6Address(told)
    return octets(told)


def _general_name(told: Any, der: Held) -> GeneralName:
    form, (start, end) = told["field"], told["at"]
    if form == "directoryName":
        return GeneralName(form, Name._of(told, der))
    if form == "iPAddress":
        return GeneralName(form, _address(told["value"], end - start))
    if form == "registeredID":
        return GeneralName(form, told["value"]["id"])
    if form == "otherName":
        first, last = told["value"]["at"]
        value = _text_or_bytes(told["value"]["value"], content_size(last - first))
        return GeneralName(form, OtherName(told["type-id"]["value"]["id"], value))
    if form == "ediPartyName":
        assigner = told.get("nameAssigner", {}).get("value")
        return GeneralName(form, EdiPartyName(assigner, told["partyName"]["value"]))
    return GeneralName(form, told["value"])


def alternative_names(told: Any, der: Held) -> AlternativeNames:
    """The general names that are the items of a report's node."""
    return AlternativeNames(_general_name(it, der) for it in told["items"])


# The forms of general names that are texts, by their tags in DER, and the tags of two others.
_TEXTS = {0x81: "rfc822Name", 0x82: "dNSName", 0x86: "uniformResourceIdentifier"}
_IP_ADDRESS, _REGISTERED_ID = 0x87, 0x88


def _address_of(content: bytes) -> Union[Address, bytes]:
    """An address by its bytes, or these if there are neither 4 nor 16."""
    if len(content) == 4:
        return ipaddress.IPv4Address(content)
    return ipaddress.IPv6Address(content) if len(content) == 16 else content


def _general_name_at(tag: int, content: bytes) -> Optional[GeneralName]:
    """The general name under a tag; None where the report is asked what it is."""
    if tag in _TEXTS:
        return GeneralName(_TEXTS[tag], content.decode("ascii")) if content.isascii() else None
    if tag == _IP_ADDRESS:
        return GeneralName("iPAddress", _address_of(content))
    if tag == _REGISTERED_ID:
        return GeneralName("registeredID", _values.identifier(content)[0])
    return None


def alternative_names_in(encoded: bytes) -> Optional[AlternativeNames]:
    """The general names of a list; None where the report is asked what one of them is."""
    names = []
    for tag, start, end in _values.general_names(encoded) or ((0, 0, 0),):
        name = _general_name_at(tag, encoded[start:end])
        if name is None:
            return None
        names.append(name)
    return AlternativeNames(names)
