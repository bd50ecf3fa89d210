"""Whether a certificate is for a host (RFC 9525)."""

from __future__ import annotations

import ipaddress
import re
from typing import Union

from ._names import Address, AlternativeNames

_LABEL = re.compile(r"[a-z0-9_](?:[a-z0-9_-]{0,61}[a-z0-9_])?")
_MOST = 253


def _lower(name: str) -> str:
    """A name in ASCII in the lower case, in which DNS names are compared (RFC 9525, 6.3; RFC 4343)."""
    return name.lower() if name.isascii() else ""


def _labels(name: str) -> list[str]:
    """The labels of a DNS name in the lower case (RFC 1034, 3.5; underscores are in use too), or none if it isn't one."""
    labels = name.split(".")
    right = len(name) <= _MOST and all(_LABEL.fullmatch(it) for it in labels) and not labels[-1].isdigit()
    return labels if right else []


def _reference(host: Union[str, Address]) -> Union[list[str], Address]:
    """What a host is looked for as: an address, or the labels of a DNS name. Raises `ValueError` for what is neither."""
    if not isinstance(host, str):
        return host
    try:
        # (URIs have those of version 6 in brackets: RFC 3986, 3.2.2)
        return ipaddress.IPv6Address(host[1:-1]) if host[:1] + host[-1:] == "[]" else ipaddress.ip_address(host)
    except ValueError:
        pass
    if not host.isascii():
        raise ValueError(f"{host!r} isn't ASCII: give its labels as A-labels (RFC 5891), as the package idna encodes them")
    # (a dot at the end says that the name is whole)
    labels = _labels(_lower(host[:-1] if host.endswith(".") else host))
    if not labels:
        raise ValueError(f"{host!r} is neither the name of a host nor an address")
    return labels


def _is_for(presented: str, labels: list[str]) -> bool:
    """Whether a name of a certificate is for a DNS name (RFC 9525, 6.3).

    An asterisk stands for one label: as the whole of the left-most, with others behind it.
    """
    first, _, rest = _lower(presented).partition(".")
    if first == "*":
        return len(labels) > 1 and _labels(rest) == labels[1:]
    return _labels(_lower(presented)) == labels


def text(host: Union[str, Address]) -> bytes:
    """A host as the library takes it. Raises `ValueError` for what is none."""
    reference = _reference(host)
    if isinstance(reference, list):
        return ".".join(reference).encode("ascii")
    # (without the zone of an address of version 6: RFC 4007, 11)
    return str(type(reference)(reference.packed)).encode("ascii")


def matches(names: AlternativeNames, host: Union[str, Address]) -> bool:
    """Whether one of these names is for a host."""
    reference = _reference(host)
    if isinstance(reference, list):
        return any(_is_for(it, reference) for it in names.dns_names)
    return any(it.packed == reference.packed for it in names.ip_addresses)
