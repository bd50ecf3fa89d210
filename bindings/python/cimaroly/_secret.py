"""Bytes of private keys, in memory that is overwritten once nothing refers to it."""

from __future__ import annotations

from typing import Union

from ._kinds import Kind

PRIVATE: frozenset[Kind] = frozenset(
    ("private-key", "rsa-private-key", "ec-private-key", "private-key-outline")
)
"""The kinds whose bytes are secret."""


def measured(data: Union[bytes, bytearray]) -> str:
    """How many bytes there are, for a `repr` that doesn't show them."""
    return f"{len(data)} byte{'' if len(data) == 1 else 's'}"


class Secret(bytearray):
    """Bytes that are overwritten when the last reference to them goes."""

    def overwrite(self) -> None:
        """Puts zeros in the place of every byte."""
        self[:] = bytes(len(self))

    def __del__(self) -> None:
        self.overwrite()

    def __repr__(self) -> str:
        return f"<secret: {measured(self)}>"


Held = Union[bytes, Secret]
"""The bytes of a structure: a caller's own, which stay as they are, or a copy that was made here."""
