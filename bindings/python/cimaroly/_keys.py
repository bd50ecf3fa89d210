"""Keys and algorithms, as a report of the library tells them; what algorithms say is asked once for each of them."""

from __future__ import annotations

import base64
import functools
import hashlib
from collections.abc import Callable
from functools import cached_property
from typing import Any, Literal, NamedTuple, Optional, TypeVar, Union

from . import _library
from ._armour import encoded
from ._names import content_size, element, octets
from ._structure import Structure, inside

_T = TypeVar("_T")

PublicKind = Literal["public-key", "rsa-public-key"]
PrivateKind = Literal["private-key", "rsa-private-key", "ec-private-key"]

_RSA, _EC = "1.2.840.113549.1.1.1", "1.2.840.10045.2.1"

# The common names of the algorithms of keys, where they aren't those of their identifiers.
_WORDS = {
    _RSA: "RSA",
    _EC: "EC",
    "1.3.101.110": "X25519",
    "1.3.101.111": "X448",
    "1.3.101.112": "Ed25519",
    "1.3.101.113": "Ed448",
    "2.16.840.1.101.3.4.3.17": "ML-DSA-44",
    "2.16.840.1.101.3.4.3.18": "ML-DSA-65",
    "2.16.840.1.101.3.4.3.19": "ML-DSA-87",
}

# The sizes in bits of the keys of curves and algorithms (RFC 5480, 2.1.1.1; SEC 2; RFC 7748, RFC 8032).
_BITS = {
    "1.2.840.10045.3.1.1": 192,
    "1.2.840.10045.3.1.7": 256,
    "1.3.132.0.1": 163,
    "1.3.132.0.15": 163,
    "1.3.132.0.16": 283,
    "1.3.132.0.17": 283,
    "1.3.132.0.26": 233,
    "1.3.132.0.27": 233,
    "1.3.132.0.33": 224,
    "1.3.132.0.34": 384,
    "1.3.132.0.35": 521,
    "1.3.132.0.36": 409,
    "1.3.132.0.37": 409,
    "1.3.132.0.38": 571,
    "1.3.132.0.39": 571,
    "1.3.101.110": 256,
    "1.3.101.111": 448,
    "1.3.101.112": 256,
    "1.3.101.113": 456,
}

# The algorithms whose keys have a size that they or their parameters say, or that of the modulus.
_SIZED = frozenset((_RSA, _EC, *(f"1.3.101.{number}" for number in range(110, 114))))

# The curves that have no name in a report (SEC 2, 2.4.1; RFC 5639, 3), with their sizes.
_CURVES = {
    "1.3.132.0.10": ("secp256k1", 256),
    **{
        f"1.3.36.3.3.2.8.1.1.{number}": (f"brainpoolP{size}r1", size)
        for number, size in zip(range(1, 15, 2), (160, 192, 224, 256, 320, 384, 512))
    },
}

# The digests of signature algorithms, as hashlib names them (RFC 8017, A.2.4; RFC 3279, 2.2; RFC 5758, 3; NIST, sigAlgs).
_PKCS, _ECDSA, _NIST = "1.2.840.113549.1.1", "1.2.840.10045.4", "2.16.840.1.101.3.4.3"
_SHA3 = ("sha3_224", "sha3_256", "sha3_384", "sha3_512")
_DIGESTS = {
    f"{_PKCS}.4": "md5",
    f"{_PKCS}.5": "sha1",
    f"{_PKCS}.11": "sha256",
    f"{_PKCS}.12": "sha384",
    f"{_PKCS}.13": "sha512",
    f"{_PKCS}.14": "sha224",
    "1.2.840.10040.4.3": "sha1",
    f"{_ECDSA}.1": "sha1",
    f"{_ECDSA}.3.1": "sha224",
    f"{_ECDSA}.3.2": "sha256",
    f"{_ECDSA}.3.3": "sha384",
    f"{_ECDSA}.3.4": "sha512",
    f"{_NIST}.1": "sha224",
    f"{_NIST}.2": "sha256",
    f"{_NIST}.3": "sha384",
    f"{_NIST}.4": "sha512",
    **{f"{_NIST}.{number}": digest for number, digest in enumerate(_SHA3, 9)},
    **{f"{_NIST}.{number}": digest for number, digest in enumerate(_SHA3, 13)},
}
_PSS = f"{_PKCS}.10"

# AlgorithmIdentifier of rsaEncryption (RFC 8017, A.1), and the identifier id-ecPublicKey (RFC 5480, 2.1.1).
_RSA_ALGORITHM = bytes.fromhex("300d06092a864886f70d0101010500")
_EC_IDENTIFIER = bytes.fromhex("06072a8648ce3d0201")


class Algorithm(NamedTuple):
    """The algorithm of a signature (RFC 5280, 4.1.1.2)."""

    identifier: str
    """Its object identifier, with dots."""
    name: Optional[str]
    """The name that the library has for the identifier, such as `ecdsa-with-SHA384`."""
    digest: Optional[str]
    """The digest, as `hashlib` names it; None if the algorithm has none of its own, as Ed25519, or isn't known."""

    def __str__(self) -> str:
        return self.name or self.identifier


class Told(NamedTuple):
    """What is told of a key."""

    algorithm: str
    identifier: str
    curve: Optional[str]
    bits: Optional[int]


# Longer algorithm identifiers than these aren't kept.
_SHORT = 256


def _kept(call: Callable[[bytes], _T]) -> Callable[[bytes], _T]:
    """A call on an algorithm identifier, of which there are few: what it answers to the last ones is kept."""
    kept = functools.lru_cache(maxsize=256)(call)
    return lambda der: kept(der) if len(der) <= _SHORT else call(der)


@_kept
def signature_algorithm(der: bytes) -> Algorithm:
    """What an `AlgorithmIdentifier` tells of a signature."""
    told = _library.report("algorithm", der, False)["AlgorithmIdentifier"]
    found = told["algorithm"]["value"]
    digest = _DIGESTS.get(found["id"])
    if found["id"] == _PSS:
        # (RFC 4055, 3.1: SHA-1 where none is named)
        told_hash = told.get("parameters", {}).get("hashAlgorithm", {}).get("value", "id-sha1")
        digest = str(told_hash).removeprefix("id-").replace("-", "_")
    return Algorithm(found["id"], found.get("name"), digest)


@_kept
def _key_algorithm(der: bytes) -> Optional[Told]:
    """What an `AlgorithmIdentifier` tells of its keys, but for the size of one that says it itself; None if it can't be read
    alone."""
    told = _library.report("algorithm", der, False).get("AlgorithmIdentifier")
    return None if told is None else _read_key(told, None)


def _public_key(der: bytes) -> Optional[Told]:
    """What a `SubjectPublicKeyInfo` tells, by its algorithm; None where the report is asked."""
    start, _ = inside(der, 0)
    _, end = inside(der, start)
    told = _key_algorithm(der[start:end])
    if told is None or told.identifier not in _SIZED:
        return None
    if told.identifier != _RSA:
        return told
    # (the first byte of a BIT STRING counts unused bits: X.690, 8.6)
    at, _ = inside(der, end)
    return Told(told.algorithm, _RSA, None, _rsa_numbers(der, at + 1)[1])


def _rsa_numbers(der: bytes, start: int) -> tuple[int, int, int]:
    """The modulus, its size in bits and the exponent of an `RSAPublicKey` (RFC 8017, A.1.1)."""
    at, _ = inside(der, start)
    modulus_at, modulus_end = inside(der, at)
    at, end = inside(der, modulus_end)
    modulus = int.from_bytes(der[modulus_at:modulus_end], "big", signed=True)
    return modulus, modulus.bit_length(), int.from_bytes(der[at:end], "big", signed=True)


def _read_key(told: Any, own: Optional[int]) -> Told:
    """What a report's node of an algorithm identifier tells of its keys, where the key says its own size, if known."""
    found = told["algorithm"]["value"]
    identifier, curve = found["id"], None
    size = _BITS.get(identifier, own)
    if identifier == _EC:
        point = told.get("parameters", {}).get("value")
        curve, size = _curve(point)
    return Told(_WORDS.get(identifier) or found.get("name") or identifier, identifier, curve, size)


def _curve(told: Any) -> tuple[Optional[str], Optional[int]]:
    """The name and the size in bits of the curve that a report tells of."""
    if not isinstance(told, dict):
        return None, None
    name, size = _CURVES.get(told["id"], (told["id"], _BITS.get(told["id"])))
    return told.get("name") or name, size


def _reported(told: Any) -> Told:
    """What a report's node of a `SubjectPublicKeyInfo` tells of the key."""
    key = told["subjectPublicKey"]
    return _read_key(told["algorithm"], key["modulus"]["bits"] if "modulus" in key else key.get("bits"))


class _AnyKey(Structure):
    """What public and private keys tell alike."""

    def _told(self) -> Told:
        raise NotImplementedError

    @cached_property
    def _key(self) -> Told:
        return self._told()

    @property
    def algorithm(self) -> str:
        """The algorithm: `RSA`, `EC`, `Ed25519`, `Ed448`, `X25519`, `X448`, `ML-DSA-44` and so on; of others the library's name
        for the identifier."""
        return self._key.algorithm

    @property
    def algorithm_identifier(self) -> str:
        """The algorithm's object identifier, with dots."""
        return self._key.identifier

    @property
    def curve(self) -> Optional[str]:
        """The named curve of an elliptic curve key (RFC 5480, 2.1.1.1), such as `secp256r1`; None for other keys."""
        return self._key.curve

    @property
    def bits(self) -> Optional[int]:
        """The size in bits: of the modulus, or as the curve or the algorithm says; None if it isn't known."""
        return self._key.bits

    def pem(self) -> str:
        """The bytes as they were read, as PEM (RFC 7468). Of a private key this is a copy that nobody overwrites."""
        return encoded(self._kind, self.der)

    def _summary(self) -> str:
        curve = f" {self.curve}" if self.curve else ""
        size = f", {self.bits} bits" if self.bits is not None and not curve else ""
        return f" {self.algorithm}{curve}{size}"


class PublicKey(_AnyKey):
    """A public key: `SubjectPublicKeyInfo` (RFC 5280, 4.1.2.7), or `RSAPublicKey` (RFC 8017, A.1.1)."""

    def __init__(self, der: Union[bytes, bytearray, memoryview], kind: PublicKind = "public-key") -> None:
        """Reads bytes in DER. Raises `Refused`."""
        super().__init__(der, kind)

    @cached_property
    def _rsa(self) -> Optional[tuple[int, int, int]]:
        """The modulus, its size in bits and the exponent of an RSA key."""
        if self._kind == "rsa-public-key":
            return _rsa_numbers(self.der, 0)
        if self._key.identifier != _RSA:
            return None
        # (behind the algorithm; the first byte of a BIT STRING counts unused bits: X.690, 8.6)
        der = self.der
        _, end = inside(der, inside(der, 0)[0])
        return _rsa_numbers(der, inside(der, end)[0] + 1)

    def _told(self) -> Told:
        if self._kind == "rsa-public-key":
            return Told("RSA", _RSA, None, self._rsa[1] if self._rsa else None)
        return _public_key(self.der) or _reported(self.report()["SubjectPublicKeyInfo"])

    @classmethod
    def _within(cls, der: bytes) -> PublicKey:
        """The key in a certificate or a request that was read, of these bytes."""
        found = cls.__new__(cls)
        found._kind, found._der = "public-key", der
        return found

    @property
    def modulus(self) -> Optional[int]:
        """The modulus of an RSA key; None for other keys."""
        return self._rsa[0] if self._rsa else None

    @property
    def exponent(self) -> Optional[int]:
        """The public exponent of an RSA key; None for other keys."""
        return self._rsa[2] if self._rsa else None

    @property
    def subject_public_key_info(self) -> bytes:
        """The DER encoding of the key's `SubjectPublicKeyInfo` (RFC 5280, 4.1.2.7)."""
        if self._kind == "rsa-public-key":
            return element(0x30, _RSA_ALGORITHM, element(3, b"\0", self.encode()))
        return self.der if self.is_der else self.encode()

    def pin(self) -> str:
        """The SHA-256 of the DER encoding of the key's `SubjectPublicKeyInfo`, in base64 (RFC 7469, 2.4)."""
        return base64.b64encode(hashlib.sha256(self.subject_public_key_info).digest()).decode()


class PrivateKey(_AnyKey):
    """A private key: `PrivateKeyInfo` (RFC 5958, 2), `RSAPrivateKey` (RFC 8017, A.1.2) or `ECPrivateKey` (RFC 5915, 3).

    Nothing of it that is printed shows what is secret.
    """

    def __init__(self, der: Union[bytes, bytearray, memoryview], kind: PrivateKind = "private-key") -> None:
        """Reads bytes in DER. Raises `Refused`."""
        super().__init__(der, kind)

    def _told(self) -> Told:
        report = self.report()
        if self._kind == "rsa-private-key":
            return Told("RSA", _RSA, None, report["RSAPrivateKey"]["modulus"]["bits"])
        if self._kind == "ec-private-key":
            return Told("EC", _EC, *_curve(report["ECPrivateKey"].get("parameters", {}).get("value")))
        told = report["PrivateKeyInfo"]
        return _read_key(told["privateKeyAlgorithm"], told["privateKey"].get("modulus", {}).get("bits"))

    @cached_property
    def public_key(self) -> Optional[PublicKey]:
        """The public key, if it stands in the private one: always in one of RSA, and else where it was put there; None if it
        doesn't."""
        found = self._public_parts()
        return None if found is None else PublicKey(element(0x30, *found))

    def _public_parts(self) -> Optional[tuple[bytes, bytes]]:
        """The fields of the public key's `SubjectPublicKeyInfo`: the algorithm, and a BIT STRING."""
        report = self.report()
        if self._kind == "rsa-private-key":
            return _RSA_ALGORITHM, self._rsa_bits(report["RSAPrivateKey"])
        if self._kind == "ec-private-key":
            told = report["ECPrivateKey"]
            if "parameters" not in told or "publicKey" not in told:
                return None
            start, end = told["parameters"]["at"]
            # (what stands under [0])
            curve = self._bytes(end - content_size(end - start), end)
            return element(0x30, _EC_IDENTIFIER, curve), _bits(told["publicKey"])
        told = report["PrivateKeyInfo"]
        algorithm, key = self._bytes(*told["privateKeyAlgorithm"]["at"]), told["privateKey"]
        if "modulus" in key:
            return algorithm, self._rsa_bits(key)
        public = told.get("publicKey") or key.get("publicKey")
        if public is not None:
            return algorithm, _bits(public)
        # (RFC 5958, 2 has it under the implicit tag [1], which is told as what was skipped)
        skipped = told.get("skipped")
        if skipped is not None and self._der[skipped["at"][0]] == 0x81:
            return algorithm, element(3, octets(skipped["value"]))
        return None

    def _rsa_bits(self, told: Any) -> bytes:
        """The BIT STRING with an `RSAPublicKey` of the modulus and the public exponent."""
        numbers = (self._bytes(*told[name]["at"]) for name in ("modulus", "publicExponent"))
        return element(3, b"\0", element(0x30, *numbers))


def _bits(told: Any) -> bytes:
    """The BIT STRING that a report's node tells of (X.690, 8.6)."""
    return element(3, bytes([-told["bits"] % 8]), octets(told["value"]))
