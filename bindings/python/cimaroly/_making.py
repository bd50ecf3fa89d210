# SPDX-License-Identifier: MIT OR Apache-2.0
"""What is to be signed, made of descriptions or by builders, and put together with its signature."""

from __future__ import annotations

import datetime
import json
from collections.abc import Callable, Mapping, Sequence
from typing import Any, Generic, Literal, NamedTuple, Optional, TypeVar, Union

from ._certificates import Certificate, Request
from ._keys import PublicKey
from ._library import kind_number, made

# A subject or an issuer, as docs/MAKE.md tells: a text, attributes by their names, or a list of such, one for each set.
NameLike = Union[str, Mapping[str, Any], Sequence[Mapping[str, Any]]]
# A public key: its PEM, one of this package, a request or certificate with it, or one of the package cryptography.
KeyLike = Union[str, bytes, PublicKey, Request, Certificate, Any]

_S = TypeVar("_S", Certificate, Request)
_B = TypeVar("_B", bound="_Builder")


class NotMade(ValueError):
    """Nothing is made of a description: where in it, and why."""


def make(description: Union[str, Mapping[str, Any]]) -> bytes:
    """The DER encoding of what a description says (docs/MAKE.md), given as JSON or as what JSON is parsed to.

    Raises `NotMade`.
    """
    text = description if isinstance(description, str) else json.dumps(description)
    data = text.encode("utf-8", "surrogatepass")
    der = made("cimaroly_make", data)
    if der is None:
        why = made("cimaroly_why_not_made", data)
        raise NotMade(str(why or b"", "utf-8"))
    return der


def signature_algorithm(name: str) -> bytes:
    """The AlgorithmIdentifier of a signature algorithm in DER, by a name such as `ecdsa-with-SHA256`, or in dotted form.

    Raises ValueError if no signature algorithm whose parameters are known has it.
    """
    der = made("cimaroly_signature_algorithm", name.encode("utf-8", "surrogatepass"))
    if der is None:
        raise ValueError(f"no signature algorithm whose parameters are known: {name!r}")
    return der


class _Part(NamedTuple):
    der: bytes
    algorithm: bytes
    kind: Literal["certificate", "request"]


class ToBeSigned(Generic[_S]):
    """What is to be signed of a certificate or request, `der`, and the AlgorithmIdentifier of its signature."""

    def __init__(self, der: bytes, algorithm: Union[str, bytes], of: type[_S]) -> None:
        identifier = signature_algorithm(algorithm) if isinstance(algorithm, str) else bytes(algorithm)
        self._part = _Part(bytes(der), identifier, "certificate" if of is Certificate else "request")
        self._of: type[_S] = of

    @property
    def der(self) -> bytes:
        """What is to be signed."""
        return self._part.der

    @property
    def algorithm(self) -> bytes:
        """The AlgorithmIdentifier of the signature, in DER."""
        return self._part.algorithm

    def __bytes__(self) -> bytes:
        return self._part.der

    def with_signature(self, signature: bytes, *, raw_ecdsa: bool = False) -> _S:
        """The certificate or request with this signature, in which `der` stands as it is.

        With `raw_ecdsa`, the signature is r and s, of equal length, as PKCS #11 and Web Cryptography give them. Whether it
        is right isn't looked at. Raises ValueError if part, algorithm or signature isn't in its form.
        """
        given: Optional[bytes] = bytes(signature)
        if raw_ecdsa:
            given = made("cimaroly_ecdsa_signature", given)
        number = kind_number(self._part.kind)
        whole = None if given is None else made("cimaroly_assemble", number, self._part.der, self._part.algorithm, given)
        if whole is None:
            raise ValueError("no signed part, no algorithm in DER, or no signature of this algorithm's form")
        return self._of(whole)

    def sign(self, signer: Callable[[bytes], bytes], *, raw_ecdsa: bool = False) -> _S:
        """The same with what a function answers that signs bytes."""
        return self.with_signature(signer(self._part.der), raw_ecdsa=raw_ecdsa)


def _key_text(key: KeyLike) -> str:
    """A key as descriptions have it: in PEM."""
    if isinstance(key, str):
        return key
    if isinstance(key, bytes):
        return str(key, "utf-8")
    if isinstance(key, (Certificate, Request)):
        key = key.public_key
    if isinstance(key, PublicKey):
        return PublicKey(key.subject_public_key_info).pem()
    if hasattr(key, "public_bytes"):
        from cryptography.hazmat.primitives.serialization import Encoding, PublicFormat

        return str(key.public_bytes(Encoding.PEM, PublicFormat.SubjectPublicKeyInfo), "ascii")
    raise TypeError(f"not a public key: {type(key).__name__}")


def _time(moment: datetime.datetime) -> str:
    """A time as descriptions have it."""
    if moment.tzinfo is None:
        raise ValueError("a time needs its zone, such as datetime.timezone.utc")
    return moment.astimezone(datetime.timezone.utc).strftime("%Y-%m-%dT%H:%M:%SZ")


class _Builder:
    """A description that grows: each method answers another builder, and leaves this one as it is."""

    _TYPE = ""

    def __init__(self) -> None:
        self._members: dict[str, Any] = {"type": self._TYPE}

    def _with(self: _B, name: str, value: Any) -> _B:
        """The same with a member, which may be said once."""
        if name in self._members:
            raise ValueError(f"{name} was given before")
        grown = type(self)()
        grown._members = {**self._members, name: value}
        return grown

    @property
    def description(self) -> dict[str, Any]:
        """The description, as `make` takes it."""
        return dict(self._members)

    def subject_name(self: _B, name: NameLike) -> _B:
        """The subject: `CN=a, O=b` (RFC 4514), `/O=b/CN=a`, attributes by their names, or a list of such."""
        return self._with("subject", name)

    def public_key(self: _B, key: KeyLike) -> _B:
        """The subject's public key, in PEM, or an object that has it."""
        return self._with("key", _key_text(key))

    def alternative_names(self: _B, *names: str, critical: Optional[bool] = None) -> _B:
        """Names such as `DNS:example.org`, `IP:192.0.2.7`, `email:a@example.org`, `URI:..` and `dirName:CN=a`."""
        value: Any = list(names)
        return self._with("names", value if critical is None else {"critical": critical, "value": value})

    def key_usage(self: _B, *usages: str) -> _B:
        """Usages such as `digitalSignature`; the extension is critical."""
        return self._with("keyUsage", list(usages))

    def extended_key_usage(self: _B, *purposes: str) -> _B:
        """Purposes such as `serverAuth`, or object identifiers in dotted form."""
        return self._with("extendedKeyUsage", list(purposes))

    def basic_constraints(self: _B, *, ca: bool, path_length: Optional[int] = None, critical: Optional[bool] = None) -> _B:
        """Whether it is an authority's, and how many there may be below it; critical if it is, unless said otherwise."""
        value: dict[str, Any] = {"ca": ca}
        if path_length is not None:
            value["pathLen"] = path_length
        if critical is not None:
            value["critical"] = critical
        return self._with("basicConstraints", value)

    def subject_key_identifier(self: _B, identifier: Optional[bytes] = None) -> _B:
        """The key's identifier: the SHA-1 of its bits, unless another is given (RFC 5280, 4.2.1.2)."""
        return self._with("subjectKeyIdentifier", "hash" if identifier is None else identifier.hex())

    def add_extension(self: _B, identifier: str, value: bytes, *, critical: bool = False) -> _B:
        """Any other extension: its object identifier in dotted form, and the DER encoding of its value."""
        added = {"id": identifier, "critical": critical, "value": value.hex()}
        grown = type(self)()
        grown._members = {**self._members, "extensions": [*self._members.get("extensions", ()), added]}
        return grown


class RequestBuilder(_Builder):
    """Builds what is to be signed of a certification request (RFC 2986, 4.1).

        >>> import cimaroly
        >>> builder = cimaroly.RequestBuilder().subject_name("CN=example.org").alternative_names("DNS:example.org")
        >>> builder.description["subject"]
        'CN=example.org'
    """

    _TYPE = "request-info"

    def to_be_signed(self, algorithm: Union[str, bytes]) -> ToBeSigned[Request]:
        """What is to be signed, under an algorithm by its name, or by its AlgorithmIdentifier in DER. Raises `NotMade`."""
        return ToBeSigned(make(self._members), algorithm, Request)


class CertificateBuilder(_Builder):
    """Builds what is to be signed of a certificate of version 3 (RFC 5280, 4.1.2)."""

    _TYPE = "tbs-certificate"

    def issuer(self: CertificateBuilder, issuer: Union[Certificate, NameLike]) -> CertificateBuilder:
        """The issuer: its certificate, whose subject is taken byte for byte, or a name."""
        return self._with("issuer", issuer.pem() if isinstance(issuer, Certificate) else issuer)

    def self_issued(self) -> CertificateBuilder:
        """The issuer is the subject."""
        return self._with("issuer", "subject")

    def request(self, request: Request) -> CertificateBuilder:
        """Subject and key are those of a request, byte for byte; its extensions aren't taken."""
        pem = request.pem()
        return self._with("subject", pem)._with("key", pem)

    def serial_number(self, number: int) -> CertificateBuilder:
        """The serial number, from 1 to 20 bytes, which is positive (RFC 5280, 4.1.2.2)."""
        if not 0 < number < 1 << 159:
            raise ValueError("a serial number is positive, and has at most 20 bytes")
        return self._with("serialNumber", f"{number:x}")

    def validity(self, not_before: datetime.datetime, not_after: datetime.datetime) -> CertificateBuilder:
        """Between which times it is valid, to the second."""
        return self._with("notBefore", _time(not_before))._with("notAfter", _time(not_after))

    def authority_key_identifier(self, identifier: Optional[bytes] = None) -> CertificateBuilder:
        """The identifier of the issuer's key: that of its certificate or, if it is self-issued, of the key."""
        return self._with("authorityKeyIdentifier", "keyid" if identifier is None else identifier.hex())

    def to_be_signed(self, algorithm: str) -> ToBeSigned[Certificate]:
        """What is to be signed, under an algorithm by its name. Raises `NotMade`."""
        return ToBeSigned(make({**self._members, "signature": algorithm}), algorithm, Certificate)
