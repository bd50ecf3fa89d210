# SPDX-License-Identifier: MIT OR Apache-2.0
"""X.509 structures in DER, checked, encoded and looked into by proved code.

    >>> import cimaroly
    >>> certificate = cimaroly.read(open("cert.pem", "rb").read())  # doctest: +SKIP
    >>> certificate.subject.common_name, certificate.matches_host("www.example.org")  # doctest: +SKIP
    ('example.org', True)
    >>> certificate.deviations  # doctest: +SKIP
    (Place(deviation=<Deviation.RSA_PARAMETERS_ABSENT: 1>, start=13, end=26),)

`check` tells whether bytes encode a structure of a kind, and how they deviate from its DER encoding. `read` gives a
`Certificate`, a `Request`, a `PublicKey`, a `PrivateKey` or a `RevocationList`, with their values; an `Outline` of what is of
an algorithm that isn't read; and of other kinds a `Structure`, which they all are: it has fields, deviations, signed
part, DER encoding and report. `read_all` gives a list of them. What is refused raises `Refused`, which says why, at
which byte and in which field. `read_each` gives what came of each PEM block, and goes on behind those that are refused.
`check_extension` checks the value of an extension that `check` takes as octets, and the `findings` of a certificate or request tell
which rules it breaks.

`RequestBuilder` and `CertificateBuilder` build what is to be signed, any signer signs it, and `with_signature` puts both
together. `make` makes structures of descriptions. What can't be made raises `NotMade`, which says why.

Each thread has memory of its own, and other threads run during a call. What a call on a private key leaves in that memory is
overwritten, and no `repr` shows the bytes of a field.
"""

from ._certificates import Certificate, Request
from ._findings import Finding
from ._keys import Algorithm, PrivateKey, PublicKey
from ._kinds import KINDS, Deviation, Kind, Reason, Refused
from ._making import CertificateBuilder, NotMade, RequestBuilder, ToBeSigned, make, signature_algorithm
from ._names import AlternativeNames, Attribute, EdiPartyName, GeneralName, Name, OtherName
from ._outlines import Outline, Revocation, RevocationList
from ._pem import Block, Data, PemError, pem_blocks
from ._reading import Outcome, check, check_extension, read, read_all, read_each
from ._services import Policy, Timestamp
from ._structure import Extension, Extensions, Field, Place, SignedPart, Structure, Verdict

__version__ = "0.1.0"

__all__ = [
    "KINDS",
    "Algorithm",
    "AlternativeNames",
    "Attribute",
    "Block",
    "Certificate",
    "CertificateBuilder",
    "Data",
    "Deviation",
    "EdiPartyName",
    "Extension",
    "Extensions",
    "Field",
    "Finding",
    "GeneralName",
    "Kind",
    "Name",
    "NotMade",
    "OtherName",
    "Outcome",
    "Outline",
    "PemError",
    "Place",
    "Policy",
    "PrivateKey",
    "PublicKey",
    "Reason",
    "Refused",
    "Request",
    "RequestBuilder",
    "Revocation",
    "RevocationList",
    "SignedPart",
    "Structure",
    "Timestamp",
    "ToBeSigned",
    "Verdict",
    "check",
    "check_extension",
    "make",
    "pem_blocks",
    "read",
    "read_all",
    "read_each",
    "signature_algorithm",
]
