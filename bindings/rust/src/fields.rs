//! Fields, which borrow from the input.

use core::fmt;
use core::ops::Range;

/// A field with its tag and its length, within the input.
///
/// It may be the secret of a private key, so that `{:?}` tells its place and its length, and none
/// of its bytes.
#[derive(Clone, Copy, Default, PartialEq, Eq)]
pub struct Field<'a> {
    bytes: &'a [u8],
    start: usize,
}

impl fmt::Debug for Field<'_> {
    fn fmt(&self, f: &mut fmt::Formatter<'_>) -> fmt::Result {
        let mut told = f.debug_struct("Field");
        told.field("range", &self.range()).field("len", &self.bytes.len()).finish_non_exhaustive()
    }
}

impl<'a> Field<'a> {
    /// The bytes of an input from `start` up to `end`, or none where they don't lie in it, or there
    /// are none.
    pub(crate) fn of(der: &'a [u8], start: usize, end: usize) -> Option<Self> {
        let bytes = der.get(start..end)?;
        (!bytes.is_empty()).then_some(Field { bytes, start })
    }

    /// Its bytes, with the tag and the length.
    #[must_use]
    pub fn bytes(&self) -> &'a [u8] {
        self.bytes
    }

    /// Where it stands in the input.
    #[must_use]
    pub fn range(&self) -> Range<usize> {
        self.start..self.start + self.bytes.len()
    }

    /// Its content, without the tag and the length (X.690, 8.1.3).
    #[must_use]
    pub fn content(&self) -> &'a [u8] {
        let header = match self.bytes.get(1) {
            Some(&digits) if digits > 127 => usize::from(digits) - 126,
            _ => 2,
        };
        self.bytes.get(header..).unwrap_or_default()
    }
}

/// The fields of a certificate (RFC 5280, 4.1).
#[derive(Clone, Copy, Debug, PartialEq, Eq)]
pub struct Certificate<'a> {
    /// `tbsCertificate`, which the signature covers.
    pub tbs_certificate: Field<'a>,
    /// `version`.
    pub version: Option<Field<'a>>,
    /// `serialNumber`.
    pub serial_number: Field<'a>,
    /// `signature`, an algorithm.
    pub signature: Field<'a>,
    /// `issuer`.
    pub issuer: Field<'a>,
    /// `validity`.
    pub validity: Field<'a>,
    /// `subject`.
    pub subject: Field<'a>,
    /// `subjectPublicKeyInfo`.
    pub subject_public_key_info: Field<'a>,
    /// `issuerUniqueID`.
    pub issuer_unique_id: Option<Field<'a>>,
    /// `subjectUniqueID`.
    pub subject_unique_id: Option<Field<'a>>,
    /// `extensions`.
    pub extensions: Option<Field<'a>>,
    /// `signatureAlgorithm`.
    pub signature_algorithm: Field<'a>,
    /// `signatureValue`.
    pub signature_value: Field<'a>,
    pub(crate) whole: Field<'a>,
}

/// The fields of a request (RFC 2986, 4).
#[derive(Clone, Copy, Debug, PartialEq, Eq)]
pub struct Request<'a> {
    /// `certificationRequestInfo`, which the signature covers.
    pub certification_request_info: Field<'a>,
    /// `version`.
    pub version: Field<'a>,
    /// `subject`.
    pub subject: Field<'a>,
    /// `subjectPKInfo`.
    pub subject_public_key_info: Field<'a>,
    /// `attributes`.
    pub attributes: Field<'a>,
    /// `signatureAlgorithm`.
    pub signature_algorithm: Field<'a>,
    /// `signature`.
    pub signature: Field<'a>,
    pub(crate) whole: Field<'a>,
}

/// The fields of a private key (RFC 5958, 2).
#[derive(Clone, Copy, Debug, PartialEq, Eq)]
pub struct PrivateKey<'a> {
    /// `version`.
    pub version: Field<'a>,
    /// `privateKeyAlgorithm`.
    pub private_key_algorithm: Field<'a>,
    /// `privateKey`.
    pub private_key: Field<'a>,
    /// An element that isn't understood, such as `attributes [0]`.
    pub skipped: Option<Field<'a>>,
    /// `publicKey`.
    pub public_key: Option<Field<'a>>,
}

/// The fields of a certificate of any algorithm, read in outline (RFC 5280, 4.1).
#[derive(Clone, Copy, Debug, PartialEq, Eq)]
pub struct CertificateOutline<'a> {
    /// `tbsCertificate`, which the signature covers.
    pub tbs_certificate: Field<'a>,
    /// `version`.
    pub version: Option<Field<'a>>,
    /// `serialNumber`.
    pub serial_number: Field<'a>,
    /// `signature`, an algorithm.
    pub signature: Field<'a>,
    /// `issuer`.
    pub issuer: Field<'a>,
    /// `validity`.
    pub validity: Field<'a>,
    /// `subject`.
    pub subject: Field<'a>,
    /// `subjectPublicKeyInfo`.
    pub subject_public_key_info: Field<'a>,
    /// `issuerUniqueID`.
    pub issuer_unique_id: Option<Field<'a>>,
    /// `subjectUniqueID`.
    pub subject_unique_id: Option<Field<'a>>,
    /// `extensions`.
    pub extensions: Option<Field<'a>>,
    /// `signatureAlgorithm`.
    pub signature_algorithm: Field<'a>,
    /// `signatureValue`.
    pub signature_value: Field<'a>,
}

/// The fields of a request of any algorithm, read in outline (RFC 2986, 4).
#[derive(Clone, Copy, Debug, PartialEq, Eq)]
pub struct RequestOutline<'a> {
    /// `certificationRequestInfo`, which the signature covers.
    pub certification_request_info: Field<'a>,
    /// `version`.
    pub version: Field<'a>,
    /// `subject`.
    pub subject: Field<'a>,
    /// `subjectPKInfo`.
    pub subject_public_key_info: Field<'a>,
    /// `attributes`.
    pub attributes: Field<'a>,
    /// `signatureAlgorithm`.
    pub signature_algorithm: Field<'a>,
    /// `signature`.
    pub signature: Field<'a>,
}

/// The fields of a private key of any algorithm, read in outline (RFC 5958, 2).
#[derive(Clone, Copy, Debug, PartialEq, Eq)]
pub struct PrivateKeyOutline<'a> {
    /// `version`.
    pub version: Field<'a>,
    /// `privateKeyAlgorithm`.
    pub private_key_algorithm: Field<'a>,
    /// `privateKey`.
    pub private_key: Field<'a>,
    /// An element that isn't understood, such as `attributes [0]`.
    pub skipped: Option<Field<'a>>,
    /// `publicKey`.
    pub public_key: Option<Field<'a>>,
}

/// The fields of a revocation list of any algorithm (RFC 5280, 5.1).
#[derive(Clone, Copy, Debug, PartialEq, Eq)]
pub struct Crl<'a> {
    /// `tbsCertList`, which the signature covers.
    pub tbs_cert_list: Field<'a>,
    /// `version`.
    pub version: Option<Field<'a>>,
    /// `signature`, an algorithm.
    pub signature: Field<'a>,
    /// `issuer`.
    pub issuer: Field<'a>,
    /// `thisUpdate`.
    pub this_update: Field<'a>,
    /// `nextUpdate`.
    pub next_update: Option<Field<'a>>,
    /// `revokedCertificates`.
    pub revoked_certificates: Option<Field<'a>>,
    /// `crlExtensions`.
    pub crl_extensions: Option<Field<'a>>,
    /// `signatureAlgorithm`.
    pub signature_algorithm: Field<'a>,
    /// `signatureValue`.
    pub signature_value: Field<'a>,
}

/// An extension (RFC 5280, 4.1).
#[derive(Clone, Copy, Debug, PartialEq, Eq)]
pub struct Extension<'a> {
    /// The whole of it.
    pub whole: Field<'a>,
    /// `extnID`.
    pub extn_id: Field<'a>,
    /// `critical`, unless it is left out.
    pub critical: Option<Field<'a>>,
    /// `extnValue`, an OCTET STRING.
    pub extn_value: Field<'a>,
}

impl<'a> Extension<'a> {
    /// Whether it is critical.
    #[must_use]
    pub fn is_critical(&self) -> bool {
        self.critical.is_some_and(|field| field.content() == [0xFF])
    }

    /// What `extnValue` holds.
    #[must_use]
    pub fn value(&self) -> &'a [u8] {
        self.extn_value.content()
    }
}
