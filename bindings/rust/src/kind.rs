//! Kinds of structures, and of deviations. The lists are written by `tools/make_tables.py`.

use core::fmt;

/// What an input can be read as.
#[derive(Clone, Copy, Debug, PartialEq, Eq, Hash)]
#[non_exhaustive]
pub enum Kind {
    /// `Certificate` (RFC 5280, 4.1).
    Certificate = 1,
    /// `CertificationRequest` (RFC 2986, 4).
    Request = 2,
    /// `PrivateKeyInfo`, or `OneAsymmetricKey` (RFC 5958, 2).
    PrivateKey = 3,
    /// `SubjectPublicKeyInfo` (RFC 5280, 4.1.2.7).
    PublicKey = 4,
    /// `RSAPrivateKey` (RFC 8017, A.1.2).
    RsaPrivateKey = 5,
    /// `RSAPublicKey` (RFC 8017, A.1.1).
    RsaPublicKey = 6,
    /// `ECPrivateKey` (RFC 5915, 3).
    EcPrivateKey = 7,
    /// `Name` (RFC 5280, 4.1.2.4).
    Name = 8,
    /// `Extensions` (RFC 5280, 4.1).
    Extensions = 9,
    /// `AlgorithmIdentifier` (RFC 5280, 4.1.1.2), of an algorithm that is known.
    Algorithm = 10,
    /// `AlgorithmIdentifier` with any parameters.
    RawAlgorithm = 11,
    /// `CertificationRequestInfo` (RFC 2986, 4.1).
    RequestInfo = 12,
    /// `TBSCertificate` (RFC 5280, 4.1.2).
    TbsCertificate = 13,
    /// `Certificate` (RFC 5280, 4.1), of any algorithm.
    CertificateOutline = 14,
    /// `CertificationRequest` (RFC 2986, 4), of any algorithm.
    RequestOutline = 15,
    /// `OneAsymmetricKey` (RFC 5958, 2), of any algorithm.
    PrivateKeyOutline = 16,
    /// `SubjectPublicKeyInfo` (RFC 5280, 4.1.2.7), of any algorithm.
    PublicKeyOutline = 17,
    /// `CertificateList` (RFC 5280, 5.1), of any algorithm.
    Crl = 18,
}

impl Kind {
    /// Every kind, in the order of their numbers.
    pub const ALL: [Kind; 18] = [
        Kind::Certificate,
        Kind::Request,
        Kind::PrivateKey,
        Kind::PublicKey,
        Kind::RsaPrivateKey,
        Kind::RsaPublicKey,
        Kind::EcPrivateKey,
        Kind::Name,
        Kind::Extensions,
        Kind::Algorithm,
        Kind::RawAlgorithm,
        Kind::RequestInfo,
        Kind::TbsCertificate,
        Kind::CertificateOutline,
        Kind::RequestOutline,
        Kind::PrivateKeyOutline,
        Kind::PublicKeyOutline,
        Kind::Crl,
    ];

    /// The name, as reports have it.
    #[must_use]
    pub const fn name(self) -> &'static str {
        match self {
            Kind::Certificate => "certificate",
            Kind::Request => "request",
            Kind::PrivateKey => "private-key",
            Kind::PublicKey => "public-key",
            Kind::RsaPrivateKey => "rsa-private-key",
            Kind::RsaPublicKey => "rsa-public-key",
            Kind::EcPrivateKey => "ec-private-key",
            Kind::Name => "name",
            Kind::Extensions => "extensions",
            Kind::Algorithm => "algorithm",
            Kind::RawAlgorithm => "raw-algorithm",
            Kind::RequestInfo => "request-info",
            Kind::TbsCertificate => "tbs-certificate",
            Kind::CertificateOutline => "certificate-outline",
            Kind::RequestOutline => "request-outline",
            Kind::PrivateKeyOutline => "private-key-outline",
            Kind::PublicKeyOutline => "public-key-outline",
            Kind::Crl => "crl",
        }
    }

    /// The kind of a name.
    #[must_use]
    pub fn from_name(name: &str) -> Option<Kind> {
        Kind::ALL.into_iter().find(|kind| kind.name() == name)
    }

    /// What the label of a PEM block says to read its bytes as (RFC 7468).
    #[must_use]
    pub fn from_label(label: &[u8]) -> Option<Kind> {
        match label {
            b"CERTIFICATE" | b"X509 CERTIFICATE" => Some(Kind::Certificate),
            b"CERTIFICATE REQUEST" | b"NEW CERTIFICATE REQUEST" => Some(Kind::Request),
            b"PRIVATE KEY" => Some(Kind::PrivateKey),
            b"PUBLIC KEY" => Some(Kind::PublicKey),
            b"RSA PRIVATE KEY" => Some(Kind::RsaPrivateKey),
            b"RSA PUBLIC KEY" => Some(Kind::RsaPublicKey),
            b"EC PRIVATE KEY" => Some(Kind::EcPrivateKey),
            b"X509 CRL" => Some(Kind::Crl),
            _ => None,
        }
    }
}

impl fmt::Display for Kind {
    fn fmt(&self, f: &mut fmt::Formatter<'_>) -> fmt::Result {
        f.write_str(self.name())
    }
}

/// How an input that is read deviates from the one form that is written.
#[derive(Clone, Copy, Debug, PartialEq, Eq, Hash, PartialOrd, Ord)]
pub enum Deviation {
    /// The algorithm identifier of rsaEncryption or of a PKCS #1 v1.5 signature without the NULL.
    RsaParametersAbsent = 1,
    /// An algorithm identifier without parameters, where it is read as a `raw-algorithm`.
    AlgorithmParametersAbsent = 2,
    /// A hash algorithm identifier without the NULL.
    HashParametersAbsent = 3,
    /// A salt length above 2^64 - 1, which is read as 2^64 - 1.
    SaltTooLarge = 4,
    /// A certificate's version 1, which is the default.
    DefaultVersionEncoded = 5,
    /// An empty list of extensions in a certificate.
    EmptyExtensionsEncoded = 6,
    /// `critical` FALSE, which is the default.
    DefaultCriticalityEncoded = 7,
    /// Fields of an authority key identifier whose tags don't ascend; the last with each tag
    /// counts.
    AuthorityKeyFieldOrder = 8,
    /// An explicit tag in place of an implicit one, or for a directory name the reverse.
    GeneralNameForm = 9,
    /// One element that isn't understood, such as `attributes [0]`, which is left out.
    SkippedKeyElement = 10,
}

impl Deviation {
    /// Every deviation, in the order of their numbers.
    pub const ALL: [Deviation; 10] = [
        Deviation::RsaParametersAbsent,
        Deviation::AlgorithmParametersAbsent,
        Deviation::HashParametersAbsent,
        Deviation::SaltTooLarge,
        Deviation::DefaultVersionEncoded,
        Deviation::EmptyExtensionsEncoded,
        Deviation::DefaultCriticalityEncoded,
        Deviation::AuthorityKeyFieldOrder,
        Deviation::GeneralNameForm,
        Deviation::SkippedKeyElement,
    ];

    /// The number, from 1 to 10.
    #[must_use]
    pub const fn number(self) -> usize {
        self as usize
    }

    /// The deviation of a number.
    #[must_use]
    pub fn from_number(number: usize) -> Option<Deviation> {
        Deviation::ALL.get(number.checked_sub(1)?).copied()
    }

    /// The name, in plain words.
    #[must_use]
    pub const fn name(self) -> &'static str {
        match self {
            Deviation::RsaParametersAbsent => "RSA parameters absent",
            Deviation::AlgorithmParametersAbsent => "algorithm parameters absent",
            Deviation::HashParametersAbsent => "hash parameters absent",
            Deviation::SaltTooLarge => "salt length too large",
            Deviation::DefaultVersionEncoded => "default version encoded",
            Deviation::EmptyExtensionsEncoded => "empty extensions encoded",
            Deviation::DefaultCriticalityEncoded => "default criticality encoded",
            Deviation::AuthorityKeyFieldOrder => "authority key fields repeated or out of order",
            Deviation::GeneralNameForm => "general name under the other kind of tag",
            Deviation::SkippedKeyElement => "element skipped behind a private key",
        }
    }
}

impl fmt::Display for Deviation {
    fn fmt(&self, f: &mut fmt::Formatter<'_>) -> fmt::Result {
        f.write_str(self.name())
    }
}
