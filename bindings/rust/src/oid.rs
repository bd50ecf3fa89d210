//! Object identifiers, which borrow from the input.

use core::fmt;

/// An object identifier, by the content of its element (X.690, 8.19). It prints with dots.
///
/// ```
/// use cimaroly::Oid;
///
/// assert_eq!(Oid::COMMON_NAME.to_string(), "2.5.4.3");
/// assert_eq!(Oid::from_content(b"\x55\x04\x03"), Some(Oid::COMMON_NAME));
/// assert!(Oid::from_content(b"\x55\x80\x03").is_none());
/// ```
#[derive(Clone, Copy, PartialEq, Eq, Hash, PartialOrd, Ord)]
pub struct Oid<'a>(&'a [u8]);

impl Oid<'static> {
    /// `commonName`, an attribute (X.520).
    pub const COMMON_NAME: Self = Oid(&[0x55, 4, 3]);
    /// `countryName`, an attribute (X.520).
    pub const COUNTRY_NAME: Self = Oid(&[0x55, 4, 6]);
    /// `localityName`, an attribute (X.520).
    pub const LOCALITY_NAME: Self = Oid(&[0x55, 4, 7]);
    /// `stateOrProvinceName`, an attribute (X.520).
    pub const STATE_OR_PROVINCE_NAME: Self = Oid(&[0x55, 4, 8]);
    /// `organizationName`, an attribute (X.520).
    pub const ORGANIZATION_NAME: Self = Oid(&[0x55, 4, 10]);
    /// `organizationalUnitName`, an attribute (X.520).
    pub const ORGANIZATIONAL_UNIT_NAME: Self = Oid(&[0x55, 4, 11]);
    /// `emailAddress`, an attribute (RFC 2985, 5.2.1).
    pub const EMAIL_ADDRESS: Self = Oid(&[0x2A, 0x86, 0x48, 0x86, 0xF7, 0x0D, 1, 9, 1]);
    /// `extensionRequest`, an attribute of requests (RFC 2985, 5.4.2).
    pub const EXTENSION_REQUEST: Self = Oid(&[0x2A, 0x86, 0x48, 0x86, 0xF7, 0x0D, 1, 9, 14]);
    /// `rsaEncryption`, of keys (RFC 8017, A.1).
    pub const RSA_ENCRYPTION: Self = Oid(&[0x2A, 0x86, 0x48, 0x86, 0xF7, 0x0D, 1, 1, 1]);
    /// `id-ecPublicKey`, of keys on a curve (RFC 5480, 2.1.1).
    pub const EC_PUBLIC_KEY: Self = Oid(&[0x2A, 0x86, 0x48, 0xCE, 0x3D, 2, 1]);
    /// `id-Ed25519`, of keys and signatures (RFC 8410, 3).
    pub const ED25519: Self = Oid(&[0x2B, 101, 112]);
    /// `secp256r1`, the curve P-256 (RFC 5480, 2.1.1.1).
    pub const SECP256R1: Self = Oid(&[0x2A, 0x86, 0x48, 0xCE, 0x3D, 3, 1, 7]);
    /// `secp384r1`, the curve P-384 (RFC 5480, 2.1.1.1).
    pub const SECP384R1: Self = Oid(&[0x2B, 0x81, 4, 0, 34]);
    /// `secp521r1`, the curve P-521 (RFC 5480, 2.1.1.1).
    pub const SECP521R1: Self = Oid(&[0x2B, 0x81, 4, 0, 35]);
    /// `authorityInfoAccess`, an extension (RFC 5280, 4.2.2.1).
    pub const AUTHORITY_INFO_ACCESS: Self = Oid(&[0x2B, 6, 1, 5, 5, 7, 1, 1]);
    /// `id-ad-ocsp`, a service (RFC 5280, 4.2.2.1).
    pub const OCSP: Self = Oid(&[0x2B, 6, 1, 5, 5, 7, 48, 1]);
    /// `id-ad-caIssuers`, a service (RFC 5280, 4.2.2.1).
    pub const CA_ISSUERS: Self = Oid(&[0x2B, 6, 1, 5, 5, 7, 48, 2]);
    /// `subjectKeyIdentifier`, an extension (RFC 5280, 4.2.1.2).
    pub const SUBJECT_KEY_IDENTIFIER: Self = Oid(&[0x55, 0x1D, 14]);
    /// `keyUsage`, an extension (RFC 5280, 4.2.1.3).
    pub const KEY_USAGE: Self = Oid(&[0x55, 0x1D, 15]);
    /// `subjectAltName`, an extension (RFC 5280, 4.2.1.6).
    pub const SUBJECT_ALT_NAME: Self = Oid(&[0x55, 0x1D, 17]);
    /// `issuerAltName`, an extension (RFC 5280, 4.2.1.7).
    pub const ISSUER_ALT_NAME: Self = Oid(&[0x55, 0x1D, 18]);
    /// `basicConstraints`, an extension (RFC 5280, 4.2.1.9).
    pub const BASIC_CONSTRAINTS: Self = Oid(&[0x55, 0x1D, 19]);
    /// `cRLDistributionPoints`, an extension (RFC 5280, 4.2.1.13).
    pub const CRL_DISTRIBUTION_POINTS: Self = Oid(&[0x55, 0x1D, 31]);
    /// `certificatePolicies`, an extension (RFC 5280, 4.2.1.4).
    pub const CERTIFICATE_POLICIES: Self = Oid(&[0x55, 0x1D, 32]);
    /// `authorityKeyIdentifier`, an extension (RFC 5280, 4.2.1.1).
    pub const AUTHORITY_KEY_IDENTIFIER: Self = Oid(&[0x55, 0x1D, 35]);
    /// `extKeyUsage`, an extension (RFC 5280, 4.2.1.12).
    pub const EXT_KEY_USAGE: Self = Oid(&[0x55, 0x1D, 37]);
}

impl<'a> Oid<'a> {
    /// The object identifier with this content; `None` where it is that of none, or an arc has more
    /// than 64 bits.
    #[must_use]
    pub fn from_content(content: &'a [u8]) -> Option<Self> {
        let (mut number, mut is_whole) = (0_u64, true);
        for &byte in content {
            if is_whole && byte == 0x80 || number >> 57 != 0 {
                return None;
            }
            is_whole = byte < 0x80;
            number = if is_whole { 0 } else { number << 7 | u64::from(byte & 0x7F) };
        }
        (is_whole && !content.is_empty()).then_some(Oid(content))
    }

    /// That of an element which was read.
    pub(crate) const fn read(content: &'a [u8]) -> Self {
        Oid(content)
    }

    /// The content of its element, without the tag and the length.
    #[must_use]
    pub const fn content(self) -> &'a [u8] {
        self.0
    }

    /// Its arcs, of which there are two at least.
    pub fn arcs(self) -> impl Iterator<Item = u64> + 'a {
        let numbers = self.0.split_inclusive(|byte| *byte < 0x80).map(number_of);
        numbers.enumerate().flat_map(|(index, number)| {
            let first = if index == 0 { Some((number / 40).min(2)) } else { None };
            first.into_iter().chain([number - 40 * first.unwrap_or(0)])
        })
    }
}

/// The number of digits in base 128.
fn number_of(digits: &[u8]) -> u64 {
    digits.iter().fold(0, |number, digit| number << 7 | u64::from(digit & 0x7F))
}

impl fmt::Display for Oid<'_> {
    fn fmt(&self, f: &mut fmt::Formatter<'_>) -> fmt::Result {
        for (index, arc) in self.arcs().enumerate() {
            let dot = if index == 0 { "" } else { "." };
            write!(f, "{dot}{arc}")?;
        }
        Ok(())
    }
}

impl fmt::Debug for Oid<'_> {
    fn fmt(&self, f: &mut fmt::Formatter<'_>) -> fmt::Result {
        write!(f, "Oid({self})")
    }
}
