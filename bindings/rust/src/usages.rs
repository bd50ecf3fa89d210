//! What the key of a certificate is for.

use crate::library::{self, USAGES};
use core::fmt;
use core::ops::BitOr;

/// What a key may be used for (RFC 5280, 4.2.1.3).
///
/// ```
/// use cimaroly::KeyUsage;
///
/// let usage = KeyUsage::KEY_CERT_SIGN | KeyUsage::CRL_SIGN;
/// assert!(usage.contains(KeyUsage::CRL_SIGN) && !usage.contains(KeyUsage::KEY_AGREEMENT));
/// assert_eq!(format!("{usage:?}"), "KeyUsage(keyCertSign | cRLSign)");
/// ```
#[derive(Clone, Copy, Default, PartialEq, Eq, Hash)]
pub struct KeyUsage(u16);

impl KeyUsage {
    /// `digitalSignature`.
    pub const DIGITAL_SIGNATURE: Self = KeyUsage(1);
    /// `nonRepudiation`, which is also called `contentCommitment`.
    pub const NON_REPUDIATION: Self = KeyUsage(1 << 1);
    /// `keyEncipherment`.
    pub const KEY_ENCIPHERMENT: Self = KeyUsage(1 << 2);
    /// `dataEncipherment`.
    pub const DATA_ENCIPHERMENT: Self = KeyUsage(1 << 3);
    /// `keyAgreement`.
    pub const KEY_AGREEMENT: Self = KeyUsage(1 << 4);
    /// `keyCertSign`.
    pub const KEY_CERT_SIGN: Self = KeyUsage(1 << 5);
    /// `cRLSign`.
    pub const CRL_SIGN: Self = KeyUsage(1 << 6);
    /// `encipherOnly`.
    pub const ENCIPHER_ONLY: Self = KeyUsage(1 << 7);
    /// `decipherOnly`.
    pub const DECIPHER_ONLY: Self = KeyUsage(1 << 8);

    /// The names of the bits, from that of `digitalSignature` on.
    const NAMES: [&'static str; USAGES] = [
        "digitalSignature",
        "nonRepudiation",
        "keyEncipherment",
        "dataEncipherment",
        "keyAgreement",
        "keyCertSign",
        "cRLSign",
        "encipherOnly",
        "decipherOnly",
    ];

    /// The usage that the value of an extension encodes.
    pub(crate) fn read(value: &[u8]) -> Self {
        let mut uses = [false; USAGES];
        library::key_usage(value, &mut uses);
        KeyUsage(uses.into_iter().rev().fold(0, |bits, is_set| bits << 1 | u16::from(is_set)))
    }

    /// Whether each use of another is one of this.
    #[must_use]
    pub const fn contains(self, other: Self) -> bool {
        self.0 & other.0 == other.0
    }

    /// The bits: 1 is `digitalSignature`, 1 << 8 `decipherOnly`.
    #[must_use]
    pub const fn bits(self) -> u16 {
        self.0
    }

    /// The names of its uses, as the RFC has them.
    pub fn names(self) -> impl Iterator<Item = &'static str> {
        let all = Self::NAMES.into_iter().enumerate();
        all.filter(move |(bit, _)| self.0 >> bit & 1 == 1).map(|(_, name)| name)
    }
}

impl BitOr for KeyUsage {
    type Output = Self;

    fn bitor(self, other: Self) -> Self {
        KeyUsage(self.0 | other.0)
    }
}

impl fmt::Debug for KeyUsage {
    fn fmt(&self, f: &mut fmt::Formatter<'_>) -> fmt::Result {
        f.write_str("KeyUsage(")?;
        for (index, name) in self.names().enumerate() {
            write!(f, "{}{name}", if index == 0 { "" } else { " | " })?;
        }
        f.write_str(")")
    }
}
