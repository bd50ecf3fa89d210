//! Public keys, and the algorithms of signatures, which borrow from the input. They take no memory.

use core::fmt;

use crate::fields::Field;
use crate::kind::Kind;
use crate::library::keys::{self, Key, Signature};
use crate::library::status;
use crate::oid::Oid;

/// A public key, a `SubjectPublicKeyInfo` (RFC 5280, 4.1.2.7).
///
/// Keys are equal if they are the same bytes. `{:?}` tells the algorithm, the curve and the size.
#[derive(Clone, Copy, PartialEq, Eq)]
pub struct PublicKey<'a> {
    der: &'a [u8],
    algorithm: Oid<'a>,
    curve: Option<Oid<'a>>,
    bits: Option<usize>,
    modulus: Option<&'a [u8]>,
    exponent: Option<&'a [u8]>,
    key: Option<&'a [u8]>,
}

impl fmt::Debug for PublicKey<'_> {
    fn fmt(&self, f: &mut fmt::Formatter<'_>) -> fmt::Result {
        let mut told = f.debug_struct("PublicKey");
        told.field("algorithm", &self.algorithm).field("curve", &self.curve);
        told.field("bits", &self.bits).finish_non_exhaustive()
    }
}

impl<'a> PublicKey<'a> {
    /// The key with these bytes, whose parts stand at these places of an input.
    pub(crate) fn at(input: &'a [u8], der: &'a [u8], places: &Key) -> Self {
        PublicKey {
            der,
            algorithm: Oid::read(places.algorithm.of(input)),
            curve: places.curve.held(input).map(Oid::read),
            bits: (places.bits > 0).then_some(places.bits),
            modulus: places.modulus.held(input),
            exponent: places.exponent.held(input),
            key: places.key.held(input),
        }
    }

    /// The key of an input that was read as this kind. (The library tells it of every such input.)
    pub(crate) fn within(kind: Kind, whole: Field<'a>, info: Field<'a>) -> Self {
        let mut places = Key::default();
        keys::public_key(kind as u32, whole.bytes(), &mut places);
        PublicKey::at(whole.bytes(), info.bytes(), &places)
    }

    /// The algorithm that it is for (RFC 5280, 4.1.1.2), as [`Oid::EC_PUBLIC_KEY`].
    #[must_use]
    pub const fn algorithm(&self) -> Oid<'a> {
        self.algorithm
    }

    /// The named curve of a key on one (RFC 5480, 2.1.1), as [`Oid::SECP256R1`].
    #[must_use]
    pub const fn curve(&self) -> Option<Oid<'a>> {
        self.curve
    }

    /// Its size: that of the modulus of RSA, of a curve's field, or of Ed25519, Ed448, X25519 and
    /// X448. `None` of another algorithm or curve.
    #[must_use]
    pub const fn bits(&self) -> Option<usize> {
        self.bits
    }

    /// The modulus of an RSA key (RFC 8017, A.1.1), in two's complement, the highest byte first: where
    /// its highest bit is set, a zero byte stands before it.
    #[must_use]
    pub const fn modulus(&self) -> Option<&'a [u8]> {
        self.modulus
    }

    /// The public exponent of an RSA key (RFC 8017, A.1.1), likewise in two's complement.
    #[must_use]
    pub const fn exponent(&self) -> Option<&'a [u8]> {
        self.exponent
    }

    /// What `subjectPublicKey` holds of any key but one of RSA: a point of a curve (RFC 5480, 2.2), or
    /// the key itself (RFC 8410, 4).
    #[must_use]
    pub const fn key_bytes(&self) -> Option<&'a [u8]> {
        self.key
    }

    /// The whole `SubjectPublicKeyInfo`, with its tag and its length: what a pin is the digest of
    /// (RFC 7469, 2.4). It is the input's, even where that deviates from DER.
    #[must_use]
    pub const fn der(&self) -> &'a [u8] {
        self.der
    }
}

/// The hash function of a signature. It prints as the standards spell it, as SHA-256.
#[derive(Clone, Copy, Debug, PartialEq, Eq, Hash)]
#[non_exhaustive]
pub enum Digest {
    /// SHA-1 (FIPS 180-4).
    Sha1 = 1,
    /// SHA-224 (FIPS 180-4).
    Sha224 = 2,
    /// SHA-256 (FIPS 180-4).
    Sha256 = 3,
    /// SHA-384 (FIPS 180-4).
    Sha384 = 4,
    /// SHA-512 (FIPS 180-4).
    Sha512 = 5,
    /// SHA3-224 (FIPS 202).
    Sha3_224 = 6,
    /// SHA3-256 (FIPS 202).
    Sha3_256 = 7,
    /// SHA3-384 (FIPS 202).
    Sha3_384 = 8,
    /// SHA3-512 (FIPS 202).
    Sha3_512 = 9,
}

impl Digest {
    /// The digest of an `enum cimaroly_digest`.
    fn from_number(number: u32) -> Option<Digest> {
        match number {
            1 => Some(Digest::Sha1),
            2 => Some(Digest::Sha224),
            3 => Some(Digest::Sha256),
            4 => Some(Digest::Sha384),
            5 => Some(Digest::Sha512),
            6 => Some(Digest::Sha3_224),
            7 => Some(Digest::Sha3_256),
            8 => Some(Digest::Sha3_384),
            9 => Some(Digest::Sha3_512),
            _ => None,
        }
    }

    /// The name, as the standards spell it.
    #[must_use]
    pub const fn name(self) -> &'static str {
        match self {
            Digest::Sha1 => "SHA-1",
            Digest::Sha224 => "SHA-224",
            Digest::Sha256 => "SHA-256",
            Digest::Sha384 => "SHA-384",
            Digest::Sha512 => "SHA-512",
            Digest::Sha3_224 => "SHA3-224",
            Digest::Sha3_256 => "SHA3-256",
            Digest::Sha3_384 => "SHA3-384",
            Digest::Sha3_512 => "SHA3-512",
        }
    }
}

impl fmt::Display for Digest {
    fn fmt(&self, f: &mut fmt::Formatter<'_>) -> fmt::Result {
        f.write_str(self.name())
    }
}

/// The algorithm of a signature (RFC 5280, 4.1.1.2).
#[derive(Clone, Copy, Debug, PartialEq, Eq)]
pub struct SignatureAlgorithm<'a> {
    oid: Oid<'a>,
    digest: Option<Digest>,
}

impl<'a> SignatureAlgorithm<'a> {
    /// That of an input that was read as this kind. (The library tells it of every such input.)
    pub(crate) fn within(kind: Kind, whole: Field<'a>) -> Self {
        let mut told = Signature::default();
        keys::signed_with(kind as u32, whole.bytes(), &mut told);
        SignatureAlgorithm {
            oid: Oid::read(told.algorithm.of(whole.bytes())),
            digest: Digest::from_number(told.digest),
        }
    }

    /// Its identifier, as [`Oid::ED25519`].
    #[must_use]
    pub const fn oid(&self) -> Oid<'a> {
        self.oid
    }

    /// The hash function whose digest is signed; that of RSASSA-PSS is one of its parameters (RFC 4055,
    /// 3.1). `None` where the algorithm has its own, as Ed25519 (RFC 8032), or isn't one of signatures.
    #[must_use]
    pub const fn digest(&self) -> Option<Digest> {
        self.digest
    }
}

/// The numbers of an RSA private key by itself (RFC 8017, A.1.2), each in two's complement, the
/// highest byte first. `{:?}` shows the public ones alone.
#[derive(Clone, Copy, PartialEq, Eq)]
#[non_exhaustive]
pub struct RsaPrivateKey<'a> {
    /// `version`: 0 of a key of two primes.
    pub version: &'a [u8],
    /// `modulus`.
    pub modulus: &'a [u8],
    /// `publicExponent`.
    pub public_exponent: &'a [u8],
    /// `privateExponent`.
    pub private_exponent: &'a [u8],
    /// `prime1`.
    pub prime1: &'a [u8],
    /// `prime2`.
    pub prime2: &'a [u8],
    /// `exponent1`.
    pub exponent1: &'a [u8],
    /// `exponent2`.
    pub exponent2: &'a [u8],
    /// `coefficient`.
    pub coefficient: &'a [u8],
}

impl<'a> RsaPrivateKey<'a> {
    /// The numbers of the key that the bytes encode; `None` where they encode none
    /// ([`crate::Reader::check`] says why). It takes no memory, and copies nothing. In a private key
    /// with its algorithm such a key is the content of `privateKey`.
    #[must_use]
    pub fn read(der: &'a [u8]) -> Option<Self> {
        let mut at = keys::RsaPrivateKey::default();
        let is_read = keys::rsa_private_key(der, &mut at) == status::OK;
        is_read.then(|| RsaPrivateKey {
            version: at.version.of(der),
            modulus: at.modulus.of(der),
            public_exponent: at.public_exponent.of(der),
            private_exponent: at.private_exponent.of(der),
            prime1: at.prime1.of(der),
            prime2: at.prime2.of(der),
            exponent1: at.exponent1.of(der),
            exponent2: at.exponent2.of(der),
            coefficient: at.coefficient.of(der),
        })
    }
}

impl fmt::Debug for RsaPrivateKey<'_> {
    fn fmt(&self, f: &mut fmt::Formatter<'_>) -> fmt::Result {
        let mut told = f.debug_struct("RsaPrivateKey");
        told.field("modulus", &self.modulus).field("public_exponent", &self.public_exponent);
        told.finish_non_exhaustive()
    }
}
