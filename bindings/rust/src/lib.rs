// SPDX-License-Identifier: MIT OR Apache-2.0

//! X.509 structures in DER, checked, encoded and looked into by proved code.
//!
//! This crate calls `libcimaroly.a`, which is built of code whose contracts are proved; of this
//! crate itself nothing is proved. It takes no memory: a [`Reader`] works in what it is lent, and
//! fields borrow from the input. What it is lent isn't cleared.
//!
//! ```
//! use cimaroly::{Block, Kind, Reader};
//!
//! // an algorithm identifier without its parameters
//! let der = b"\x30\x0a\x06\x08\x2a\x86\x48\x86\xf7\x0d\x02\x09";
//! let mut memory = [Block::UNINIT; 1024];
//! let mut reader = Reader::new(&mut memory);
//!
//! let verdict = reader.check(Kind::RawAlgorithm, der)?;
//! assert!(!verdict.is_der());
//!
//! let mut out = [0; 64];
//! let encoding = reader.encode(Kind::RawAlgorithm, der, &mut out)?;
//! assert_eq!(encoding, b"\x30\x0c\x06\x08\x2a\x86\x48\x86\xf7\x0d\x02\x09\x05\x00");
//! # Ok::<(), cimaroly::Error>(())
//! ```
//!
//! With the feature `alloc`, which is on by default, there are functions of the same names at the
//! root of the crate, which take memory from the global allocator, and more until it is enough. With
//! the feature `std` a [`Time`] becomes a `SystemTime`, and an [`Error`] an `io::Error`.
//!
//! # Linking
//!
//! The build script links the archive of the package's `lib/` for the target's processor, or that of
//! the folder that the variable `CIMAROLY_LIB_DIR` names. There are archives for x86-64 processors
//! with SSE4.2 and for aarch64, and they need only `memcpy`, `memmove` and `memset`.
#![no_std]

#[cfg(feature = "alloc")]
extern crate alloc;
#[cfg(feature = "std")]
extern crate std;

#[cfg(feature = "alloc")]
mod allocated;
mod elements;
mod error;
mod few;
mod field_path;
mod fields;
mod findings;
mod further;
mod general_names;
mod keys;
mod kind;
mod library;
#[cfg(feature = "alloc")]
mod making;
mod names;
mod oid;
mod pem;
mod reader;
mod services;
mod strings;
mod times;
mod told;
mod usages;
mod values;

#[cfg(feature = "alloc")]
pub use crate::allocated::{
    certificate, certificate_outline, check, crl, encode, extensions, findings, places,
    private_key, private_key_outline, public_key, report, request, request_findings,
    request_outline, signed_part,
};
pub use crate::error::{Error, Reason, Refused};
pub use crate::field_path::FieldPath;
pub use crate::fields::{
    Certificate, CertificateOutline, Crl, Extension, Field, PrivateKey, PrivateKeyOutline, Request,
    RequestOutline,
};
pub use crate::findings::{Finding, Rule};
pub use crate::further::check_extension;
pub use crate::general_names::{GeneralName, GeneralNames};
pub use crate::keys::{Digest, PublicKey, RsaPrivateKey, SignatureAlgorithm};
pub use crate::kind::{Deviation, Kind};
pub use crate::library::{Block, ExtensionPlaces};
#[cfg(feature = "alloc")]
pub use crate::making::{
    assemble, certificate_signed_by, ecdsa_signature, make, pem_encode, request_signed_by,
    signature_algorithm, NotMade,
};
pub use crate::names::{Attribute, Attributes, Name};
pub use crate::oid::Oid;
pub use crate::pem::{decode_base64, pem_blocks, PemBlock, PemBlocks, PemError, PemFault};
pub use crate::reader::{Extensions, Reader};
pub use crate::services::AccessDescription;
pub use crate::times::Time;
pub use crate::told::{Counts, Place, SignedPart, Verdict};
pub use crate::usages::KeyUsage;
