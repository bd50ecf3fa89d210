//! What is to be signed, made of descriptions, and put together with its signature.

use alloc::string::String;
use alloc::vec::Vec;
use core::fmt;

use crate::kind::Kind;
use crate::library::making as calls;
use crate::library::{self, Block};

/// Why nothing is made.
#[derive(Clone, Debug, PartialEq, Eq)]
#[non_exhaustive]
pub enum NotMade {
    /// Something is wrong with a description: where in it, and why.
    Description(String),
    /// No signature algorithm whose parameters are known has this name.
    Algorithm,
    /// Part, algorithm or signature isn't in its form.
    Form,
    /// The allocator refuses memory.
    OutOfMemory,
    /// The encoding would have 2^64 bytes or more.
    TooLong,
    /// Neither a certificate nor a request is asked for.
    WrongKind,
}

impl fmt::Display for NotMade {
    fn fmt(&self, f: &mut fmt::Formatter<'_>) -> fmt::Result {
        f.write_str(match self {
            NotMade::Description(why) => why,
            NotMade::Algorithm => "no signature algorithm whose parameters are known",
            NotMade::Form => {
                "no signed part, no algorithm in DER, or no signature of this algorithm's form"
            }
            NotMade::OutOfMemory => "out of memory",
            NotMade::TooLong => "the encoding has 2^64 bytes or more",
            NotMade::WrongKind => "neither a certificate nor a request",
        })
    }
}

impl core::error::Error for NotMade {}

/// What a call makes of so many bytes, with more memory and more room until both are enough.
fn made(
    input_size: usize,
    refused: NotMade,
    call: impl Fn(&mut [Block], &mut [u8], &mut usize) -> u32,
) -> Result<Vec<u8>, NotMade> {
    let mut count = input_size.saturating_add(1024);
    let mut room = input_size.saturating_add(1024);
    loop {
        let mut memory = library::blocks(count).ok_or(NotMade::OutOfMemory)?;
        let mut out = Vec::new();
        out.try_reserve_exact(room).map_err(|_| NotMade::OutOfMemory)?;
        out.resize(room, 0);
        let mut size = 0;
        match call(&mut memory, &mut out, &mut size) {
            0 => {
                out.truncate(size);
                return Ok(out);
            }
            1 => return Err(refused),
            2 => count = count.saturating_mul(4),
            3 => room = size,
            5 => return Err(NotMade::TooLong),
            _ => return Err(NotMade::WrongKind),
        }
    }
}

/// What a call makes of one input.
fn made_of(input: &[u8], refused: NotMade, call: calls::Making) -> Result<Vec<u8>, NotMade> {
    made(input.len(), refused, |memory, out, size| call(memory, input, out, size))
}

/// Makes the DER encoding of what a description in JSON says, mostly of the part of a request or
/// certificate that is to be signed (docs/MAKE.md).
///
/// # Errors
/// [`NotMade::Description`], and [`NotMade::OutOfMemory`].
pub fn make(description: &str) -> Result<Vec<u8>, NotMade> {
    let text = description.as_bytes();
    match made_of(text, NotMade::Form, calls::make) {
        Err(NotMade::Form) => {
            let why = made_of(text, NotMade::Form, calls::why_not_made)?;
            Err(NotMade::Description(String::from_utf8(why).unwrap_or_default()))
        }
        answer => answer,
    }
}

/// The `AlgorithmIdentifier` of a signature algorithm in DER, by a name such as `ecdsa-with-SHA256`,
/// or in dotted form.
///
/// ```
/// let ed25519 = cimaroly::signature_algorithm("Ed25519")?;
/// assert_eq!(ed25519, b"\x30\x05\x06\x03\x2b\x65\x70");
/// # Ok::<(), cimaroly::NotMade>(())
/// ```
///
/// # Errors
/// [`NotMade::Algorithm`], and [`NotMade::OutOfMemory`].
pub fn signature_algorithm(name: &str) -> Result<Vec<u8>, NotMade> {
    made_of(name.as_bytes(), NotMade::Algorithm, calls::signature_algorithm)
}

/// A signature of ECDSA in DER, of r and s as two numbers of equal length, as PKCS #11 gives them.
///
/// # Errors
/// [`NotMade::Form`] of no bytes or an odd number of them; [`NotMade::OutOfMemory`],
/// [`NotMade::TooLong`].
pub fn ecdsa_signature(raw: &[u8]) -> Result<Vec<u8>, NotMade> {
    made_of(raw, NotMade::Form, calls::ecdsa_signature)
}

/// Puts a certificate or request together: of the bytes that were signed, which stand in it as they
/// are, the algorithm in DER, and the signature. Whether the signature is right isn't looked at.
///
/// # Errors
/// [`NotMade::Form`], [`NotMade::WrongKind`] of another kind, [`NotMade::OutOfMemory`] and
/// [`NotMade::TooLong`].
pub fn assemble(
    kind: Kind,
    part: &[u8],
    algorithm: &[u8],
    signature: &[u8],
) -> Result<Vec<u8>, NotMade> {
    let size = part.len().saturating_add(algorithm.len()).saturating_add(signature.len());
    made(size, NotMade::Form, |memory, out, size| {
        calls::assemble(memory, kind as u32, [part, algorithm, signature], out, size)
    })
}

/// Makes the part of a request that a description says, has it signed, and puts both together. The
/// algorithm is named as for [`signature_algorithm`], and `sign` gets what is to be signed.
///
/// # Errors
/// As [`make`], [`signature_algorithm`], [`assemble`], and what `sign` says.
pub fn request_signed_by<E: From<NotMade>>(
    description: &str,
    algorithm: &str,
    sign: impl FnOnce(&[u8]) -> Result<Vec<u8>, E>,
) -> Result<Vec<u8>, E> {
    signed_by(Kind::Request, description, algorithm, sign)
}

/// The same for a certificate.
///
/// # Errors
/// As [`request_signed_by`].
pub fn certificate_signed_by<E: From<NotMade>>(
    description: &str,
    algorithm: &str,
    sign: impl FnOnce(&[u8]) -> Result<Vec<u8>, E>,
) -> Result<Vec<u8>, E> {
    signed_by(Kind::Certificate, description, algorithm, sign)
}

fn signed_by<E: From<NotMade>>(
    kind: Kind,
    description: &str,
    algorithm: &str,
    sign: impl FnOnce(&[u8]) -> Result<Vec<u8>, E>,
) -> Result<Vec<u8>, E> {
    let identifier = signature_algorithm(algorithm)?;
    let part = make(description)?;
    let signature = sign(&part)?;
    Ok(assemble(kind, &part, &identifier, &signature)?)
}

/// Bytes as PEM, with a label such as `CERTIFICATE REQUEST`.
///
/// # Errors
/// [`NotMade::OutOfMemory`].
pub fn pem_encode(label: &str, der: &[u8]) -> Result<String, NotMade> {
    let size = label.len().saturating_add(der.len()).saturating_mul(2);
    let text = made(size, NotMade::Form, |memory, out, size| {
        calls::pem_encode(memory, [label.as_bytes(), der], out, size)
    })?;
    Ok(String::from_utf8(text).unwrap_or_default())
}
