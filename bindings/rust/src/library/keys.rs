//! The calls of `libcimaroly.a` for keys, signatures, requests and further extensions, each behind a
//! safe function of the same name.
//!
//! What `cimaroly.h` asks of a caller holds as the module around this one says. No call here works
//! in memory that it is lent.

use super::{AttributePlace, Span, Verdict};

/// `struct cimaroly_key`.
#[derive(Default)]
#[repr(C)]
pub(crate) struct Key {
    pub(crate) algorithm: Span,
    pub(crate) curve: Span,
    pub(crate) bits: usize,
    pub(crate) modulus: Span,
    pub(crate) exponent: Span,
    pub(crate) key: Span,
}

/// `struct cimaroly_signature`.
#[derive(Default)]
#[repr(C)]
pub(crate) struct Signature {
    pub(crate) algorithm: Span,
    pub(crate) digest: u32,
}

/// `struct cimaroly_request_attribute`.
#[derive(Clone, Copy, Default)]
#[repr(C)]
pub(crate) struct RequestAttributePlace {
    pub(crate) identifier: Span,
    pub(crate) tag: u8,
    pub(crate) values: Span,
}

/// `struct cimaroly_rsa_numbers`.
#[derive(Default)]
#[repr(C)]
pub(crate) struct RsaPrivateKey {
    pub(crate) version: Span,
    pub(crate) modulus: Span,
    pub(crate) public_exponent: Span,
    pub(crate) private_exponent: Span,
    pub(crate) prime1: Span,
    pub(crate) prime2: Span,
    pub(crate) exponent1: Span,
    pub(crate) exponent2: Span,
    pub(crate) coefficient: Span,
}

mod c {
    use super::{
        AttributePlace, Key, RequestAttributePlace, RsaPrivateKey, Signature, Span, Verdict,
    };

    extern "C" {
        pub(super) fn cimaroly_public_key(
            kind: u32,
            der: *const u8,
            der_size: usize,
            key: *mut Key,
        ) -> u32;
        pub(super) fn cimaroly_signed_with(
            kind: u32,
            der: *const u8,
            der_size: usize,
            signature: *mut Signature,
        ) -> u32;
        pub(super) fn cimaroly_request_subject_attributes(
            der: *const u8,
            der_size: usize,
            attributes: *mut AttributePlace,
            room: usize,
            count: *mut usize,
        ) -> u32;
        pub(super) fn cimaroly_request_attributes(
            der: *const u8,
            der_size: usize,
            attributes: *mut RequestAttributePlace,
            room: usize,
            count: *mut usize,
        ) -> u32;
        pub(super) fn cimaroly_rsa_private_key(
            der: *const u8,
            der_size: usize,
            numbers: *mut RsaPrivateKey,
        ) -> u32;
        pub(super) fn cimaroly_subject_key_identifier(
            value: *const u8,
            value_size: usize,
            identifier: *mut Span,
        ) -> u32;
        pub(super) fn cimaroly_authority_key_identifier(
            value: *const u8,
            value_size: usize,
            identifier: *mut Span,
        ) -> u32;
        pub(super) fn cimaroly_check_extension(
            identifier: *const u8,
            identifier_size: usize,
            value: *const u8,
            value_size: usize,
            verdict: *mut Verdict,
        ) -> u32;
    }
}

pub(crate) fn public_key(kind: u32, der: &[u8], told: &mut Key) -> u32 {
    // SAFETY: the head of the module around this one says why; any numbers are a key's places.
    unsafe { c::cimaroly_public_key(kind, der.as_ptr(), der.len(), told) }
}

pub(crate) fn signed_with(kind: u32, der: &[u8], told: &mut Signature) -> u32 {
    // SAFETY: as above; any number may be that of a digest.
    unsafe { c::cimaroly_signed_with(kind, der.as_ptr(), der.len(), told) }
}

pub(crate) fn request_subject_attributes(
    der: &[u8],
    out: &mut [AttributePlace],
    count: &mut usize,
) -> u32 {
    let (at, room) = (out.as_mut_ptr(), out.len());
    // SAFETY: as above; `out` has room for `room` places, of which any numbers are one.
    unsafe { c::cimaroly_request_subject_attributes(der.as_ptr(), der.len(), at, room, count) }
}

pub(crate) fn request_attributes(
    der: &[u8],
    out: &mut [RequestAttributePlace],
    count: &mut usize,
) -> u32 {
    let (at, room) = (out.as_mut_ptr(), out.len());
    // SAFETY: as above; `out` has room for `room` places, of which any numbers are one.
    unsafe { c::cimaroly_request_attributes(der.as_ptr(), der.len(), at, room, count) }
}

pub(crate) fn rsa_private_key(der: &[u8], told: &mut RsaPrivateKey) -> u32 {
    // SAFETY: as above; any numbers are places.
    unsafe { c::cimaroly_rsa_private_key(der.as_ptr(), der.len(), told) }
}

/// A call on an extension's value that tells where the octets stand that identify a key.
pub(crate) type IdentifierCall = fn(&[u8], &mut Span) -> u32;

pub(crate) fn subject_key_identifier(value: &[u8], told: &mut Span) -> u32 {
    // SAFETY: as above; any numbers are a span.
    unsafe { c::cimaroly_subject_key_identifier(value.as_ptr(), value.len(), told) }
}

pub(crate) fn authority_key_identifier(value: &[u8], told: &mut Span) -> u32 {
    // SAFETY: as above; any numbers are a span.
    unsafe { c::cimaroly_authority_key_identifier(value.as_ptr(), value.len(), told) }
}

pub(crate) fn check_extension(identifier: &[u8], value: &[u8], told: &mut Verdict) -> u32 {
    let (at, size) = (identifier.as_ptr(), identifier.len());
    // SAFETY: as above; any numbers are a verdict.
    unsafe { c::cimaroly_check_extension(at, size, value.as_ptr(), value.len(), told) }
}
