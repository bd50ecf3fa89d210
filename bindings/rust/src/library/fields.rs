//! The calls of `libcimaroly.a` that tell where fields stand, each behind a safe function.
//!
//! What `cimaroly.h` asks of a caller holds as the module around this one says. No call here works
//! in memory that it is lent.

use super::Span;

/// `struct cimaroly_certificate`.
#[derive(Default)]
#[repr(C)]
pub(crate) struct Certificate {
    pub(crate) tbs_certificate: Span,
    pub(crate) version: Span,
    pub(crate) serial_number: Span,
    pub(crate) signature: Span,
    pub(crate) issuer: Span,
    pub(crate) validity: Span,
    pub(crate) subject: Span,
    pub(crate) subject_public_key_info: Span,
    pub(crate) issuer_unique_id: Span,
    pub(crate) subject_unique_id: Span,
    pub(crate) extensions: Span,
    pub(crate) signature_algorithm: Span,
    pub(crate) signature_value: Span,
}

/// `struct cimaroly_request`.
#[derive(Default)]
#[repr(C)]
pub(crate) struct Request {
    pub(crate) certification_request_info: Span,
    pub(crate) version: Span,
    pub(crate) subject: Span,
    pub(crate) subject_public_key_info: Span,
    pub(crate) attributes: Span,
    pub(crate) signature_algorithm: Span,
    pub(crate) signature: Span,
}

/// `struct cimaroly_private_key`.
#[derive(Default)]
#[repr(C)]
pub(crate) struct PrivateKey {
    pub(crate) version: Span,
    pub(crate) private_key_algorithm: Span,
    pub(crate) private_key: Span,
    pub(crate) skipped: Span,
    pub(crate) public_key: Span,
}

/// `struct cimaroly_crl`.
#[derive(Default)]
#[repr(C)]
pub(crate) struct Crl {
    pub(crate) tbs_cert_list: Span,
    pub(crate) version: Span,
    pub(crate) signature: Span,
    pub(crate) issuer: Span,
    pub(crate) this_update: Span,
    pub(crate) next_update: Span,
    pub(crate) revoked_certificates: Span,
    pub(crate) crl_extensions: Span,
    pub(crate) signature_algorithm: Span,
    pub(crate) signature_value: Span,
}

pub(crate) fn certificate(der: &[u8], told: &mut Certificate) -> u32 {
    // SAFETY: the head of the module around this one says why; any numbers are places.
    unsafe { c::cimaroly_certificate_fields(der.as_ptr(), der.len(), told) }
}

pub(crate) fn request(der: &[u8], told: &mut Request) -> u32 {
    // SAFETY: as above.
    unsafe { c::cimaroly_request_fields(der.as_ptr(), der.len(), told) }
}

pub(crate) fn private_key(der: &[u8], told: &mut PrivateKey) -> u32 {
    // SAFETY: as above.
    unsafe { c::cimaroly_private_key_fields(der.as_ptr(), der.len(), told) }
}

pub(crate) fn certificate_outline(der: &[u8], told: &mut Certificate) -> u32 {
    // SAFETY: as above.
    unsafe { c::cimaroly_certificate_outline_fields(der.as_ptr(), der.len(), told) }
}

pub(crate) fn request_outline(der: &[u8], told: &mut Request) -> u32 {
    // SAFETY: as above.
    unsafe { c::cimaroly_request_outline_fields(der.as_ptr(), der.len(), told) }
}

pub(crate) fn private_key_outline(der: &[u8], told: &mut PrivateKey) -> u32 {
    // SAFETY: as above.
    unsafe { c::cimaroly_private_key_outline_fields(der.as_ptr(), der.len(), told) }
}

pub(crate) fn crl(der: &[u8], told: &mut Crl) -> u32 {
    // SAFETY: as above.
    unsafe { c::cimaroly_crl_fields(der.as_ptr(), der.len(), told) }
}

mod c {
    use super::{Certificate, Crl, PrivateKey, Request};

    extern "C" {
        pub(super) fn cimaroly_certificate_fields(
            der: *const u8,
            der_size: usize,
            fields: *mut Certificate,
        ) -> u32;
        pub(super) fn cimaroly_request_fields(
            der: *const u8,
            der_size: usize,
            fields: *mut Request,
        ) -> u32;
        pub(super) fn cimaroly_private_key_fields(
            der: *const u8,
            der_size: usize,
            fields: *mut PrivateKey,
        ) -> u32;
        pub(super) fn cimaroly_certificate_outline_fields(
            der: *const u8,
            der_size: usize,
            fields: *mut Certificate,
        ) -> u32;
        pub(super) fn cimaroly_request_outline_fields(
            der: *const u8,
            der_size: usize,
            fields: *mut Request,
        ) -> u32;
        pub(super) fn cimaroly_private_key_outline_fields(
            der: *const u8,
            der_size: usize,
            fields: *mut PrivateKey,
        ) -> u32;
        pub(super) fn cimaroly_crl_fields(der: *const u8, der_size: usize, fields: *mut Crl)
            -> u32;
    }
}
