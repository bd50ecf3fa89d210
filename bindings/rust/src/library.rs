//! The calls of `libcimaroly.a`, each behind a safe function of the same name. All that is unsafe
//! stands here.
//!
//! What `cimaroly.h` asks of a caller holds of every call: a pointer is that of a reference or a
//! slice, and so never null; memory is aligned to 16; what is written is lent exclusively, and so
//! overlaps nothing else; and the library keeps no pointer.
#![allow(unsafe_code)]

pub(crate) mod fields;
pub(crate) mod keys;
#[cfg(feature = "alloc")]
pub(crate) mod making;
pub(crate) mod places;
pub(crate) mod services;

use core::mem::{size_of_val, MaybeUninit};

use crate::times::Time;
use crate::told::Counts;

/// 16 bytes of the memory that a [`crate::Reader`] works in. What they hold before a call doesn't
/// matter, and after it says nothing.
#[derive(Clone, Copy, Debug)]
#[repr(C, align(16))]
pub struct Block(MaybeUninit<[u8; 16]>);

impl Block {
    /// A block for an array: `[Block::UNINIT; 1024]` is 16 KB.
    pub const UNINIT: Block = Block(MaybeUninit::uninit());
}

/// `struct cimaroly_memory`.
#[repr(C)]
struct Memory {
    block: *mut Block,
    size: usize,
}

impl Memory {
    fn of(blocks: &mut [Block]) -> Self {
        Memory { block: blocks.as_mut_ptr(), size: size_of_val(blocks) }
    }
}

/// How many uses `struct cimaroly_usage` tells.
pub(crate) const USAGES: usize = 9;

/// `struct cimaroly_constraints`.
#[derive(Default)]
#[repr(C)]
pub(crate) struct BasicConstraints {
    pub(crate) is_ca: bool,
    pub(crate) has_path_length: bool,
    pub(crate) path_length: u8,
}

/// `struct cimaroly_span`.
#[derive(Clone, Copy, Debug, Default)]
#[repr(C)]
pub(crate) struct Span {
    pub(crate) start: usize,
    pub(crate) end: usize,
}

impl Span {
    /// Its bytes of an input. (The library's spans lie within it.)
    pub(crate) fn of(self, der: &[u8]) -> &[u8] {
        der.get(self.start..self.end).unwrap_or_default()
    }

    /// The same, but none of 0..0, which is where nothing stands.
    pub(crate) fn held(self, der: &[u8]) -> Option<&[u8]> {
        (self.end > 0).then(|| self.of(der))
    }
}

/// `struct cimaroly_verdict`.
#[derive(Default)]
#[repr(C)]
pub(crate) struct Verdict {
    pub(crate) counts: Counts,
    pub(crate) headers: usize,
    pub(crate) error: usize,
    pub(crate) at: usize,
}

/// `struct cimaroly_signed`.
#[derive(Default)]
#[repr(C)]
pub(crate) struct Signed {
    pub(crate) part: Span,
    pub(crate) inside: Counts,
    pub(crate) outside: Counts,
}

/// Where an extension and its fields stand: an item of the buffer that
/// [`crate::Reader::extensions`] fills.
#[derive(Clone, Copy, Debug, Default)]
#[repr(C)]
pub struct ExtensionPlaces {
    pub(crate) whole: Span,
    pub(crate) extn_id: Span,
    pub(crate) critical: Span,
    pub(crate) extn_value: Span,
}

impl ExtensionPlaces {
    /// Places for an array.
    pub const EMPTY: ExtensionPlaces = ExtensionPlaces {
        whole: Span { start: 0, end: 0 },
        extn_id: Span { start: 0, end: 0 },
        critical: Span { start: 0, end: 0 },
        extn_value: Span { start: 0, end: 0 },
    };
}

/// `struct cimaroly_attribute`.
#[derive(Clone, Copy, Default)]
#[repr(C)]
pub(crate) struct AttributePlace {
    pub(crate) set: usize,
    pub(crate) identifier: Span,
    pub(crate) tag: u8,
    pub(crate) value: Span,
}

/// `struct cimaroly_general_name`.
#[derive(Clone, Copy, Default)]
#[repr(C)]
pub(crate) struct GeneralNamePlace {
    pub(crate) tag: u8,
    pub(crate) content: Span,
}

/// `struct cimaroly_pem_block`.
#[derive(Default)]
#[repr(C)]
pub(crate) struct FlatPemBlock {
    pub(crate) label: Span,
    pub(crate) text: Span,
    pub(crate) room: usize,
    pub(crate) first_line: u64,
    pub(crate) last_line: u64,
    pub(crate) next: usize,
    pub(crate) next_line: u64,
}

/// `enum cimaroly_pem`, but for a block that has no fault.
pub(crate) mod pem {
    pub(crate) const NO_MORE: u32 = 1;
    pub(crate) const LABEL_MISMATCH: u32 = 2;
    pub(crate) const NO_END: u32 = 3;
    pub(crate) const HAS_HEADERS: u32 = 4;
}

/// `enum cimaroly_status`.
pub(crate) mod status {
    pub(crate) const OK: u32 = 0;
    pub(crate) const REFUSED: u32 = 1;
    pub(crate) const OUT_OF_MEMORY: u32 = 2;
    pub(crate) const BUFFER_TOO_SHORT: u32 = 3;
    pub(crate) const TOO_LONG: u32 = 5;
}

mod c {
    use super::{
        AttributePlace, BasicConstraints, ExtensionPlaces, FlatPemBlock, GeneralNamePlace, Memory,
        Signed, Span, Time, Verdict, USAGES,
    };

    extern "C" {
        pub(super) fn cimaroly_check(
            kind: u32,
            der: *const u8,
            der_size: usize,
            verdict: *mut Verdict,
        ) -> u32;
        pub(super) fn cimaroly_encode(
            memory: *mut Memory,
            kind: u32,
            der: *const u8,
            der_size: usize,
            out: *mut u8,
            out_size: usize,
            size: *mut usize,
        ) -> u32;
        pub(super) fn cimaroly_signed_part(
            kind: u32,
            der: *const u8,
            der_size: usize,
            part: *mut Signed,
        ) -> u32;
        pub(super) fn cimaroly_extensions(
            kind: u32,
            der: *const u8,
            der_size: usize,
            extensions: *mut ExtensionPlaces,
            room: usize,
            count: *mut usize,
        ) -> u32;
        pub(super) fn cimaroly_report(
            memory: *mut Memory,
            kind: u32,
            der: *const u8,
            der_size: usize,
            secrets: bool,
            out: *mut u8,
            out_size: usize,
            size: *mut usize,
        ) -> u32;
        pub(super) fn cimaroly_validity(
            der: *const u8,
            der_size: usize,
            not_before: *mut Time,
            not_after: *mut Time,
        ) -> u32;
        pub(super) fn cimaroly_subject_attributes(
            der: *const u8,
            der_size: usize,
            attributes: *mut AttributePlace,
            room: usize,
            count: *mut usize,
        ) -> u32;
        pub(super) fn cimaroly_issuer_attributes(
            der: *const u8,
            der_size: usize,
            attributes: *mut AttributePlace,
            room: usize,
            count: *mut usize,
        ) -> u32;
        pub(super) fn cimaroly_serial_number(
            der: *const u8,
            der_size: usize,
            serial_number: *mut Span,
        ) -> u32;
        pub(super) fn cimaroly_find_extension(
            der: *const u8,
            der_size: usize,
            identifier: *const u8,
            identifier_size: usize,
            value: *mut Span,
        ) -> u32;
        pub(super) fn cimaroly_general_names(
            list: *const u8,
            list_size: usize,
            names: *mut GeneralNamePlace,
            room: usize,
            count: *mut usize,
        ) -> u32;
        pub(super) fn cimaroly_basic_constraints(
            value: *const u8,
            value_size: usize,
            constraints: *mut BasicConstraints,
        ) -> u32;
        pub(super) fn cimaroly_key_usage(
            value: *const u8,
            value_size: usize,
            usage: *mut [bool; USAGES],
        ) -> u32;
        pub(super) fn cimaroly_host_matches(
            der: *const u8,
            der_size: usize,
            host: *const u8,
            host_size: usize,
            matches: *mut bool,
        ) -> u32;
        pub(super) fn cimaroly_pem_next(
            text: *const u8,
            text_size: usize,
            at: usize,
            line: u64,
            block: *mut FlatPemBlock,
        ) -> u32;
        pub(super) fn cimaroly_pem_decode(
            text: *const u8,
            text_size: usize,
            out: *mut u8,
            out_size: usize,
            size: *mut usize,
        ) -> u32;
    }
}

pub(crate) fn check(kind: u32, der: &[u8], told: &mut Verdict) -> u32 {
    // SAFETY: the head of this module says why.
    unsafe { c::cimaroly_check(kind, der.as_ptr(), der.len(), told) }
}

pub(crate) fn encode(
    memory: &mut [Block],
    kind: u32,
    der: &[u8],
    out: &mut [u8],
    size: &mut usize,
) -> u32 {
    let mut memory = Memory::of(memory);
    let (at, room) = (out.as_mut_ptr(), out.len());
    // SAFETY: as above; `out` has room for `room` bytes.
    unsafe { c::cimaroly_encode(&mut memory, kind, der.as_ptr(), der.len(), at, room, size) }
}

pub(crate) fn signed_part(kind: u32, der: &[u8], told: &mut Signed) -> u32 {
    // SAFETY: as above.
    unsafe { c::cimaroly_signed_part(kind, der.as_ptr(), der.len(), told) }
}

pub(crate) fn extensions(
    kind: u32,
    der: &[u8],
    out: &mut [ExtensionPlaces],
    count: &mut usize,
) -> u32 {
    let (at, room) = (out.as_mut_ptr(), out.len());
    // SAFETY: as above; `out` has room for `room` items, of which any numbers are one.
    unsafe { c::cimaroly_extensions(kind, der.as_ptr(), der.len(), at, room, count) }
}

pub(crate) fn report(
    memory: &mut [Block],
    kind: u32,
    der: &[u8],
    secrets: bool,
    out: &mut [u8],
    size: &mut usize,
) -> u32 {
    let mut memory = Memory::of(memory);
    let (at, room) = (out.as_mut_ptr(), out.len());
    let der_size = der.len();
    // SAFETY: as above; `out` has room for `room` bytes.
    unsafe {
        c::cimaroly_report(&mut memory, kind, der.as_ptr(), der_size, secrets, at, room, size)
    }
}

pub(crate) fn validity(der: &[u8], not_before: &mut Time, not_after: &mut Time) -> u32 {
    // SAFETY: as above; any numbers are a time.
    unsafe { c::cimaroly_validity(der.as_ptr(), der.len(), not_before, not_after) }
}

/// A call on a certificate or a request that tells where the attributes of a name stand.
pub(crate) type AttributesCall = fn(&[u8], &mut [AttributePlace], &mut usize) -> u32;

pub(crate) fn subject_attributes(der: &[u8], out: &mut [AttributePlace], count: &mut usize) -> u32 {
    let (at, room) = (out.as_mut_ptr(), out.len());
    // SAFETY: as above; `out` has room for `room` places, of which any numbers are one.
    unsafe { c::cimaroly_subject_attributes(der.as_ptr(), der.len(), at, room, count) }
}

pub(crate) fn issuer_attributes(der: &[u8], out: &mut [AttributePlace], count: &mut usize) -> u32 {
    let (at, room) = (out.as_mut_ptr(), out.len());
    // SAFETY: as above; `out` has room for `room` places, of which any numbers are one.
    unsafe { c::cimaroly_issuer_attributes(der.as_ptr(), der.len(), at, room, count) }
}

pub(crate) fn serial_number(der: &[u8], told: &mut Span) -> u32 {
    // SAFETY: as above; any numbers are a span.
    unsafe { c::cimaroly_serial_number(der.as_ptr(), der.len(), told) }
}

pub(crate) fn find_extension(der: &[u8], identifier: &[u8], value: &mut Span) -> u32 {
    let (at, size) = (identifier.as_ptr(), identifier.len());
    // SAFETY: as above; any numbers are a span.
    unsafe { c::cimaroly_find_extension(der.as_ptr(), der.len(), at, size, value) }
}

pub(crate) fn general_names(list: &[u8], out: &mut [GeneralNamePlace], count: &mut usize) -> u32 {
    let (at, room) = (out.as_mut_ptr(), out.len());
    // SAFETY: as above; `out` has room for `room` places, of which any numbers are one.
    unsafe { c::cimaroly_general_names(list.as_ptr(), list.len(), at, room, count) }
}

pub(crate) fn basic_constraints(value: &[u8], told: &mut BasicConstraints) -> u32 {
    // SAFETY: as above; the call writes each field.
    unsafe { c::cimaroly_basic_constraints(value.as_ptr(), value.len(), told) }
}

pub(crate) fn key_usage(value: &[u8], told: &mut [bool; USAGES]) -> u32 {
    // SAFETY: as above; `struct cimaroly_usage` is so many `bool`.
    unsafe { c::cimaroly_key_usage(value.as_ptr(), value.len(), told) }
}

pub(crate) fn host_matches(der: &[u8], host: &[u8], matches: &mut bool) -> u32 {
    // SAFETY: as above.
    unsafe { c::cimaroly_host_matches(der.as_ptr(), der.len(), host.as_ptr(), host.len(), matches) }
}

pub(crate) fn pem_next(text: &[u8], at: usize, line: u64, block: &mut FlatPemBlock) -> u32 {
    // SAFETY: as above.
    unsafe { c::cimaroly_pem_next(text.as_ptr(), text.len(), at, line, block) }
}

pub(crate) fn pem_decode(text: &[u8], out: &mut [u8], size: &mut usize) -> u32 {
    let (at, room) = (out.as_mut_ptr(), out.len());
    // SAFETY: as above; `out` has room for `room` bytes.
    unsafe { c::cimaroly_pem_decode(text.as_ptr(), text.len(), at, room, size) }
}

/// So many blocks of the global allocator, or none where it refuses them.
#[cfg(feature = "alloc")]
pub(crate) fn blocks(count: usize) -> Option<alloc::vec::Vec<Block>> {
    let mut blocks = alloc::vec::Vec::new();
    blocks.try_reserve_exact(count).ok()?;
    // SAFETY: there is room for so many, and a block needn't be initialized.
    unsafe { blocks.set_len(count) };
    Some(blocks)
}
