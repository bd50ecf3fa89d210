//! The calls of `libcimaroly.a` that make, each behind a safe function of the same name.
//!
//! What `cimaroly.h` asks of a caller holds as the module around this one says.

use super::{Block, Memory};

mod c {
    use super::Memory;

    extern "C" {
        pub(super) fn cimaroly_make(
            memory: *mut Memory,
            text: *const u8,
            text_size: usize,
            out: *mut u8,
            out_size: usize,
            size: *mut usize,
        ) -> u32;
        pub(super) fn cimaroly_why_not_made(
            memory: *mut Memory,
            text: *const u8,
            text_size: usize,
            out: *mut u8,
            out_size: usize,
            size: *mut usize,
        ) -> u32;
        pub(super) fn cimaroly_signature_algorithm(
            memory: *mut Memory,
            name: *const u8,
            name_size: usize,
            out: *mut u8,
            out_size: usize,
            size: *mut usize,
        ) -> u32;
        pub(super) fn cimaroly_ecdsa_signature(
            memory: *mut Memory,
            raw: *const u8,
            raw_size: usize,
            out: *mut u8,
            out_size: usize,
            size: *mut usize,
        ) -> u32;
        pub(super) fn cimaroly_assemble(
            memory: *mut Memory,
            kind: u32,
            part: *const u8,
            part_size: usize,
            algorithm: *const u8,
            algorithm_size: usize,
            signature: *const u8,
            signature_size: usize,
            out: *mut u8,
            out_size: usize,
            size: *mut usize,
        ) -> u32;
        pub(super) fn cimaroly_pem_encode(
            memory: *mut Memory,
            label: *const u8,
            label_size: usize,
            der: *const u8,
            der_size: usize,
            out: *mut u8,
            out_size: usize,
            size: *mut usize,
        ) -> u32;
    }
}

/// A call that makes something of one input.
pub(crate) type Making = fn(&mut [Block], &[u8], &mut [u8], &mut usize) -> u32;

pub(crate) fn make(memory: &mut [Block], text: &[u8], out: &mut [u8], size: &mut usize) -> u32 {
    let mut memory = Memory::of(memory);
    let (at, room) = (out.as_mut_ptr(), out.len());
    // SAFETY: the head of the module around this one says why; `out` has room for `room` bytes.
    unsafe { c::cimaroly_make(&mut memory, text.as_ptr(), text.len(), at, room, size) }
}

pub(crate) fn why_not_made(
    memory: &mut [Block],
    text: &[u8],
    out: &mut [u8],
    size: &mut usize,
) -> u32 {
    let mut memory = Memory::of(memory);
    let (at, room) = (out.as_mut_ptr(), out.len());
    // SAFETY: as above.
    unsafe { c::cimaroly_why_not_made(&mut memory, text.as_ptr(), text.len(), at, room, size) }
}

pub(crate) fn signature_algorithm(
    memory: &mut [Block],
    name: &[u8],
    out: &mut [u8],
    size: &mut usize,
) -> u32 {
    let mut memory = Memory::of(memory);
    let (at, room) = (out.as_mut_ptr(), out.len());
    // SAFETY: as above.
    unsafe {
        c::cimaroly_signature_algorithm(&mut memory, name.as_ptr(), name.len(), at, room, size)
    }
}

pub(crate) fn ecdsa_signature(
    memory: &mut [Block],
    raw: &[u8],
    out: &mut [u8],
    size: &mut usize,
) -> u32 {
    let mut memory = Memory::of(memory);
    let (at, room) = (out.as_mut_ptr(), out.len());
    // SAFETY: as above.
    unsafe { c::cimaroly_ecdsa_signature(&mut memory, raw.as_ptr(), raw.len(), at, room, size) }
}

pub(crate) fn assemble(
    memory: &mut [Block],
    kind: u32,
    [part, algorithm, signature]: [&[u8]; 3],
    out: &mut [u8],
    size: &mut usize,
) -> u32 {
    let mut memory = Memory::of(memory);
    let (at, room) = (out.as_mut_ptr(), out.len());
    // SAFETY: as above.
    unsafe {
        c::cimaroly_assemble(
            &mut memory,
            kind,
            part.as_ptr(),
            part.len(),
            algorithm.as_ptr(),
            algorithm.len(),
            signature.as_ptr(),
            signature.len(),
            at,
            room,
            size,
        )
    }
}

pub(crate) fn pem_encode(
    memory: &mut [Block],
    [label, der]: [&[u8]; 2],
    out: &mut [u8],
    size: &mut usize,
) -> u32 {
    let mut memory = Memory::of(memory);
    let (at, room) = (out.as_mut_ptr(), out.len());
    let (label_at, label_size) = (label.as_ptr(), label.len());
    // SAFETY: as above.
    unsafe {
        c::cimaroly_pem_encode(
            &mut memory,
            label_at,
            label_size,
            der.as_ptr(),
            der.len(),
            at,
            room,
            size,
        )
    }
}
