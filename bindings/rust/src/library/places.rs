//! The calls of `libcimaroly.a` that tell deviations and findings with their places, each behind a
//! safe function of the same name.
//!
//! What `cimaroly.h` asks of a caller holds as the module around this one says.

use super::{Block, Memory};
use crate::findings::Finding;
use crate::told::Place;

mod c {
    use super::{Finding, Memory, Place};

    extern "C" {
        pub(super) fn cimaroly_places(
            memory: *mut Memory,
            kind: u32,
            der: *const u8,
            der_size: usize,
            places: *mut Place,
            room: usize,
            count: *mut usize,
        ) -> u32;
        pub(super) fn cimaroly_findings(
            memory: *mut Memory,
            der: *const u8,
            der_size: usize,
            findings: *mut Finding,
            room: usize,
            count: *mut usize,
        ) -> u32;
        pub(super) fn cimaroly_request_findings(
            memory: *mut Memory,
            der: *const u8,
            der_size: usize,
            findings: *mut Finding,
            room: usize,
            count: *mut usize,
        ) -> u32;
    }
}

pub(crate) fn places(
    memory: &mut [Block],
    kind: u32,
    der: &[u8],
    out: &mut [Place],
    count: &mut usize,
) -> u32 {
    let mut memory = Memory::of(memory);
    let (at, room) = (out.as_mut_ptr(), out.len());
    // SAFETY: the head of the module around this one says why; `out` has room for `room` places, of
    // which any numbers are one.
    unsafe { c::cimaroly_places(&mut memory, kind, der.as_ptr(), der.len(), at, room, count) }
}

pub(crate) fn findings(
    memory: &mut [Block],
    der: &[u8],
    out: &mut [Finding],
    count: &mut usize,
) -> u32 {
    let mut memory = Memory::of(memory);
    let (at, room) = (out.as_mut_ptr(), out.len());
    // SAFETY: as above.
    unsafe { c::cimaroly_findings(&mut memory, der.as_ptr(), der.len(), at, room, count) }
}

pub(crate) fn request_findings(
    memory: &mut [Block],
    der: &[u8],
    out: &mut [Finding],
    count: &mut usize,
) -> u32 {
    let mut memory = Memory::of(memory);
    let (at, room) = (out.as_mut_ptr(), out.len());
    // SAFETY: as above.
    unsafe { c::cimaroly_request_findings(&mut memory, der.as_ptr(), der.len(), at, room, count) }
}
