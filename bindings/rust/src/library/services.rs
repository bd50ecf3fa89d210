//! The calls of `libcimaroly.a` for access descriptions, policies and distribution points, each
//! behind a safe function of the same name.
//!
//! What `cimaroly.h` asks of a caller holds as the module around this one says. No call here works
//! in memory that it is lent.

use super::{GeneralNamePlace, Span};

/// `struct cimaroly_access`.
#[derive(Clone, Copy, Default)]
#[repr(C)]
pub(crate) struct AccessPlace {
    pub(crate) method: Span,
    pub(crate) location: GeneralNamePlace,
}

/// `struct cimaroly_point`.
#[derive(Clone, Copy, Default)]
#[repr(C)]
pub(crate) struct PointPlace {
    pub(crate) name: Span,
    pub(crate) reasons: Span,
    pub(crate) issuer: Span,
}

mod c {
    use super::{AccessPlace, GeneralNamePlace, PointPlace, Span};

    extern "C" {
        pub(super) fn cimaroly_access_descriptions(
            value: *const u8,
            value_size: usize,
            accesses: *mut AccessPlace,
            room: usize,
            count: *mut usize,
        ) -> u32;
        pub(super) fn cimaroly_policies(
            value: *const u8,
            value_size: usize,
            policies: *mut Span,
            room: usize,
            count: *mut usize,
        ) -> u32;
        pub(super) fn cimaroly_distribution_points(
            value: *const u8,
            value_size: usize,
            points: *mut PointPlace,
            room: usize,
            count: *mut usize,
        ) -> u32;
        pub(super) fn cimaroly_point_names(
            name: *const u8,
            name_size: usize,
            names: *mut GeneralNamePlace,
            room: usize,
            count: *mut usize,
        ) -> u32;
    }
}

pub(crate) fn access_descriptions(value: &[u8], out: &mut [AccessPlace], count: &mut usize) -> u32 {
    let (at, room) = (out.as_mut_ptr(), out.len());
    // SAFETY: the head of the module around this one says why; `out` has room for `room` places, of
    // which any numbers are one.
    unsafe { c::cimaroly_access_descriptions(value.as_ptr(), value.len(), at, room, count) }
}

pub(crate) fn policies(value: &[u8], out: &mut [Span], count: &mut usize) -> u32 {
    let (at, room) = (out.as_mut_ptr(), out.len());
    // SAFETY: as above.
    unsafe { c::cimaroly_policies(value.as_ptr(), value.len(), at, room, count) }
}

pub(crate) fn distribution_points(value: &[u8], out: &mut [PointPlace], count: &mut usize) -> u32 {
    let (at, room) = (out.as_mut_ptr(), out.len());
    // SAFETY: as above.
    unsafe { c::cimaroly_distribution_points(value.as_ptr(), value.len(), at, room, count) }
}

pub(crate) fn point_names(name: &[u8], out: &mut [GeneralNamePlace], count: &mut usize) -> u32 {
    let (at, room) = (out.as_mut_ptr(), out.len());
    // SAFETY: as above.
    unsafe { c::cimaroly_point_names(name.as_ptr(), name.len(), at, room, count) }
}
