//! Certificates as one would read and write them by hand in Rust, owned, with the types that the library has: what the
//! library's numbers are compared with. It is written for nothing else, and tested only in that it writes what it reads.

mod certificate;
mod der;
mod extensions;
mod names;
mod primitive;

use certificate::Certificate;
use std::slice;

/// A call as the driver numbers it: 0, 4 and 5 a read alone; 1 the length, 2 a vector, 3 a slice, each behind a read.
///
/// # Safety
/// `bytes` has `len` bytes, and `out` has room for `room`.
#[no_mangle]
pub unsafe extern "C" fn plain_certificate(call: u8, bytes: *const u8, len: usize, out: *mut u8, room: usize) -> usize {
    let (bytes, out) = (slice::from_raw_parts(bytes, len), slice::from_raw_parts_mut(out, room));
    let Ok(certificate) = Certificate::from_bytes(bytes) else {
        return 0;
    };
    match call {
        1 => certificate.len(),
        2 => certificate.to_vec().len(),
        3 => certificate.write(out),
        _ => 1,
    }
}
