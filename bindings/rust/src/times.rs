//! Times.

use core::fmt;

/// A second in UTC, in the Gregorian calendar. It prints as RFC 3339 has it.
#[derive(Clone, Copy, Debug, Default, PartialEq, Eq, Hash, PartialOrd, Ord)]
#[repr(C)]
#[non_exhaustive]
pub struct Time {
    /// Seconds since 1970-01-01 00:00:00, leap seconds not counted; below 0 before that.
    pub unix_time: i64,
    /// 0 to 9999.
    pub year: u16,
    /// 1 to 12.
    pub month: u8,
    /// 1 to 31.
    pub day: u8,
    /// 0 to 23.
    pub hour: u8,
    /// 0 to 59.
    pub minute: u8,
    /// 0 to 59.
    pub second: u8,
}

impl fmt::Display for Time {
    fn fmt(&self, f: &mut fmt::Formatter<'_>) -> fmt::Result {
        let Time { year, month, day, hour, minute, second, .. } = self;
        write!(f, "{year:04}-{month:02}-{day:02}T{hour:02}:{minute:02}:{second:02}Z")
    }
}

#[cfg(feature = "std")]
impl From<Time> for std::time::SystemTime {
    /// # Panics
    /// The system has no such time; those of Linux have all of them.
    fn from(time: Time) -> Self {
        let seconds = core::time::Duration::from_secs(time.unix_time.unsigned_abs());
        let epoch = std::time::SystemTime::UNIX_EPOCH;
        if time.unix_time < 0 {
            epoch - seconds
        } else {
            epoch + seconds
        }
    }
}
