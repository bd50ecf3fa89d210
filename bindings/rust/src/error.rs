//! Why a call gives no answer. The lists of reasons are written by `tools/make_tables.py`.

use core::fmt;

use crate::field_path::FieldPath;

/// Why a call gives no answer.
#[derive(Clone, Copy, Debug, PartialEq, Eq)]
#[non_exhaustive]
pub enum Error {
    /// The input encodes no value of the kind.
    Refused(Refused),
    /// The lent memory was too little; nothing is known of the input.
    OutOfMemory,
    /// The buffer is too short, and is unchanged.
    BufferTooShort {
        /// How many bytes or items are needed.
        needed: usize,
    },
    /// The encoding would have 2^64 bytes or more.
    TooLong,
    /// The call isn't for this kind.
    WrongKind,
}

impl fmt::Display for Error {
    fn fmt(&self, f: &mut fmt::Formatter<'_>) -> fmt::Result {
        match self {
            Error::Refused(refused) => refused.fmt(f),
            Error::OutOfMemory => f.write_str("the memory that was lent is too little"),
            Error::BufferTooShort { needed } => {
                write!(f, "the buffer is too short: {needed} are needed")
            }
            Error::TooLong => f.write_str("the encoding has 2^64 bytes or more"),
            Error::WrongKind => f.write_str("the call isn't for this kind"),
        }
    }
}

impl core::error::Error for Error {}

#[cfg(feature = "std")]
impl From<Error> for std::io::Error {
    fn from(error: Error) -> Self {
        let kind = match error {
            Error::Refused(_) => std::io::ErrorKind::InvalidData,
            Error::OutOfMemory => std::io::ErrorKind::OutOfMemory,
            _ => std::io::ErrorKind::InvalidInput,
        };
        std::io::Error::new(kind, error)
    }
}

/// Why and where an input is refused.
#[derive(Clone, Copy, Debug, PartialEq, Eq)]
pub struct Refused {
    /// Why.
    pub reason: Reason,
    /// The byte, from 0, that could not be read.
    pub at: usize,
    /// The field around that byte, if it has a name.
    pub field: Option<FieldPath>,
}

impl fmt::Display for Refused {
    fn fmt(&self, f: &mut fmt::Formatter<'_>) -> fmt::Result {
        write!(f, "{} at byte {}", self.reason, self.at)?;
        let Some(field) = &self.field else { return Ok(()) };
        for (index, name) in field.names().enumerate() {
            write!(f, "{}{name}", if index == 0 { " (in " } else { ", " })?;
        }
        f.write_str(")")
    }
}

impl core::error::Error for Refused {}

/// Why an input is refused.
#[derive(Clone, Copy, Debug, PartialEq, Eq, Hash)]
pub enum Reason {
    /// A request for memory was refused.
    OutOfMemory = 1,
    /// The input ends before the element does.
    Truncated = 2,
    /// Bytes are left over behind the value.
    LeftOver = 3,
    /// Another tag was asked for, or the tag is of several bytes.
    WrongTag = 4,
    /// The length digits are missing, indefinite or not the shortest.
    BadLength = 5,
    /// The content of an INTEGER is not minimal, or its number is out of range.
    BadNumber = 6,
    /// The content of a BOOLEAN is neither 00 nor FF.
    BadBoolean = 7,
    /// The count of unused bits of a BIT STRING is above 7, or not 0 where there are no bytes, or
    /// an unused bit is set.
    BadBits = 8,
    /// The content of an OBJECT IDENTIFIER is no list of numbers of at most 64 bits.
    BadOid = 9,
    /// A string holds a character that its type does not allow.
    BadText = 10,
    /// A time is not in its DER form, or its day does not exist.
    BadTime = 11,
    /// A version number is not one that the structure has.
    BadVersion = 12,
    /// An object identifier or a choice is not one that is understood.
    Unsupported = 13,
    /// A unique identifier stands in a certificate of version 1.
    UniqueIdNeedsV2 = 14,
    /// Extensions stand in a certificate that is not of version 3.
    ExtensionsNeedV3 = 15,
}

impl Reason {
    /// Every reason, in the order of their numbers.
    pub const ALL: [Reason; 15] = [
        Reason::OutOfMemory,
        Reason::Truncated,
        Reason::LeftOver,
        Reason::WrongTag,
        Reason::BadLength,
        Reason::BadNumber,
        Reason::BadBoolean,
        Reason::BadBits,
        Reason::BadOid,
        Reason::BadText,
        Reason::BadTime,
        Reason::BadVersion,
        Reason::Unsupported,
        Reason::UniqueIdNeedsV2,
        Reason::ExtensionsNeedV3,
    ];

    /// The number, from 1 to 15.
    #[must_use]
    pub const fn number(self) -> usize {
        self as usize
    }

    /// The reason of a number.
    #[must_use]
    pub fn from_number(number: usize) -> Option<Reason> {
        Reason::ALL.get(number.checked_sub(1)?).copied()
    }

    /// The name, in plain words.
    #[must_use]
    pub const fn name(self) -> &'static str {
        match self {
            Reason::OutOfMemory => "out of memory",
            Reason::Truncated => "truncated element",
            Reason::LeftOver => "bytes left over",
            Reason::WrongTag => "wrong tag",
            Reason::BadLength => "malformed length",
            Reason::BadNumber => "malformed number",
            Reason::BadBoolean => "malformed boolean",
            Reason::BadBits => "malformed bit string",
            Reason::BadOid => "malformed object identifier",
            Reason::BadText => "character not allowed",
            Reason::BadTime => "malformed time",
            Reason::BadVersion => "unknown version",
            Reason::Unsupported => "unsupported algorithm or choice",
            Reason::UniqueIdNeedsV2 => "unique identifier without version 2",
            Reason::ExtensionsNeedV3 => "extensions without version 3",
        }
    }
}

impl fmt::Display for Reason {
    fn fmt(&self, f: &mut fmt::Formatter<'_>) -> fmt::Result {
        f.write_str(self.name())
    }
}
