//! PEM (RFC 7468): the blocks of a text, with other text around them.

use core::fmt;
use core::iter::FusedIterator;

use crate::kind::Kind;
use crate::library::{self, pem, status, FlatPemBlock, Span};

/// The PEM blocks of a text, in its order, in the lax grammar of RFC 7468, section 3.
///
/// A boundary stands alone in its line but for white space, and a byte order mark before it; CR, LF,
/// or CR and LF end a line. Text around blocks is passed over. A block that isn't whole is among
/// them, and refused by [`PemBlock::decode`]; the text behind it is read on. It takes no memory.
///
/// ```
/// use cimaroly::{pem_blocks, PemError, PemFault};
///
/// let text = b"a key:\n-----BEGIN A-----\nAQID\n-----END A-----\n-----BEGIN B-----\nBA==\n";
/// let mut out = [0; 16];
/// let mut blocks = pem_blocks(text);
///
/// let block = blocks.next().unwrap();
/// assert_eq!((block.label(), block.first_line()), (&b"A"[..], 2));
/// assert_eq!(block.decode(&mut out)?, [1, 2, 3]);
///
/// let block = blocks.next().unwrap();
/// let refused = PemError::Refused { fault: PemFault::NoEnd, line: 6 };
/// assert_eq!(block.decode(&mut out), Err(refused));
/// assert!(blocks.next().is_none());
/// # Ok::<(), PemError>(())
/// ```
#[must_use]
pub fn pem_blocks(text: &[u8]) -> PemBlocks<'_> {
    PemBlocks { text, at: 0, line: 0 }
}

/// Decodes base64 text (RFC 4648, 4) with white space among its symbols, to the front of `out`, which
/// has room for three bytes for each four symbols. It takes no memory.
///
/// ```
/// let mut out = [0; 6];
/// assert_eq!(cimaroly::decode_base64(b"AQID\n BA==\n", &mut out), Ok(&[1, 2, 3, 4][..]));
/// ```
///
/// # Errors
/// [`PemError::BufferTooShort`], and [`PemError::Refused`] at the first line if it is the encoding of
/// no bytes; `out` may then hold bytes of the text before the fault.
pub fn decode_base64<'o>(text: &[u8], out: &'o mut [u8]) -> Result<&'o [u8], PemError> {
    decoded(text, 1, out)
}

/// The PEM blocks of a text, which [`pem_blocks`] gives.
#[derive(Clone)]
pub struct PemBlocks<'a> {
    text: &'a [u8],
    at: usize,
    line: u64,
}

impl fmt::Debug for PemBlocks<'_> {
    fn fmt(&self, f: &mut fmt::Formatter<'_>) -> fmt::Result {
        // (the text may have private keys)
        f.debug_struct("PemBlocks").field("at", &self.at).finish_non_exhaustive()
    }
}

impl<'a> Iterator for PemBlocks<'a> {
    type Item = PemBlock<'a>;

    fn next(&mut self) -> Option<PemBlock<'a>> {
        let mut found = FlatPemBlock::default();
        let answer = library::pem_next(self.text, self.at, self.line, &mut found);
        if answer == pem::NO_MORE {
            return None;
        }
        (self.at, self.line) = (found.next, found.next_line);
        Some(PemBlock {
            label: within(self.text, found.label),
            symbols: within(self.text, found.text),
            room: found.room,
            first_line: found.first_line,
            last_line: found.last_line,
            fault: PemFault::of(answer),
        })
    }
}

impl FusedIterator for PemBlocks<'_> {}

/// A block of a text, which borrows from it.
///
/// It may be a private key, so that `{:?}` tells none of its symbols.
#[derive(Clone, Copy, PartialEq, Eq)]
pub struct PemBlock<'a> {
    label: &'a [u8],
    symbols: &'a [u8],
    room: usize,
    first_line: u64,
    last_line: u64,
    fault: Option<PemFault>,
}

impl fmt::Debug for PemBlock<'_> {
    fn fmt(&self, f: &mut fmt::Formatter<'_>) -> fmt::Result {
        let mut told = f.debug_struct("PemBlock");
        told.field("label", &Escaped(self.label)).field("first_line", &self.first_line);
        told.field("last_line", &self.last_line).field("fault", &self.fault);
        told.finish_non_exhaustive()
    }
}

impl<'a> PemBlock<'a> {
    /// The label: what stands between `-----BEGIN ` and `-----`, of any bytes.
    #[must_use]
    pub fn label(&self) -> &'a [u8] {
        self.label
    }

    /// What the label says to read the block's bytes as, if it names a kind.
    #[must_use]
    pub fn kind(&self) -> Option<Kind> {
        Kind::from_label(self.label)
    }

    /// The base64 text between its boundaries, or up to the fault.
    #[must_use]
    pub fn symbols(&self) -> &'a [u8] {
        self.symbols
    }

    /// The number of the line that begins it, from 1.
    #[must_use]
    pub fn first_line(&self) -> u64 {
        self.first_line
    }

    /// The number of the line that ends it, or of that where the fault was met.
    #[must_use]
    pub fn last_line(&self) -> u64 {
        self.last_line
    }

    /// Why it can't be decoded, as far as that is known without decoding it.
    #[must_use]
    pub fn fault(&self) -> Option<PemFault> {
        self.fault
    }

    /// How many bytes a buffer must have room for, so that the block is decoded to it: three for each
    /// four symbols, and so up to two more than its bytes.
    #[must_use]
    pub fn room(&self) -> usize {
        self.room
    }

    /// Decodes the block to the front of `out`, and gives its bytes.
    ///
    /// # Errors
    /// [`PemError::Refused`], and `out` may then hold bytes of the text before the fault;
    /// [`PemError::BufferTooShort`].
    pub fn decode<'o>(&self, out: &'o mut [u8]) -> Result<&'o [u8], PemError> {
        match self.fault {
            Some(fault) => Err(PemError::Refused { fault, line: self.last_line }),
            None => decoded(self.symbols, self.last_line, out),
        }
    }

    /// The block's bytes, in memory from the global allocator.
    ///
    /// # Errors
    /// [`PemError::Refused`], and [`PemError::OutOfMemory`] if the allocator refuses memory.
    #[cfg(feature = "alloc")]
    pub fn to_vec(&self) -> Result<alloc::vec::Vec<u8>, PemError> {
        let mut out = alloc::vec::Vec::new();
        out.try_reserve_exact(self.room).map_err(|_| PemError::OutOfMemory)?;
        out.resize(self.room, 0);
        let size = self.decode(&mut out)?.len();
        out.truncate(size);
        Ok(out)
    }
}

/// What base64 text stands for, which has its last line at `line`.
fn decoded<'o>(text: &[u8], line: u64, out: &'o mut [u8]) -> Result<&'o [u8], PemError> {
    let mut size = 0;
    match library::pem_decode(text, out, &mut size) {
        status::OK => Ok(out.get(..size).unwrap_or_default()),
        status::BUFFER_TOO_SHORT => Err(PemError::BufferTooShort { needed: size }),
        _ => Err(PemError::Refused { fault: PemFault::BadBase64, line }),
    }
}

/// The bytes of a text in a span. (The library's spans lie within it; none else.)
fn within(text: &[u8], span: Span) -> &[u8] {
    text.get(span.start..span.end).unwrap_or_default()
}

/// Why a block of a text can't be decoded.
#[derive(Clone, Copy, Debug, PartialEq, Eq, Hash)]
pub enum PemFault {
    /// The END line has another label than the BEGIN line.
    LabelMismatch,
    /// There is no END line: another block begins, or the text ends, before.
    NoEnd,
    /// The block has headers (RFC 1421, 4.6), as keys have that a password encrypts.
    HasHeaders,
    /// It is base64 of no bytes: another symbol, padding that is missing or in the middle, or bits
    /// set behind the last byte.
    BadBase64,
}

impl PemFault {
    /// The fault of a block that was found.
    fn of(answer: u32) -> Option<Self> {
        match answer {
            pem::LABEL_MISMATCH => Some(PemFault::LabelMismatch),
            pem::NO_END => Some(PemFault::NoEnd),
            pem::HAS_HEADERS => Some(PemFault::HasHeaders),
            _ => None,
        }
    }

    /// The name, in plain words.
    #[must_use]
    pub const fn name(self) -> &'static str {
        match self {
            PemFault::LabelMismatch => "the end of another block",
            PemFault::NoEnd => "the block has no end",
            PemFault::HasHeaders => "the block has headers, and may be encrypted",
            PemFault::BadBase64 => "invalid base64",
        }
    }
}

impl fmt::Display for PemFault {
    fn fmt(&self, f: &mut fmt::Formatter<'_>) -> fmt::Result {
        f.write_str(self.name())
    }
}

/// Why a block gives no bytes.
#[derive(Clone, Copy, Debug, PartialEq, Eq)]
#[non_exhaustive]
pub enum PemError {
    /// The block can't be decoded.
    Refused {
        /// Why.
        fault: PemFault,
        /// The number of the line where that was met, from 1: of invalid base64, the block's last.
        line: u64,
    },
    /// The buffer is too short, and is unchanged.
    BufferTooShort {
        /// How many bytes of room are needed.
        needed: usize,
    },
    /// The global allocator refused memory.
    OutOfMemory,
}

impl fmt::Display for PemError {
    fn fmt(&self, f: &mut fmt::Formatter<'_>) -> fmt::Result {
        match self {
            PemError::Refused { fault, line } => write!(f, "line {line}: {fault}"),
            PemError::BufferTooShort { needed } => {
                write!(f, "the buffer is too short: {needed} are needed")
            }
            PemError::OutOfMemory => f.write_str("the allocator refuses memory"),
        }
    }
}

impl core::error::Error for PemError {}

/// Bytes as text, those that aren't printable ASCII as escapes.
struct Escaped<'a>(&'a [u8]);

impl fmt::Debug for Escaped<'_> {
    fn fmt(&self, f: &mut fmt::Formatter<'_>) -> fmt::Result {
        write!(f, "\"{}\"", self.0.escape_ascii())
    }
}
