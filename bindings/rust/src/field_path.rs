//! In which field an input is refused.

use core::fmt;
use core::str;

/// The longest path that there is room for. The library's longest has 76 bytes.
const LONGEST: usize = 95;

/// The names of the fields around a byte, from the outermost in.
///
/// ```
/// use cimaroly::{Block, Error, Kind, Reader};
///
/// // a name whose attribute has an identifier with a needless digit
/// let der = b"\x30\x0d\x31\x0b\x30\x09\x06\x03\x80\x04\x03\x13\x02\x61\x62";
/// let mut memory = [Block::UNINIT; 1024];
/// let answer = Reader::new(&mut memory).check(Kind::Name, der);
/// let Err(Error::Refused(refused)) = answer else { panic!() };
/// let field = refused.field.unwrap();
/// assert_eq!(field.as_str(), "RelativeDistinguishedName.AttributeTypeAndValue.type");
/// assert_eq!(field.names().last(), Some("type"));
/// ```
#[derive(Clone, Copy, PartialEq, Eq, Hash)]
pub struct FieldPath {
    text: [u8; LONGEST],
    length: u8,
}

impl FieldPath {
    /// The path that a report of a refused input ends in, if it names one.
    pub(crate) fn in_report(report: &[u8]) -> Option<Self> {
        let (_, path) = str::from_utf8(report).ok()?.split_once(r#","field":""#)?;
        let (path, _) = path.split_once('"')?;
        let mut text = [0; LONGEST];
        text.get_mut(..path.len())?.copy_from_slice(path.as_bytes());
        Some(FieldPath { text, length: u8::try_from(path.len()).ok()? })
    }

    /// The names, joined by dots, as in `tbsCertificate.validity.notBefore`.
    #[must_use]
    pub fn as_str(&self) -> &str {
        let text = self.text.get(..usize::from(self.length)).unwrap_or_default();
        str::from_utf8(text).unwrap_or_default()
    }

    /// The names, from the outermost in.
    pub fn names(&self) -> impl Iterator<Item = &str> {
        self.as_str().split('.')
    }
}

impl fmt::Display for FieldPath {
    fn fmt(&self, f: &mut fmt::Formatter<'_>) -> fmt::Result {
        f.pad(self.as_str())
    }
}

impl fmt::Debug for FieldPath {
    fn fmt(&self, f: &mut fmt::Formatter<'_>) -> fmt::Result {
        f.debug_tuple("FieldPath").field(&self.as_str()).finish()
    }
}
