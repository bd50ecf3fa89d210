//! How the values of names are written (RFC 4514, 2).

use core::char::{decode_utf16, REPLACEMENT_CHARACTER};
use core::fmt::{self, Write};

use crate::oid::Oid;

/// The types of attributes that have a short name (RFC 4514, 3), by the content of their identifiers.
const SHORT: [(&[u8], &str); 9] = [
    (&[0x55, 4, 3], "CN"),
    (&[0x55, 4, 7], "L"),
    (&[0x55, 4, 8], "ST"),
    (&[0x55, 4, 10], "O"),
    (&[0x55, 4, 11], "OU"),
    (&[0x55, 4, 6], "C"),
    (&[0x55, 4, 9], "STREET"),
    (&[0x09, 0x92, 0x26, 0x89, 0x93, 0xF2, 0x2C, 0x64, 1, 25], "DC"),
    (&[0x09, 0x92, 0x26, 0x89, 0x93, 0xF2, 0x2C, 0x64, 1, 1], "UID"),
];

/// The short name of an attribute's type, if it has one.
pub(crate) fn short_name(oid: Oid<'_>) -> Option<&'static str> {
    SHORT.iter().find(|it| it.0 == oid.content()).map(|it| it.1)
}

/// The characters of a `BMPString`; U+FFFD of a surrogate without its partner.
pub(crate) fn utf16(content: &[u8]) -> impl Iterator<Item = char> + Clone + '_ {
    let units = content.chunks_exact(2).map(|it| u16::from(it[0]) << 8 | u16::from(it[1]));
    decode_utf16(units).map(|it| it.unwrap_or(REPLACEMENT_CHARACTER))
}

/// Whether a character can't be seen, or changes the direction of others.
fn is_hidden(symbol: char) -> bool {
    symbol.is_control()
        || matches!(symbol, '\u{AD}' | '\u{61C}' | '\u{FEFF}' | '\u{200B}'..='\u{200F}')
        || matches!(symbol, '\u{2028}'..='\u{202E}' | '\u{2060}'..='\u{206F}')
        || matches!(symbol, '\u{FFF9}'..='\u{FFFB}' | '\u{E0000}'..='\u{E007F}')
}

/// Writes a text as RFC 4514, 2.4 escapes it. What can't be seen, or changes the direction of text, is
/// escaped as well.
pub(crate) fn escaped(f: &mut fmt::Formatter<'_>, text: impl Iterator<Item = char>) -> fmt::Result {
    let (mut text, mut is_first) = (text.peekable(), true);
    while let Some(symbol) = text.next() {
        let is_edge = match symbol {
            ' ' => is_first || text.peek().is_none(),
            '#' => is_first,
            _ => matches!(symbol, '"' | '+' | ',' | ';' | '<' | '>' | '\\'),
        };
        is_first = false;
        if is_hidden(symbol) {
            for byte in symbol.encode_utf8(&mut [0; 4]).bytes() {
                write!(f, "\\{byte:02X}")?;
            }
            continue;
        }
        if is_edge {
            f.write_char('\\')?;
        }
        f.write_char(symbol)?;
    }
    Ok(())
}

/// Writes an element in hexadecimal, by its tag and its content (X.690, 8.1 and 10.1).
pub(crate) fn encoded(f: &mut fmt::Formatter<'_>, tag: u8, content: &[u8]) -> fmt::Result {
    let size = content.len();
    write!(f, "{tag:02x}")?;
    if size < 128 {
        write!(f, "{size:02x}")?;
    } else {
        let digits = size.to_be_bytes();
        let digits = digits.get((size.leading_zeros() / 8) as usize..).unwrap_or_default();
        write!(f, "{:02x}", 128 + digits.len())?;
        digits.iter().try_for_each(|byte| write!(f, "{byte:02x}"))?;
    }
    content.iter().try_for_each(|byte| write!(f, "{byte:02x}"))
}
