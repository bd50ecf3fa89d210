//! Primitive values: numbers, texts, times, bits, object identifiers.

use crate::der::*;

/// How many bytes of an object identifier stand in the value.
const ROOM: usize = 22;

/// An object identifier, by its content.
pub enum Oid {
    Short(u8, [u8; ROOM]),
    Long(Vec<u8>),
}

fn is_oid(content: &[u8]) -> bool {
    let mut number: u64 = 0;
    let mut fresh = true;
    for byte in content {
        if number >= 1 << 57 || fresh && *byte == 0x80 {
            return false;
        }
        fresh = *byte < 0x80;
        number = if fresh { 0 } else { number << 7 | u64::from(byte & 0x7f) };
    }
    fresh && !content.is_empty()
}

impl Oid {
    pub fn read(reader: &mut Reader<'_>) -> Outcome<Self> {
        Self::of(reader.content(OBJECT_IDENTIFIER)?)
    }

    pub fn of(content: &[u8]) -> Outcome<Self> {
        if !is_oid(content) {
            return Err(Refused);
        }
        if content.len() > ROOM {
            return Ok(Oid::Long(content.to_vec()));
        }
        let mut bytes = [0; ROOM];
        bytes[..content.len()].copy_from_slice(content);
        Ok(Oid::Short(content.len() as u8, bytes))
    }

    pub fn content(&self) -> &[u8] {
        match self {
            Oid::Short(len, bytes) => &bytes[..usize::from(*len)],
            Oid::Long(bytes) => bytes,
        }
    }

    pub fn len(&self) -> usize {
        element_len(self.content().len())
    }

    pub fn write(&self, writer: &mut Writer<'_>) {
        writer.element(OBJECT_IDENTIFIER, self.content());
    }
}

/// The content of an INTEGER.
pub fn integer(reader: &mut Reader<'_>) -> Outcome<Vec<u8>> {
    let content = reader.content(INTEGER)?;
    is_integer(content)?;
    Ok(content.to_vec())
}

fn is_integer(content: &[u8]) -> Outcome<()> {
    match content {
        [] | [0x00, 0x00..=0x7f, ..] | [0xff, 0x80..=0xff, ..] => Err(Refused),
        _ => Ok(()),
    }
}

/// An INTEGER of 0 to 255.
pub fn small(reader: &mut Reader<'_>) -> Outcome<u8> {
    match reader.content(INTEGER)? {
        [byte @ 0x00..=0x7f] | [0, byte @ 0x80..=0xff] => Ok(*byte),
        _ => Err(Refused),
    }
}

pub fn small_len(value: u8) -> usize {
    if value < 0x80 { 3 } else { 4 }
}

pub fn write_small(value: u8, writer: &mut Writer<'_>) {
    if value < 0x80 {
        writer.element(INTEGER, &[value]);
    } else {
        writer.element(INTEGER, &[0, value]);
    }
}

pub fn boolean(reader: &mut Reader<'_>) -> Outcome<bool> {
    match reader.content(BOOLEAN)? {
        [0xff] => Ok(true),
        [0x00] => Ok(false),
        _ => Err(Refused),
    }
}

pub fn write_boolean(value: bool, writer: &mut Writer<'_>) {
    writer.element(BOOLEAN, &[if value { 0xff } else { 0 }]);
}

/// Bits, with the number of those in the last byte that aren't used, which are zero.
pub fn bits(reader: &mut Reader<'_>) -> Outcome<Vec<u8>> {
    let content = reader.content(BIT_STRING)?;
    let (unused, bytes) = content.split_first().ok_or(Refused)?;
    let last = bytes.last().copied().unwrap_or(0);
    if *unused > 7 || bytes.is_empty() && *unused > 0 || last.trailing_zeros() < u32::from(*unused) {
        return Err(Refused);
    }
    Ok(content.to_vec())
}

/// A text with its tag.
pub struct Text {
    pub tag: u8,
    pub bytes: Vec<u8>,
}

fn is_printable(byte: u8) -> bool {
    byte.is_ascii_alphanumeric() || b" '()+,-./:=?".contains(&byte)
}

fn is_text(tag: u8, bytes: &[u8]) -> bool {
    match tag {
        UTF8_STRING => std::str::from_utf8(bytes).is_ok(),
        PRINTABLE_STRING => bytes.iter().all(|byte| is_printable(*byte)),
        IA5_STRING => bytes.is_ascii(),
        BMP_STRING => bytes.len() % 2 == 0,
        _ => tag == TELETEX_STRING,
    }
}

impl Text {
    pub fn read(tag: u8, reader: &mut Reader<'_>) -> Outcome<Self> {
        let bytes = reader.content(tag)?;
        if !is_text(tag, bytes) {
            return Err(Refused);
        }
        Ok(Text { tag, bytes: bytes.to_vec() })
    }

    pub fn directory(reader: &mut Reader<'_>) -> Outcome<Self> {
        match reader.tag() {
            Some(tag @ (UTF8_STRING | PRINTABLE_STRING | BMP_STRING)) => Self::read(tag, reader),
            _ => Err(Refused),
        }
    }
}

/// The bytes of an IA5String under an implicit tag.
pub fn ia5_as(tag: u8, reader: &mut Reader<'_>) -> Outcome<Vec<u8>> {
    let bytes = reader.content(tag)?;
    if !is_text(IA5_STRING, bytes) {
        return Err(Refused);
    }
    Ok(bytes.to_vec())
}

/// A time: a second of the calendar.
#[derive(Clone, Copy)]
pub struct Time {
    pub is_utc: bool,
    pub year: u16,
    pub rest: [u8; 5],
}

fn two(bytes: &[u8]) -> Outcome<u8> {
    match bytes {
        [high @ b'0'..=b'9', low @ b'0'..=b'9'] => Ok((high - b'0') * 10 + low - b'0'),
        _ => Err(Refused),
    }
}

fn days_in(year: u16, month: u8) -> u8 {
    match month {
        2 if year % 4 == 0 && (year % 100 != 0 || year % 400 == 0) => 29,
        2 => 28,
        4 | 6 | 9 | 11 => 30,
        _ => 31,
    }
}

impl Time {
    pub fn read(reader: &mut Reader<'_>) -> Outcome<Self> {
        let is_utc = reader.tag() == Some(UTC_TIME);
        let content = reader.content(if is_utc { UTC_TIME } else { GENERALIZED_TIME })?;
        let count = if is_utc { 2 } else { 4 };
        if content.len() != count + 11 || content[count + 10] != b'Z' {
            return Err(Refused);
        }
        let year = if is_utc {
            let year = u16::from(two(&content[..2])?);
            if year < 50 { 2000 + year } else { 1900 + year }
        } else {
            u16::from(two(&content[..2])?) * 100 + u16::from(two(&content[2..4])?)
        };
        let mut rest = [0; 5];
        for (part, digits) in rest.iter_mut().zip(content[count..].chunks(2)) {
            *part = two(digits)?;
        }
        let [month, day, hour, minute, second] = rest;
        let is_date = (1..=12).contains(&month) && 1 <= day && day <= days_in(year, month);
        if !is_date || hour > 23 || minute > 59 || second > 59 {
            return Err(Refused);
        }
        Ok(Time { is_utc, year, rest })
    }

    pub fn len(&self) -> usize {
        if self.is_utc { 15 } else { 17 }
    }

    pub fn write(&self, writer: &mut Writer<'_>) {
        let end = writer.start();
        writer.byte(b'Z');
        for part in self.rest.iter().rev() {
            writer.byte(b'0' + part % 10);
            writer.byte(b'0' + part / 10);
        }
        let (mut year, count) = if self.is_utc { (self.year % 100, 2) } else { (self.year, 4) };
        for _ in 0..count {
            writer.byte(b'0' + (year % 10) as u8);
            year /= 10;
        }
        writer.header(if self.is_utc { UTC_TIME } else { GENERALIZED_TIME }, end);
    }
}
