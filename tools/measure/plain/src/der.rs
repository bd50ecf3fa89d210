//! Elements in DER: a reader over bytes, and a writer that fills a slice from its end.

/// The bytes are refused.
#[derive(Debug)]
pub struct Refused;

pub type Outcome<T> = Result<T, Refused>;

pub const BOOLEAN: u8 = 0x01;
pub const INTEGER: u8 = 0x02;
pub const BIT_STRING: u8 = 0x03;
pub const OCTET_STRING: u8 = 0x04;
pub const NULL: u8 = 0x05;
pub const OBJECT_IDENTIFIER: u8 = 0x06;
pub const UTF8_STRING: u8 = 0x0c;
pub const PRINTABLE_STRING: u8 = 0x13;
pub const TELETEX_STRING: u8 = 0x14;
pub const IA5_STRING: u8 = 0x16;
pub const UTC_TIME: u8 = 0x17;
pub const GENERALIZED_TIME: u8 = 0x18;
pub const BMP_STRING: u8 = 0x1e;
pub const SEQUENCE: u8 = 0x30;
pub const SET: u8 = 0x31;

/// What is left of the bytes.
#[derive(Clone, Copy)]
pub struct Reader<'a> {
    rest: &'a [u8],
}

impl<'a> Reader<'a> {
    pub fn new(rest: &'a [u8]) -> Self {
        Reader { rest }
    }

    pub fn is_empty(&self) -> bool {
        self.rest.is_empty()
    }

    pub fn rest(&self) -> &'a [u8] {
        self.rest
    }

    /// The tag that comes next, if any does.
    pub fn tag(&self) -> Option<u8> {
        self.rest.first().copied()
    }

    /// How long the next header is, and its content.
    fn lengths(&self) -> Outcome<(usize, usize)> {
        let first = *self.rest.get(1).ok_or(Refused)?;
        if first < 0x80 {
            return Ok((2, usize::from(first)));
        }
        let count = usize::from(first & 0x7f);
        if count == 0 || count > 8 {
            return Err(Refused);
        }
        let digits = self.rest.get(2..2 + count).ok_or(Refused)?;
        let len = digits.iter().fold(0, |len, digit| len << 8 | usize::from(*digit));
        if digits[0] == 0 || len < 0x80 {
            return Err(Refused);
        }
        Ok((2 + count, len))
    }

    /// The content of the next element, which has this tag.
    pub fn content(&mut self, tag: u8) -> Outcome<&'a [u8]> {
        if self.tag() != Some(tag) {
            return Err(Refused);
        }
        let (header, len) = self.lengths()?;
        let behind = &self.rest[header..];
        if behind.len() < len {
            return Err(Refused);
        }
        let (content, rest) = behind.split_at(len);
        self.rest = rest;
        Ok(content)
    }

    /// The next element, with its header.
    pub fn element(&mut self) -> Outcome<&'a [u8]> {
        let (header, len) = self.lengths()?;
        let end = header.checked_add(len).ok_or(Refused)?;
        if self.rest.len() < end {
            return Err(Refused);
        }
        let (element, rest) = self.rest.split_at(end);
        self.rest = rest;
        Ok(element)
    }

    /// A reader over the content of the next element, which has this tag.
    pub fn enter(&mut self, tag: u8) -> Outcome<Reader<'a>> {
        Ok(Reader::new(self.content(tag)?))
    }

    /// Refuses what is left over.
    pub fn end(&self) -> Outcome<()> {
        if self.is_empty() {
            Ok(())
        } else {
            Err(Refused)
        }
    }
}

/// All items of a list.
pub fn items<T>(reader: &mut Reader<'_>, read: impl Fn(&mut Reader<'_>) -> Outcome<T>) -> Outcome<Vec<T>> {
    let mut items = Vec::new();
    while !reader.is_empty() {
        items.push(read(reader)?);
    }
    Ok(items)
}

/// A slice that is filled from its end, where the length of a content is known when its header is written.
pub struct Writer<'a> {
    out: &'a mut [u8],
    start: usize,
}

impl<'a> Writer<'a> {
    pub fn new(out: &'a mut [u8]) -> Self {
        let start = out.len();
        Writer { out, start }
    }

    pub fn start(&self) -> usize {
        self.start
    }

    pub fn byte(&mut self, byte: u8) {
        self.start -= 1;
        self.out[self.start] = byte;
    }

    pub fn bytes(&mut self, bytes: &[u8]) {
        let end = self.start;
        self.start -= bytes.len();
        self.out[self.start..end].copy_from_slice(bytes);
    }

    /// The header in front of what was written since `end`.
    pub fn header(&mut self, tag: u8, end: usize) {
        let mut len = end - self.start;
        if len < 0x80 {
            self.byte(len as u8);
        } else {
            let mut count = 0;
            while len > 0 {
                self.byte(len as u8);
                len >>= 8;
                count += 1;
            }
            self.byte(0x80 | count);
        }
        self.byte(tag);
    }

    pub fn element(&mut self, tag: u8, content: &[u8]) {
        let end = self.start;
        self.bytes(content);
        self.header(tag, end);
    }

    pub fn around(&mut self, tag: u8, write: impl FnOnce(&mut Self)) {
        let end = self.start;
        write(self);
        self.header(tag, end);
    }
}

/// How long a header and its content are.
pub fn element_len(content: usize) -> usize {
    let digits = if content < 0x80 { 0 } else { (usize::BITS - content.leading_zeros()).div_ceil(8) as usize };
    2 + digits + content
}
