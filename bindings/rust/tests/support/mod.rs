//! The rows of `bindings/tests/table.tsv`, and elements to put inputs together of.
#![allow(dead_code)] // (no test needs all of it)

use std::collections::HashMap;
use std::fs;
use std::ops::Range;
use std::path::PathBuf;

use cimaroly::{Certificate, Deviation, Kind};

/// A row, with its input.
pub struct Row {
    cells: HashMap<String, String>,
    pub kind: Kind,
    pub der: Vec<u8>,
}

impl Row {
    pub fn cell(&self, column: &str) -> &str {
        &self.cells[column]
    }

    pub fn name(&self) -> &str {
        self.cell("name")
    }

    pub fn is_refused(&self) -> bool {
        self.cell("result") == "refused"
    }

    /// The deviations that are stated: each with its place.
    pub fn deviations(&self) -> Vec<(Deviation, Range<usize>)> {
        let cell = self.cell("deviations");
        let each = cell.split(' ').filter(|it| *it != "-").map(|it| {
            let (number, place) = it.split_once('@').unwrap();
            let number = number.parse().unwrap();
            (Deviation::from_number(number).unwrap(), span(place))
        });
        each.collect()
    }

    /// The DER encoding that is stated.
    pub fn encoding(&self) -> Vec<u8> {
        match self.cell("encoding") {
            "same" => self.der.clone(),
            digits => from_hex(digits),
        }
    }

    /// The places of the fields that are stated.
    pub fn fields(&self) -> HashMap<&str, Range<usize>> {
        let each = self.cell("fields").split(' ').map(|it| {
            let (name, place) = it.split_once('=').unwrap();
            (name, span(place))
        });
        each.collect()
    }

    /// The places of the extensions that are stated: of each and of its fields.
    pub fn extensions(&self) -> Vec<Vec<Range<usize>>> {
        let each = self.cell("extensions").split(' ').filter(|it| *it != "none");
        let spans = each.map(|it| it.split_once('=').unwrap().1.split(',').map(span).collect());
        spans.collect()
    }
}

/// `START..END`.
pub fn span(text: &str) -> Range<usize> {
    let (start, end) = text.split_once("..").unwrap();
    start.parse().unwrap()..end.parse().unwrap()
}

/// Every row.
pub fn rows() -> Vec<Row> {
    let table = fs::read_to_string(root().join("bindings/tests/table.tsv")).unwrap();
    let mut lines = table.lines().map(|line| line.split('\t'));
    let columns: Vec<&str> = lines.next().unwrap().collect();
    let rows = lines.map(|line| {
        let cells = columns.iter().copied().map(String::from);
        let cells: HashMap<_, _> = cells.zip(line.map(String::from)).collect();
        Row { kind: Kind::from_name(&cells["kind"]).unwrap(), der: input(&cells["input"]), cells }
    });
    rows.collect()
}

/// An element (X.690, 8.1).
pub fn element(tag: u8, parts: &[&[u8]]) -> Vec<u8> {
    let content = parts.concat();
    let size = content.len();
    let mut bytes = vec![tag];
    if size < 128 {
        bytes.push(u8::try_from(size).unwrap());
    } else {
        let size = u32::try_from(size).unwrap();
        bytes.push(0x84 - u8::try_from(size.leading_zeros() / 8).unwrap());
        bytes.extend(size.to_be_bytes().into_iter().skip(size.leading_zeros() as usize / 8));
    }
    bytes.extend(content);
    bytes
}

/// An attribute of a name (RFC 5280, 4.1.2.4).
pub fn attribute(oid: &[u8], tag: u8, value: &[u8]) -> Vec<u8> {
    element(0x30, &[&element(6, &[oid]), &element(tag, &[value])])
}

/// A certificate with another's parts but its subject and its extensions.
pub fn certificate_with(it: &Certificate<'_>, subject: &[u8], extensions: &[&[u8]]) -> Vec<u8> {
    let extensions = element(0xA3, &[&element(0x30, extensions)]);
    let signed = element(
        0x30,
        &[
            it.version.unwrap().bytes(),
            it.serial_number.bytes(),
            it.signature.bytes(),
            it.issuer.bytes(),
            it.validity.bytes(),
            subject,
            it.subject_public_key_info.bytes(),
            &extensions,
        ],
    );
    element(0x30, &[&signed, it.signature_algorithm.bytes(), it.signature_value.bytes()])
}

pub fn root() -> PathBuf {
    PathBuf::from(env!("CARGO_MANIFEST_DIR")).join("../..")
}

/// A file of `tools/tests/data`, or digits.
fn input(cell: &str) -> Vec<u8> {
    if !cell.contains('.') {
        return from_hex(cell);
    }
    let text = fs::read_to_string(root().join("tools/tests/data").join(cell)).unwrap();
    if text.starts_with("-----BEGIN ") {
        from_pem(&text)
    } else {
        from_hex(&text)
    }
}

pub fn from_hex(text: &str) -> Vec<u8> {
    let digits: Vec<u32> = text.chars().filter_map(|it| it.to_digit(16)).collect();
    let bytes = digits.chunks(2).map(|it| it[0] << 4 | it[1]);
    bytes.map(|it| u8::try_from(it).unwrap()).collect()
}

fn from_pem(text: &str) -> Vec<u8> {
    const DIGITS: &str = "ABCDEFGHIJKLMNOPQRSTUVWXYZabcdefghijklmnopqrstuvwxyz0123456789+/";
    let lines = text.lines().filter(|line| !line.starts_with("-----"));
    let (mut bytes, mut bits, mut count) = (Vec::new(), 0, 0);
    for value in lines.flat_map(str::chars).filter_map(|it| DIGITS.find(it)) {
        bits = (bits << 6 | value) & 0xFFFF;
        count += 6;
        if count >= 8 {
            count -= 8;
            bytes.push(u8::try_from(bits >> count & 0xFF).unwrap());
        }
    }
    bytes
}
