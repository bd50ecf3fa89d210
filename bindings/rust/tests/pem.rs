//! Every text of the table that whatever reads PEM is tested with (`bindings/tests/pem.tsv`).

use std::fmt::Write as _;
use std::fs;
use std::path::PathBuf;

use cimaroly::{decode_base64, pem_blocks, Kind, PemBlock, PemError, PemFault};

/// A text, with its name and the blocks that are stated.
struct Row {
    name: String,
    text: Vec<u8>,
    stated: String,
}

fn root() -> PathBuf {
    PathBuf::from(env!("CARGO_MANIFEST_DIR")).join("../..")
}

fn rows() -> Vec<Row> {
    let table = fs::read_to_string(root().join("bindings/tests/pem.tsv")).unwrap();
    let lines = table.lines().filter(|line| !line.is_empty() && !line.starts_with('#'));
    let rows: Vec<_> = lines
        .map(|line| {
            let cells: Vec<&str> = line.split('\t').collect();
            let (name, stated) = (cells[0].to_string(), cells[2].to_string());
            Row { name, text: unescaped(cells[1]), stated }
        })
        .collect();
    assert!(rows.len() > 30);
    rows
}

/// What escapes of Python stand for.
fn unescaped(text: &str) -> Vec<u8> {
    let (mut bytes, mut rest) = (Vec::new(), text.as_bytes());
    while let [first, behind @ ..] = rest {
        let (byte, after) = match (first, behind) {
            (b'\\', [b'n', after @ ..]) => (b'\n', after),
            (b'\\', [b'r', after @ ..]) => (b'\r', after),
            (b'\\', [b't', after @ ..]) => (b'\t', after),
            (b'\\', [b'x', high, low, after @ ..]) => (hex(*high) << 4 | hex(*low), after),
            _ => (*first, behind),
        };
        bytes.push(byte);
        rest = after;
    }
    bytes
}

fn hex(digit: u8) -> u8 {
    u8::try_from(char::from(digit).to_digit(16).unwrap()).unwrap()
}

/// A block as the table has it, decoded into just enough room.
fn told(block: &PemBlock<'_>) -> String {
    let label = String::from_utf8(block.label().to_vec()).unwrap();
    let mut out = vec![7; block.room() + 2];
    let fault = match block.decode(&mut out[..block.room()]) {
        Ok(bytes) => {
            let mut told = format!("{label}@{}=", block.first_line());
            for byte in bytes {
                write!(told, "{byte:02x}").unwrap();
            }
            return told;
        }
        Err(PemError::Refused { fault, line }) => {
            assert_eq!(line, block.last_line());
            assert_eq!(block.fault().unwrap_or(PemFault::BadBase64), fault);
            fault
        }
        Err(other) => panic!("{other}"),
    };
    let fault = match fault {
        PemFault::LabelMismatch => "label",
        PemFault::NoEnd => "end",
        PemFault::HasHeaders => "headers",
        PemFault::BadBase64 => "base64",
    };
    format!("{label}!{fault}")
}

#[test]
fn texts() {
    for row in rows() {
        let blocks: Vec<String> = pem_blocks(&row.text).map(|it| told(&it)).collect();
        assert_eq!(blocks.join(" "), row.stated, "{}", row.name);
    }
}

#[test]
fn lines() {
    for row in rows() {
        for block in pem_blocks(&row.text) {
            assert!(1 <= block.first_line() && block.first_line() <= block.last_line());
        }
        let mut blocks = pem_blocks(&row.text);
        while blocks.next().is_some() {}
        assert!(blocks.next().is_none(), "{}", row.name);
    }
}

#[test]
fn too_little_room() {
    let text = b"-----BEGIN A-----\nAQIDBA==\n-----END A-----\n";
    let block = pem_blocks(text).next().unwrap();
    let mut out = [7; 5];
    assert_eq!(block.decode(&mut out), Err(PemError::BufferTooShort { needed: 6 }));
    assert_eq!(out, [7; 5]);
    let mut out = [7; 8];
    assert_eq!(block.decode(&mut out), Ok(&[1, 2, 3, 4][..]));
    assert_eq!(out[6..], [7, 7]);
}

#[test]
fn bare_base64() {
    let mut out = [0; 6];
    assert_eq!(decode_base64(b"AQID", &mut out), Ok(&[1, 2, 3][..]));
    let refused = PemError::Refused { fault: PemFault::BadBase64, line: 1 };
    assert_eq!(decode_base64(b"AQI", &mut out), Err(refused));
    assert_eq!(decode_base64(b"", &mut []), Ok(&[][..]));
}

/// What a label says is what the certificate is read as, and it is read.
#[test]
fn a_certificate() {
    let path = root().join("tools/tests/data/certificate_ec.pem");
    let text = fs::read(path).unwrap();
    let block = pem_blocks(&text).next().unwrap();
    assert_eq!(block.kind(), Some(Kind::Certificate));
    let mut memory = [cimaroly::Block::UNINIT; 1024];
    let mut out = [0; 4096];
    let der = block.decode(&mut out).unwrap();
    assert!(cimaroly::Reader::new(&mut memory).check(Kind::Certificate, der).unwrap().is_der());
    #[cfg(feature = "alloc")]
    assert_eq!(block.to_vec().unwrap(), der);
}

#[test]
fn labels_of_kinds() {
    assert_eq!(Kind::from_label(b"X509 CERTIFICATE"), Some(Kind::Certificate));
    assert_eq!(Kind::from_label(b"PRIVATE KEY"), Some(Kind::PrivateKey));
    assert_eq!(Kind::from_label(b"DH PARAMETERS"), None);
}

/// `{:?}` tells none of a block's symbols, which may be a private key's.
#[test]
fn debug_tells_no_secret() {
    let text = b"-----BEGIN \xff-----\nU0VDUkVU\n-----END \xff-----\n";
    let blocks = pem_blocks(text);
    assert!(!format!("{blocks:?}").contains("85"));
    let told = format!("{:?}", blocks.clone().next().unwrap());
    assert!(!told.contains("U0VD") && !told.contains("85"), "{told}");
    assert!(told.contains(r#"label: "\xff", first_line: 1, last_line: 3"#), "{told}");
}

#[test]
fn refusals_print() {
    let text = b"\n-----BEGIN A-----\nAQID\n-----END B-----\n";
    let error = pem_blocks(text).next().unwrap().decode(&mut [0; 9]).unwrap_err();
    assert_eq!(error.to_string(), "line 4: the end of another block");
}
