//! Every row of the table that all bindings are tested with, and the memory that is lent.

mod support;

use cimaroly::{
    Block, Counts, Deviation, Error, Extension, ExtensionPlaces, Field, FieldPath, Kind, Place,
    Reader, Reason,
};
use support::{rows, span, Row};

/// What there is plenty of: 1 MB.
const PLENTY: usize = 65536;

/// Each row whose input is read, or is refused, over plenty of memory.
fn each(is_refused: bool, mut test: impl FnMut(&Row, &mut Reader<'_>)) {
    let mut memory = vec![Block::UNINIT; PLENTY];
    let mut reader = Reader::new(&mut memory);
    let rows = rows();
    assert!(rows.len() > 50);
    for row in rows.iter().filter(|row| row.is_refused() == is_refused) {
        test(row, &mut reader);
    }
}

/// How often each deviation is stated that lies within some bytes, or of all.
fn stated(row: &Row, is_counted: impl Fn(usize, usize) -> bool) -> Vec<(Deviation, usize)> {
    let within = row.deviations();
    let within = within.iter().filter(|it| is_counted(it.1.start, it.1.end));
    let found: Vec<Deviation> = within.map(|it| it.0).collect();
    let count = |kind| found.iter().filter(|it| **it == kind).count();
    let all = Deviation::ALL.into_iter().map(|kind| (kind, count(kind)));
    all.filter(|it| it.1 > 0).collect()
}

fn told(counts: &Counts) -> Vec<(Deviation, usize)> {
    counts.iter().collect()
}

#[test]
fn checks() {
    each(false, |row, reader| {
        let verdict = reader.check(row.kind, &row.der).unwrap();
        assert_eq!(told(&verdict.counts), stated(row, |_, _| true), "{}", row.name());
        assert_eq!(verdict.is_der(), row.cell("result") == "ok", "{}", row.name());
        assert!(verdict.headers > 0, "{}", row.name());
    });
}

#[test]
fn refused() {
    each(true, |row, reader| {
        let Err(Error::Refused(refused)) = reader.check(row.kind, &row.der) else {
            panic!("{} is read", row.name());
        };
        if row.cell("error") != "-" {
            let text = format!("{}@{}", refused.reason.number(), refused.at);
            assert_eq!(text, row.cell("error"), "{}", row.name());
        }
        if row.cell("field") != "-" {
            let field = refused.field.as_ref().map_or("none", FieldPath::as_str);
            assert_eq!(field, row.cell("field"), "{}", row.name());
        }
        let mut out = [0; 1024];
        let error = reader.encode(row.kind, &row.der, &mut out).unwrap_err();
        assert_eq!(error, Error::Refused(refused), "{}", row.name());
    });
}

/// A refusal prints as the program's does (docs/PROGRAMS.md).
#[test]
fn refusals_print() {
    let rows = rows();
    let text = |name: &str| {
        let row = rows.iter().find(|row| row.name() == name).unwrap();
        let mut memory = [Block::UNINIT; 1024];
        Reader::new(&mut memory).check(row.kind, &row.der).unwrap_err().to_string()
    };
    let in_field = "malformed time at byte 25 (in tbsCertificate, validity, notBefore)";
    assert_eq!(text("month_13"), in_field);
    assert_eq!(text("key_cut_short"), "truncated element at byte 14 (in privateKey)");
    assert_eq!(text("another_tag"), "wrong tag at byte 0");
}

#[test]
fn encodings() {
    each(false, |row, reader| {
        let stated = row.encoding();
        let mut out = vec![7; stated.len()];
        assert_eq!(reader.encode(row.kind, &row.der, &mut out), Ok(&stated[..]), "{}", row.name());
        // a buffer that is too short is as it was
        let mut short = vec![7; stated.len() - 1];
        let error = Error::BufferTooShort { needed: stated.len() };
        assert_eq!(reader.encode(row.kind, &row.der, &mut short), Err(error), "{}", row.name());
        assert!(short.iter().all(|it| *it == 7), "{}", row.name());
    });
}

#[test]
fn places() {
    each(false, |row, reader| {
        let mut out = [Place::EMPTY; 16];
        let places = reader.places(row.kind, &row.der, &mut out).unwrap();
        let places = places.iter().map(|it| (it.deviation().unwrap(), it.start..it.end));
        assert_eq!(places.collect::<Vec<_>>(), row.deviations(), "{}", row.name());
    });
}

#[test]
fn signed_parts() {
    each(false, |row, reader| {
        let found = reader.signed_part(row.kind, &row.der);
        if row.cell("signed") == "-" {
            assert_eq!(found, Err(Error::WrongKind), "{}", row.name());
            return;
        }
        let (found, place) = (found.unwrap(), span(row.cell("signed")));
        let is_inside = |start, end| place.start <= start && end <= place.end;
        assert_eq!(found.part.range(), place, "{}", row.name());
        assert_eq!(found.part.bytes(), &row.der[place.clone()], "{}", row.name());
        assert_eq!(told(&found.inside), stated(row, is_inside), "{}", row.name());
        let outside = stated(row, |start, end| !is_inside(start, end));
        assert_eq!(told(&found.outside), outside, "{}", row.name());
    });
}

/// The fields that are there are those that are stated.
fn same_fields(row: &Row, fields: &[(&str, Option<Field<'_>>)]) {
    let mut stated = row.fields();
    for (name, field) in fields {
        assert_eq!(field.map(|it| it.range()), stated.remove(name), "{}: {name}", row.name());
    }
    assert!(stated.is_empty(), "{}: {stated:?}", row.name());
}

/// The fields of what a reader tells, each with its name; those that may be left out stand behind
/// the semicolon.
macro_rules! fields {
    ($it:expr; $($field:ident)*; $($optional:ident)*) => {{
        let it = $it.unwrap();
        [
            $((stringify!($field), Some(it.$field)),)*
            $((stringify!($optional), it.$optional),)*
        ]
    }};
}

macro_rules! certificate_fields {
    ($it:expr) => {
        fields!($it; tbs_certificate serial_number signature issuer validity subject
            subject_public_key_info signature_algorithm signature_value;
            version issuer_unique_id subject_unique_id extensions)
    };
}

macro_rules! request_fields {
    ($it:expr) => {
        fields!($it; certification_request_info version subject subject_public_key_info attributes
            signature_algorithm signature;)
    };
}

macro_rules! private_key_fields {
    ($it:expr) => {
        fields!($it; version private_key_algorithm private_key; skipped public_key)
    };
}

#[test]
fn fields_of_each_kind() {
    each(false, |row, reader| {
        let der = &row.der;
        match row.kind {
            Kind::Certificate => same_fields(row, &certificate_fields!(reader.certificate(der))),
            Kind::CertificateOutline => {
                same_fields(row, &certificate_fields!(reader.certificate_outline(der)));
            }
            Kind::Request => same_fields(row, &request_fields!(reader.request(der))),
            Kind::RequestOutline => same_fields(row, &request_fields!(reader.request_outline(der))),
            Kind::PrivateKey => same_fields(row, &private_key_fields!(reader.private_key(der))),
            Kind::PrivateKeyOutline => {
                same_fields(row, &private_key_fields!(reader.private_key_outline(der)));
            }
            Kind::Crl => {
                let fields = fields!(reader.crl(der); tbs_cert_list signature issuer this_update
                    signature_algorithm signature_value;
                    version next_update revoked_certificates crl_extensions);
                same_fields(row, &fields);
            }
            _ => {}
        }
    });
}

/// What is printed of a private key's fields are their places, and none of their bytes.
#[test]
fn debug_tells_no_secret() {
    // the seed of RFC 8032, 7.1, test 1, in PKCS #8 (RFC 8410, 7)
    let mut der = *b"\x30\x2e\x02\x01\x00\x30\x05\x06\x03\x2b\x65\x70\x04\x22\x04\x20\
        \x9d\x61\xb1\x9d\xef\xfd\x5a\x60\xba\x84\x4a\xf4\x92\xec\x2c\xc4\
        \x44\x49\xc5\x69\x7b\x32\x69\x19\x70\x3b\xac\x03\x1c\xae\x7f\x60";
    let mut memory = [Block::UNINIT; 1024];
    let key = Reader::new(&mut memory).private_key(&der).unwrap();
    let field = "Field { range: 12..48, len: 36, .. }";
    assert_eq!(format!("{:?}", key.private_key), field);
    let told = format!("{key:?} {key:#?}");
    assert!(told.contains(field), "{told}");
    // the same key with another secret prints the same
    der[16..].fill(7);
    let other = Reader::new(&mut memory).private_key(&der).unwrap();
    assert_eq!(format!("{other:?} {other:#?}"), told);
}

#[test]
fn extensions() {
    each(false, |row, reader| {
        let mut out = [ExtensionPlaces::EMPTY; 32];
        let found = reader.extensions(row.kind, &row.der, &mut out);
        if row.cell("extensions") == "-" {
            assert!(matches!(found, Err(Error::WrongKind)), "{}", row.name());
            return;
        }
        let found: Vec<Extension<'_>> = found.unwrap().collect();
        let stated = row.extensions();
        assert_eq!(found.len(), stated.len(), "{}", row.name());
        for (it, places) in found.iter().zip(stated) {
            let critical = it.critical.map_or(0..0, |field| field.range());
            let told = [it.whole.range(), it.extn_id.range(), critical, it.extn_value.range()];
            assert_eq!(&told[..], &places[..], "{}", row.name());
            let is_critical = it.critical.is_some() && row.der[places[2].end - 1] == 0xFF;
            assert_eq!(it.is_critical(), is_critical, "{}", row.name());
            assert!(it.whole.bytes().ends_with(it.value()), "{}", row.name());
        }
    });
}

#[test]
fn reports() {
    for is_refused in [false, true] {
        each(is_refused, |row, reader| {
            let mut out = vec![0; 1 << 17];
            let report = reader.report(row.kind, &row.der, false, &mut out).unwrap();
            let result = format!("\"result\":\"{}\"", row.cell("result"));
            assert!(report.starts_with('{') && report.ends_with('}'), "{}", row.name());
            assert!(report.contains(&result), "{}: {report}", row.name());
        });
    }
}

/// With less memory the answer is the same, or that it was too little.
#[test]
fn memory() {
    let mut memory = vec![Block::UNINIT; PLENTY];
    for row in rows() {
        let right = Reader::new(&mut memory).check(row.kind, &row.der);
        assert_ne!(right, Err(Error::OutOfMemory), "{}", row.name());
        let mut count = 0;
        while count < PLENTY {
            let found = Reader::new(&mut memory[..count]).check(row.kind, &row.der);
            assert!(found == right || found == Err(Error::OutOfMemory), "{}: {count}", row.name());
            count += count / 4 + 1;
        }
    }
}

#[test]
fn numbers_and_names() {
    for (number, kind) in (1..).zip(Kind::ALL) {
        assert_eq!(kind as usize, number);
        assert_eq!(Kind::from_name(kind.name()), Some(kind));
    }
    for (number, deviation) in (1..).zip(Deviation::ALL) {
        assert_eq!(deviation.number(), number);
        assert_eq!(Deviation::from_number(number), Some(deviation));
    }
    for (number, reason) in (1..).zip(Reason::ALL) {
        assert_eq!(reason.number(), number);
        assert_eq!(Reason::from_number(number), Some(reason));
    }
    assert_eq!((Deviation::from_number(0), Deviation::from_number(11)), (None, None));
    assert_eq!((Reason::from_number(0), Reason::from_number(16)), (None, None));
    let header = std::fs::read_to_string(support::root().join("bindings/c/cimaroly.h")).unwrap();
    let names = Deviation::ALL.map(Deviation::name).into_iter();
    for name in names.chain(Reason::ALL.map(Reason::name)) {
        assert!(header.contains(&format!("\"{name}\"")), "{name}");
    }
}

#[cfg(feature = "alloc")]
#[test]
fn over_the_allocator() {
    let mut memory = vec![Block::UNINIT; PLENTY];
    let mut reader = Reader::new(&mut memory);
    let mut out = vec![0; 1 << 17];
    for row in rows() {
        let (kind, der, name) = (row.kind, &row.der[..], row.name());
        assert_eq!(cimaroly::check(kind, der), reader.check(kind, der), "{name}");
        let bytes = reader.encode(kind, der, &mut out).map(<[u8]>::to_vec);
        assert_eq!(cimaroly::encode(kind, der), bytes, "{name}");
        let mut places = [Place::EMPTY; 16];
        let places = reader.places(kind, der, &mut places).map(<[Place]>::to_vec);
        assert_eq!(cimaroly::places(kind, der), places, "{name}");
        assert_eq!(cimaroly::signed_part(kind, der), reader.signed_part(kind, der), "{name}");
        let mut places = [ExtensionPlaces::EMPTY; 32];
        let found = reader.extensions(kind, der, &mut places).map(Vec::from_iter);
        assert_eq!(cimaroly::extensions(kind, der), found, "{name}");
        let report = reader.report(kind, der, false, &mut out).map(str::to_string);
        assert_eq!(cimaroly::report(kind, der, false), report, "{name}");
        match kind {
            Kind::Certificate => {
                assert_eq!(cimaroly::certificate(der), reader.certificate(der), "{name}");
            }
            Kind::Request => assert_eq!(cimaroly::request(der), reader.request(der), "{name}"),
            Kind::PrivateKey => {
                assert_eq!(cimaroly::private_key(der), reader.private_key(der), "{name}");
            }
            Kind::CertificateOutline => {
                let found = reader.certificate_outline(der);
                assert_eq!(cimaroly::certificate_outline(der), found, "{name}");
            }
            Kind::RequestOutline => {
                assert_eq!(cimaroly::request_outline(der), reader.request_outline(der), "{name}");
            }
            Kind::PrivateKeyOutline => {
                let found = reader.private_key_outline(der);
                assert_eq!(cimaroly::private_key_outline(der), found, "{name}");
            }
            Kind::Crl => assert_eq!(cimaroly::crl(der), reader.crl(der), "{name}"),
            Kind::PublicKey => {
                assert_eq!(cimaroly::public_key(der), reader.public_key(der), "{name}");
            }
            _ => {}
        }
    }
}
