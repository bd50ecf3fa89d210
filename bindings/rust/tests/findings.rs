//! The rules that a certificate breaks, over one by hand (RFC 5280, 4.1): its issuer is empty, it has
//! unique identifiers, and as an authority it has a path length, but no key identifier and no key
//! usage.

mod support;

use std::collections::HashSet;
use std::ops::Range;

use cimaroly::{Block, Error, Finding, Kind, Reader, Rule};
use support::{root, rows};

const CERTIFICATE: &[u8] =
    b"\x30\x78\x30\x6C\xA0\x03\x02\x01\x02\x02\x01\x01\x30\x05\x06\x03\x2B\x65\x70\x30\x00\x30\x1E\
    \x17\x0D191017174128Z\x17\x0D221016174128Z\x30\x0D\x31\x0B\x30\x09\x06\x03\x55\x04\x03\x13\x02ab\
    \x30\x0A\x30\x05\x06\x03\x2B\x65\x70\x03\x01\x00\x81\x02\x07\x00\x82\x02\x07\x80\xA3\x16\x30\x14\
    \x30\x12\x06\x03\x55\x1D\x13\x01\x01\xFF\x04\x08\x30\x06\x01\x01\xFF\x02\x01\x05\
    \x30\x05\x06\x03\x2B\x65\x70\x03\x01\x00";

const STATED: [(Rule, Range<usize>); 7] = [
    (Rule::IssuerEmpty, 19..21),
    (Rule::IssuerUniqueId, 80..84),
    (Rule::SubjectUniqueId, 84..88),
    (Rule::AuthorityKeyMissing, 88..112),
    (Rule::SubjectKeyMissing, 88..112),
    (Rule::AuthorityWithoutSigning, 88..112),
    (Rule::PathLengthWithoutSigning, 88..112),
];

fn told(found: &[Finding]) -> Vec<(Rule, Range<usize>)> {
    found.iter().map(|it| (it.rule().unwrap(), it.start..it.end)).collect()
}

#[test]
fn rules_that_are_broken() {
    let mut memory = vec![Block::UNINIT; 4096];
    let mut reader = Reader::new(&mut memory);
    let mut out = [Finding::EMPTY; Rule::ALL.len()];
    let found = reader.findings(CERTIFICATE, &mut out).unwrap();
    assert_eq!(told(found), STATED);
    let warnings: Vec<Rule> = Rule::ALL.into_iter().filter(|it| it.is_warning()).collect();
    assert_eq!(warnings.len(), 11);
    assert_eq!(
        warnings[..3],
        [Rule::IssuerStringType, Rule::SubjectStringType, Rule::ModulusShort]
    );
    #[cfg(feature = "alloc")]
    assert_eq!(told(&cimaroly::findings(CERTIFICATE).unwrap()), STATED);
}

/// A buffer that is too short is as it was.
#[test]
fn less_room() {
    let mut memory = vec![Block::UNINIT; 4096];
    let mut reader = Reader::new(&mut memory);
    for room in 0..STATED.len() {
        let mut out = vec![Finding::EMPTY; room];
        let error = Error::BufferTooShort { needed: STATED.len() };
        assert_eq!(reader.findings(CERTIFICATE, &mut out), Err(error));
        assert!(out.iter().all(|it| *it == Finding::EMPTY && it.rule().is_none()));
    }
}

#[test]
fn less_memory() {
    let mut memory = vec![Block::UNINIT; 4096];
    let mut out = [Finding::EMPTY; Rule::ALL.len()];
    for count in 0..1024 {
        match Reader::new(&mut memory[..count]).findings(CERTIFICATE, &mut out) {
            Ok(found) => assert_eq!(told(found), STATED),
            error => assert_eq!(error, Err(Error::OutOfMemory)),
        }
    }
}

/// What isn't a certificate is refused, as a check refuses it.
#[test]
fn refused() {
    let mut memory = vec![Block::UNINIT; 65536];
    let mut reader = Reader::new(&mut memory);
    let mut out = [Finding::EMPTY; Rule::ALL.len()];
    let mut refuse = |der: &[u8]| {
        let error = reader.check(Kind::Certificate, der).unwrap_err();
        assert_eq!(reader.findings(der, &mut out), Err(error));
        #[cfg(feature = "alloc")]
        assert_eq!(cimaroly::findings(der), Err(error));
    };
    refuse(&CERTIFICATE[..CERTIFICATE.len() - 1]);
    for row in rows().iter().filter(|it| it.kind == Kind::Certificate && it.is_refused()) {
        refuse(&row.der);
    }
}

/// Numbers, names, texts and clauses are those of the header.
#[test]
fn rules() {
    let header = std::fs::read_to_string(root().join("bindings/c/cimaroly.h")).unwrap();
    for (number, rule) in (1..).zip(Rule::ALL) {
        assert_eq!((rule.number(), Rule::from_number(number)), (number, Some(rule)));
        let constant = rule.name().replace('-', "_").to_uppercase();
        assert!(header.contains(&format!("CIMAROLY_RULE_{constant} = {number}")), "{constant}");
        for text in [rule.name(), rule.text(), rule.clause()] {
            assert!(header.contains(&format!("\"{text}\"")), "{text}");
        }
        assert_eq!(rule.to_string(), rule.text());
    }
    assert_eq!((Rule::from_number(0), Rule::from_number(Rule::ALL.len() + 1)), (None, None));
    let names: HashSet<&str> = Rule::ALL.iter().map(|it| it.name()).collect();
    assert_eq!(names.len(), Rule::ALL.len());
}
