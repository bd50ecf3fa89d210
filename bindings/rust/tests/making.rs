//! What is made: the part of a request that OpenSSL makes too, a certificate of OpenSSL put together
//! of its parts, its PEM, and faults.
#![cfg(feature = "alloc")]

use cimaroly::{
    assemble, certificate, ecdsa_signature, make, pem_blocks, pem_encode, request,
    request_signed_by, signature_algorithm, Kind, NotMade,
};

const PEM: &str = include_str!("../../../tools/tests/data/certificate_ed25519.pem");

const DESCRIPTION: &str = r#"{"type": "request-info", "subject": "/C=DE/CN=a", "key": "-----BEGIN PUBLIC KEY-----\nMCowBQYDK2VwAyEAERERERERERERERERERERERERERERERERERERERERERE=\n-----END PUBLIC KEY-----\n"}"#;

fn certificate_of_openssl() -> Vec<u8> {
    let block = pem_blocks(PEM.as_bytes()).next().unwrap();
    block.to_vec().unwrap()
}

/// What `openssl req -new -subj /C=DE/CN=a` signs, of a key whose bytes are all 0x11.
fn part_of_openssl() -> Vec<u8> {
    let head = b"\x30\x4c\x02\x01\x00\x30\x19\x31\x0b\x30\x09\x06\x03\x55\x04\x06\x13\x02DE\x31\x0a\x30\x08\x06\x03\x55\x04\x03\x0c\x01a\x30\x2a\x30\x05\x06\x03\x2b\x65\x70\x03\x21\x00";
    [&head[..], &[0x11; 32], b"\xa0\x00"].concat()
}

#[test]
fn a_request() {
    assert_eq!(make(DESCRIPTION).unwrap(), part_of_openssl());
    let der = request_signed_by(DESCRIPTION, "Ed25519", |part| {
        assert_eq!(part, part_of_openssl());
        Ok::<_, NotMade>(vec![0x22; 64])
    })
    .unwrap();
    let read = request(&der).unwrap();
    assert_eq!(read.certification_request_info.bytes(), part_of_openssl());
    let failed = request_signed_by(DESCRIPTION, "Ed25519", |_| Err::<Vec<u8>, _>(NotMade::Form));
    assert_eq!(failed, Err(NotMade::Form));
}

#[test]
fn a_certificate_put_together() {
    let der = certificate_of_openssl();
    let read = certificate(&der).unwrap();
    let (part, signature) = (read.tbs_certificate.bytes(), &der[der.len() - 64..]);
    let algorithm = signature_algorithm("Ed25519").unwrap();
    assert_eq!(algorithm, read.signature_algorithm.bytes());
    assert_eq!(assemble(Kind::Certificate, part, &algorithm, signature).unwrap(), der);
    assert_eq!(assemble(Kind::Request, part, &algorithm, signature), Err(NotMade::Form));
    assert_eq!(assemble(Kind::Name, part, &algorithm, signature), Err(NotMade::WrongKind));
    assert_eq!(pem_encode("CERTIFICATE", &der).unwrap(), PEM);
}

#[test]
fn signatures_of_ecdsa() {
    let whole = b"\x30\x08\x02\x01\x7f\x02\x03\x00\x80\x01";
    assert_eq!(ecdsa_signature(b"\x00\x7f\x80\x01").unwrap(), whole);
    assert_eq!(ecdsa_signature(b"\x00\x7f\x80"), Err(NotMade::Form));
}

#[test]
fn faults() {
    let told = |text: &str| make(text).unwrap_err().to_string();
    assert_eq!(told("{"), "not JSON");
    assert_eq!(told(r#"{"type": "name"}"#), "Name is missing");
    assert_eq!(signature_algorithm("sha1"), Err(NotMade::Algorithm));
}

#[test]
fn more_than_there_is_room_for_at_first() {
    let names: Vec<String> =
        (0..20_000).map(|number| format!("\"DNS:{number}.example\"")).collect();
    let items = names.join(",");
    let text =
        format!(r#"{{"type":"extensions","Extensions":[{{"id":"2.5.29.17","items":[{items}]}}]}}"#);
    assert!(make(&text).unwrap().len() > 200_000);
}
