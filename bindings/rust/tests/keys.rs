//! Keys, signatures and identifiers of keys, compared with the columns of
//! `bindings/tests/table.tsv` that the package `cryptography` says, and with what OpenSSL prints;
//! subjects of requests; and extensions that are checked apart, by hand from RFC 5280.

mod support;

use std::fmt::Write as _;

use cimaroly::{
    check_extension, Block, Certificate, Deviation, Digest, Error, Kind, Oid, PublicKey, Reader,
    Request, RsaPrivateKey, SignatureAlgorithm,
};
use support::{attribute, certificate_with, element, from_hex, rows, Row};

/// Tests each row of a kind that is read.
fn each(kind: Kind, mut test: impl FnMut(&Row, &mut Reader<'_>)) {
    let mut memory = vec![Block::UNINIT; 65536];
    let mut reader = Reader::new(&mut memory);
    let mut count = 0;
    for row in rows().iter().filter(|it| it.kind == kind && !it.is_refused()) {
        test(row, &mut reader);
        count += 1;
    }
    assert!(count > 3, "{kind}");
}

/// Tests each certificate of which a column tells.
fn each_with(column: &str, mut test: impl FnMut(&Row, Certificate<'_>)) {
    let mut count = 0;
    each(Kind::Certificate, |row, reader| {
        if row.cell(column) != "-" {
            test(row, reader.certificate(&row.der).unwrap());
            count += 1;
        }
    });
    assert!(count > 3, "{column}");
}

/// The row with a name.
fn row_of(name: &str) -> Row {
    rows().into_iter().find(|it| it.name() == name).unwrap()
}

/// A key in one line, as the table has it.
fn told(key: &PublicKey<'_>) -> String {
    let algorithm = match key.algorithm().to_string().as_str() {
        "1.2.840.113549.1.1.1" => "RSA",
        "1.2.840.10045.2.1" => "EC",
        "1.3.101.112" => "Ed25519",
        _ => "another",
    };
    let curve = key.curve().map(|it| match it {
        Oid::SECP256R1 => " secp256r1",
        Oid::SECP384R1 => " secp384r1",
        Oid::SECP521R1 => " secp521r1",
        _ => " another",
    });
    format!("{algorithm}{} {}", curve.unwrap_or_default(), key.bits().unwrap_or_default())
}

/// A key of RSA has its two numbers, and another its bytes.
fn has_its_parts(key: &PublicKey<'_>) -> bool {
    let is_rsa = key.algorithm() == Oid::RSA_ENCRYPTION;
    let has = [key.modulus().is_some(), key.exponent().is_some(), key.key_bytes().is_none()];
    has == [is_rsa; 3]
}

/// The algorithm of a signature in one line, as the table has it.
fn signed(algorithm: SignatureAlgorithm<'_>) -> String {
    let digest = algorithm.digest().map(|it| it.to_string().to_lowercase().replace("sha-", "sha"));
    format!("{} {}", algorithm.oid(), digest.as_deref().unwrap_or("none"))
}

#[test]
fn keys_of_certificates() {
    each_with("key", |row, certificate| {
        assert_eq!(told(&certificate.public_key()), row.cell("key"), "{}", row.name());
    });
}

/// A key by itself is the same as in what it stands in.
#[test]
fn keys_by_themselves() {
    each(Kind::Certificate, |row, reader| {
        let it = reader.certificate(&row.der).unwrap();
        let key = it.public_key();
        assert!(has_its_parts(&key), "{}", row.name());
        assert_eq!(key.der(), it.subject_public_key_info.bytes(), "{}", row.name());
        assert_eq!(reader.public_key(key.der()), Ok(key), "{}", row.name());
    });
    each(Kind::Request, |row, reader| {
        let it = reader.request(&row.der).unwrap();
        let key = it.public_key();
        assert!(has_its_parts(&key), "{}", row.name());
        assert_eq!(key.der(), it.subject_public_key_info.bytes(), "{}", row.name());
        assert_eq!(reader.public_key(key.der()), Ok(key), "{}", row.name());
    });
    each(Kind::PublicKey, |row, reader| {
        let key = reader.public_key(&row.der).unwrap();
        assert!(has_its_parts(&key), "{}", row.name());
        assert_eq!(key.der(), &row.der[..], "{}", row.name());
    });
}

/// The keys of some rows, as OpenSSL prints them.
#[test]
fn keys_of_openssl() {
    let mut memory = vec![Block::UNINIT; 65536];
    let mut reader = Reader::new(&mut memory);

    let row = row_of("public_key_rsa");
    let key = reader.public_key(&row.der).unwrap();
    assert_eq!(told(&key), "RSA 2048");
    let modulus = key.modulus().unwrap();
    assert_eq!((modulus.len(), &modulus[..4]), (257, &b"\x00\xba\xb0\x6c"[..]));
    assert_eq!(key.exponent(), Some(&b"\x01\x00\x01"[..]));
    let row = row_of("request_rsa");
    assert_eq!(told(&reader.request(&row.der).unwrap().public_key()), "RSA 1024");

    let row = row_of("public_key_ec");
    let key = reader.public_key(&row.der).unwrap();
    assert_eq!(told(&key), "EC secp384r1 384");
    let point = key.key_bytes().unwrap();
    assert_eq!((point.len(), &point[..4]), (97, &b"\x04\xf3\xff\xb6"[..]));
    // (the two are of one key)
    let request = row_of("request_ec");
    assert_eq!(reader.request(&request.der).unwrap().public_key(), key);

    let row = row_of("public_key_ed25519");
    let key = reader.public_key(&row.der).unwrap();
    assert_eq!((key.algorithm(), key.curve(), key.bits()), (Oid::ED25519, None, Some(256)));
    let bytes = key.key_bytes().unwrap();
    assert_eq!((bytes.len(), &bytes[..4]), (32, &b"\x24\xb4\x72\x15"[..]));
}

/// Keys by X.690: a modulus 5, a curve that isn't known, and a key without bytes.
#[test]
fn keys_by_hand() {
    let mut memory = vec![Block::UNINIT; 4096];
    let mut reader = Reader::new(&mut memory);

    let der = from_hex("3018300b06092a864886f70d0101010309003006020105020103");
    let key = reader.public_key(&der).unwrap();
    assert_eq!((key.modulus(), key.exponent()), (Some(&b"\x05"[..]), Some(&b"\x03"[..])));
    assert_eq!((key.bits(), key.curve(), key.key_bytes()), (Some(3), None, None));

    let der = from_hex("3013300d06072a8648ce3d020106022a0303020004");
    let key = reader.public_key(&der).unwrap();
    assert_eq!(
        (key.algorithm(), key.curve()),
        (Oid::EC_PUBLIC_KEY, Oid::from_content(b"\x2a\x03"))
    );
    assert_eq!((key.bits(), key.key_bytes()), (None, Some(&b"\x04"[..])));
    let text =
        "PublicKey { algorithm: Oid(1.2.840.10045.2.1), curve: Some(Oid(1.2.3)), bits: None, .. }";
    assert_eq!(format!("{key:?}"), text);

    let der = from_hex("300a300506032b6570030100");
    let key = reader.public_key(&der).unwrap();
    assert_eq!((key.bits(), key.key_bytes()), (Some(256), Some(&b""[..])));
}

/// What encodes no key is refused as a check refuses it.
#[test]
fn keys_refused() {
    let mut memory = vec![Block::UNINIT; 65536];
    let mut reader = Reader::new(&mut memory);
    for row in rows().iter().filter(|it| it.kind != Kind::PublicKey || it.is_refused()) {
        let refusal = reader.check(Kind::PublicKey, &row.der).map(|_| ());
        assert!(matches!(refusal, Err(Error::Refused(_))), "{}", row.name());
        assert_eq!(reader.public_key(&row.der).map(|_| ()), refusal, "{}", row.name());
    }
    let row = row_of("public_key_ec");
    for end in 0..row.der.len() {
        let refusal = reader.public_key(&row.der[..end]);
        assert!(matches!(refusal, Err(Error::Refused(_))), "{end}");
    }
}

#[test]
fn signatures_of_certificates() {
    each_with("signature", |row, certificate| {
        let algorithm = certificate.signed_with();
        assert_eq!(signed(algorithm), row.cell("signature"), "{}", row.name());
        // (it is the first element in the field)
        let field = certificate.signature_algorithm.content();
        assert!(field[2..].starts_with(algorithm.oid().content()), "{}", row.name());
    });
}

/// Each digest, by RFC 8017, A.2.4, RFC 5758, 3.2, RFC 4055, 3.1 and NIST's register; and none of
/// Ed25519 and of an algorithm of keys.
#[test]
fn signatures_of_requests() {
    let algorithms = [
        ("300d06092a864886f70d0101050500", "1.2.840.113549.1.1.5 SHA-1"),
        ("300d06092a864886f70d01010e0500", "1.2.840.113549.1.1.14 SHA-224"),
        ("300a06082a8648ce3d040302", "1.2.840.10045.4.3.2 SHA-256"),
        ("300a06082a8648ce3d040303", "1.2.840.10045.4.3.3 SHA-384"),
        ("300a06082a8648ce3d040304", "1.2.840.10045.4.3.4 SHA-512"),
        ("300b0609608648016503040309", "2.16.840.1.101.3.4.3.9 SHA3-224"),
        ("300b060960864801650304030a", "2.16.840.1.101.3.4.3.10 SHA3-256"),
        ("300b060960864801650304030b", "2.16.840.1.101.3.4.3.11 SHA3-384"),
        ("300b060960864801650304030c", "2.16.840.1.101.3.4.3.12 SHA3-512"),
        (
            "304106092a864886f70d01010a3034a00f300d06096086480165030402030500a11c301a06092a864886f70d010108\
             300d06096086480165030402030500a203020140",
            "1.2.840.113549.1.1.10 SHA-512",
        ),
        ("300506032b6570", "1.3.101.112 none"),
        ("300d06092a864886f70d0101010500", "1.2.840.113549.1.1.1 none"),
    ];
    let mut memory = vec![Block::UNINIT; 65536];
    let mut reader = Reader::new(&mut memory);
    let row = row_of("request_ec");
    let it = reader.request(&row.der).unwrap();
    assert_eq!(it.signed_with().digest(), Some(Digest::Sha256));
    for (algorithm, text) in algorithms {
        let algorithm = from_hex(algorithm);
        let parts = [it.certification_request_info.bytes(), &algorithm, it.signature.bytes()];
        let der = element(0x30, &parts);
        let found = reader.request(&der).unwrap().signed_with();
        let digest = found.digest().map_or("none", Digest::name);
        assert_eq!(format!("{} {digest}", found.oid()), text);
    }
}

#[test]
fn identifiers_of_keys() {
    let hex = |octets: Option<&[u8]>| {
        let Some(octets) = octets else { return String::from("none") };
        octets.iter().fold(String::new(), |mut text, byte| {
            write!(text, "{byte:02x}").unwrap();
            text
        })
    };
    each_with("key_identifiers", |row, certificate| {
        let own = hex(certificate.subject_key_identifier());
        let issuer = hex(certificate.authority_key_identifier());
        assert_eq!(format!("{own} {issuer}"), row.cell("key_identifiers"), "{}", row.name());
    });
}

/// Values by hand: without octets, without an identifier, and with two, of which the last counts.
#[test]
fn identifiers_by_hand() {
    let row = row_of("certificate_ed25519");
    let mut memory = vec![Block::UNINIT; 65536];
    let mut reader = Reader::new(&mut memory);
    let it = reader.certificate(&row.der).unwrap();
    let rows = [
        ("0400", "30028000", Some(&b""[..]), Some(&b""[..])),
        ("040107", "3000", Some(b"\x07"), None),
        ("0402abcd", "3006800101800102", Some(b"\xab\xcd"), Some(b"\x02")),
        ("040107", "3006820105800104", Some(b"\x07"), Some(b"\x04")),
    ];
    for (subject, authority, own, issuer) in rows {
        let extension = |oid: &[u8], value| {
            element(0x30, &[&element(6, &[oid]), &element(4, &[&from_hex(value)])])
        };
        let extensions =
            [extension(b"\x55\x1d\x0e", subject), extension(b"\x55\x1d\x23", authority)];
        let extensions = extensions.each_ref().map(Vec::as_slice);
        let der = certificate_with(&it, it.subject.bytes(), &extensions);
        let found = reader.certificate(&der).unwrap();
        let found = (found.subject_key_identifier(), found.authority_key_identifier());
        assert_eq!(found, (own, issuer), "{subject} {authority}");
    }
}

/// Tests a request with a subject of these sets.
fn with_subject(sets: &[Vec<u8>], test: impl FnOnce(Request<'_>)) {
    let row = row_of("request_ec");
    let mut memory = vec![Block::UNINIT; 65536];
    let mut reader = Reader::new(&mut memory);
    let it = reader.request(&row.der).unwrap();
    let subject = element(0x30, &sets.iter().map(Vec::as_slice).collect::<Vec<_>>());
    let (key, attributes) = (it.subject_public_key_info.bytes(), it.attributes.bytes());
    let part = element(0x30, &[it.version.bytes(), &subject, key, attributes]);
    let der = element(0x30, &[&part, it.signature_algorithm.bytes(), it.signature.bytes()]);
    test(reader.request(&der).unwrap());
}

/// The subject of a request, as OpenSSL prints it; and however many attributes there are, all are
/// told, in order.
#[test]
fn subjects_of_requests() {
    let row = row_of("request_ec");
    let mut memory = vec![Block::UNINIT; 65536];
    let mut reader = Reader::new(&mut memory);
    let subject = reader.request(&row.der).unwrap().subject();
    let found = subject.attributes().enumerate().map(|(index, it)| {
        assert_eq!(it.set, index);
        it.text().unwrap()
    });
    let stated =
        ["DE", "Example Gründe GmbH", "Dept A", "Dept B", "example.org", "admin@example.org"];
    assert_eq!(found.collect::<Vec<_>>(), stated);

    for count in [0, 1, 15, 16, 17, 33, 1000] {
        let texts: Vec<String> = (0..count).map(|it| format!("n{it}")).collect();
        let set = |it: &String| element(0x31, &[&attribute(b"\x55\x04\x03", 12, it.as_bytes())]);
        with_subject(&texts.iter().map(set).collect::<Vec<_>>(), |request| {
            let subject = request.subject();
            let found = subject.attributes().map(|it| (it.set, it.text().unwrap()));
            let stated = texts.iter().map(String::as_str).enumerate();
            assert_eq!(found.collect::<Vec<_>>(), stated.collect::<Vec<_>>());
            let stated: Vec<String> = texts.iter().rev().map(|it| format!("CN={it}")).collect();
            assert_eq!(subject.to_string(), stated.join(","));
        });
    }
}

/// What a check of an extension's value says.
fn outcome(oid: Oid<'_>, value: &[u8]) -> String {
    match check_extension(oid, value) {
        None => String::from("another extension"),
        Some(Ok(verdict)) if verdict.is_der() => String::from("DER"),
        Some(Ok(verdict)) => {
            let counts = verdict.counts.iter().map(|(name, count)| format!("{count} {name}"));
            counts.collect::<Vec<_>>().join(", ")
        }
        Some(Err(refused)) => refused.to_string(),
    }
}

/// Values by RFC 5280, 4.2.1.4 and 4.2.2.1, and by RFC 6960, 4.2.2.2.1.
#[test]
fn further_extensions() {
    let no_check = Oid::from_content(b"\x2b\x06\x01\x05\x05\x07\x30\x01\x05").unwrap();
    let rows = [
        (Oid::CERTIFICATE_POLICIES, "300a300806066781 0c010201", "DER"),
        (
            Oid::CERTIFICATE_POLICIES,
            "300a300806066781 0c010281",
            "malformed object identifier at byte 6",
        ),
        (Oid::CERTIFICATE_POLICIES, "300a300806066781 0c0102", "truncated element at byte 0"),
        (Oid::AUTHORITY_INFO_ACCESS, "3010300e06082b06010505073001 8602613a", "DER"),
        // a general name under the other kind of tag
        (
            Oid::AUTHORITY_INFO_ACCESS,
            "3012301006082b06010505073001 a6041602613a",
            "1 general name under the other kind of tag",
        ),
        (no_check, "0500", "DER"),
        (no_check, "3000", "wrong tag at byte 0"),
        (no_check, "", "truncated element at byte 0"),
        // those that a check of the whole reads, and what is no extension
        (Oid::SUBJECT_ALT_NAME, "3000", "another extension"),
        (Oid::BASIC_CONSTRAINTS, "3000", "another extension"),
        (Oid::COMMON_NAME, "3000", "another extension"),
    ];
    for (oid, value, stated) in rows {
        assert_eq!(outcome(oid, &from_hex(value)), stated, "{oid}: {value}");
    }
    let value = from_hex("3012301006082b06010505073001 a6041602613a");
    let verdict = check_extension(Oid::AUTHORITY_INFO_ACCESS, &value).unwrap().unwrap();
    assert_eq!((verdict.counts.of(Deviation::GeneralNameForm), verdict.headers), (1, 5));
}

/// In a certificate of OpenSSL the policies alone are checked apart.
#[test]
fn further_extensions_of_a_certificate() {
    let row = row_of("certificate_rsa");
    let mut memory = vec![Block::UNINIT; 65536];
    let mut places = [cimaroly::ExtensionPlaces::EMPTY; 16];
    let mut reader = Reader::new(&mut memory);
    let found = reader.extensions(Kind::Certificate, &row.der, &mut places).unwrap();
    for it in found {
        let is_further = it.oid() == Oid::CERTIFICATE_POLICIES;
        let stated = if is_further { "DER" } else { "another extension" };
        assert_eq!(outcome(it.oid(), it.value()), stated, "{}", it.oid());
    }
}

/// The numbers of a private key, as OpenSSL prints them (openssl rsa -text).
#[test]
fn numbers_of_private_keys() {
    let row = row_of("rsa_private_key");
    let key = RsaPrivateKey::read(&row.der).unwrap();
    assert_eq!((key.version, key.public_exponent), (&b"\0"[..], &b"\x01\0\x01"[..]));
    assert_eq!((key.modulus.len(), &key.modulus[..3]), (129, &b"\0\xea\x7f"[..]));
    assert_eq!((key.private_exponent.len(), &key.private_exponent[..3]), (129, &b"\0\xc7\x9f"[..]));
    let halves = [key.prime1, key.prime2, key.exponent1, key.exponent2, key.coefficient];
    assert_eq!(halves.map(<[u8]>::len), [65, 65, 65, 64, 64]);
    let firsts: [&[u8]; 5] =
        [b"\0\xf9\x2e", b"\0\xf0\xea", b"\0\xa2\x6d", b"\x48\xcc\xb9", b"\x37\x27\x6a"];
    assert_eq!(halves.map(|it| &it[..3]), firsts);
    assert_eq!(RsaPrivateKey::read(&row.der[1..]), None);
    // (no secret is shown)
    let shown = format!("{key:?}");
    assert!(shown.contains("public_exponent: [1, 0, 1]") && !shown.contains("prime1"), "{shown}");
}

/// The extensions that a request asks for.
#[test]
fn extensions_of_requests() {
    let mut memory = vec![Block::UNINIT; 65536];
    let mut reader = Reader::new(&mut memory);
    let row = row_of("request_rsa");
    let value = reader.request(&row.der).unwrap().extension_request().unwrap();
    let mut places = [cimaroly::ExtensionPlaces::default(); 4];
    let extensions = reader.extensions(Kind::Extensions, value, &mut places).unwrap();
    let found: Vec<Oid<'_>> = extensions.map(|it| it.oid()).collect();
    assert_eq!(found, [Oid::SUBJECT_ALT_NAME, Oid::KEY_USAGE]);
    let row = row_of("request_ec");
    assert_eq!(reader.request(&row.der).unwrap().extension_request(), None);
}
