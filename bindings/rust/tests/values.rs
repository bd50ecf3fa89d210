//! Values of certificates. What OpenSSL prints of the rows' names and times stands in `bindings/tests/table.tsv`, and what it
//! prints of alternative names here.

mod support;

use std::fmt::Write as _;

use cimaroly::{Attribute, Block, Certificate, GeneralName, KeyUsage, Kind, Name, Oid, Reader};
use support::rows;

/// The name of an attribute's type, as OpenSSL prints it.
fn short_name(oid: Oid<'_>) -> String {
    let dotted = oid.to_string();
    let name = match dotted.as_str() {
        "2.5.4.3" => "CN",
        "2.5.4.5" => "serialNumber",
        "2.5.4.6" => "C",
        "2.5.4.7" => "L",
        "2.5.4.8" => "ST",
        "2.5.4.10" => "O",
        "2.5.4.11" => "OU",
        "0.9.2342.19200300.100.1.25" => "DC",
        "1.2.840.113549.1.9.1" => "emailAddress",
        other => other,
    };
    name.to_string()
}

/// A value as RFC 4514, 2.4 escapes it.
fn escaped(value: &[u8]) -> String {
    let mut text = String::new();
    for &byte in value {
        match byte {
            b',' | b'+' | b'"' | b'\\' | b'<' | b'>' | b';' => {
                text.extend(['\\', char::from(byte)]);
            }
            b' '..=b'~' => text.push(char::from(byte)),
            _ => write!(text, "\\{byte:02X}").unwrap(),
        }
    }
    text
}

/// A name as OpenSSL prints it.
fn told(name: Name<'_>) -> String {
    let (mut text, mut last) = (String::new(), None);
    for it in name.attributes() {
        let between = match last {
            None => "",
            Some(set) if set == it.set => " + ",
            Some(_) => ", ",
        };
        write!(text, "{between}{}={}", short_name(it.oid), escaped(it.value)).unwrap();
        last = Some(it.set);
    }
    text
}

/// Tests each certificate of the table that is read.
fn each(mut test: impl FnMut(&support::Row, Certificate<'_>)) {
    let mut memory = vec![Block::UNINIT; 65536];
    let mut reader = Reader::new(&mut memory);
    for row in rows().iter().filter(|it| it.kind == Kind::Certificate && !it.is_refused()) {
        test(row, reader.certificate(&row.der).unwrap());
    }
}

#[test]
fn subjects() {
    let mut count = 0;
    each(|row, certificate| {
        if row.cell("subject") != "-" {
            assert_eq!(told(certificate.subject()), row.cell("subject"), "{}", row.name());
            count += 1;
        }
    });
    assert!(count > 3);
}

#[test]
fn times() {
    let mut count = 0;
    each(|row, certificate| {
        if row.cell("not_before") != "-" {
            assert_eq!(certificate.not_before().to_string(), row.cell("not_before"));
            assert_eq!(certificate.not_after().to_string(), row.cell("not_after"));
            count += 1;
        }
    });
    assert!(count > 3);
}

/// The values of a row that `cryptography` says, as JSON.
#[test]
fn serial_numbers() {
    let mut count = 0;
    each(|row, certificate| {
        let values = row.cell("values");
        if values == "-" {
            return;
        }
        let mut digits = String::new();
        for byte in certificate.serial_number.content() {
            write!(digits, "{byte:02x}").unwrap();
        }
        assert!(values.contains(&format!("\"serialNumber\":\"{digits}\"")), "{}", row.name());
        let common_name = certificate.issuer().common_name();
        let stated = values.split_once("\"issuer\":").unwrap().1;
        let name = common_name.map(|it| format!("[\"commonName\",\"{it}\"]"));
        assert_eq!(name.is_some(), stated.contains("commonName"), "{}", row.name());
        if let Some(name) = name.filter(|it| it.is_ascii()) {
            assert!(stated.contains(&name), "{}: {name}", row.name());
        }
        count += 1;
    });
    assert!(count > 3);
}

/// Tests the certificate of a row.
fn of_row(name: &str, test: impl FnOnce(Certificate<'_>)) {
    let mut test = Some(test);
    each(|row, certificate| {
        if row.name() == name {
            test.take().unwrap()(certificate);
        }
    });
    assert!(test.is_none(), "there is no row {name}");
}

#[test]
fn alternative_names() {
    of_row("certificate_rsa", |certificate| {
        let names: Vec<GeneralName<'_>> = certificate.alternative_names().collect();
        assert_eq!(names[0], GeneralName::Dns("example.org"));
        assert_eq!(names[1], GeneralName::Dns("*.example.org"));
        assert_eq!(names[2].ip(), Some("192.0.2.7".parse().unwrap()));
        assert_eq!(names[3].ip(), Some("2001:db8::1".parse().unwrap()));
        assert_eq!(names[4], GeneralName::Email("admin@example.org"));
        assert_eq!(names[5], GeneralName::Uri("https://example.org/x"));
        let GeneralName::Directory(name) = names[6] else { panic!("{:?}", names[6]) };
        let text = r"C=DE, O=Example Gr\C3\83\C2\BCnde GmbH, OU=Dept A, OU=Dept B, CN=example.org, emailAddress=admin@example.org";
        assert_eq!(told(name), text);
        assert!(matches!(names[7], GeneralName::Other { tag: 0xA0, .. }));
        let GeneralName::RegisteredId(oid) = names[8] else { panic!("{:?}", names[8]) };
        assert_eq!(oid.to_string(), "1.2.3.4");
        assert_eq!(names.len(), 9);
        assert_eq!(names[0].ip(), None);
    });
    // under the other kind of tag
    of_row("deviation_9_general_name", |certificate| {
        let names: Vec<GeneralName<'_>> = certificate.alternative_names().collect();
        assert_eq!(names, [GeneralName::Dns("example.org")]);
    });
}

/// The extensions that are found are those that are listed.
#[test]
fn extensions() {
    let mut count = 0;
    let mut memory = vec![Block::UNINIT; 65536];
    each(|row, certificate| {
        let mut reader = Reader::new(&mut memory);
        let mut places = [cimaroly::ExtensionPlaces::EMPTY; 32];
        for it in reader.extensions(row.kind, &row.der, &mut places).unwrap() {
            let oid = Oid::from_content(it.extn_id.content()).unwrap();
            assert_eq!(it.oid(), oid, "{}", row.name());
            assert_eq!(certificate.extension(oid), Some(it.value()), "{}", row.name());
            count += 1;
        }
        assert_eq!(certificate.extension(Oid::COMMON_NAME), None, "{}", row.name());
    });
    assert!(count > 30);
}

#[test]
fn attributes() {
    of_row("certificate_rsa", |certificate| {
        let subject = certificate.subject();
        assert_eq!(subject.common_name(), Some("example.org"));
        let units = subject.attributes().filter(|it| it.oid == Oid::ORGANIZATIONAL_UNIT_NAME);
        assert_eq!(units.filter_map(Attribute::text).collect::<Vec<_>>(), ["Dept A", "Dept B"]);
        let organization = subject.attribute(Oid::ORGANIZATION_NAME).unwrap();
        assert_eq!((organization.text(), organization.set), (Some("Example Gründe GmbH"), 1));
        assert_eq!(subject.attribute(Oid::LOCALITY_NAME), None);
        assert_eq!(format!("{:?}", subject.attributes().next().unwrap()), r#"2.5.4.6="DE""#);
        assert!(format!("{subject:?}").starts_with(r#"[2.5.4.6="DE", 2.5.4.10="Ex"#));
    });
}

#[test]
fn object_identifiers() {
    // X.690, 8.19.5; then the largest arc, and the largest under 2
    let rows: [(&[u8], &str); 6] = [
        (b"\x88\x37\x03", "2.999.3"),
        (b"\x2A\x86\x48\x86\xF7\x0D\x01\x01\x0B", "1.2.840.113549.1.1.11"),
        (b"\x00", "0.0"),
        (b"\x27", "0.39"),
        (b"\x4F\x7F", "1.39.127"),
        (b"\x50\x81\xFF\xFF\xFF\xFF\xFF\xFF\xFF\xFF\x7F", "2.0.18446744073709551615"),
    ];
    for (content, text) in rows {
        let oid = Oid::from_content(content).unwrap();
        assert_eq!((oid.to_string().as_str(), oid.content()), (text, content));
        assert_eq!(format!("{oid:?}"), format!("Oid({text})"));
    }
    let refused: [&[u8]; 5] = [
        b"",
        b"\x80\x01",
        b"\x55\x80\x01",
        b"\x55\x84",
        b"\x50\x82\x80\x80\x80\x80\x80\x80\x80\x80\x00",
    ];
    for content in refused {
        assert_eq!(Oid::from_content(content), None, "{content:02x?}");
    }
    assert_eq!(Oid::EMAIL_ADDRESS.to_string(), "1.2.840.113549.1.9.1");
    assert_eq!(Oid::EXT_KEY_USAGE.to_string(), "2.5.29.37");
}

#[test]
fn usages() {
    let hex = |bytes: Option<&[u8]>| {
        let mut text = String::new();
        for byte in bytes.unwrap() {
            write!(text, "{byte:02X}").unwrap();
        }
        text
    };
    of_row("certificate_rsa", |certificate| {
        let names: Vec<&str> = certificate.key_usage().unwrap().names().collect();
        assert_eq!(names, ["digitalSignature", "keyCertSign", "cRLSign"]);
        let purposes: Vec<String> =
            certificate.extended_key_usage().map(|it| it.to_string()).collect();
        assert_eq!(purposes, ["1.3.6.1.5.5.7.3.1", "1.3.6.1.5.5.7.3.2", "1.3.6.1.4.1.99999.1"]);
        assert_eq!((certificate.is_ca(), certificate.path_length()), (true, Some(2)));
        let identifier = "22B3CD5ACE6B0EE8BE59F71817C268B6D4F1A998";
        assert_eq!(hex(certificate.subject_key_identifier()), identifier);
        assert_eq!(hex(certificate.authority_key_identifier()), identifier);
    });
    of_row("certificate_ec", |certificate| {
        let usage = certificate.key_usage().unwrap();
        let stated =
            KeyUsage::DIGITAL_SIGNATURE | KeyUsage::KEY_AGREEMENT | KeyUsage::DECIPHER_ONLY;
        assert_eq!((usage, usage.bits()), (stated, 0x111));
        assert_eq!(certificate.extended_key_usage().count(), 0);
        assert_eq!((certificate.is_ca(), certificate.path_length()), (false, None));
        let identifier = "AF7B7455085DFE107315BD8B0E0500EADA2B3A5A";
        assert_eq!(hex(certificate.subject_key_identifier()), identifier);
    });
    of_row("deviation_5_version", |certificate| {
        assert_eq!((certificate.key_usage(), certificate.is_ca()), (None, false));
        assert_eq!(certificate.subject_key_identifier(), None);
        assert_eq!(certificate.authority_key_identifier(), None);
    });
}

#[test]
fn hosts() {
    of_row("certificate_rsa", |certificate| {
        let own = [
            "example.org",
            "EXAMPLE.org",
            "www.example.org.",
            "192.0.2.7",
            "2001:db8::1",
            "[2001:DB8:0::1]",
        ];
        for host in own {
            assert!(certificate.matches_host(host), "{host}");
        }
        let others = [
            "example.com",
            "a.www.example.org",
            "*.example.org",
            "192.0.2.8",
            "2001:db8::2",
            "org",
            "",
            "é",
        ];
        for host in others {
            assert!(!certificate.matches_host(host), "{host}");
        }
    });
    of_row("deviation_5_version", |certificate| assert!(!certificate.matches_host("example.org")));
}
