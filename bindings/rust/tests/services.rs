//! Where the status of certificates is asked for, and their policies. The values are those that OpenSSL wrote (openssl req
//! -x509), and longer lists by X.690.

mod support;

use cimaroly::{check_extension, Block, Certificate, GeneralName, Oid, Reader};
use support::{certificate_with, element, rows};

const ACCESSES: &[u8] =
    b"\x30\x4E\x30\x23\x06\x08\x2B\x06\x01\x05\x05\x07\x30\x01\x86\x17http://ocsp.example.org\
    \x30\x27\x06\x08\x2B\x06\x01\x05\x05\x07\x30\x02\x86\x1Bhttp://ca.example.org/a.crt";

const POLICIES: &[u8] = b"\x30\x3E\x30\x08\x06\x06\x67\x81\x0C\x01\x02\x01\x30\x32\x06\x0A\x2B\x06\x01\x04\x01\xD6\x79\x02\
    \x05\x03\x30\x24\x30\x22\x06\x08\x2B\x06\x01\x05\x05\x07\x02\x01\x16\x16http://cps.example.org";

const POINTS: &[u8] = b"\x30\x7E\x30\x3A\xA0\x38\xA0\x36\x86\x1Chttp://crl.example.org/a.crl\x86\x16ldap://crl.example.org\
    \x30\x30\xA0\x18\xA0\x16\x86\x14http://b.example.org\x81\x02\x05\x60\xA2\x10\xA4\x0E\x30\x0C\x31\x0A\x30\x08\x06\x03\
    \x55\x04\x03\x0C\x01b\x30\x0E\xA0\x0C\xA1\x0A\x30\x08\x06\x03\x55\x04\x03\x0C\x01c";

/// Tests a certificate with an extension.
fn with(oid: Oid<'_>, value: &[u8], test: impl Fn(Certificate<'_>)) {
    let mut memory = vec![Block::UNINIT; 1 << 16];
    let mut reader = Reader::new(&mut memory);
    let rows = rows();
    let row = rows.iter().find(|it| it.name() == "certificate_rsa").unwrap();
    let it = reader.certificate(&row.der).unwrap();
    let extension = element(0x30, &[&element(6, &[oid.content()]), &element(4, &[value])]);
    let der = certificate_with(&it, it.subject.bytes(), &[&extension]);
    test(reader.certificate(&der).unwrap());
}

#[test]
fn services_are_those_of_openssl() {
    with(Oid::AUTHORITY_INFO_ACCESS, ACCESSES, |it| {
        let services: Vec<_> =
            it.access_descriptions().map(|it| (it.method, it.location)).collect();
        let ocsp = (Oid::OCSP, GeneralName::Uri("http://ocsp.example.org"));
        let issuer = (Oid::CA_ISSUERS, GeneralName::Uri("http://ca.example.org/a.crt"));
        assert_eq!(services, [ocsp, issuer]);
        assert!(it.ocsp_addresses().eq(["http://ocsp.example.org"]));
        assert!(it.crl_addresses().next().is_none() && it.policies().next().is_none());
    });
}

#[test]
fn policies_are_those_of_openssl() {
    with(Oid::CERTIFICATE_POLICIES, POLICIES, |it| {
        let policies: Vec<String> = it.policies().map(|it| it.to_string()).collect();
        assert_eq!(policies, ["2.23.140.1.2.1", "1.3.6.1.4.1.11129.2.5.3"]);
    });
}

#[test]
fn points_are_those_of_openssl() {
    with(Oid::CRL_DISTRIBUTION_POINTS, POINTS, |it| {
        let wanted =
            ["http://crl.example.org/a.crl", "ldap://crl.example.org", "http://b.example.org"];
        assert!(it.crl_addresses().eq(wanted));
        assert!(it.ocsp_addresses().next().is_none());
    });
}

/// Lists that are longer than what the library is asked for at once.
#[test]
fn long_lists_are_whole() {
    let addresses: Vec<String> = (0..40).map(|it| format!("http://{it}.example.org")).collect();
    let name = |it: &String| element(0x86, &[it.as_bytes()]);
    let accesses = addresses.iter().map(|it| {
        let method = element(6, &[Oid::OCSP.content()]);
        element(0x30, &[&method, &name(it)])
    });
    let value = element(0x30, &[&accesses.collect::<Vec<_>>().concat()]);
    with(Oid::AUTHORITY_INFO_ACCESS, &value, |it| assert!(it.ocsp_addresses().eq(&addresses)));
    let point = |names: &[u8]| element(0x30, &[&element(0xA0, &[&element(0xA0, &[names])])]);
    let points: Vec<u8> = addresses.iter().flat_map(|it| point(&name(it))).collect();
    let value = element(0x30, &[&points]);
    with(Oid::CRL_DISTRIBUTION_POINTS, &value, |it| assert!(it.crl_addresses().eq(&addresses)));
    let names: Vec<u8> = addresses.iter().flat_map(name).collect();
    let value = element(0x30, &[&point(&names)]);
    with(Oid::CRL_DISTRIBUTION_POINTS, &value, |it| assert!(it.crl_addresses().eq(&addresses)));
    let policies = (0..40).map(|it| element(0x30, &[&element(6, &[&[0x55, it]])]));
    let value = element(0x30, &[&policies.collect::<Vec<_>>().concat()]);
    with(Oid::CERTIFICATE_POLICIES, &value, |it| {
        let wanted = (0..40).map(|it| format!("2.5.{it}"));
        assert!(it.policies().map(|it| it.to_string()).eq(wanted));
    });
}

/// Of what is malformed nothing is told, and `check_extension` says why.
#[test]
fn nothing_of_malformed_values() {
    let value = &ACCESSES[..ACCESSES.len() - 1];
    with(Oid::AUTHORITY_INFO_ACCESS, value, |it| {
        assert!(it.access_descriptions().next().is_none());
    });
    assert!(check_extension(Oid::AUTHORITY_INFO_ACCESS, value).unwrap().is_err());
}
