//! Values of certificates and requests, which borrow from the input. They take no memory.

use crate::elements::{first_in, Elements};
use crate::few::Few;
use crate::fields::{Certificate, Extension, Request};
use crate::general_names::GeneralNames;
use crate::keys::{PublicKey, SignatureAlgorithm};
use crate::kind::Kind;
use crate::library::keys::{self, IdentifierCall, RequestAttributePlace};
use crate::library::{self, BasicConstraints, Span};
use crate::names::{Name, Source};
use crate::oid::Oid;
use crate::times::Time;
use crate::usages::KeyUsage;

/// How many attributes of a request the library is asked for; those behind are walked over.
const FIRST: usize = 8;

impl<'a> Certificate<'a> {
    /// The name of the subject (RFC 5280, 4.1.2.6).
    #[must_use]
    pub fn subject(&self) -> Name<'a> {
        let source = Source { der: self.whole.bytes(), call: library::subject_attributes };
        Name::within(self.subject.content(), source)
    }

    /// The name of the issuer (RFC 5280, 4.1.2.4).
    #[must_use]
    pub fn issuer(&self) -> Name<'a> {
        let source = Source { der: self.whole.bytes(), call: library::issuer_attributes };
        Name::within(self.issuer.content(), source)
    }

    /// The number that the issuer gave it, in two's complement, the highest byte first (RFC 5280,
    /// 4.1.2.2).
    #[must_use]
    pub fn serial_number(&self) -> &'a [u8] {
        let (der, mut place) = (self.whole.bytes(), Span::default());
        library::serial_number(der, &mut place);
        place.of(der)
    }

    /// The first second at which it is valid (RFC 5280, 4.1.2.5).
    #[must_use]
    pub fn not_before(&self) -> Time {
        self.times().0
    }

    /// The last second at which it is valid (RFC 5280, 4.1.2.5).
    #[must_use]
    pub fn not_after(&self) -> Time {
        self.times().1
    }

    /// The key of the subject (RFC 5280, 4.1.2.7).
    #[must_use]
    pub fn public_key(&self) -> PublicKey<'a> {
        PublicKey::within(Kind::Certificate, self.whole, self.subject_public_key_info)
    }

    /// The algorithm with which the issuer signed it: what `signatureAlgorithm` says (RFC 5280,
    /// 4.1.1.2).
    #[must_use]
    pub fn signed_with(&self) -> SignatureAlgorithm<'a> {
        SignatureAlgorithm::within(Kind::Certificate, self.whole)
    }

    /// What the first extension of a type holds: the content of its `extnValue`.
    #[must_use]
    pub fn extension(&self, oid: Oid<'_>) -> Option<&'a [u8]> {
        let (der, mut place) = (self.whole.bytes(), Span::default());
        library::find_extension(der, oid.content(), &mut place);
        place.held(der)
    }

    /// The names of the first `subjectAltName` (RFC 5280, 4.2.1.6), of which there are none without that extension.
    #[must_use]
    pub fn alternative_names(&self) -> GeneralNames<'a> {
        self.extension(Oid::SUBJECT_ALT_NAME).map(GeneralNames::of).unwrap_or_default()
    }

    /// The names of the first `issuerAltName` (RFC 5280, 4.2.1.7), likewise.
    #[must_use]
    pub fn issuer_alternative_names(&self) -> GeneralNames<'a> {
        self.extension(Oid::ISSUER_ALT_NAME).map(GeneralNames::of).unwrap_or_default()
    }

    /// What its key may be used for; `None` without a `keyUsage` (RFC 5280, 4.2.1.3).
    #[must_use]
    pub fn key_usage(&self) -> Option<KeyUsage> {
        self.extension(Oid::KEY_USAGE).map(KeyUsage::read)
    }

    /// Purposes of its key, of which there are none without an `extKeyUsage` (RFC 5280, 4.2.1.12).
    pub fn extended_key_usage(&self) -> impl Iterator<Item = Oid<'a>> + 'a {
        let list = self.extension(Oid::EXT_KEY_USAGE).map(first_in).unwrap_or_default();
        Elements(list).map(|it| Oid::read(it.content))
    }

    /// Whether it is that of an authority: `cA` of `basicConstraints` (RFC 5280, 4.2.1.9).
    #[must_use]
    pub fn is_ca(&self) -> bool {
        self.constraints().is_ca
    }

    /// `pathLenConstraint` of `basicConstraints` (RFC 5280, 4.2.1.9).
    #[must_use]
    pub fn path_length(&self) -> Option<u8> {
        let constraints = self.constraints();
        constraints.has_path_length.then_some(constraints.path_length)
    }

    /// What `basicConstraints` says, or nothing without it.
    fn constraints(&self) -> BasicConstraints {
        let mut constraints = BasicConstraints::default();
        if let Some(value) = self.extension(Oid::BASIC_CONSTRAINTS) {
            library::basic_constraints(value, &mut constraints);
        }
        constraints
    }

    /// Whether it is for a host: a DNS name in ASCII, or an address, of version 6 with or without
    /// brackets (RFC 9525). It goes by the first `subjectAltName` alone, where `*` may be the whole
    /// left-most label, and says nothing of the signature, the chain or the time.
    #[must_use]
    pub fn matches_host(&self, host: &str) -> bool {
        let mut matches = false;
        library::host_matches(self.whole.bytes(), host.as_bytes(), &mut matches);
        matches
    }

    /// What `subjectKeyIdentifier` holds (RFC 5280, 4.2.1.2).
    #[must_use]
    pub fn subject_key_identifier(&self) -> Option<&'a [u8]> {
        self.key_identifier(Oid::SUBJECT_KEY_IDENTIFIER, keys::subject_key_identifier)
    }

    /// `keyIdentifier` of `authorityKeyIdentifier` (RFC 5280, 4.2.1.1).
    #[must_use]
    pub fn authority_key_identifier(&self) -> Option<&'a [u8]> {
        self.key_identifier(Oid::AUTHORITY_KEY_IDENTIFIER, keys::authority_key_identifier)
    }

    /// What a call tells of the first extension of a type.
    fn key_identifier(&self, oid: Oid<'_>, call: IdentifierCall) -> Option<&'a [u8]> {
        let (value, mut place) = (self.extension(oid)?, Span::default());
        call(value, &mut place);
        place.held(value)
    }

    /// Between which times it is valid. (The library tells them of every certificate that it reads.)
    fn times(&self) -> (Time, Time) {
        let mut times = <(Time, Time)>::default();
        library::validity(self.whole.bytes(), &mut times.0, &mut times.1);
        times
    }
}

impl<'a> Extension<'a> {
    /// Its type, `extnID` (RFC 5280, 4.2).
    #[must_use]
    pub fn oid(&self) -> Oid<'a> {
        Oid::read(self.extn_id.content())
    }
}

impl<'a> Request<'a> {
    /// The name of the subject (RFC 2986, 4.1).
    #[must_use]
    pub fn subject(&self) -> Name<'a> {
        let source = Source { der: self.whole.bytes(), call: keys::request_subject_attributes };
        Name::within(self.subject.content(), source)
    }

    /// The key of the subject (RFC 2986, 4.1).
    #[must_use]
    pub fn public_key(&self) -> PublicKey<'a> {
        PublicKey::within(Kind::Request, self.whole, self.subject_public_key_info)
    }

    /// The extensions that are asked for, if any are (`extensionRequest`; RFC 2985, 5.4.2):
    /// [`crate::Reader::extensions`] reads them.
    #[must_use]
    pub fn extension_request(&self) -> Option<&'a [u8]> {
        let der = self.whole.bytes();
        let call = |out: &mut [_], count: &mut _| keys::request_attributes(der, out, count);
        let (few, _) = Few::<RequestAttributePlace, FIRST>::told(call);
        let told = few.map(|it| (it.identifier.of(der), it.values.of(der)));
        // (those behind the ones that are told)
        let behind = Elements(self.attributes.content()).skip(FIRST).map(|it| {
            let mut fields = it.inside().map(|it| it.content);
            (fields.next().unwrap_or_default(), fields.next().unwrap_or_default())
        });
        let mut all = told.chain(behind);
        all.find(|(oid, _)| *oid == Oid::EXTENSION_REQUEST.content()).map(|(_, values)| values)
    }

    /// The algorithm with which the subject signed it: what `signatureAlgorithm` says (RFC 2986, 4.2).
    #[must_use]
    pub fn signed_with(&self) -> SignatureAlgorithm<'a> {
        SignatureAlgorithm::within(Kind::Request, self.whole)
    }
}
