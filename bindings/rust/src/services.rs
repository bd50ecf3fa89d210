//! Where the status of a certificate is asked for, and under which policies it was issued.

use crate::elements::{first_in, Element, Elements};
use crate::few::Few;
use crate::fields::Certificate;
use crate::general_names::{GeneralName, GeneralNames};
use crate::library::services::{self, AccessPlace, PointPlace};
use crate::library::Span;
use crate::oid::Oid;

/// How many items of a list the library is asked for; those behind are walked over.
const FIRST: usize = 16;

/// A call on an extension's value that tells the items of its list.
type ListCall<T> = fn(&[u8], &mut [T], &mut usize) -> u32;

/// The items that a call tells of a value, and those behind them as elements.
fn items<T: Copy + Default>(value: &[u8], call: ListCall<T>) -> (Few<T, FIRST>, Elements<'_>) {
    let (few, has_more) = Few::told(|out, count| call(value, out, count));
    let mut rest = Elements::default();
    if has_more {
        rest = Elements(first_in(value));
        // (these are told)
        rest.nth(FIRST - 1);
    }
    (few, rest)
}

/// Where a service of the issuer is found, and which it is (RFC 5280, 4.2.2.1).
#[derive(Clone, Copy, Debug, PartialEq, Eq)]
#[non_exhaustive]
pub struct AccessDescription<'a> {
    /// The service, such as [`Oid::OCSP`] or [`Oid::CA_ISSUERS`].
    pub method: Oid<'a>,
    /// Where it is found.
    pub location: GeneralName<'a>,
}

impl<'a> AccessDescription<'a> {
    fn of(element: Element<'a>) -> Option<Self> {
        let mut fields = element.inside();
        let method = Oid::read(fields.next()?.content);
        Some(AccessDescription { method, location: GeneralName::of(fields.next()?) })
    }
}

/// The address that a name is.
fn uri(name: GeneralName<'_>) -> Option<&str> {
    match name {
        GeneralName::Uri(address) => Some(address),
        _ => None,
    }
}

impl<'a> Certificate<'a> {
    /// The services of the first `authorityInfoAccess` (RFC 5280, 4.2.2.1), of which there are none
    /// without that extension, or if it is malformed ([`crate::check_extension`] says so).
    pub fn access_descriptions(&self) -> impl Iterator<Item = AccessDescription<'a>> + 'a {
        let value = self.extension(Oid::AUTHORITY_INFO_ACCESS).unwrap_or_default();
        let (few, rest) = items(value, services::access_descriptions);
        let told = few.map(move |it: AccessPlace| {
            let (tag, content) = (it.location.tag, it.location.content.of(value));
            let location = GeneralName::of(Element { tag, content });
            AccessDescription { method: Oid::read(it.method.of(value)), location }
        });
        told.chain(rest.filter_map(AccessDescription::of))
    }

    /// Where the status is asked for by OCSP, as `http://ocsp.example.org`.
    pub fn ocsp_addresses(&self) -> impl Iterator<Item = &'a str> + 'a {
        let services = self.access_descriptions().filter(|it| it.method == Oid::OCSP);
        services.filter_map(|it| uri(it.location))
    }

    /// Where revocation lists are found, as `http://crl.example.org/ca.crl`: the addresses of the
    /// first `cRLDistributionPoints` (RFC 5280, 4.2.1.13), of which there are none without that
    /// extension, or if it is malformed.
    pub fn crl_addresses(&self) -> impl Iterator<Item = &'a str> + 'a {
        let value = self.extension(Oid::CRL_DISTRIBUTION_POINTS).unwrap_or_default();
        let (few, rest) = items(value, services::distribution_points);
        let told = few.map(move |it: PointPlace| it.name.of(value));
        // (the point's name is first, under the tag A0)
        let behind = rest.filter_map(|it| it.inside().next()).filter(|it| it.tag == 0xA0);
        let names = told.chain(behind.map(|it| it.content));
        names.flat_map(GeneralNames::of_point).filter_map(uri)
    }

    /// The policies of the first `certificatePolicies` (RFC 5280, 4.2.1.4), of which there are none
    /// without that extension, or if it is malformed.
    pub fn policies(&self) -> impl Iterator<Item = Oid<'a>> + 'a {
        let value = self.extension(Oid::CERTIFICATE_POLICIES).unwrap_or_default();
        let (few, rest) = items(value, services::policies);
        let told = few.map(move |it: Span| it.of(value));
        told.chain(rest.map(|it| first_in(it.content))).map(Oid::read)
    }
}
