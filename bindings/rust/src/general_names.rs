//! General names, which borrow from the input.

use core::fmt;
use core::net::IpAddr;
use core::str;

use crate::elements::{first_in, Element, Elements};
use crate::few::Few;
use crate::library::{self, services, GeneralNamePlace};
use crate::names::Name;
use crate::oid::Oid;

/// A general name, as of an alternative name (RFC 5280, 4.2.1.6).
#[derive(Clone, Copy, Debug, PartialEq, Eq)]
#[non_exhaustive]
pub enum GeneralName<'a> {
    /// `dNSName`. It may be one that no host has: [RFC 9525](https://www.rfc-editor.org/rfc/rfc9525)
    /// says how it is compared.
    Dns(&'a str),
    /// `rfc822Name`.
    Email(&'a str),
    /// `uniformResourceIdentifier`.
    Uri(&'a str),
    /// `iPAddress`: 4 or 16 bytes of an address; [`GeneralName::ip`] gives it.
    Address(&'a [u8]),
    /// `directoryName`.
    Directory(Name<'a>),
    /// `registeredID`.
    RegisteredId(Oid<'a>),
    /// `otherName`, `x400Address` or `ediPartyName`.
    Other {
        /// The tag, whose low five bits are the number of the form.
        tag: u8,
        /// What stands under it.
        content: &'a [u8],
    },
}

impl<'a> GeneralName<'a> {
    pub(crate) fn of(name: Element<'a>) -> Self {
        let Element { tag, content } = name;
        let other = GeneralName::Other { tag, content };
        // (under an explicit tag, which is a deviation, stands an element)
        let held = match tag {
            0xA1 | 0xA2 | 0xA6 | 0xA7 | 0xA8 => first_in(content),
            _ => content,
        };
        let text = |form: fn(&'a str) -> Self| str::from_utf8(held).map_or(other, form);
        match tag {
            0x81 | 0xA1 => text(GeneralName::Email),
            0x82 | 0xA2 => text(GeneralName::Dns),
            0x86 | 0xA6 => text(GeneralName::Uri),
            0x87 | 0xA7 => GeneralName::Address(held),
            0x88 | 0xA8 => GeneralName::RegisteredId(Oid::read(held)),
            0xA4 => GeneralName::Directory(Name::of(first_in(content))),
            0x84 => GeneralName::Directory(Name::of(content)),
            _ => other,
        }
    }

    /// The address of an `iPAddress` of 4 or 16 bytes.
    #[must_use]
    pub fn ip(self) -> Option<IpAddr> {
        let GeneralName::Address(bytes) = self else { return None };
        let v4 = <[u8; 4]>::try_from(bytes).map(IpAddr::from);
        v4.or_else(|_| <[u8; 16]>::try_from(bytes).map(IpAddr::from)).ok()
    }
}

/// How many names the library is asked for; those behind are walked over.
const FIRST: usize = 32;

/// A call on an element that tells the names in it.
type NamesCall = fn(&[u8], &mut [GeneralNamePlace], &mut usize) -> u32;

/// The general names of a list, which [`crate::Certificate::alternative_names`] gives.
#[derive(Clone)]
pub struct GeneralNames<'a> {
    list: &'a [u8],
    few: Few<GeneralNamePlace, FIRST>,
    rest: Elements<'a>,
}

impl Default for GeneralNames<'_> {
    fn default() -> Self {
        GeneralNames { list: &[], few: Few::none(), rest: Elements::default() }
    }
}

impl<'a> GeneralNames<'a> {
    /// Those of the list that a value holds.
    pub(crate) fn of(list: &'a [u8]) -> Self {
        Self::told(list, library::general_names)
    }

    /// Those of the name of a distribution point.
    pub(crate) fn of_point(name: &'a [u8]) -> Self {
        Self::told(name, services::point_names)
    }

    /// Those that a call tells of an element.
    fn told(list: &'a [u8], call: NamesCall) -> Self {
        let (few, has_more) = Few::told(|out, count| call(list, out, count));
        let mut rest = Elements::default();
        if has_more {
            rest = Elements(first_in(list));
            // (these are told)
            rest.nth(FIRST - 1);
        }
        GeneralNames { list, few, rest }
    }
}

impl fmt::Debug for GeneralNames<'_> {
    fn fmt(&self, f: &mut fmt::Formatter<'_>) -> fmt::Result {
        f.debug_list().entries(self.clone()).finish()
    }
}

impl<'a> Iterator for GeneralNames<'a> {
    type Item = GeneralName<'a>;

    fn next(&mut self) -> Option<GeneralName<'a>> {
        let told = self.few.next();
        let told = told.map(|it| Element { tag: it.tag, content: it.content.of(self.list) });
        told.or_else(|| self.rest.next()).map(GeneralName::of)
    }
}
