//! The calls over memory from the global allocator, which is asked for more until it is enough.

use alloc::string::String;
use alloc::vec::Vec;

use crate::error::Error;
use crate::fields::{
    Certificate, CertificateOutline, Crl, Extension, PrivateKey, PrivateKeyOutline, Request,
    RequestOutline,
};
use crate::findings::{Finding, Rule};
use crate::keys::PublicKey;
use crate::kind::Kind;
use crate::library::{self, ExtensionPlaces};
use crate::reader::Reader;
use crate::told::{Place, SignedPart, Verdict};

/// The answer of a call that is given more memory until that is enough.
fn lent<T>(
    der: &[u8],
    mut call: impl FnMut(&mut Reader<'_>) -> Result<T, Error>,
) -> Result<T, Error> {
    let mut count = der.len().saturating_add(1024);
    loop {
        let mut memory = library::blocks(count).ok_or(Error::OutOfMemory)?;
        match call(&mut Reader::new(&mut memory)) {
            Err(Error::OutOfMemory) => count = count.saturating_mul(4),
            answer => return answer,
        }
    }
}

/// What a call writes to a buffer, which is as large as it says that it needs. It gives how many
/// items it has written.
fn filled<T: Clone>(
    item: &T,
    first: usize,
    mut call: impl FnMut(&mut [T]) -> Result<usize, Error>,
) -> Result<Vec<T>, Error> {
    let (mut out, mut room) = (Vec::new(), first);
    loop {
        out.try_reserve_exact(room).map_err(|_| Error::OutOfMemory)?;
        out.resize(room, item.clone());
        match call(&mut out) {
            Err(Error::BufferTooShort { needed }) if needed > room => room = needed,
            answer => {
                out.truncate(answer?);
                return Ok(out);
            }
        }
        out.clear();
    }
}

/// As [`Reader::check`].
///
/// # Errors
/// [`Error::Refused`], and [`Error::OutOfMemory`] if the allocator refuses memory.
pub fn check(kind: Kind, der: &[u8]) -> Result<Verdict, Error> {
    lent(der, |reader| reader.check(kind, der))
}

/// As [`Reader::encode`].
///
/// ```
/// use cimaroly::{encode, Kind};
///
/// // `critical` FALSE is the default, which isn't written
/// let der = b"\x30\x0e\x30\x0c\x06\x03\x55\x1d\x13\x01\x01\x00\x04\x02\x30\x00";
/// let encoding = encode(Kind::Extensions, der)?;
/// assert_eq!(encoding, b"\x30\x0b\x30\x09\x06\x03\x55\x1d\x13\x04\x02\x30\x00");
/// # Ok::<(), cimaroly::Error>(())
/// ```
///
/// # Errors
/// [`Error::Refused`], [`Error::TooLong`], and [`Error::OutOfMemory`] if the allocator refuses
/// memory.
pub fn encode(kind: Kind, der: &[u8]) -> Result<Vec<u8>, Error> {
    filled(&0, der.len().saturating_add(64), |out| {
        lent(der, |reader| reader.encode(kind, der, out).map(<[u8]>::len))
    })
}

/// As [`Reader::places`].
///
/// # Errors
/// [`Error::Refused`], and [`Error::OutOfMemory`] if the allocator refuses memory.
pub fn places(kind: Kind, der: &[u8]) -> Result<Vec<Place>, Error> {
    filled(&Place::EMPTY, 16, |out| {
        lent(der, |reader| reader.places(kind, der, out).map(<[Place]>::len))
    })
}

/// As [`Reader::findings`].
///
/// # Errors
/// [`Error::Refused`], and [`Error::OutOfMemory`] if the allocator refuses memory.
pub fn findings(der: &[u8]) -> Result<Vec<Finding>, Error> {
    filled(&Finding::EMPTY, Rule::ALL.len(), |out| {
        lent(der, |reader| reader.findings(der, out).map(<[Finding]>::len))
    })
}

/// As [`Reader::request_findings`].
///
/// # Errors
/// [`Error::Refused`], and [`Error::OutOfMemory`] if the allocator refuses memory.
pub fn request_findings(der: &[u8]) -> Result<Vec<Finding>, Error> {
    filled(&Finding::EMPTY, Rule::ALL.len(), |out| {
        lent(der, |reader| reader.request_findings(der, out).map(<[Finding]>::len))
    })
}

/// As [`Reader::signed_part`].
///
/// # Errors
/// [`Error::Refused`]; [`Error::WrongKind`] of another kind; [`Error::OutOfMemory`] where the
/// allocator refuses memory.
pub fn signed_part(kind: Kind, der: &[u8]) -> Result<SignedPart<'_>, Error> {
    lent(der, |reader| reader.signed_part(kind, der))
}

/// As [`Reader::certificate`].
///
/// # Errors
/// [`Error::Refused`], and [`Error::OutOfMemory`] if the allocator refuses memory.
pub fn certificate(der: &[u8]) -> Result<Certificate<'_>, Error> {
    lent(der, |reader| reader.certificate(der))
}

/// As [`Reader::request`].
///
/// # Errors
/// [`Error::Refused`], and [`Error::OutOfMemory`] if the allocator refuses memory.
pub fn request(der: &[u8]) -> Result<Request<'_>, Error> {
    lent(der, |reader| reader.request(der))
}

/// As [`Reader::private_key`].
///
/// # Errors
/// [`Error::Refused`], and [`Error::OutOfMemory`] if the allocator refuses memory.
pub fn private_key(der: &[u8]) -> Result<PrivateKey<'_>, Error> {
    lent(der, |reader| reader.private_key(der))
}

/// As [`Reader::certificate_outline`].
///
/// # Errors
/// [`Error::Refused`], and [`Error::OutOfMemory`] if the allocator refuses memory.
pub fn certificate_outline(der: &[u8]) -> Result<CertificateOutline<'_>, Error> {
    lent(der, |reader| reader.certificate_outline(der))
}

/// As [`Reader::request_outline`].
///
/// # Errors
/// [`Error::Refused`], and [`Error::OutOfMemory`] if the allocator refuses memory.
pub fn request_outline(der: &[u8]) -> Result<RequestOutline<'_>, Error> {
    lent(der, |reader| reader.request_outline(der))
}

/// As [`Reader::private_key_outline`].
///
/// # Errors
/// [`Error::Refused`], and [`Error::OutOfMemory`] if the allocator refuses memory.
pub fn private_key_outline(der: &[u8]) -> Result<PrivateKeyOutline<'_>, Error> {
    lent(der, |reader| reader.private_key_outline(der))
}

/// As [`Reader::crl`].
///
/// # Errors
/// [`Error::Refused`], and [`Error::OutOfMemory`] if the allocator refuses memory.
pub fn crl(der: &[u8]) -> Result<Crl<'_>, Error> {
    lent(der, |reader| reader.crl(der))
}

/// As [`Reader::public_key`].
///
/// # Errors
/// [`Error::Refused`], and [`Error::OutOfMemory`] if the allocator refuses memory.
pub fn public_key(der: &[u8]) -> Result<PublicKey<'_>, Error> {
    lent(der, |reader| reader.public_key(der))
}

/// As [`Reader::extensions`].
///
/// # Errors
/// [`Error::Refused`]; [`Error::WrongKind`] of another kind; [`Error::OutOfMemory`] where the
/// allocator refuses memory.
pub fn extensions(kind: Kind, der: &[u8]) -> Result<Vec<Extension<'_>>, Error> {
    let mut found = Vec::new();
    filled(&ExtensionPlaces::EMPTY, 16, |out| {
        let told = lent(der, |reader| reader.extensions(kind, der, out).map(Vec::from_iter))?;
        let count = told.len();
        found = told;
        Ok(count)
    })?;
    Ok(found)
}

/// As [`Reader::report`].
///
/// # Errors
/// [`Error::OutOfMemory`] if the allocator refuses memory.
pub fn report(kind: Kind, der: &[u8], secrets: bool) -> Result<String, Error> {
    let first = der.len().saturating_mul(8).saturating_add(1024);
    let text = filled(&0, first, |out| {
        lent(der, |reader| reader.report(kind, der, secrets, out).map(str::len))
    })?;
    Ok(String::from_utf8(text).unwrap_or_default())
}
