//! The calls, over memory that is lent.

use core::slice;
use core::str;

use crate::error::{Error, Reason, Refused};
use crate::field_path::FieldPath;
use crate::fields::{
    Certificate, CertificateOutline, Crl, Extension, Field, PrivateKey, PrivateKeyOutline, Request,
    RequestOutline,
};
use crate::findings::Finding;
use crate::keys::PublicKey;
use crate::kind::Kind;
use crate::library::{self, status, Block, ExtensionPlaces, Span};
use crate::told::{Place, SignedPart, Verdict};

/// Reads inputs, in memory that it is lent. Nothing of an input is kept from one call to the next.
///
/// A certificate needs some 15 times its size and a few thousand bytes, a list of many small items up
/// to 120 times, and a report some 40 times; the field of a refusal takes a kilobyte more. With too
/// little the answer is [`Error::OutOfMemory`], and never another.
///
/// ```
/// use cimaroly::{Block, Error, Kind, Reader, Reason};
///
/// let mut memory = [Block::UNINIT; 1024];
/// let mut reader = Reader::new(&mut memory);
/// match reader.check(Kind::Name, b"\x31\x00") {
///     Err(Error::Refused(refused)) => assert_eq!(refused.reason, Reason::WrongTag),
///     other => panic!("{other:?}"),
/// }
/// ```
#[derive(Debug)]
pub struct Reader<'m> {
    memory: &'m mut [Block],
}

impl<'m> Reader<'m> {
    /// Reads in this memory.
    pub fn new(memory: &'m mut [Block]) -> Self {
        Reader { memory }
    }

    /// Whether the input encodes a value of the kind, and how it deviates from the value's DER
    /// encoding.
    ///
    /// # Errors
    /// [`Error::Refused`] and [`Error::OutOfMemory`].
    pub fn check(&mut self, kind: Kind, der: &[u8]) -> Result<Verdict, Error> {
        let mut told = library::Verdict::default();
        let status = library::check(kind as u32, der, &mut told);
        match (status, Reason::from_number(told.error)) {
            (status::OK, _) => Ok(Verdict { counts: told.counts, headers: told.headers }),
            (status::REFUSED, Some(reason)) => {
                let field = self.refused_in(kind, der)?;
                Err(Error::Refused(Refused { reason, at: told.at, field }))
            }
            _ => Err(Error::OutOfMemory),
        }
    }

    /// Writes the DER encoding of what the input encodes to the front of `out`. If the input has no
    /// deviations, these are its own bytes.
    ///
    /// # Errors
    /// [`Error::Refused`], [`Error::OutOfMemory`], [`Error::BufferTooShort`] and
    /// [`Error::TooLong`].
    pub fn encode<'o>(
        &mut self,
        kind: Kind,
        der: &[u8],
        out: &'o mut [u8],
    ) -> Result<&'o [u8], Error> {
        let mut size = 0;
        let status = library::encode(self.memory, kind as u32, der, out, &mut size);
        self.done(status, kind, der, size)?;
        Ok(out.get(..size).unwrap_or_default())
    }

    /// Writes where each deviation stands to the front of `out`: by start, and then by number.
    ///
    /// # Errors
    /// [`Error::Refused`], [`Error::OutOfMemory`] and [`Error::BufferTooShort`].
    pub fn places<'o>(
        &mut self,
        kind: Kind,
        der: &[u8],
        out: &'o mut [Place],
    ) -> Result<&'o [Place], Error> {
        let mut count = 0;
        let status = library::places::places(self.memory, kind as u32, der, out, &mut count);
        self.done(status, kind, der, count)?;
        Ok(out.get(..count).unwrap_or_default())
    }

    /// Writes which rules a certificate breaks to the front of `out`, in the order of
    /// [`Rule::ALL`](crate::Rule::ALL): each that it breaks, once. No signature is checked, and no
    /// clock is read.
    ///
    /// # Errors
    /// [`Error::Refused`], [`Error::OutOfMemory`] and [`Error::BufferTooShort`].
    pub fn findings<'o>(
        &mut self,
        der: &[u8],
        out: &'o mut [Finding],
    ) -> Result<&'o [Finding], Error> {
        let mut count = 0;
        let status = library::places::findings(self.memory, der, out, &mut count);
        self.done(status, Kind::Certificate, der, count)?;
        Ok(out.get(..count).unwrap_or_default())
    }

    /// Writes which rules a request breaks to the front of `out`: as [`findings`](Self::findings), by
    /// its subject, its key, the algorithm of its signature, and the extensions that it asks for.
    ///
    /// # Errors
    /// [`Error::Refused`], [`Error::OutOfMemory`] and [`Error::BufferTooShort`].
    pub fn request_findings<'o>(
        &mut self,
        der: &[u8],
        out: &'o mut [Finding],
    ) -> Result<&'o [Finding], Error> {
        let mut count = 0;
        let status = library::places::request_findings(self.memory, der, out, &mut count);
        self.done(status, Kind::Request, der, count)?;
        Ok(out.get(..count).unwrap_or_default())
    }

    /// What the signature of a certificate or a request covers.
    ///
    /// # Errors
    /// [`Error::Refused`], [`Error::OutOfMemory`]; [`Error::WrongKind`] of another kind.
    pub fn signed_part<'a>(&mut self, kind: Kind, der: &'a [u8]) -> Result<SignedPart<'a>, Error> {
        let mut told = library::Signed::default();
        let status = library::signed_part(kind as u32, der, &mut told);
        self.done(status, kind, der, 0)?;
        Ok(SignedPart { part: field(der, told.part), inside: told.inside, outside: told.outside })
    }

    /// The fields of a certificate.
    ///
    /// # Errors
    /// [`Error::Refused`] and [`Error::OutOfMemory`].
    pub fn certificate<'a>(&mut self, der: &'a [u8]) -> Result<Certificate<'a>, Error> {
        let mut told = library::fields::Certificate::default();
        let status = library::fields::certificate(der, &mut told);
        self.done(status, Kind::Certificate, der, 0)?;
        Ok(Certificate {
            tbs_certificate: field(der, told.tbs_certificate),
            version: optional(der, told.version),
            serial_number: field(der, told.serial_number),
            signature: field(der, told.signature),
            issuer: field(der, told.issuer),
            validity: field(der, told.validity),
            subject: field(der, told.subject),
            subject_public_key_info: field(der, told.subject_public_key_info),
            issuer_unique_id: optional(der, told.issuer_unique_id),
            subject_unique_id: optional(der, told.subject_unique_id),
            extensions: optional(der, told.extensions),
            signature_algorithm: field(der, told.signature_algorithm),
            signature_value: field(der, told.signature_value),
            whole: field(der, Span { start: 0, end: der.len() }),
        })
    }

    /// The fields of a request.
    ///
    /// # Errors
    /// [`Error::Refused`] and [`Error::OutOfMemory`].
    pub fn request<'a>(&mut self, der: &'a [u8]) -> Result<Request<'a>, Error> {
        let mut told = library::fields::Request::default();
        let status = library::fields::request(der, &mut told);
        self.done(status, Kind::Request, der, 0)?;
        Ok(Request {
            certification_request_info: field(der, told.certification_request_info),
            version: field(der, told.version),
            subject: field(der, told.subject),
            subject_public_key_info: field(der, told.subject_public_key_info),
            attributes: field(der, told.attributes),
            signature_algorithm: field(der, told.signature_algorithm),
            signature: field(der, told.signature),
            whole: field(der, Span { start: 0, end: der.len() }),
        })
    }

    /// The fields of a private key.
    ///
    /// # Errors
    /// [`Error::Refused`] and [`Error::OutOfMemory`].
    pub fn private_key<'a>(&mut self, der: &'a [u8]) -> Result<PrivateKey<'a>, Error> {
        let mut told = library::fields::PrivateKey::default();
        let status = library::fields::private_key(der, &mut told);
        self.done(status, Kind::PrivateKey, der, 0)?;
        Ok(PrivateKey {
            version: field(der, told.version),
            private_key_algorithm: field(der, told.private_key_algorithm),
            private_key: field(der, told.private_key),
            skipped: optional(der, told.skipped),
            public_key: optional(der, told.public_key),
        })
    }

    /// The fields of a certificate of any algorithm.
    ///
    /// # Errors
    /// [`Error::Refused`] and [`Error::OutOfMemory`].
    pub fn certificate_outline<'a>(
        &mut self,
        der: &'a [u8],
    ) -> Result<CertificateOutline<'a>, Error> {
        let mut told = library::fields::Certificate::default();
        let status = library::fields::certificate_outline(der, &mut told);
        self.done(status, Kind::CertificateOutline, der, 0)?;
        Ok(CertificateOutline {
            tbs_certificate: field(der, told.tbs_certificate),
            version: optional(der, told.version),
            serial_number: field(der, told.serial_number),
            signature: field(der, told.signature),
            issuer: field(der, told.issuer),
            validity: field(der, told.validity),
            subject: field(der, told.subject),
            subject_public_key_info: field(der, told.subject_public_key_info),
            issuer_unique_id: optional(der, told.issuer_unique_id),
            subject_unique_id: optional(der, told.subject_unique_id),
            extensions: optional(der, told.extensions),
            signature_algorithm: field(der, told.signature_algorithm),
            signature_value: field(der, told.signature_value),
        })
    }

    /// The fields of a request of any algorithm.
    ///
    /// # Errors
    /// [`Error::Refused`] and [`Error::OutOfMemory`].
    pub fn request_outline<'a>(&mut self, der: &'a [u8]) -> Result<RequestOutline<'a>, Error> {
        let mut told = library::fields::Request::default();
        let status = library::fields::request_outline(der, &mut told);
        self.done(status, Kind::RequestOutline, der, 0)?;
        Ok(RequestOutline {
            certification_request_info: field(der, told.certification_request_info),
            version: field(der, told.version),
            subject: field(der, told.subject),
            subject_public_key_info: field(der, told.subject_public_key_info),
            attributes: field(der, told.attributes),
            signature_algorithm: field(der, told.signature_algorithm),
            signature: field(der, told.signature),
        })
    }

    /// The fields of a private key of any algorithm; its attributes are what is skipped.
    ///
    /// # Errors
    /// [`Error::Refused`] and [`Error::OutOfMemory`].
    pub fn private_key_outline<'a>(
        &mut self,
        der: &'a [u8],
    ) -> Result<PrivateKeyOutline<'a>, Error> {
        let mut told = library::fields::PrivateKey::default();
        let status = library::fields::private_key_outline(der, &mut told);
        self.done(status, Kind::PrivateKeyOutline, der, 0)?;
        Ok(PrivateKeyOutline {
            version: field(der, told.version),
            private_key_algorithm: field(der, told.private_key_algorithm),
            private_key: field(der, told.private_key),
            skipped: optional(der, told.skipped),
            public_key: optional(der, told.public_key),
        })
    }

    /// The fields of a revocation list of any algorithm.
    ///
    /// # Errors
    /// [`Error::Refused`] and [`Error::OutOfMemory`].
    pub fn crl<'a>(&mut self, der: &'a [u8]) -> Result<Crl<'a>, Error> {
        let mut told = library::fields::Crl::default();
        let status = library::fields::crl(der, &mut told);
        self.done(status, Kind::Crl, der, 0)?;
        Ok(Crl {
            tbs_cert_list: field(der, told.tbs_cert_list),
            version: optional(der, told.version),
            signature: field(der, told.signature),
            issuer: field(der, told.issuer),
            this_update: field(der, told.this_update),
            next_update: optional(der, told.next_update),
            revoked_certificates: optional(der, told.revoked_certificates),
            crl_extensions: optional(der, told.crl_extensions),
            signature_algorithm: field(der, told.signature_algorithm),
            signature_value: field(der, told.signature_value),
        })
    }

    /// A public key, a `SubjectPublicKeyInfo` by itself (RFC 5280, 4.1.2.7).
    ///
    /// # Errors
    /// [`Error::Refused`] and [`Error::OutOfMemory`].
    pub fn public_key<'a>(&mut self, der: &'a [u8]) -> Result<PublicKey<'a>, Error> {
        let mut told = library::keys::Key::default();
        let status = library::keys::public_key(Kind::PublicKey as u32, der, &mut told);
        self.done(status, Kind::PublicKey, der, 0)?;
        Ok(PublicKey::at(der, der, &told))
    }

    /// The extensions of a certificate or a list of extensions, in the order of the input. `out` is
    /// worked in.
    ///
    /// # Errors
    /// [`Error::Refused`], [`Error::OutOfMemory`] and [`Error::BufferTooShort`];
    /// [`Error::WrongKind`] of another kind.
    pub fn extensions<'a, 'o>(
        &mut self,
        kind: Kind,
        der: &'a [u8],
        out: &'o mut [ExtensionPlaces],
    ) -> Result<Extensions<'a, 'o>, Error> {
        let mut count = 0;
        let status = library::extensions(kind as u32, der, out, &mut count);
        self.done(status, kind, der, count)?;
        let places = out.get(..count).unwrap_or_default().iter();
        Ok(Extensions { der, places })
    }

    /// Writes what stands in the input to the front of `out`, as a JSON object (docs/JSON.md of the
    /// repository). The secret numbers of private keys are left out unless `secrets` is true. If the
    /// input is refused, the object says why and where.
    ///
    /// # Errors
    /// [`Error::OutOfMemory`] and [`Error::BufferTooShort`].
    pub fn report<'o>(
        &mut self,
        kind: Kind,
        der: &[u8],
        secrets: bool,
        out: &'o mut [u8],
    ) -> Result<&'o str, Error> {
        let mut size = 0;
        let status = library::report(self.memory, kind as u32, der, secrets, out, &mut size);
        self.done(status, kind, der, size)?;
        Ok(str::from_utf8(out.get(..size).unwrap_or_default()).unwrap_or_default())
    }

    /// The field in which an input is refused, as its report tells it.
    fn refused_in(&mut self, kind: Kind, der: &[u8]) -> Result<Option<FieldPath>, Error> {
        // (there is room for every report that has no fields)
        let (mut out, mut size) = ([0; 512], 0);
        let status = library::report(self.memory, kind as u32, der, false, &mut out, &mut size);
        match status {
            status::OK => Ok(FieldPath::in_report(out.get(..size).unwrap_or_default())),
            status::OUT_OF_MEMORY => Err(Error::OutOfMemory),
            _ => Ok(None),
        }
    }

    /// Why a call has no answer, if it has none.
    fn done(&mut self, status: u32, kind: Kind, der: &[u8], needed: usize) -> Result<(), Error> {
        match status {
            status::OK => Ok(()),
            status::REFUSED => self.check(kind, der).map(|_| ()),
            status::OUT_OF_MEMORY => Err(Error::OutOfMemory),
            status::BUFFER_TOO_SHORT => Err(Error::BufferTooShort { needed }),
            status::TOO_LONG => Err(Error::TooLong),
            _ => Err(Error::WrongKind),
        }
    }
}

/// The extensions that [`Reader::extensions`] found.
#[derive(Clone, Debug)]
pub struct Extensions<'a, 'o> {
    der: &'a [u8],
    places: slice::Iter<'o, ExtensionPlaces>,
}

impl<'a> Iterator for Extensions<'a, '_> {
    type Item = Extension<'a>;

    fn next(&mut self) -> Option<Extension<'a>> {
        let places = self.places.next()?;
        Some(Extension {
            whole: field(self.der, places.whole),
            extn_id: field(self.der, places.extn_id),
            critical: optional(self.der, places.critical),
            extn_value: field(self.der, places.extn_value),
        })
    }

    fn size_hint(&self) -> (usize, Option<usize>) {
        self.places.size_hint()
    }
}

impl ExactSizeIterator for Extensions<'_, '_> {}

/// A field that the input has.
fn field(der: &[u8], span: Span) -> Field<'_> {
    // (the library's spans lie within the input; no bytes else)
    Field::of(der, span.start, span.end).unwrap_or_default()
}

/// A field that the input may have.
fn optional(der: &[u8], span: Span) -> Option<Field<'_>> {
    Field::of(der, span.start, span.end)
}
