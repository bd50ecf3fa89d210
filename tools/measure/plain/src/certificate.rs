//! Certificates.

use crate::der::*;
use crate::extensions::Extension;
use crate::names::Name;
use crate::primitive::*;

const RSA: &[u8] = &[0x2a, 0x86, 0x48, 0x86, 0xf7, 0x0d, 0x01, 0x01, 0x01];

pub enum Parameters {
    Absent,
    Null,
    Raw(Vec<u8>),
}

pub struct Algorithm {
    pub oid: Oid,
    pub parameters: Parameters,
}

impl Algorithm {
    fn read(reader: &mut Reader<'_>) -> Outcome<Self> {
        let mut fields = reader.enter(SEQUENCE)?;
        let oid = Oid::read(&mut fields)?;
        let parameters = match fields.rest() {
            [] => Parameters::Absent,
            [NULL, 0] => Parameters::Null,
            _ => {
                let parameters = Parameters::Raw(fields.element()?.to_vec());
                fields.end()?;
                parameters
            }
        };
        Ok(Algorithm { oid, parameters })
    }

    fn len(&self) -> usize {
        let parameters = match &self.parameters {
            Parameters::Absent => 0,
            Parameters::Null => 2,
            Parameters::Raw(bytes) => bytes.len(),
        };
        element_len(self.oid.len() + parameters)
    }

    fn write(&self, writer: &mut Writer<'_>) {
        writer.around(SEQUENCE, |writer| {
            match &self.parameters {
                Parameters::Absent => {}
                Parameters::Null => writer.element(NULL, &[]),
                Parameters::Raw(bytes) => writer.bytes(bytes),
            }
            self.oid.write(writer);
        });
    }
}

pub enum PublicKey {
    Rsa { modulus: Vec<u8>, exponent: Vec<u8> },
    Bits(Vec<u8>),
}

pub struct KeyInfo {
    pub algorithm: Algorithm,
    pub key: PublicKey,
}

fn rsa_key(reader: &mut Reader<'_>) -> Outcome<PublicKey> {
    let content = reader.content(BIT_STRING)?;
    let Some((0, bytes)) = content.split_first() else {
        return Err(Refused);
    };
    let mut inner = Reader::new(bytes);
    let mut fields = inner.enter(SEQUENCE)?;
    inner.end()?;
    let modulus = integer(&mut fields)?;
    let exponent = integer(&mut fields)?;
    fields.end()?;
    Ok(PublicKey::Rsa { modulus, exponent })
}

impl KeyInfo {
    fn read(reader: &mut Reader<'_>) -> Outcome<Self> {
        let mut fields = reader.enter(SEQUENCE)?;
        let algorithm = Algorithm::read(&mut fields)?;
        let key = if algorithm.oid.content() == RSA {
            rsa_key(&mut fields)?
        } else {
            PublicKey::Bits(bits(&mut fields)?)
        };
        fields.end()?;
        Ok(KeyInfo { algorithm, key })
    }

    fn len(&self) -> usize {
        let key = match &self.key {
            PublicKey::Rsa { modulus, exponent } => {
                1 + element_len(element_len(modulus.len()) + element_len(exponent.len()))
            }
            PublicKey::Bits(bits) => bits.len(),
        };
        element_len(self.algorithm.len() + element_len(key))
    }

    fn write(&self, writer: &mut Writer<'_>) {
        writer.around(SEQUENCE, |writer| {
            writer.around(BIT_STRING, |writer| match &self.key {
                PublicKey::Rsa { modulus, exponent } => {
                    writer.around(SEQUENCE, |writer| {
                        writer.element(INTEGER, exponent);
                        writer.element(INTEGER, modulus);
                    });
                    writer.byte(0);
                }
                PublicKey::Bits(bits) => writer.bytes(bits),
            });
            self.algorithm.write(writer);
        });
    }
}

pub struct Tbs {
    pub version: u8,
    pub serial: Vec<u8>,
    pub signature: Algorithm,
    pub issuer: Name,
    pub not_before: Time,
    pub not_after: Time,
    pub subject: Name,
    pub key: KeyInfo,
    pub extensions: Vec<Extension>,
}

fn version(reader: &mut Reader<'_>) -> Outcome<u8> {
    let mut inner = reader.enter(0xa0)?;
    let version = small(&mut inner)?;
    inner.end()?;
    if version > 2 {
        return Err(Refused);
    }
    Ok(version)
}

fn extensions(reader: &mut Reader<'_>) -> Outcome<Vec<Extension>> {
    let mut inner = reader.enter(0xa3)?;
    let extensions = items(&mut inner.enter(SEQUENCE)?, Extension::read)?;
    inner.end()?;
    Ok(extensions)
}

impl Tbs {
    fn read(reader: &mut Reader<'_>) -> Outcome<Self> {
        let mut fields = reader.enter(SEQUENCE)?;
        let version = version(&mut fields)?;
        let serial = integer(&mut fields)?;
        let signature = Algorithm::read(&mut fields)?;
        let issuer = Name::read(&mut fields)?;
        let mut times = fields.enter(SEQUENCE)?;
        let not_before = Time::read(&mut times)?;
        let not_after = Time::read(&mut times)?;
        times.end()?;
        let subject = Name::read(&mut fields)?;
        let key = KeyInfo::read(&mut fields)?;
        let extensions = extensions(&mut fields)?;
        fields.end()?;
        Ok(Tbs { version, serial, signature, issuer, not_before, not_after, subject, key, extensions })
    }

    fn len(&self) -> usize {
        let extensions = element_len(self.extensions.iter().map(Extension::len).sum());
        element_len(
            element_len(small_len(self.version))
                + element_len(self.serial.len())
                + self.signature.len()
                + self.issuer.len()
                + element_len(self.not_before.len() + self.not_after.len())
                + self.subject.len()
                + self.key.len()
                + element_len(extensions),
        )
    }

    fn write(&self, writer: &mut Writer<'_>) {
        writer.around(SEQUENCE, |writer| {
            writer.around(0xa3, |writer| {
                writer.around(SEQUENCE, |writer| {
                    self.extensions.iter().rev().for_each(|extension| extension.write(writer))
                })
            });
            self.key.write(writer);
            self.subject.write(writer);
            writer.around(SEQUENCE, |writer| {
                self.not_after.write(writer);
                self.not_before.write(writer);
            });
            self.issuer.write(writer);
            self.signature.write(writer);
            writer.element(INTEGER, &self.serial);
            writer.around(0xa0, |writer| write_small(self.version, writer));
        });
    }
}

pub struct Certificate {
    pub tbs: Tbs,
    pub algorithm: Algorithm,
    pub signature: Vec<u8>,
}

impl Certificate {
    pub fn from_bytes(bytes: &[u8]) -> Outcome<Self> {
        let mut reader = Reader::new(bytes);
        let mut fields = reader.enter(SEQUENCE)?;
        reader.end()?;
        let tbs = Tbs::read(&mut fields)?;
        let algorithm = Algorithm::read(&mut fields)?;
        let signature = bits(&mut fields)?;
        fields.end()?;
        Ok(Certificate { tbs, algorithm, signature })
    }

    pub fn len(&self) -> usize {
        element_len(self.tbs.len() + self.algorithm.len() + element_len(self.signature.len()))
    }

    /// Fills the front of a slice, and answers the length.
    pub fn write(&self, out: &mut [u8]) -> usize {
        let len = self.len();
        let mut writer = Writer::new(&mut out[..len]);
        writer.around(SEQUENCE, |writer| {
            writer.element(BIT_STRING, &self.signature);
            self.algorithm.write(writer);
            self.tbs.write(writer);
        });
        len
    }

    pub fn to_vec(&self) -> Vec<u8> {
        let mut out = vec![0; self.len()];
        self.write(&mut out);
        out
    }
}
