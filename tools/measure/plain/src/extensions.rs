//! Extensions.

use crate::der::*;
use crate::names::*;
use crate::primitive::*;

pub struct AuthorityKey {
    pub key: Option<Vec<u8>>,
    pub issuer: Option<GeneralNames>,
    pub serial: Option<Vec<u8>>,
}

pub enum ExtensionValue {
    AuthorityKey(AuthorityKey),
    SubjectKey(Vec<u8>),
    KeyUsage(Vec<u8>),
    SubjectNames(GeneralNames),
    IssuerNames(GeneralNames),
    Constraints(Option<bool>, Option<u8>),
    Purposes(Vec<Oid>),
    CrlNumber(Vec<u8>),
    Other(Vec<u8>),
}

pub struct Extension {
    pub id: Oid,
    pub critical: Option<bool>,
    pub value: ExtensionValue,
}

fn optional<T>(reader: &mut Reader<'_>, tag: u8, read: impl FnOnce(&mut Reader<'_>) -> Outcome<T>) -> Outcome<Option<T>> {
    if reader.tag() == Some(tag) {
        read(reader).map(Some)
    } else {
        Ok(None)
    }
}

fn authority_key(reader: &mut Reader<'_>) -> Outcome<ExtensionValue> {
    let mut fields = reader.enter(SEQUENCE)?;
    let key = optional(&mut fields, 0x80, |fields| Ok(fields.content(0x80)?.to_vec()))?;
    let issuer = optional(&mut fields, 0xa1, |fields| GeneralNames::read(0xa1, fields))?;
    let serial = optional(&mut fields, 0x82, |fields| Ok(fields.content(0x82)?.to_vec()))?;
    fields.end()?;
    Ok(ExtensionValue::AuthorityKey(AuthorityKey { key, issuer, serial }))
}

fn constraints(reader: &mut Reader<'_>) -> Outcome<ExtensionValue> {
    let mut fields = reader.enter(SEQUENCE)?;
    let is_authority = optional(&mut fields, BOOLEAN, boolean)?;
    let longest = optional(&mut fields, INTEGER, small)?;
    fields.end()?;
    Ok(ExtensionValue::Constraints(is_authority, longest))
}

impl ExtensionValue {
    fn read(id: &Oid, reader: &mut Reader<'_>) -> Outcome<Self> {
        let content = reader.content(OCTET_STRING)?;
        let mut inner = Reader::new(content);
        let value = match id.content() {
            [0x55, 0x1d, 35] => authority_key(&mut inner)?,
            [0x55, 0x1d, 14] => ExtensionValue::SubjectKey(inner.content(OCTET_STRING)?.to_vec()),
            [0x55, 0x1d, 15] => ExtensionValue::KeyUsage(bits(&mut inner)?),
            [0x55, 0x1d, 17] => ExtensionValue::SubjectNames(GeneralNames::read(SEQUENCE, &mut inner)?),
            [0x55, 0x1d, 18] => ExtensionValue::IssuerNames(GeneralNames::read(SEQUENCE, &mut inner)?),
            [0x55, 0x1d, 19] => constraints(&mut inner)?,
            [0x55, 0x1d, 37] => ExtensionValue::Purposes(items(&mut inner.enter(SEQUENCE)?, Oid::read)?),
            [0x55, 0x1d, 20] => ExtensionValue::CrlNumber(integer(&mut inner)?),
            _ => return Ok(ExtensionValue::Other(content.to_vec())),
        };
        inner.end()?;
        Ok(value)
    }

    fn len(&self) -> usize {
        let sized = |bytes: &Option<Vec<u8>>| bytes.as_ref().map_or(0, |bytes| element_len(bytes.len()));
        match self {
            ExtensionValue::AuthorityKey(value) => {
                let issuer = value.issuer.as_ref().map_or(0, GeneralNames::len);
                element_len(sized(&value.key) + issuer + sized(&value.serial))
            }
            ExtensionValue::SubjectKey(bytes)
            | ExtensionValue::KeyUsage(bytes)
            | ExtensionValue::CrlNumber(bytes) => element_len(bytes.len()),
            ExtensionValue::SubjectNames(names) | ExtensionValue::IssuerNames(names) => names.len(),
            ExtensionValue::Constraints(is_authority, longest) => {
                element_len(is_authority.map_or(0, |_| 3) + longest.map_or(0, small_len))
            }
            ExtensionValue::Purposes(purposes) => element_len(purposes.iter().map(Oid::len).sum()),
            ExtensionValue::Other(bytes) => bytes.len(),
        }
    }

    fn write(&self, writer: &mut Writer<'_>) {
        match self {
            ExtensionValue::AuthorityKey(value) => writer.around(SEQUENCE, |writer| {
                if let Some(serial) = &value.serial {
                    writer.element(0x82, serial);
                }
                if let Some(issuer) = &value.issuer {
                    issuer.write(0xa1, writer);
                }
                if let Some(key) = &value.key {
                    writer.element(0x80, key);
                }
            }),
            ExtensionValue::SubjectKey(bytes) => writer.element(OCTET_STRING, bytes),
            ExtensionValue::KeyUsage(bytes) => writer.element(BIT_STRING, bytes),
            ExtensionValue::SubjectNames(names) | ExtensionValue::IssuerNames(names) => names.write(SEQUENCE, writer),
            ExtensionValue::Constraints(is_authority, longest) => writer.around(SEQUENCE, |writer| {
                if let Some(longest) = longest {
                    write_small(*longest, writer);
                }
                if let Some(is_authority) = is_authority {
                    write_boolean(*is_authority, writer);
                }
            }),
            ExtensionValue::Purposes(purposes) => {
                writer.around(SEQUENCE, |writer| purposes.iter().rev().for_each(|purpose| purpose.write(writer)))
            }
            ExtensionValue::CrlNumber(bytes) => writer.element(INTEGER, bytes),
            ExtensionValue::Other(bytes) => writer.bytes(bytes),
        }
    }
}

impl Extension {
    pub fn read(reader: &mut Reader<'_>) -> Outcome<Self> {
        let mut fields = reader.enter(SEQUENCE)?;
        let id = Oid::read(&mut fields)?;
        let critical = optional(&mut fields, BOOLEAN, boolean)?;
        let value = ExtensionValue::read(&id, &mut fields)?;
        fields.end()?;
        Ok(Extension { id, critical, value })
    }

    pub fn len(&self) -> usize {
        element_len(self.id.len() + self.critical.map_or(0, |_| 3) + element_len(self.value.len()))
    }

    pub fn write(&self, writer: &mut Writer<'_>) {
        writer.around(SEQUENCE, |writer| {
            writer.around(OCTET_STRING, |writer| self.value.write(writer));
            if let Some(critical) = self.critical {
                write_boolean(critical, writer);
            }
            self.id.write(writer);
        });
    }
}
