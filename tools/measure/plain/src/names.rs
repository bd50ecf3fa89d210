//! Names and general names.

use crate::der::*;
use crate::primitive::*;

const EMAIL: &[u8] = &[0x2a, 0x86, 0x48, 0x86, 0xf7, 0x0d, 0x01, 0x09, 0x01];

/// The last bytes of the attributes under 2.5.4 whose values are directory strings.
const TEXTS: &[u8] = &[3, 4, 5, 6, 7, 8, 9, 10, 11, 20, 42];

pub enum AttributeValue {
    Text(Text),
    Raw(Vec<u8>),
}

pub struct Attribute {
    pub ty: Oid,
    pub value: AttributeValue,
}

impl Attribute {
    fn read(reader: &mut Reader<'_>) -> Outcome<Self> {
        let mut fields = reader.enter(SEQUENCE)?;
        let ty = Oid::read(&mut fields)?;
        let value = match ty.content() {
            [0x55, 0x04, last] if TEXTS.contains(last) => AttributeValue::Text(Text::directory(&mut fields)?),
            content if content == EMAIL => AttributeValue::Text(Text::read(IA5_STRING, &mut fields)?),
            _ => AttributeValue::Raw(fields.element()?.to_vec()),
        };
        fields.end()?;
        Ok(Attribute { ty, value })
    }

    fn len(&self) -> usize {
        let value = match &self.value {
            AttributeValue::Text(text) => element_len(text.bytes.len()),
            AttributeValue::Raw(bytes) => bytes.len(),
        };
        element_len(self.ty.len() + value)
    }

    fn write(&self, writer: &mut Writer<'_>) {
        writer.around(SEQUENCE, |writer| {
            match &self.value {
                AttributeValue::Text(text) => writer.element(text.tag, &text.bytes),
                AttributeValue::Raw(bytes) => writer.bytes(bytes),
            }
            self.ty.write(writer);
        });
    }
}

pub struct Name(pub Vec<Vec<Attribute>>);

impl Name {
    pub fn read(reader: &mut Reader<'_>) -> Outcome<Self> {
        let sets = items(&mut reader.enter(SEQUENCE)?, |reader| items(&mut reader.enter(SET)?, Attribute::read))?;
        Ok(Name(sets))
    }

    pub fn len(&self) -> usize {
        let set_len = |set: &Vec<Attribute>| element_len(set.iter().map(Attribute::len).sum());
        element_len(self.0.iter().map(set_len).sum())
    }

    pub fn write(&self, writer: &mut Writer<'_>) {
        writer.around(SEQUENCE, |writer| {
            for set in self.0.iter().rev() {
                writer.around(SET, |writer| set.iter().rev().for_each(|attribute| attribute.write(writer)));
            }
        });
    }
}

pub enum GeneralName {
    Other(Oid, Vec<u8>),
    Email(Vec<u8>),
    Dns(Vec<u8>),
    Directory(Name),
    Uri(Vec<u8>),
    Address(Vec<u8>),
    Registered(Oid),
}

impl GeneralName {
    pub fn read(reader: &mut Reader<'_>) -> Outcome<Self> {
        match reader.tag().ok_or(Refused)? {
            0xa0 => {
                let mut fields = reader.enter(0xa0)?;
                let ty = Oid::read(&mut fields)?;
                let value = fields.content(0xa0)?.to_vec();
                fields.end()?;
                Ok(GeneralName::Other(ty, value))
            }
            0x81 => Ok(GeneralName::Email(ia5_as(0x81, reader)?)),
            0x82 => Ok(GeneralName::Dns(ia5_as(0x82, reader)?)),
            0xa4 => {
                let mut inner = reader.enter(0xa4)?;
                let name = Name::read(&mut inner)?;
                inner.end()?;
                Ok(GeneralName::Directory(name))
            }
            0x86 => Ok(GeneralName::Uri(ia5_as(0x86, reader)?)),
            0x87 => Ok(GeneralName::Address(reader.content(0x87)?.to_vec())),
            0x88 => Ok(GeneralName::Registered(Oid::of(reader.content(0x88)?)?)),
            _ => Err(Refused),
        }
    }

    fn len(&self) -> usize {
        match self {
            GeneralName::Other(ty, value) => element_len(ty.len() + element_len(value.len())),
            GeneralName::Email(bytes)
            | GeneralName::Dns(bytes)
            | GeneralName::Uri(bytes)
            | GeneralName::Address(bytes) => element_len(bytes.len()),
            GeneralName::Directory(name) => element_len(name.len()),
            GeneralName::Registered(oid) => oid.len(),
        }
    }

    fn write(&self, writer: &mut Writer<'_>) {
        match self {
            GeneralName::Other(ty, value) => writer.around(0xa0, |writer| {
                writer.element(0xa0, value);
                ty.write(writer);
            }),
            GeneralName::Email(bytes) => writer.element(0x81, bytes),
            GeneralName::Dns(bytes) => writer.element(0x82, bytes),
            GeneralName::Directory(name) => writer.around(0xa4, |writer| name.write(writer)),
            GeneralName::Uri(bytes) => writer.element(0x86, bytes),
            GeneralName::Address(bytes) => writer.element(0x87, bytes),
            GeneralName::Registered(oid) => writer.element(0x88, oid.content()),
        }
    }
}

pub struct GeneralNames(pub Vec<GeneralName>);

impl GeneralNames {
    pub fn read(tag: u8, reader: &mut Reader<'_>) -> Outcome<Self> {
        Ok(GeneralNames(items(&mut reader.enter(tag)?, GeneralName::read)?))
    }

    pub fn len(&self) -> usize {
        element_len(self.0.iter().map(GeneralName::len).sum())
    }

    pub fn write(&self, tag: u8, writer: &mut Writer<'_>) {
        writer.around(tag, |writer| self.0.iter().rev().for_each(|name| name.write(writer)));
    }
}
