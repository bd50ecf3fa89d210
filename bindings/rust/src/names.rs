//! Names, which borrow from the input.

use core::array;
use core::fmt;
use core::str;

use crate::elements::Elements;
use crate::few::Few;
use crate::library::{AttributePlace, AttributesCall};
use crate::oid::Oid;
use crate::strings;

/// A name: attributes, in sets that stand one behind another (RFC 5280, 4.1.2.4).
///
/// It prints by [RFC 4514](https://www.rfc-editor.org/rfc/rfc4514): the last set first, and what can't
/// be printed escaped. Names are equal if they are the same bytes.
#[derive(Clone, Copy)]
pub struct Name<'a> {
    sets: &'a [u8],
    source: Option<Source<'a>>,
}

/// The certificate or request that a name stands in, and the call that tells of its attributes.
#[derive(Clone, Copy)]
pub(crate) struct Source<'a> {
    pub(crate) der: &'a [u8],
    pub(crate) call: AttributesCall,
}

impl fmt::Debug for Name<'_> {
    fn fmt(&self, f: &mut fmt::Formatter<'_>) -> fmt::Result {
        self.attributes().fmt(f)
    }
}

impl PartialEq for Name<'_> {
    fn eq(&self, other: &Self) -> bool {
        self.sets == other.sets
    }
}

impl Eq for Name<'_> {}

impl<'a> Name<'a> {
    /// The name with these sets.
    pub(crate) fn of(sets: &'a [u8]) -> Self {
        Name { sets, source: None }
    }

    /// The name with these sets that stands in a certificate or a request.
    pub(crate) fn within(sets: &'a [u8], source: Source<'a>) -> Self {
        Name { sets, source: Some(source) }
    }

    /// Its attributes, in the order of the input.
    #[must_use]
    pub fn attributes(self) -> Attributes<'a> {
        let walk = Walk { sets: Elements(self.sets), set: Elements::default(), count: 0 };
        let Some(Source { der, call }) = self.source else {
            return Attributes { der: &[], few: Few::none(), rest: walk };
        };
        let (few, has_more) = Few::told(|out, count| call(der, out, count));
        let rest = if has_more { walk.behind(FIRST) } else { Walk::default() };
        Attributes { der, few, rest }
    }

    /// The first attribute of a type.
    #[must_use]
    pub fn attribute(self, oid: Oid<'_>) -> Option<Attribute<'a>> {
        self.attributes().find(|it| it.oid.content() == oid.content())
    }

    /// The text of the first common name, if it has one that is UTF-8.
    #[must_use]
    pub fn common_name(self) -> Option<&'a str> {
        self.attribute(Oid::COMMON_NAME)?.text()
    }
}

/// How many sets are written in one walk over a name.
const WINDOW: usize = 32;

impl fmt::Display for Name<'_> {
    fn fmt(&self, f: &mut fmt::Formatter<'_>) -> fmt::Result {
        let mut between = "";
        let attributes = self.attributes();
        if attributes.rest.is_empty() {
            for set in attributes.few.left().chunk_by(|one, next| one.set == next.set).rev() {
                f.write_str(between)?;
                between = ",";
                written(f, set.iter().map(|place| Attribute::at(attributes.der, *place)))?;
            }
            return Ok(());
        }
        let mut end = Elements(self.sets).count();
        while end > 0 {
            let start = end.saturating_sub(WINDOW);
            let mut window = array::from_fn::<_, WINDOW, _>(|_| Elements::default());
            for (place, set) in window.iter_mut().zip(Elements(self.sets).skip(start)) {
                *place = set.inside();
            }
            for set in window.into_iter().take(end - start).rev() {
                f.write_str(between)?;
                between = ",";
                written(f, set.filter_map(|it| Attribute::of(0, it.inside())))?;
            }
            end = start;
        }
        Ok(())
    }
}

/// Writes the attributes of a set.
fn written<'a>(
    f: &mut fmt::Formatter<'_>,
    set: impl Iterator<Item = Attribute<'a>>,
) -> fmt::Result {
    for (index, attribute) in set.enumerate() {
        let between = if index == 0 { "" } else { "+" };
        write!(f, "{between}{attribute}")?;
    }
    Ok(())
}

/// How many attributes the library is asked for; those behind are walked over.
const FIRST: usize = 16;

/// The attributes of a name, which [`Name::attributes`] gives.
#[derive(Clone)]
pub struct Attributes<'a> {
    der: &'a [u8],
    few: Few<AttributePlace, FIRST>,
    rest: Walk<'a>,
}

impl fmt::Debug for Attributes<'_> {
    fn fmt(&self, f: &mut fmt::Formatter<'_>) -> fmt::Result {
        f.debug_list().entries(self.clone()).finish()
    }
}

impl<'a> Iterator for Attributes<'a> {
    type Item = Attribute<'a>;

    fn next(&mut self) -> Option<Attribute<'a>> {
        let told = self.few.next().map(|place| Attribute::at(self.der, place));
        told.or_else(|| self.rest.next())
    }
}

/// A walk over the attributes of a name that no call tells of, as of a general name, or that has many.
#[derive(Clone, Default)]
struct Walk<'a> {
    sets: Elements<'a>,
    set: Elements<'a>,
    count: usize,
}

impl Walk<'_> {
    fn is_empty(&self) -> bool {
        self.sets.0.is_empty() && self.set.0.is_empty()
    }

    /// That behind so many attributes.
    fn behind(mut self, count: usize) -> Self {
        for _ in 0..count {
            self.next();
        }
        self
    }
}

impl<'a> Iterator for Walk<'a> {
    type Item = Attribute<'a>;

    fn next(&mut self) -> Option<Attribute<'a>> {
        loop {
            if let Some(attribute) = self.set.next() {
                return Attribute::of(self.count - 1, attribute.inside());
            }
            self.set = self.sets.next()?.inside();
            self.count += 1;
        }
    }
}

/// An attribute of a name (RFC 5280, 4.1.2.4). It prints by RFC 4514, as `CN=example.org`.
#[derive(Clone, Copy, PartialEq, Eq)]
#[non_exhaustive]
pub struct Attribute<'a> {
    /// The number of its set, a `RelativeDistinguishedName`, from 0: attributes of one have the same.
    pub set: usize,
    /// `type`.
    pub oid: Oid<'a>,
    /// The tag of `value`: 12 of a `UTF8String`, 19 of a `PrintableString`, 30 of a `BMPString`.
    pub tag: u8,
    /// The content of `value`.
    pub value: &'a [u8],
}

impl fmt::Debug for Attribute<'_> {
    fn fmt(&self, f: &mut fmt::Formatter<'_>) -> fmt::Result {
        match self.text() {
            Some(text) => write!(f, "{}={text:?}", self.oid),
            None => write!(f, "{}={:?}", self.oid, self.value),
        }
    }
}

/// The tag of a `BMPString`.
const BMP_STRING: u8 = 30;

impl fmt::Display for Attribute<'_> {
    fn fmt(&self, f: &mut fmt::Formatter<'_>) -> fmt::Result {
        let short = strings::short_name(self.oid);
        match (short, self.text()) {
            (Some(short), Some(text)) => {
                write!(f, "{short}=")?;
                strings::escaped(f, text.chars())
            }
            (Some(short), None) if self.tag == BMP_STRING => {
                write!(f, "{short}=")?;
                strings::escaped(f, strings::utf16(self.value))
            }
            (Some(short), None) => {
                write!(f, "{short}=#")?;
                strings::encoded(f, self.tag, self.value)
            }
            (None, _) => {
                write!(f, "{}=#", self.oid)?;
                strings::encoded(f, self.tag, self.value)
            }
        }
    }
}

impl<'a> Attribute<'a> {
    fn of(set: usize, mut fields: Elements<'a>) -> Option<Self> {
        let (oid, value) = (fields.next()?, fields.next()?);
        Some(Attribute { set, oid: Oid::read(oid.content), tag: value.tag, value: value.content })
    }

    /// That which stands at these places of an input.
    fn at(der: &'a [u8], AttributePlace { set, identifier, tag, value }: AttributePlace) -> Self {
        Attribute { set, oid: Oid::read(identifier.of(der)), tag, value: value.of(der) }
    }

    /// The value, if it is a string of UTF-8 or ASCII; `None` of a `BMPString`, `TeletexString` or
    /// `UniversalString`, and of what isn't a string.
    #[must_use]
    pub fn text(self) -> Option<&'a str> {
        // UTF8String, NumericString, PrintableString, IA5String and VisibleString
        matches!(self.tag, 12 | 18 | 19 | 22 | 26).then(|| str::from_utf8(self.value).ok())?
    }
}
