//! A walk over the elements in a field that was read, which has the shape that the library found.

/// An element: its tag, and what stands in it.
#[derive(Clone, Copy)]
pub(crate) struct Element<'a> {
    pub(crate) tag: u8,
    pub(crate) content: &'a [u8],
}

impl<'a> Element<'a> {
    /// The elements that stand in it.
    pub(crate) fn inside(self) -> Elements<'a> {
        Elements(self.content)
    }
}

/// Elements that stand one behind another (X.690, 8.1).
#[derive(Clone, Default)]
pub(crate) struct Elements<'a>(pub(crate) &'a [u8]);

/// What stands in the first element of some; nothing where there is none.
pub(crate) fn first_in(elements: &[u8]) -> &[u8] {
    Elements(elements).next().map(|it| it.content).unwrap_or_default()
}

impl<'a> Iterator for Elements<'a> {
    type Item = Element<'a>;

    fn next(&mut self) -> Option<Element<'a>> {
        let [tag, first, rest @ ..] = self.0 else { return None };
        let digits = usize::from(*first).saturating_sub(128);
        let (digits, rest) = rest.split_at_checked(digits)?;
        let length = if digits.is_empty() { usize::from(*first) } else { number_of(digits) };
        let (content, rest) = rest.split_at_checked(length)?;
        self.0 = rest;
        Some(Element { tag: *tag, content })
    }
}

/// The number of a length's digits.
fn number_of(digits: &[u8]) -> usize {
    digits.iter().fold(0, |number, digit| number << 8 | usize::from(*digit))
}
