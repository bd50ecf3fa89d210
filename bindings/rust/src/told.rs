//! What is told of an input: its counts, its deviations, and what is signed of it.

use crate::fields::Field;
use crate::kind::Deviation;

/// How often each deviation occurs in an input, or in a part of it.
#[derive(Clone, Copy, Debug, Default, PartialEq, Eq)]
#[repr(transparent)]
pub struct Counts([usize; 10]);

impl Counts {
    /// How often one of them does.
    #[must_use]
    pub fn of(&self, deviation: Deviation) -> usize {
        self.0[deviation.number() - 1]
    }

    /// How many deviations there are.
    #[must_use]
    pub fn total(&self) -> usize {
        self.0.iter().sum()
    }

    /// Each deviation that occurs, with how often it does.
    pub fn iter(&self) -> impl Iterator<Item = (Deviation, usize)> + '_ {
        let all = Deviation::ALL.into_iter().zip(self.0);
        all.filter(|(_, count)| *count > 0)
    }
}

/// What a check finds.
#[derive(Clone, Copy, Debug, PartialEq, Eq)]
pub struct Verdict {
    /// How often each deviation occurs.
    pub counts: Counts,
    /// How many headers of elements were decoded.
    pub headers: usize,
}

impl Verdict {
    /// Whether the input is the DER encoding of what it encodes.
    #[must_use]
    pub fn is_der(&self) -> bool {
        self.counts.total() == 0
    }
}

/// A deviation, and the bytes that it covers: `start` up to `end`.
#[derive(Clone, Copy, Debug, Default, PartialEq, Eq)]
#[repr(C)]
pub struct Place {
    deviation: usize,
    /// The first byte.
    pub start: usize,
    /// The byte behind the last.
    pub end: usize,
}

impl Place {
    /// A place for a buffer that [`crate::Reader::places`] fills.
    pub const EMPTY: Place = Place { deviation: 0, start: 0, end: 0 };

    /// Which deviation it is, or none of a place that wasn't filled.
    #[must_use]
    pub fn deviation(&self) -> Option<Deviation> {
        Deviation::from_number(self.deviation)
    }
}

/// What the signature of a certificate or a request covers.
#[derive(Clone, Copy, Debug, PartialEq, Eq)]
pub struct SignedPart<'a> {
    /// The bytes over which the signature is verified.
    pub part: Field<'a>,
    /// How often each deviation occurs in them: if none does, they are in DER.
    pub inside: Counts,
    /// How often each deviation occurs outside of them.
    pub outside: Counts,
}
