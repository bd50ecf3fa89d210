//! What a call tells of a list, as far as there is room for it.

/// The first items of a list, of which there is room for `N`.
#[derive(Clone)]
pub(crate) struct Few<T, const N: usize> {
    items: [T; N],
    next: usize,
    count: usize,
}

impl<T: Copy + Default, const N: usize> Few<T, N> {
    /// No items.
    pub(crate) fn none() -> Self {
        Few { items: [T::default(); N], next: 0, count: 0 }
    }

    /// Those that a call writes, and whether the list has more. The call writes as many as there is
    /// room for, and says how many there are.
    pub(crate) fn told(call: impl FnOnce(&mut [T], &mut usize) -> u32) -> (Self, bool) {
        let mut few = Self::none();
        // (of what it refuses there are none)
        call(&mut few.items, &mut few.count);
        let has_more = few.count > N;
        few.count = few.count.min(N);
        (few, has_more)
    }

    /// Those that are left.
    pub(crate) fn left(&self) -> &[T] {
        self.items.get(self.next..self.count).unwrap_or_default()
    }
}

impl<T: Copy + Default, const N: usize> Iterator for Few<T, N> {
    type Item = T;

    fn next(&mut self) -> Option<T> {
        let item = self.left().first().copied()?;
        self.next += 1;
        Some(item)
    }
}
