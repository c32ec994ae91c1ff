//! Listings: into a buffer, and page by page.

use crate::error::{self, Error};
use crate::ffi;
use core::ops::{Bound, RangeBounds};

/// What a listing into a buffer came to.
///
/// ```
/// use cuffgarnet::{Error, Index};
/// let mut index = Index::with_nodes(4)?;
/// index.insert(7, 70)?;
/// index.insert(8, 80)?;
/// let listed = index.range_into(.., &mut [0; 2])?; // room for one pair
/// assert_eq!((listed.written, listed.more), (1, true));
/// # Ok::<(), Error>(())
/// ```
#[derive(Clone, Copy, Debug, Eq, Hash, PartialEq)]
pub struct Listed {
    /// How many pairs were written.
    pub written: usize,
    /// Whether pairs of the range remain.
    pub more: bool,
}

/// A range's bounds, as they are asked for.
pub(crate) type Bounds = (Bound<u64>, Bound<u64>);

pub(crate) fn bounds(range: &impl RangeBounds<u64>) -> Bounds {
    (range.start_bound().cloned(), range.end_bound().cloned())
}

/// A bound as its kind and key.
pub(crate) fn asked(bound: Bound<u64>) -> (u64, u64) {
    match bound {
        Bound::Unbounded => (0, 0),
        Bound::Included(key) => (1, key),
        Bound::Excluded(key) => (2, key),
    }
}

pub(crate) fn list(arena: &[u64], (start, end): Bounds, out: &mut [u64]) -> Result<Listed, Error> {
    let told = ffi::list(arena, asked(start), asked(end), out);
    error::done(told.number)?;
    Ok(Listed { written: error::long(told.written), more: told.more == 1 })
}

pub(crate) fn count(arena: &[u64], (start, end): Bounds) -> Result<usize, Error> {
    error::number(&ffi::count(arena, asked(start), asked(end)))
}

#[cfg(feature = "alloc")]
pub(crate) use pages::page;
#[cfg(feature = "alloc")]
pub use pages::Range;

#[cfg(feature = "alloc")]
mod pages {
    use super::{count, list, Bounds};
    use crate::error::{self, Error};
    use crate::ffi;
    use crate::pages::PAGE;
    use alloc::vec::{self, Vec};
    use core::fmt;
    use core::iter::FusedIterator;
    use core::ops::Bound;

    /// The first pairs of a range, a page of them at most, and whether more remain.
    pub(crate) fn page(arena: &[u64], bounds: Bounds) -> Result<(Vec<(u64, u64)>, bool), Error> {
        let mut words = alloc::vec![0; PAGE.saturating_mul(2)];
        let listed = list(arena, bounds, &mut words)?;
        let pairs = words.chunks_exact(2).take(listed.written);
        let pairs = pairs.filter_map(|p| Some((*p.first()?, *p.get(1)?))).collect();
        Ok((pairs, listed.more))
    }

    /// The pairs of a range, listed page by page, from either end: see [`Index::range`](crate::Index::range).
    ///
    /// ```
    /// use cuffgarnet::{Error, Index, Range};
    /// let mut index = Index::with_nodes(4)?;
    /// index.extend([(10, 11), (20, 21), (30, 31)])?;
    /// let mut range: Range = index.range(10..);
    /// assert_eq!(range.next(), Some(Ok((10, 11))));
    /// assert_eq!(range.next_back(), Some(Ok((30, 31))));
    /// assert_eq!(range.next(), Some(Ok((20, 21))));
    /// assert_eq!(range.next(), None);
    /// # Ok::<(), Error>(())
    /// ```
    #[derive(Clone)]
    #[must_use = "an iterator does nothing until it is asked"]
    pub struct Range<'a> {
        arena: &'a [u64],
        /// Of the pairs that are on no page yet.
        start: Bound<u64>,
        end: Bound<u64>,
        /// How many pairs of the index are before that end, once it is known.
        before: Option<usize>,
        /// Whether there may be such pairs.
        more: bool,
        front: vec::IntoIter<(u64, u64)>,
        back: vec::IntoIter<(u64, u64)>,
    }

    impl<'a> Range<'a> {
        pub(crate) fn new(arena: &'a [u64], (start, end): Bounds) -> Self {
            let none = || Vec::new().into_iter();
            Range { arena, start, end, before: None, more: true, front: none(), back: none() }
        }

        /// Lists the next page; the one after it begins behind its last key.
        fn turn(&mut self) -> Result<(), Error> {
            let (page, more) = page(self.arena, (self.start, self.end))?;
            self.more = more;
            if let Some((last, _)) = page.last() {
                self.start = Bound::Excluded(*last);
            }
            self.front = page.into_iter();
            Ok(())
        }

        /// Lists the last page; the one before it ends with the key before its first.
        fn turn_back(&mut self) -> Result<(), Error> {
            let before = match self.before {
                Some(before) => before,
                None => count(self.arena, (Bound::Unbounded, self.end))?,
            };
            let first = before.saturating_sub(PAGE);
            let start = self.key_at(first)?.filter(|key| self.begins_before(*key));
            self.more = start.is_some();
            let (page, _) = page(self.arena, (start.map_or(self.start, Bound::Included), self.end))?;
            if let Some((key, _)) = page.first() {
                self.end = Bound::Excluded(*key);
            }
            self.before = Some(first);
            self.back = page.into_iter();
            Ok(())
        }

        /// The key at a rank; none at rank 0, where the index begins.
        fn key_at(&self, rank: usize) -> Result<Option<u64>, Error> {
            match rank {
                0 => Ok(None),
                _ => Ok(error::pair(&ffi::at(self.arena, rank as u64))?.map(|(key, _)| key)),
            }
        }

        /// Whether the range begins with this key or before it.
        fn begins_before(&self, key: u64) -> bool {
            match self.start {
                Bound::Unbounded => true,
                Bound::Included(start) => start <= key,
                Bound::Excluded(start) => start < key,
            }
        }

        /// Nothing comes after an error.
        fn failed(&mut self, e: Error) -> Result<(u64, u64), Error> {
            *self = Range { more: false, ..Range::new(self.arena, (self.start, self.end)) };
            Err(e)
        }
    }

    impl Iterator for Range<'_> {
        type Item = Result<(u64, u64), Error>;

        fn next(&mut self) -> Option<Self::Item> {
            if self.front.len() == 0 && self.more {
                if let Err(e) = self.turn() {
                    return Some(self.failed(e));
                }
            }
            self.front.next().or_else(|| self.back.next()).map(Ok)
        }

        fn size_hint(&self) -> (usize, Option<usize>) {
            let listed = self.front.len().saturating_add(self.back.len());
            (listed, (!self.more).then_some(listed))
        }
    }

    impl DoubleEndedIterator for Range<'_> {
        fn next_back(&mut self) -> Option<Self::Item> {
            if self.back.len() == 0 && self.more {
                if let Err(e) = self.turn_back() {
                    return Some(self.failed(e));
                }
            }
            self.back.next_back().or_else(|| self.front.next_back()).map(Ok)
        }
    }

    impl FusedIterator for Range<'_> {}

    impl fmt::Debug for Range<'_> {
        fn fmt(&self, f: &mut fmt::Formatter<'_>) -> fmt::Result {
            let mut said = f.debug_struct("Range");
            said.field("start", &self.start).field("end", &self.end).finish_non_exhaustive()
        }
    }
}
