//! What takes several calls: many pairs at a time by pages, and the first and the last pair.

use crate::error::{self, Error};
use crate::stats::{self, PAIRS};
use crate::{ffi, Index, Words, WordsMut};

/// Pairs of a page.
#[cfg(feature = "alloc")]
pub(crate) const PAGE: usize = 1024;

/// An insertion takes at most as many nodes as there are levels, and a new root: nine levels, for no tree is higher.
#[cfg(feature = "alloc")]
const MOST_TAKEN: usize = 10;

impl<W: Words> Index<W> {
    /// The pair with the smallest key.
    ///
    /// # Errors
    /// [`Error::BadArena`].
    ///
    /// ```
    /// use cuffgarnet::{Error, Index};
    /// let mut index = Index::with_nodes(4)?;
    /// assert_eq!(index.first_key_value()?, None);
    /// index.extend([(20, 2), (10, 1), (30, 3)])?;
    /// assert_eq!(index.first_key_value()?, Some((10, 1)));
    /// # Ok::<(), Error>(())
    /// ```
    pub fn first_key_value(&self) -> Result<Option<(u64, u64)>, Error> {
        self.nth(0)
    }

    /// The pair with the largest key.
    ///
    /// # Errors
    /// [`Error::BadArena`].
    ///
    /// ```
    /// use cuffgarnet::{Error, Index};
    /// let mut index = Index::with_nodes(4)?;
    /// assert_eq!(index.last_key_value()?, None);
    /// index.extend([(20, 2), (10, 1), (30, 3)])?;
    /// assert_eq!(index.last_key_value()?, Some((30, 3)));
    /// # Ok::<(), Error>(())
    /// ```
    pub fn last_key_value(&self) -> Result<Option<(u64, u64)>, Error> {
        // the number of pairs is read first and believed only if the call's own check accepts the words; of no pairs it is a rank past all
        let arena = self.words.as_ref();
        error::pair(&ffi::at(arena, stats::word(arena, PAIRS).wrapping_sub(1)))
    }
}

impl<W: WordsMut> Index<W> {
    /// Takes the pair with the smallest key out. The mark stays. It costs two checks; [`remove_range`](Self::remove_range) and
    /// [`apply`](Self::apply) take many pairs out behind as many.
    ///
    /// # Errors
    /// [`Error::BadArena`].
    ///
    /// ```
    /// use cuffgarnet::{Error, Index};
    /// let mut index = Index::with_nodes(4)?;
    /// index.extend([(20, 2), (10, 1)])?;
    /// assert_eq!(index.pop_first()?, Some((10, 1)));
    /// assert_eq!(index.pop_first()?, Some((20, 2)));
    /// assert_eq!(index.pop_first()?, None);
    /// # Ok::<(), Error>(())
    /// ```
    pub fn pop_first(&mut self) -> Result<Option<(u64, u64)>, Error> {
        let first = self.first_key_value()?;
        self.taken(first)
    }

    /// Takes the pair with the largest key out. The mark stays, and so the next counter does. It costs two checks.
    ///
    /// # Errors
    /// [`Error::BadArena`].
    ///
    /// ```
    /// use cuffgarnet::{Error, Index};
    /// let mut index = Index::with_nodes(4)?;
    /// index.extend([(20, 2), (10, 1)])?;
    /// assert_eq!(index.pop_last()?, Some((20, 2)));
    /// assert_eq!(index.mark()?, Some(20));
    /// # Ok::<(), Error>(())
    /// ```
    pub fn pop_last(&mut self) -> Result<Option<(u64, u64)>, Error> {
        let last = self.last_key_value()?;
        self.taken(last)
    }

    fn taken(&mut self, pair: Option<(u64, u64)>) -> Result<Option<(u64, u64)>, Error> {
        if let Some((key, _)) = pair {
            self.remove(key)?;
        }
        Ok(pair)
    }
}

#[cfg(feature = "alloc")]
mod several {
    use super::{MOST_TAKEN, PAGE};
    use crate::error::{self, Error};
    use crate::order::{self, Order};
    use crate::range::{self, bounds};
    use crate::stats::{self, FREE};
    use crate::{Index, WordsMut};
    use alloc::vec::Vec;
    use core::ops::{Bound, RangeBounds};

    impl<W: WordsMut> Index<W> {
        /// Puts pairs, as one [`insert`](Self::insert) after the other would, but in batches of up to 1,024 behind one check. A key that
        /// is there gets the new value.
        ///
        /// # Errors
        /// [`Error::NoRoom`] at the first pair that finds no room: all pairs before it are put, it and those behind it are not, and an
        /// iterator that is lent (`by_ref`) stands behind it. [`Error::BadArena`].
        ///
        /// ```
        /// use cuffgarnet::{Error, Index};
        /// let mut index = Index::with_nodes(1)?;
        /// index.extend([(1, 10), (2, 20), (1, 11)])?;
        /// assert_eq!((index.len()?, index.get(1)?), (2, Some(11)));
        /// let mut more = (1..=20).map(|key| (key, 0));
        /// assert_eq!(index.extend(more.by_ref()), Err(Error::NoRoom));
        /// assert_eq!((index.len()?, more.next()), (11, Some((13, 0)))); // 12 was refused
        /// # Ok::<(), Error>(())
        /// ```
        pub fn extend(&mut self, pairs: impl IntoIterator<Item = (u64, u64)>) -> Result<(), Error> {
            let mut pairs = pairs.into_iter();
            loop {
                // So many that none of them can be refused, or one. A wrong number of free nodes is an arena that the batch refuses.
                let arena = self.words.as_mut();
                let free = error::long(stats::word(arena, FREE));
                let page = (free / MOST_TAKEN).clamp(1, PAGE);
                let orders: Vec<Order> =
                    pairs.by_ref().take(page).map(|(key, value)| Order::Insert(key, value)).collect();
                if orders.is_empty() {
                    return Ok(());
                }
                order::apply(arena, &orders)?.into_iter().try_for_each(|outcome| outcome.map(drop))?;
            }
        }

        /// Takes all pairs of a range out, and says how many there were. The mark stays. They go by pages of 1,024, and each page costs
        /// two checks.
        ///
        /// # Errors
        /// [`Error::BadRange`] where `BTreeMap::range` panics; [`Error::BadArena`].
        ///
        /// ```
        /// use cuffgarnet::{Error, Index};
        /// let mut index = Index::with_nodes(700)?;
        /// index.extend((1..=3000).map(|key| (key, 0)))?;
        /// assert_eq!(index.remove_range(..=2900)?, 2900); // all that were delivered
        /// assert_eq!((index.len()?, index.mark()?), (100, Some(3000)));
        /// # Ok::<(), Error>(())
        /// ```
        pub fn remove_range(&mut self, range: impl RangeBounds<u64>) -> Result<usize, Error> {
            let (mut start, end) = bounds(&range);
            let mut removed = 0_usize;
            loop {
                let arena = self.words.as_mut();
                let (pairs, more) = range::page(arena, (start, end))?;
                let orders: Vec<Order> = pairs.iter().map(|(key, _)| Order::Remove(*key)).collect();
                if let Some((last, _)) = pairs.last() {
                    start = Bound::Excluded(*last);
                    order::apply(arena, &orders)?;
                }
                removed = removed.saturating_add(pairs.len());
                if !more {
                    return Ok(removed);
                }
            }
        }
    }
}
