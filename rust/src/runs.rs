//! Many pairs by one call: a load, a cut and a join.

use crate::error::{self, Error, Refused};
use crate::stats::{self, PAIRS};
use crate::{ffi, Index, Size, WordsMut};

impl<W: WordsMut> Index<W> {
    /// Loads pairs that are in order already, as plain words, key and value in turn, into these words, with no allocation. What the words
    /// held before does not matter, and a mark in it is forgotten: the mark is then the last key, or none if there is no pair. It takes
    /// [`nodes_for_load`](crate::nodes_for_load) the number of pairs, and all but the last node of each level are full. With the feature
    /// `alloc`, [`load`](Index::load) takes pairs.
    ///
    /// # Errors
    /// [`Error::BadSize`] if the run has an odd number of words, or there are not 10 + 39 N words for an N of 1 to 1,048,575; then
    /// [`Error::NotRising`] if the keys do not rise strictly; then [`Error::NoRoom`] if the nodes are too few. No word has changed then,
    /// and they come back.
    ///
    /// ```
    /// use cuffgarnet::{Error, Index, Size};
    /// let mut words = [0; 49];
    /// assert_eq!(Index::load_words(&[1, 10, 2, 20], &mut words[..])?.len()?, 2);
    /// let refused = Index::load_words(&[1, 10, 2], words).map_err(Error::from);
    /// assert_eq!(refused.err(), Some(Error::BadSize(Size::Run { given: 3 })));
    /// # Ok::<(), Error>(())
    /// ```
    pub fn load_words(run: &[u64], mut words: W) -> Result<Self, Refused<W>> {
        let arena = words.as_mut();
        let made = error::sized(ffi::load(arena, run), || match run.len() % 2 {
            0 => Size::Words { given: arena.len() },
            _ => Size::Run { given: run.len() },
        });
        Index::made(made, words)
    }

    /// Cuts off the pairs with keys from this one on, as `BTreeMap::split_off` does: they go into these words, which are the answered index
    /// then. What the words held does not matter. Both indexes have this one's mark afterwards. The pairs that go are loaded, so that they
    /// take [`nodes_for_load`](crate::nodes_for_load) as many nodes; [`rank`](Index::rank) tells before how many stay.
    ///
    /// # Errors
    /// [`Error::BadSize`] if there are not 10 + 39 N words for an N of 1 to 1,048,575; then [`Error::BadArena`]; then [`Error::NoRoom`] if
    /// the nodes of the words are too few. No word has changed then, and they come back.
    ///
    /// ```
    /// use cuffgarnet::{Error, Index};
    /// let mut index = Index::loaded([(1, 10), (2, 20), (5, 50)], 4)?;
    /// let upper = index.split_off(2, [0; 49])?;
    /// assert_eq!((index.len()?, index.get(1)?, index.mark()?), (1, Some(10), Some(5)));
    /// assert_eq!((upper.len()?, upper.get(5)?, upper.mark()?), (2, Some(50), Some(5)));
    /// # Ok::<(), Error>(())
    /// ```
    pub fn split_off<V: WordsMut>(&mut self, key: u64, mut words: V) -> Result<Index<V>, Refused<V>> {
        let upper = words.as_mut();
        let made = error::sized(ffi::cut(self.words.as_mut(), upper, key), || Size::Words { given: upper.len() });
        Index::made(made, words)
    }

    /// Moves all pairs of another index into this one, as `BTreeMap::append` does: of a key in both, the other's value stays. The mark is
    /// the larger of both marks; the other index is empty then, and keeps its own. Both are walked over in order, and this one is loaded
    /// anew, so that it holds the pairs in [`nodes_for_load`](crate::nodes_for_load) as many nodes. On the way the pairs are written to
    /// `run`, key and value in turn from its first word on; further words of it stay. With the feature `alloc`,
    /// [`append`](Index::append) needs no such words.
    ///
    /// # Errors
    /// [`Error::BadArena`] for either; then [`Error::BadSize`] if `run` has fewer than two words for each pair of both, a key in both counted
    /// twice; then [`Error::NoRoom`] if this index has fewer nodes than the pairs of both take. No word has changed then.
    ///
    /// ```
    /// use cuffgarnet::{Error, Index, Size};
    /// let mut a = Index::loaded([(1, 10), (3, 30)], 1)?;
    /// let mut b = Index::loaded([(3, 31)], 1)?;
    /// let mut run = [7; 8];
    /// let short = a.append_words(&mut b, &mut run[..5]);
    /// assert_eq!(short, Err(Error::BadSize(Size::Joined { given: 5, wanted: 6 })));
    /// a.append_words(&mut b, &mut run)?;
    /// assert_eq!(run, [1, 10, 3, 31, 7, 7, 7, 7]);
    /// # Ok::<(), Error>(())
    /// ```
    pub fn append_words<V: WordsMut>(&mut self, other: &mut Index<V>, run: &mut [u64]) -> Result<(), Error> {
        let (first, second) = (self.words.as_mut(), other.words.as_mut());
        let given = run.len();
        error::sized(ffi::join(first, second, run), || Size::Joined { given, wanted: joined(first, second) })
    }
}

/// How many words the pairs of both take, as the headers tell; no arena has more pairs than words, whatever is told.
fn joined(first: &[u64], second: &[u64]) -> usize {
    let told = |arena: &[u64]| error::long(stats::word(arena, PAIRS)).min(arena.len());
    told(first).saturating_add(told(second)).saturating_mul(2)
}

#[cfg(feature = "alloc")]
mod pairs {
    use super::joined;
    use crate::{words_for, Error, Index, Refused, Size, WordsMut};
    use alloc::vec::Vec;
    use core::borrow::Borrow;

    impl Index {
        /// An index with so many nodes, in words of its own, loaded with pairs that are in order already: see [`load`](Index::load).
        ///
        /// # Errors
        /// [`Error::BadSize`] if that is no number of nodes, [`Error::NotRising`], [`Error::NoRoom`].
        ///
        /// ```
        /// use cuffgarnet::{nodes_for_load, Error, Index};
        /// use std::collections::BTreeMap;
        /// let old = BTreeMap::from([(3, 30), (1, 10), (2, 20)]);
        /// let nodes = nodes_for_load(old.len()).ok_or(Error::NoRoom)?;
        /// let index = Index::loaded(old, nodes)?;
        /// assert_eq!((index.len()?, index.get(2)?, index.mark()?), (3, Some(20), Some(3)));
        /// # Ok::<(), Error>(())
        /// ```
        pub fn loaded<P: Borrow<(u64, u64)>>(pairs: impl IntoIterator<Item = P>, nodes: usize) -> Result<Self, Error> {
            let long = words_for(nodes).ok_or(Error::BadSize(Size::Nodes { given: nodes }))?;
            Ok(Self::load(pairs, alloc::vec![0; long])?)
        }
    }

    impl<W: WordsMut> Index<W> {
        /// Loads pairs that are in order already, from a slice or from anything that hands them out, into these words. What the words held
        /// before does not matter, and a mark in it is forgotten. A few insertions may follow in any place, and many at the end. The pairs
        /// are first written out as words: see [`load_words`](Index::load_words), which takes those.
        ///
        /// # Errors
        /// As [`load_words`](Index::load_words), for a run that is always whole.
        ///
        /// ```
        /// use cuffgarnet::{nodes_for_load, Error, Index};
        /// let pairs = [(1, 10), (2, 20), (5, 50)];
        /// let mut file = vec![7; 10 + 39 * 64]; // or the words of a new mapped file
        /// let mut index = Index::load(&pairs, &mut file[..])?;
        /// assert_eq!((index.len()?, index.get(5)?, index.mark()?), (3, Some(50), Some(5)));
        /// index.insert(4, 40)?;
        /// let squares = Index::load((0..100).map(|k| (k, k * k)), file)?; // the same words again
        /// assert_eq!((squares.get(9)?, Some(64 - squares.free_nodes()?)), (Some(81), nodes_for_load(100)));
        /// assert_eq!(Index::loaded([(2, 20), (2, 21)], 1).err(), Some(Error::NotRising));
        /// # Ok::<(), Error>(())
        /// ```
        pub fn load<P: Borrow<(u64, u64)>>(pairs: impl IntoIterator<Item = P>, words: W) -> Result<Self, Refused<W>> {
            let run: Vec<u64> = pairs.into_iter().flat_map(|pair| <[u64; 2]>::from(*pair.borrow())).collect();
            Self::load_words(&run, words)
        }

        /// Moves all pairs of another index into this one, as `BTreeMap::append` does: see [`append_words`](Index::append_words), which takes
        /// the words that are needed on the way.
        ///
        /// # Errors
        /// [`Error::BadArena`] for either; [`Error::NoRoom`] if this index has fewer nodes than the pairs of both take. No word has changed
        /// then.
        ///
        /// ```
        /// use cuffgarnet::{Error, Index};
        /// let mut a = Index::loaded([(1, 10), (2, 20), (3, 30)], 4)?;
        /// let mut b = Index::loaded([(3, 31), (4, 40)], 1)?;
        /// a.append(&mut b)?;
        /// assert_eq!((a.len()?, a.get(3)?, a.mark()?), (4, Some(31), Some(4)));
        /// assert_eq!((b.len()?, b.mark()?), (0, Some(4)));
        /// # Ok::<(), Error>(())
        /// ```
        pub fn append<V: WordsMut>(&mut self, other: &mut Index<V>) -> Result<(), Error> {
            let long = joined(self.words(), other.words());
            self.append_words(other, &mut alloc::vec![0; long])
        }
    }
}
