//! What the header says, once the arena is checked.

use crate::error::{self, Error};
use crate::{ffi, Index, Words};
use core::fmt;

/// Places of the header's words.
pub(crate) const NODES: usize = 1;
const HEIGHT: usize = 4;
pub(crate) const PAIRS: usize = 5;
pub(crate) const FREE: usize = 7;
const SEEN: usize = 8;
const MARK: usize = 9;

/// How full an index is, how high, and what it has spent: see [`Index::stats`].
///
/// ```
/// use cuffgarnet::{Error, Index, Stats};
/// let mut index = Index::with_nodes(64)?;
/// index.insert(5, 50)?;
/// let stats: Stats = index.stats()?;
/// assert_eq!((stats.pairs, stats.nodes, stats.free, stats.height, stats.mark), (1, 64, 63, 0, Some(5)));
/// # Ok::<(), Error>(())
/// ```
#[derive(Clone, Copy, Debug, Eq, Hash, PartialEq)]
#[non_exhaustive]
pub struct Stats {
    /// How many pairs there are.
    pub pairs: usize,
    /// How many nodes there are, in use and free.
    pub nodes: usize,
    /// How many of them are free.
    pub free: usize,
    /// How many levels lie below the root: 0 while all pairs are in one node.
    pub height: usize,
    /// The largest key that was ever put, reserved or brought; `None` if none was: see [`Index::mark`].
    pub mark: Option<u64>,
}

impl Stats {
    /// The smallest counter that is not spent: see [`Index::next_counter`].
    ///
    /// ```
    /// use cuffgarnet::{Error, Index};
    /// let mut index = Index::with_nodes(64)?;
    /// index.insert(5, 50)?;
    /// assert_eq!(index.stats()?.next_counter(), Some(6));
    /// # Ok::<(), Error>(())
    /// ```
    #[must_use]
    pub fn next_counter(&self) -> Option<u64> {
        self.mark.map_or(Some(0), |mark| mark.checked_add(1))
    }
}

/// A word of the header, whatever it says; 0 if there is none.
pub(crate) fn word(arena: &[u64], at: usize) -> u64 {
    arena.get(at).copied().unwrap_or(0)
}

impl<W: Words> Index<W> {
    /// Pairs, nodes, free nodes, height and mark, behind one check.
    ///
    /// # Errors
    /// [`Error::BadArena`].
    ///
    /// ```
    /// use cuffgarnet::{Error, Index};
    /// let mut index = Index::with_nodes(64)?;
    /// index.extend((1..=100).map(|key| (key, 0)))?;
    /// let stats = index.stats()?;
    /// assert_eq!((stats.pairs, stats.nodes, stats.height), (100, 64, 2));
    /// assert!(stats.free > 40);
    /// # Ok::<(), Error>(())
    /// ```
    pub fn stats(&self) -> Result<Stats, Error> {
        let arena = self.words.as_ref();
        error::done(ffi::check(arena))?;
        let long = |at| error::long(word(arena, at));
        Ok(Stats {
            pairs: long(PAIRS),
            nodes: long(NODES),
            free: long(FREE),
            height: long(HEIGHT),
            mark: (word(arena, SEEN) == 1).then(|| word(arena, MARK)),
        })
    }

    /// How many pairs there are.
    ///
    /// # Errors
    /// [`Error::BadArena`].
    ///
    /// ```
    /// use cuffgarnet::{Error, Index};
    /// let mut index = Index::with_nodes(4)?;
    /// index.insert(5, 50)?;
    /// assert_eq!(index.len()?, 1);
    /// # Ok::<(), Error>(())
    /// ```
    pub fn len(&self) -> Result<usize, Error> {
        Ok(self.stats()?.pairs)
    }

    /// Whether there is no pair.
    ///
    /// # Errors
    /// [`Error::BadArena`].
    ///
    /// ```
    /// use cuffgarnet::{Error, Index};
    /// assert!(Index::with_nodes(4)?.is_empty()?);
    /// # Ok::<(), Error>(())
    /// ```
    pub fn is_empty(&self) -> Result<bool, Error> {
        Ok(self.len()? == 0)
    }

    /// How many nodes there are, in use and free.
    ///
    /// # Errors
    /// [`Error::BadArena`].
    ///
    /// ```
    /// use cuffgarnet::{Error, Index};
    /// assert_eq!(Index::with_nodes(64)?.nodes()?, 64);
    /// # Ok::<(), Error>(())
    /// ```
    pub fn nodes(&self) -> Result<usize, Error> {
        Ok(self.stats()?.nodes)
    }

    /// How many nodes are free. An insertion of a new key takes one for each full node on its way up from the leaf, and
    /// one more if that includes the root.
    ///
    /// # Errors
    /// [`Error::BadArena`].
    ///
    /// ```
    /// use cuffgarnet::{Error, Index};
    /// assert_eq!(Index::with_nodes(64)?.free_nodes()?, 63); // one is the root
    /// # Ok::<(), Error>(())
    /// ```
    pub fn free_nodes(&self) -> Result<usize, Error> {
        Ok(self.stats()?.free)
    }

    /// The largest key that was ever put or reserved, or brought by a load, a restore or a join, present or not; `None` if none was. Only
    /// formatting forgets it, and whatever writes words anew: a load, an upgrade, a cut in its upper part.
    ///
    /// # Errors
    /// [`Error::BadArena`].
    ///
    /// ```
    /// use cuffgarnet::{Error, Index};
    /// let mut index = Index::with_nodes(4)?;
    /// assert_eq!(index.mark()?, None);
    /// index.insert(5, 50)?;
    /// index.remove(5)?;
    /// assert_eq!(index.mark()?, Some(5));
    /// # Ok::<(), Error>(())
    /// ```
    pub fn mark(&self) -> Result<Option<u64>, Error> {
        Ok(self.stats()?.mark)
    }

    /// The smallest counter that is not spent, which [`reserve`](Self::reserve) would take: the mark plus 1, or 0 if nothing was spent
    /// yet. `None` if all are spent.
    ///
    /// # Errors
    /// [`Error::BadArena`].
    ///
    /// ```
    /// use cuffgarnet::{Error, Index};
    /// let mut index = Index::with_nodes(4)?;
    /// assert_eq!(index.next_counter()?, Some(0));
    /// index.insert(5, 50)?;
    /// assert_eq!(index.next_counter()?, Some(6));
    /// index.reserve(u64::MAX)?;
    /// assert_eq!(index.next_counter()?, None);
    /// # Ok::<(), Error>(())
    /// ```
    pub fn next_counter(&self) -> Result<Option<u64>, Error> {
        Ok(self.stats()?.next_counter())
    }
}

impl<W: Words> fmt::Debug for Index<W> {
    /// In short: how full it is, or that its words are refused. It costs a check.
    fn fmt(&self, f: &mut fmt::Formatter<'_>) -> fmt::Result {
        let mut said = f.debug_struct("Index");
        match self.stats() {
            Ok(Stats { pairs, nodes, free, height, mark }) => {
                said.field("pairs", &pairs).field("nodes", &nodes).field("free", &free);
                said.field("height", &height).field("mark", &mark).finish()
            }
            Err(e) => said.field("refused", &e).field("words", &self.words.as_ref().len()).finish(),
        }
    }
}
