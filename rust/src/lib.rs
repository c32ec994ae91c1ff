//! An ordered index from 64-bit keys to 64-bit values over words that are owned or borrowed, as a mapped file's are.
//!
//! The calls are Rattle code that is proved: for any words, what a call returns and what every word holds when it ends.
//! This crate links the static library and gives it the names that a user of `BTreeMap` expects. No input makes it panic.
//!
//! ```
//! use cuffgarnet::{Error, Index};
//!
//! let mut index = Index::with_nodes(64)?;
//! assert_eq!(index.insert(5, 50)?, None);
//! assert_eq!(index.insert(5, 51)?, Some(50));
//! assert_eq!(index.get(5)?, Some(51));
//! assert_eq!(index.remove(5)?, Some(51));
//! assert_eq!(index.get(5)?, None);
//! assert_eq!(index.mark()?, Some(5)); // a removal never lowers the mark
//! # Ok::<(), Error>(())
//! ```
//!
//! # What a call costs
//!
//! The words may come from anywhere, so **every call but formatting and loading first checks the whole arena**: whatever the key, it
//! reads each node once. On the x86-64 machine of docs/SPEED.md that took 18 nanoseconds a full node and 6 a free one (of format 1,
//! a word shorter) while the arena is in the caches, and about three times as long where it is not. [`Index::apply`] checks once for a whole batch of
//! orders: use it wherever there is more than one thing to do. docs/OPERATING.md has microseconds a message by batch size.
//!
//! Behind the check a call on one key goes one way down the tree, of at most nine nodes. So do [`Index::rank`] and
//! [`Index::nth`], and [`Index::count`] goes two, however many pairs they count or pass: each node knows how many pairs are below it.
//! A listing walks over the pairs that it writes. Each step of a [`Cursor`] is a call, and so a check, of its own: who reads much lists pages.
//!
//! Pairs that are in order already, as after a migration, are not put one by one: [`Index::load`] fills the nodes from the left, each to
//! its 11 pairs, and checks nothing but the run. So does [`Index::append`] with the pairs of two indexes, behind the checks of both.
//!
//! # Formats
//!
//! The words are in format 2, which has that count in each node. Words of format 1, which had none, are refused with
//! [`Error::BadArena`] by every call but [`Index::upgrade`], which writes them into words of format 2.
//!
//! # What the check sees, and what not
//!
//! Words whose structure is broken are refused with [`Error::BadArena`], and nothing is changed. The check is no checksum: a
//! flipped bit in a value, a key moved between its neighbours, or a mark lowered to a number that no key present exceeds, leaves
//! a well-formed arena and is believed. And a mark is kept by the arena alone: a lost or torn arena can only be formatted, which
//! forgets it. Keep the mark in a second place and a checksum over a file; docs/OPERATING.md in the repository has the recipes,
//! and what a kill in the middle of a call leaves.
//!
//! # Mapped files
//!
//! [`Index::open`] takes any [`Words`]: a `Vec`, an array, a `&mut [u64]`, or a type of your own for a mapped file that is
//! `AsRef<[u64]>` and `AsMut<[u64]>`. Over a `&[u64]` it makes an index that can only be read. Words of a mapped file are fine as long
//! as nobody else writes to them, or shortens the file, while the index has them; that promise is made where the mapping is turned into a
//! slice. The example `broker` does it.
//!
//! # Features
//!
//! The crate is `no_std`. The feature `alloc`, which is on by default, has all that needs memory of its own: `with_nodes`, `upgraded`,
//! `load`, `loaded`, `append`, `range`, `iter`, `apply`, `extend`, `remove_range` and `snapshot`. Without it an index stands on words that
//! you lend, and `load_words`, `append_words`, `range_into` and `apply_words` do the same work in buffers of yours.

#![no_std]
#![cfg_attr(
    not(feature = "alloc"),
    allow(rustdoc::broken_intra_doc_links, reason = "they lead to what is not there then")
)]

#[cfg(not(all(target_arch = "x86_64", target_os = "linux")))]
compile_error!("the static library that `rt` writes is for x86-64 Linux");

#[cfg(feature = "alloc")]
extern crate alloc;

mod cursor;
mod error;
mod ffi;
mod order;
mod pages;
mod range;
mod runs;
mod sizes;
mod stats;

pub use cursor::{Cursor, Moved};
pub use error::{Error, Refused, Size};
pub use order::{Order, Outcome};
pub use range::Listed;
#[cfg(feature = "alloc")]
pub use range::Range;
pub use sizes::{nodes_for, nodes_for_load, nodes_for_rising, words_for};
pub use stats::Stats;

#[cfg(feature = "alloc")]
use alloc::vec::Vec;
use core::ops::RangeBounds;
use range::bounds;

#[cfg(doctest)]
#[doc = include_str!("../README.md")]
struct Readme;

/// Words that an [`Index`] can be read from: all that is `AsRef<[u64]>`.
///
/// ```
/// use cuffgarnet::{Error, Index, Words};
/// fn oldest<W: Words>(index: &Index<W>) -> Result<Option<u64>, Error> {
///     Ok(index.first_key_value()?.map(|(key, _)| key))
/// }
/// let mut file = Index::with_nodes(4)?.into_words();
/// Index::open(&mut file)?.insert(7, 70)?; // a &mut Vec
/// let read_only = Index::open(&file[..])?; // a &[u64]: it has no `insert`
/// assert_eq!(oldest(&read_only)?, Some(7));
/// # Ok::<(), Error>(())
/// ```
pub trait Words: AsRef<[u64]> {}

impl<W: AsRef<[u64]> + ?Sized> Words for W {}

/// Words that an [`Index`] can be changed in: all that is `AsMut<[u64]>` as well.
///
/// ```
/// use cuffgarnet::{words_for, Error, Index, WordsMut};
///
/// struct Mapped(Vec<u64>); // in earnest, a mapped file
/// impl AsRef<[u64]> for Mapped {
///     fn as_ref(&self) -> &[u64] {
///         &self.0
///     }
/// }
/// impl AsMut<[u64]> for Mapped {
///     fn as_mut(&mut self) -> &mut [u64] {
///         &mut self.0
///     }
/// }
///
/// fn spend<W: WordsMut>(index: &mut Index<W>) -> Result<Option<u64>, Error> {
///     let Some(counter) = index.next_counter()? else { return Ok(None) };
///     index.reserve(counter)?;
///     Ok(Some(counter))
/// }
/// let mut index = Index::format(Mapped(vec![0; 88]))?;
/// assert_eq!((spend(&mut index)?, spend(&mut index)?), (Some(0), Some(1)));
/// # Ok::<(), Error>(())
/// ```
pub trait WordsMut: Words + AsMut<[u64]> {}

impl<W: Words + AsMut<[u64]> + ?Sized> WordsMut for W {}

/// The index. See the [crate's documentation](crate) for what a call costs.
///
/// ```
/// use cuffgarnet::{Error, Index};
/// let mut index = Index::with_nodes(64)?;
/// index.insert(5, 50)?;
/// assert_eq!(format!("{index:?}"), "Index { pairs: 1, nodes: 64, free: 63, height: 0, mark: Some(5) }");
/// # Ok::<(), Error>(())
/// ```
#[derive(Clone)]
pub struct Index<#[cfg(feature = "alloc")] W = Vec<u64>, #[cfg(not(feature = "alloc"))] W> {
    words: W,
}

#[cfg(feature = "alloc")]
impl Index {
    /// An empty index with so many nodes, 1 to 1,048,575, in words of its own. A node holds up to 11 pairs, and at least 5
    /// but for the root.
    ///
    /// # Errors
    /// [`Error::BadSize`] for any other number.
    ///
    /// ```
    /// use cuffgarnet::{Error, Index, Size};
    /// assert!(Index::with_nodes(1).is_ok());
    /// assert_eq!(Index::with_nodes(0).err(), Some(Error::BadSize(Size::Nodes { given: 0 })));
    /// ```
    pub fn with_nodes(nodes: usize) -> Result<Self, Error> {
        let long = words_for(nodes).ok_or(Error::BadSize(Size::Nodes { given: nodes }))?;
        Ok(Self::format(alloc::vec![0; long])?)
    }

    /// Writes an arena of format 1 into words of its own, in format 2: see [`upgrade`](Index::upgrade).
    ///
    /// # Errors
    /// [`Error::BadArena`] if the old words are not a well-formed arena of format 1.
    ///
    /// ```
    /// use cuffgarnet::{Error, Index};
    /// let new = Index::with_nodes(4)?;
    /// assert_eq!(Index::upgraded(new.words()).err(), Some(Error::BadArena)); // it is of format 2 already
    /// # Ok::<(), Error>(())
    /// ```
    pub fn upgraded(old: &[u64]) -> Result<Self, Error> {
        // what an arena says of its nodes is not believed here: with a wrong number the call refuses the old words
        let long = words_for(error::long(stats::word(old, stats::NODES))).ok_or(Error::BadArena)?;
        Ok(Self::upgrade(old, alloc::vec![0; long])?)
    }
}

impl<W> Index<W> {
    /// An index on words that a call accepted; refused ones come back.
    fn made(accepted: Result<(), Error>, words: W) -> Result<Self, Refused<W>> {
        match accepted {
            Ok(()) => Ok(Index { words }),
            Err(error) => Err(Refused::new(error, words)),
        }
    }

    /// Gives the words back.
    ///
    /// ```
    /// use cuffgarnet::{Error, Index};
    /// let words: Vec<u64> = Index::with_nodes(2)?.into_words();
    /// assert_eq!(words.len(), 88);
    /// # Ok::<(), Error>(())
    /// ```
    pub fn into_words(self) -> W {
        self.words
    }

    /// What the index stands on, as it was given: for a mapped file's own calls, as a sync.
    ///
    /// ```
    /// use cuffgarnet::{Error, Index};
    /// let index = Index::with_nodes(2)?;
    /// let words: &Vec<u64> = index.get_ref();
    /// assert_eq!(words.len(), 88);
    /// # Ok::<(), Error>(())
    /// ```
    pub fn get_ref(&self) -> &W {
        &self.words
    }
}

impl<W: Words> Index<W> {
    /// An index on words that were formatted and filled earlier, as a mapped file's. Over a `&[u64]` it is one that can only be read. Values, and keys within their gaps, are
    /// taken as they are: see the [crate's documentation](crate).
    ///
    /// # Errors
    /// [`Error::BadArena`] if they are not a well-formed arena. They come back as they are.
    ///
    /// ```
    /// use cuffgarnet::{Error, Index};
    /// let mut first = Index::with_nodes(8)?;
    /// first.insert(3, 30)?;
    /// let mut words = first.into_words();
    /// assert_eq!(Index::open(&mut words[..])?.get(3)?, Some(30));
    /// words[20] ^= 1;
    /// let refused = Index::open(words).map_err(|refused| (refused.error(), refused.into_words().len()));
    /// assert_eq!(refused.err(), Some((Error::BadArena, 322)));
    /// # Ok::<(), Error>(())
    /// ```
    pub fn open(words: W) -> Result<Self, Refused<W>> {
        Index::made(error::done(ffi::check(words.as_ref())), words)
    }

    /// Whether the words are a well-formed arena. Every other call does this by itself.
    ///
    /// # Errors
    /// [`Error::BadArena`] if they are not.
    ///
    /// ```
    /// use cuffgarnet::{Error, Index};
    /// assert_eq!(Index::with_nodes(4)?.check(), Ok(()));
    /// # Ok::<(), Error>(())
    /// ```
    pub fn check(&self) -> Result<(), Error> {
        error::done(ffi::check(self.words.as_ref()))
    }

    /// The value of a key.
    ///
    /// # Errors
    /// [`Error::BadArena`].
    ///
    /// ```
    /// use cuffgarnet::{Error, Index};
    /// let mut index = Index::with_nodes(4)?;
    /// index.insert(5, 50)?;
    /// assert_eq!((index.get(5)?, index.get(6)?), (Some(50), None));
    /// # Ok::<(), Error>(())
    /// ```
    pub fn get(&self, key: u64) -> Result<Option<u64>, Error> {
        error::value(&ffi::get(self.words.as_ref(), key))
    }

    /// Whether a key is present.
    ///
    /// # Errors
    /// [`Error::BadArena`].
    ///
    /// ```
    /// use cuffgarnet::{Error, Index};
    /// let mut index = Index::with_nodes(4)?;
    /// index.insert(5, 50)?;
    /// assert!(index.contains_key(5)? && !index.contains_key(6)?);
    /// # Ok::<(), Error>(())
    /// ```
    pub fn contains_key(&self, key: u64) -> Result<bool, Error> {
        Ok(self.get(key)?.is_some())
    }

    /// Writes the first pairs of a range into `out`, key then value, in rising order, as many as half its length; further
    /// words of it stay. Says how many pairs were written, and whether more of the range remain.
    ///
    /// # Errors
    /// [`Error::BadRange`] where `BTreeMap::range` panics: start above end, or equal and both excluded;
    /// [`Error::BadArena`]. Nothing is written then.
    ///
    /// ```
    /// use cuffgarnet::{Error, Index};
    /// let mut index = Index::with_nodes(4)?;
    /// for key in [10, 20, 30] {
    ///     index.insert(key, key + 1)?;
    /// }
    /// let mut out = [0; 4];
    /// let listed = index.range_into(15.., &mut out)?;
    /// assert_eq!((listed.written, listed.more, out), (2, false, [20, 21, 30, 31]));
    /// assert!(index.range_into(.., &mut out)?.more);
    /// assert_eq!(index.range_into(6..=5, &mut out), Err(Error::BadRange));
    /// # Ok::<(), Error>(())
    /// ```
    pub fn range_into(&self, range: impl RangeBounds<u64>, out: &mut [u64]) -> Result<Listed, Error> {
        range::list(self.words.as_ref(), bounds(&range), out)
    }

    /// The pairs of a range in rising order, or from the back in falling order. They are listed by pages of 1,024. A page from the front
    /// costs a check of the arena, one from the back two (the first three). An error is an item, the last one.
    ///
    /// ```
    /// use cuffgarnet::{Error, Index};
    /// let mut index = Index::with_nodes(4)?;
    /// for key in [10, 20, 30] {
    ///     index.insert(key, key + 1)?;
    /// }
    /// let pairs: Result<Vec<_>, Error> = index.range(..=20).collect();
    /// assert_eq!(pairs?, [(10, 11), (20, 21)]);
    /// let falling: Result<Vec<_>, Error> = index.range(15..).rev().collect();
    /// assert_eq!(falling?, [(30, 31), (20, 21)]);
    /// assert_eq!(index.range(6..=5).next(), Some(Err(Error::BadRange)));
    /// # Ok::<(), Error>(())
    /// ```
    #[cfg(feature = "alloc")]
    pub fn range(&self, range: impl RangeBounds<u64>) -> Range<'_> {
        Range::new(self.words.as_ref(), bounds(&range))
    }

    /// All pairs in rising order; as [`range`](Self::range) of everything.
    ///
    /// ```
    /// use cuffgarnet::{Error, Index};
    /// let mut index = Index::with_nodes(4)?;
    /// index.extend([(20, 2), (10, 1)])?;
    /// let pairs: Result<Vec<_>, Error> = index.iter().collect();
    /// assert_eq!(pairs?, [(10, 1), (20, 2)]);
    /// for pair in &index {
    ///     let (key, value) = pair?;
    ///     assert_eq!(key, 10 * value);
    /// }
    /// # Ok::<(), Error>(())
    /// ```
    #[cfg(feature = "alloc")]
    pub fn iter(&self) -> Range<'_> {
        self.range(..)
    }

    /// How many keys are smaller than a key, which may be present or not. The rank of a present key is its place in rising order, from
    /// 0 on, and [`nth`](Self::nth) of it is its pair. Behind the check it costs one way down the tree, as a [`get`](Self::get).
    ///
    /// # Errors
    /// [`Error::BadArena`].
    ///
    /// ```
    /// use cuffgarnet::{Error, Index};
    /// let mut index = Index::with_nodes(4)?;
    /// for key in [10, 20, 30] {
    ///     index.insert(key, key + 1)?;
    /// }
    /// assert_eq!((index.rank(20)?, index.rank(21)?, index.rank(u64::MAX)?), (1, 2, 3));
    /// assert_eq!(index.nth(index.rank(20)?)?, Some((20, 21)));
    /// # Ok::<(), Error>(())
    /// ```
    pub fn rank(&self, key: u64) -> Result<usize, Error> {
        error::number(&ffi::rank(self.words.as_ref(), key))
    }

    /// How many pairs a range has: as many as [`range`](Self::range) lists. Behind the check it costs two ways down the tree, however
    /// many pairs there are between.
    ///
    /// # Errors
    /// [`Error::BadRange`] where `BTreeMap::range` panics: start above end, or equal and both excluded; [`Error::BadArena`].
    ///
    /// ```
    /// use cuffgarnet::{Error, Index};
    /// let mut index = Index::with_nodes(4)?;
    /// for key in [10, 20, 30] {
    ///     index.insert(key, key + 1)?;
    /// }
    /// assert_eq!((index.count(10..30)?, index.count(10..=30)?, index.count(..)?), (2, 3, 3));
    /// assert_eq!(index.count(11..20)?, 0);
    /// assert_eq!(index.count(6..=5), Err(Error::BadRange));
    /// # Ok::<(), Error>(())
    /// ```
    pub fn count(&self, range: impl RangeBounds<u64>) -> Result<usize, Error> {
        range::count(self.words.as_ref(), bounds(&range))
    }

    /// The pair at a rank: the one that so many pairs are before, in rising order. `None` if there are no more pairs than that. Behind the
    /// check it costs one way down the tree, as a [`get`](Self::get).
    ///
    /// # Errors
    /// [`Error::BadArena`].
    ///
    /// ```
    /// use cuffgarnet::{Error, Index};
    /// let mut index = Index::with_nodes(4)?;
    /// for key in [10, 20, 30] {
    ///     index.insert(key, key + 1)?;
    /// }
    /// assert_eq!((index.nth(0)?, index.nth(2)?, index.nth(3)?), (Some((10, 11)), Some((30, 31)), None));
    /// let middle = index.nth(index.len()? / 2)?;
    /// assert_eq!(middle, Some((20, 21)));
    /// # Ok::<(), Error>(())
    /// ```
    pub fn nth(&self, rank: usize) -> Result<Option<(u64, u64)>, Error> {
        error::pair(&ffi::at(self.words.as_ref(), rank as u64))
    }

    /// A copy of all words, for [`restore`](Self::restore) or a file.
    ///
    /// ```
    /// use cuffgarnet::{Error, Index};
    /// let mut index = Index::with_nodes(4)?;
    /// index.insert(5, 50)?;
    /// let image = index.snapshot();
    /// index.remove(5)?;
    /// index.restore(&image)?;
    /// assert_eq!(index.get(5)?, Some(50));
    /// # Ok::<(), Error>(())
    /// ```
    #[cfg(feature = "alloc")]
    pub fn snapshot(&self) -> Vec<u64> {
        self.words.as_ref().to_vec()
    }

    /// The words as they stand.
    ///
    /// ```
    /// use cuffgarnet::{Error, Index};
    /// let index = Index::with_nodes(2)?;
    /// assert_eq!(index.words()[..10], [2, 2, 10, 0, 0, 0, 1, 1, 0, 0]); // the header
    /// # Ok::<(), Error>(())
    /// ```
    pub fn words(&self) -> &[u64] {
        self.words.as_ref()
    }
}

impl<W: WordsMut> Index<W> {
    /// Formats words as an empty index, whatever they held, and forgets the mark: who formats a lost arena anew reserves the saved
    /// mark first.
    ///
    /// # Errors
    /// [`Error::BadSize`] if their number is not 10 + 39 N for an N of 1 to 1,048,575. No word has changed then, and they come back.
    ///
    /// ```
    /// use cuffgarnet::{Error, Index};
    /// let mut lent = [7; 88];
    /// let mut index = Index::format(&mut lent[..])?;
    /// index.insert(1, 10)?;
    /// assert_eq!(lent[5], 1); // one pair, in the words that were lent
    /// # Ok::<(), Error>(())
    /// ```
    pub fn format(mut words: W) -> Result<Self, Refused<W>> {
        let arena = words.as_mut();
        let made = error::sized(ffi::format(arena), || Size::Words { given: arena.len() });
        Index::made(made, words)
    }

    /// Writes an arena of format 1 into these words, in format 2: the same nodes at the same numbers, the same pairs, the same mark,
    /// and in each node how many pairs are below it. What the words held before does not matter, and a mark in it is forgotten. The
    /// old words are only read. It costs a check of the old words and one pass over both. [`upgraded`](Index::upgraded) does
    /// the same into words of its own.
    ///
    /// # Errors
    /// [`Error::BadArena`] if the old words are not a well-formed arena of format 1 (one of format 2 is none, and one whose free
    /// nodes are not chained in rising order is none either); then [`Error::BadSize`] if there are not 10 + 39 N words for as
    /// many nodes as the old arena has. No word has changed then, and the words to write to come back.
    ///
    /// ```
    /// use cuffgarnet::{Error, Index};
    /// let mut old = vec![0; 10 + 38]; // an arena of format 1 with one node and no pair, which has seen the key 7
    /// old[..10].copy_from_slice(&[1, 1, 10, 0, 0, 0, 4_294_967_295, 0, 1, 7]);
    /// old[10..13].copy_from_slice(&[1, 0, 4_294_967_295]);
    /// assert_eq!(Index::open(old.clone()).map_err(Error::from).err(), Some(Error::BadArena)); // as by every other call
    /// let mut file = vec![0; 10 + 39]; // or the words of a new mapped file
    /// let mut index = Index::upgrade(&old, &mut file[..])?;
    /// assert_eq!((index.len()?, index.mark()?), (0, Some(7)));
    /// index.insert(8, 80)?;
    /// assert!(Index::upgrade(&file.clone(), file).is_err()); // it is of format 2 already
    /// # Ok::<(), Error>(())
    /// ```
    pub fn upgrade(old: &[u64], mut words: W) -> Result<Self, Refused<W>> {
        let arena = words.as_mut();
        let made = error::sized(ffi::upgrade(old, arena), || Size::Target {
            given: arena.len(),
            wanted: words_for(error::long(stats::word(old, stats::NODES))).unwrap_or(0),
        });
        Index::made(made, words)
    }

    /// Puts a pair, and hands out the value that the key had before. The mark is then at least the key.
    ///
    /// # Errors
    /// [`Error::NoRoom`] if the key is absent and there are not enough free nodes, [`Error::BadArena`]. No word has
    /// changed then.
    ///
    /// ```
    /// use cuffgarnet::{Error, Index};
    /// let mut index = Index::with_nodes(1)?;
    /// for key in 1..=11 {
    ///     index.insert(key, 0)?;
    /// }
    /// assert_eq!(index.insert(12, 0), Err(Error::NoRoom));
    /// assert_eq!(index.insert(11, 1), Ok(Some(0)));
    /// assert_eq!(index.mark()?, Some(11));
    /// # Ok::<(), Error>(())
    /// ```
    pub fn insert(&mut self, key: u64, value: u64) -> Result<Option<u64>, Error> {
        error::value(&ffi::put(self.words.as_mut(), key, value))
    }

    /// Takes a pair out, and hands out its value. The mark stays.
    ///
    /// # Errors
    /// [`Error::BadArena`].
    ///
    /// ```
    /// use cuffgarnet::{Error, Index};
    /// let mut index = Index::with_nodes(4)?;
    /// index.insert(5, 50)?;
    /// assert_eq!((index.remove(5)?, index.remove(5)?), (Some(50), None));
    /// # Ok::<(), Error>(())
    /// ```
    pub fn remove(&mut self, key: u64) -> Result<Option<u64>, Error> {
        error::value(&ffi::delete(self.words.as_mut(), key))
    }

    /// Spends a counter when it is handed out, before its message is put: the mark becomes the key, and no pair is stored. A writer
    /// that dies before its put leaves a counter that nobody gets again.
    ///
    /// # Errors
    /// [`Error::Spent`] if the mark has reached the key, [`Error::BadArena`]. No word has changed then.
    ///
    /// ```
    /// use cuffgarnet::{Error, Index};
    /// let mut index = Index::with_nodes(1)?;
    /// index.reserve(9)?;
    /// assert_eq!(index.reserve(9), Err(Error::Spent));
    /// assert_eq!((index.get(9)?, index.mark()?), (None, Some(9)));
    /// index.insert(9, 90)?; // the message of counter 9
    /// # Ok::<(), Error>(())
    /// ```
    pub fn reserve(&mut self, key: u64) -> Result<(), Error> {
        error::done(ffi::reserve(self.words.as_mut(), key))
    }

    /// Runs one order, as the single call of its kind would.
    ///
    /// # Errors
    /// [`Error::BadArena`]; [`Error::NoRoom`] if an insertion lacks nodes.
    ///
    /// ```
    /// use cuffgarnet::{Error, Index, Order};
    /// let mut index = Index::with_nodes(4)?;
    /// assert_eq!(index.apply_one(Order::Insert(1, 10))?, None);
    /// assert_eq!(index.apply_one(Order::Remove(1))?, Some(10));
    /// # Ok::<(), Error>(())
    /// ```
    pub fn apply_one(&mut self, order: Order) -> Outcome {
        order::apply_one(self.words.as_mut(), order)
    }

    /// Runs orders in turn behind one check of the arena, each as the single call would. A refused order does not stop
    /// the rest: its outcome is its error.
    ///
    /// # Errors
    /// [`Error::BadArena`], and no order has run.
    ///
    /// ```
    /// use cuffgarnet::{Error, Index, Order};
    /// let mut index = Index::with_nodes(4)?;
    /// let said = index.apply(&[Order::Insert(1, 10), Order::Get(1), Order::Remove(1), Order::Get(1)])?;
    /// assert_eq!(said, [Ok(None), Ok(Some(10)), Ok(Some(10)), Ok(None)]);
    /// # Ok::<(), Error>(())
    /// ```
    #[cfg(feature = "alloc")]
    pub fn apply(&mut self, orders: &[Order]) -> Result<Vec<Outcome>, Error> {
        order::apply(self.words.as_mut(), orders)
    }

    /// The same on plain words and with no allocation: an order is code (1 put, 2 get, 3 delete, 4 reserve), key and value; its
    /// answer is a number and a second word.
    ///
    /// # Errors
    /// [`Error::BadSize`] if the orders are not whole triples or the answers not exactly two words an order;
    /// [`Error::BadArena`]. No order has run and no answer is written then.
    ///
    /// ```
    /// use cuffgarnet::{Error, Index, Size};
    /// let mut index = Index::with_nodes(4)?;
    /// let mut answers = [0; 6];
    /// index.apply_words(&[1, 5, 50, 2, 5, 0, 9, 0, 0], &mut answers)?;
    /// assert_eq!(answers, [0, 0, 1, 50, 6, 0]);
    /// assert_eq!(index.apply_words(&[1, 5], &mut answers), Err(Error::BadSize(Size::Orders { given: 2 })));
    /// # Ok::<(), Error>(())
    /// ```
    pub fn apply_words(&mut self, orders: &[u64], answers: &mut [u64]) -> Result<(), Error> {
        let (asked, room) = (orders.len(), answers.len());
        error::sized(ffi::batch(self.words.as_mut(), orders, answers), || match asked % 3 {
            0 => Size::Answers { given: room, wanted: (asked / 3).saturating_mul(2) },
            _ => Size::Orders { given: asked },
        })
    }

    /// Brings the pairs of a snapshot back, unless it is older than this index: its mark is lower, or it has none while this has
    /// one. The mark becomes the larger of the two: a key that was ever put or reserved here, or in the snapshot, stays spent. The
    /// mark of an arena that is lost is in neither: it has to be reserved first. A restore that is killed never lowers the mark, but may
    /// leave pairs of both, so restore into a copy and rename it (docs/OPERATING.md).
    ///
    /// # Errors
    /// [`Error::BadSize`] if the image is not as long as this index, [`Error::BadArena`], [`Error::BadImage`] if the
    /// image is not a well-formed arena, [`Error::Older`]. No word has changed then.
    ///
    /// ```
    /// use cuffgarnet::{Error, Index};
    /// let mut index = Index::with_nodes(4)?;
    /// index.insert(9, 0)?;
    /// let image = index.snapshot();
    /// index.remove(9)?;
    /// index.restore(&image)?;
    /// assert_eq!(index.get(9)?, Some(0));
    /// index.insert(12, 0)?;
    /// assert_eq!(index.restore(&image), Err(Error::Older));
    /// # Ok::<(), Error>(())
    /// ```
    pub fn restore(&mut self, image: &[u64]) -> Result<(), Error> {
        self.restored(image, 0)
    }

    /// The same where an older snapshot is meant. The mark stays the larger of the two.
    ///
    /// # Errors
    /// As [`restore`](Self::restore), but for [`Error::Older`].
    ///
    /// ```
    /// use cuffgarnet::{Error, Index};
    /// let mut index = Index::with_nodes(4)?;
    /// index.insert(9, 0)?;
    /// let image = index.snapshot();
    /// index.insert(12, 0)?;
    /// index.restore_older(&image)?;
    /// assert_eq!(index.get(12)?, None);
    /// assert_eq!(index.mark()?, Some(12));
    /// # Ok::<(), Error>(())
    /// ```
    pub fn restore_older(&mut self, image: &[u64]) -> Result<(), Error> {
        self.restored(image, 1)
    }

    fn restored(&mut self, image: &[u64], older: u64) -> Result<(), Error> {
        let arena = self.words.as_mut();
        error::sized(ffi::restore(arena, image, older), || Size::Image { given: image.len(), wanted: arena.len() })
    }
}

#[cfg(feature = "alloc")]
impl<'a, W: Words> IntoIterator for &'a Index<W> {
    type Item = Result<(u64, u64), Error>;
    type IntoIter = Range<'a>;

    fn into_iter(self) -> Range<'a> {
        self.iter()
    }
}
