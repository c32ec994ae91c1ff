//! The walking cursor.

use crate::error::{self, Error};
use crate::range::asked;
use crate::{ffi, Index, Words};
use core::ops::{Bound, RangeBounds};

/// A place in an index: before the first pair, at a pair, or past the last. It is a small value that borrows nothing: each step is given
/// the index, and hands back the moved cursor with the pair, or with `None` where the end was reached.
///
/// A cursor at a pair knows its node and its place there, and these may mean something else after a change. So the caller keeps a count,
/// raises it after each changing call (insert, remove, apply, restore, ..) and passes it to every call here. A step whose count is not the
/// cursor's is refused with [`Error::StaleCursor`], and so is one from a place that holds no pair; the old cursor is then as good as
/// before. The first pair, the last one and [`seek`](Cursor::seek) make a cursor anew. Whoever passes one count all along is believed: the step goes on
/// from whatever pair stands there now.
///
/// **Each step checks the whole arena.** Who reads much lists pages: [`Index::range`], [`Index::range_into`].
///
/// ```
/// use cuffgarnet::{Cursor, Error, Index};
/// let mut index = Index::with_nodes(4)?;
/// for key in [10, 20, 30] {
///     index.insert(key, key + 1)?;
/// }
/// let (cursor, pair) = Cursor::first(&index, 0)?;
/// assert_eq!(pair, Some((10, 11)));
/// let (cursor, pair) = cursor.next(&index, 0)?;
/// assert_eq!(pair, Some((20, 21)));
/// index.remove(20)?; // a change: the count is 1 from now on
/// assert_eq!(cursor.next(&index, 1), Err(Error::StaleCursor));
/// let (_, pair) = Cursor::seek_from(&index, 1, 20..)?;
/// assert_eq!(pair, Some((30, 31)));
/// # Ok::<(), Error>(())
/// ```
#[derive(Clone, Copy, Debug, Eq, Hash, PartialEq)]
pub struct Cursor {
    words: [u64; 4],
}

/// A cursor where a call left it, and the pair there.
///
/// ```
/// use cuffgarnet::{Cursor, Error, Index, Moved};
/// let index = Index::loaded([(10, 11), (20, 21)], 1)?;
/// let (cursor, pair): Moved = Cursor::last(&index, 0)?;
/// assert_eq!((cursor.changes(), pair), (0, Some((20, 21))));
/// # Ok::<(), Error>(())
/// ```
pub type Moved = (Cursor, Option<(u64, u64)>);

impl Cursor {
    /// What the library writes is the moved cursor; a refused call is an error, and the cursor that it was given is the caller's still.
    fn moved(mut self, call: impl FnOnce(&mut [u64]) -> ffi::Picked) -> Result<Moved, Error> {
        let pair = error::pair(&call(&mut self.words))?;
        Ok((self, pair))
    }

    /// A cursor at the first pair; past the last one if there is none.
    ///
    /// # Errors
    /// [`Error::BadArena`].
    ///
    /// ```
    /// use cuffgarnet::{Cursor, Error, Index};
    /// let index = Index::loaded([(10, 11), (20, 21)], 1)?;
    /// assert_eq!(Cursor::first(&index, 0)?.1, Some((10, 11)));
    /// assert_eq!(Cursor::first(&Index::with_nodes(1)?, 0)?.1, None);
    /// # Ok::<(), Error>(())
    /// ```
    pub fn first<W: Words>(index: &Index<W>, changes: u64) -> Result<Moved, Error> {
        Self::from_words([0; 4]).moved(|words| ffi::first(index.words(), changes, words))
    }

    /// A cursor at the last pair; before the first one if there is none.
    ///
    /// # Errors
    /// [`Error::BadArena`].
    ///
    /// ```
    /// use cuffgarnet::{Cursor, Error, Index};
    /// let index = Index::loaded([(10, 11), (20, 21)], 1)?;
    /// assert_eq!(Cursor::last(&index, 0)?.1, Some((20, 21)));
    /// # Ok::<(), Error>(())
    /// ```
    pub fn last<W: Words>(index: &Index<W>, changes: u64) -> Result<Moved, Error> {
        Self::from_words([0; 4]).moved(|words| ffi::last(index.words(), changes, words))
    }

    /// To the first pair that a start bound admits, wherever the cursor stands and whatever its count is; past the last pair if there is none.
    ///
    /// # Errors
    /// [`Error::BadArena`].
    ///
    /// ```
    /// use cuffgarnet::{Cursor, Error, Index};
    /// use std::ops::Bound;
    /// let mut index = Index::loaded([(10, 11), (20, 21)], 1)?;
    /// let (cursor, _) = Cursor::first(&index, 0)?;
    /// index.remove(10)?; // a change: the count is 1 from now on
    /// let (cursor, pair) = cursor.seek(&index, 1, Bound::Included(10))?;
    /// assert_eq!((cursor.changes(), pair), (1, Some((20, 21))));
    /// # Ok::<(), Error>(())
    /// ```
    pub fn seek<W: Words>(self, index: &Index<W>, changes: u64, start: Bound<u64>) -> Result<Moved, Error> {
        self.moved(|words| ffi::seek(index.words(), changes, asked(start), words))
    }

    /// The same with no cursor before: `20..` or `(Bound::Excluded(20), Bound::Unbounded)`. The end of the range is not looked at.
    ///
    /// # Errors
    /// [`Error::BadArena`].
    ///
    /// ```
    /// use cuffgarnet::{Cursor, Error, Index};
    /// let index = Index::loaded([(10, 11), (20, 21)], 1)?;
    /// assert_eq!(Cursor::seek_from(&index, 0, 11..)?.1, Some((20, 21)));
    /// assert_eq!(Cursor::seek_from(&index, 0, 21..)?.1, None);
    /// # Ok::<(), Error>(())
    /// ```
    pub fn seek_from<W: Words>(index: &Index<W>, changes: u64, from: impl RangeBounds<u64>) -> Result<Moved, Error> {
        Self::from_words([0; 4]).seek(index, changes, from.start_bound().cloned())
    }

    /// To the next pair. At the last one it goes past it, and stays there; from before the first it comes to the first.
    ///
    /// # Errors
    /// [`Error::StaleCursor`] exactly if the count is not the cursor's, or the cursor's place holds no pair and is no end;
    /// [`Error::BadArena`] before that.
    ///
    /// ```
    /// use cuffgarnet::{Cursor, Error, Index};
    /// let index = Index::loaded([(10, 11), (20, 21)], 1)?;
    /// let (cursor, _) = Cursor::first(&index, 0)?;
    /// let (cursor, pair) = cursor.next(&index, 0)?;
    /// assert_eq!(pair, Some((20, 21)));
    /// assert_eq!(cursor.next(&index, 0)?.1, None);
    /// assert_eq!(cursor.next(&index, 1), Err(Error::StaleCursor));
    /// # Ok::<(), Error>(())
    /// ```
    pub fn next<W: Words>(self, index: &Index<W>, changes: u64) -> Result<Moved, Error> {
        self.moved(|words| ffi::next(index.words(), changes, words))
    }

    /// To the pair before. At the first one it goes before it, and stays there; from past the last it comes to the last.
    ///
    /// # Errors
    /// As [`next`](Self::next).
    ///
    /// ```
    /// use cuffgarnet::{Cursor, Error, Index};
    /// let index = Index::loaded([(10, 11), (20, 21)], 1)?;
    /// let (past, _) = Cursor::seek_from(&index, 0, 30..)?;
    /// let (cursor, pair) = past.previous(&index, 0)?;
    /// assert_eq!((pair, cursor.previous(&index, 0)?.1), (Some((20, 21)), Some((10, 11))));
    /// # Ok::<(), Error>(())
    /// ```
    pub fn previous<W: Words>(self, index: &Index<W>, changes: u64) -> Result<Moved, Error> {
        self.moved(|words| ffi::previous(index.words(), changes, words))
    }

    /// The count of changes that it was made or moved with.
    ///
    /// ```
    /// use cuffgarnet::{Cursor, Error, Index};
    /// let index = Index::loaded([(10, 11), (20, 21)], 1)?;
    /// assert_eq!(Cursor::first(&index, 5)?.0.changes(), 5);
    /// # Ok::<(), Error>(())
    /// ```
    #[must_use]
    pub fn changes(self) -> u64 {
        self.words[0]
    }

    /// The four words, as C has them: the count, where it stands (0 before the first pair, 1 at a pair, 2 past the last), node, place.
    ///
    /// ```
    /// use cuffgarnet::{Cursor, Error, Index};
    /// let index = Index::loaded([(10, 11), (20, 21)], 1)?;
    /// assert_eq!(Cursor::last(&index, 5)?.0.words(), [5, 1, 0, 1]); // the second pair of node 0
    /// # Ok::<(), Error>(())
    /// ```
    #[must_use]
    pub fn words(self) -> [u64; 4] {
        self.words
    }

    /// A cursor of such words, whatever they are: words that mean no place are refused by the step.
    ///
    /// ```
    /// use cuffgarnet::{Cursor, Error, Index};
    /// let index = Index::loaded([(10, 11), (20, 21)], 1)?;
    /// let kept = Cursor::first(&index, 5)?.0.words();
    /// assert_eq!(Cursor::from_words(kept).next(&index, 5)?.1, Some((20, 21)));
    /// assert_eq!(Cursor::from_words([5, 1, 7, 0]).next(&index, 5), Err(Error::StaleCursor)); // there is no node 7
    /// # Ok::<(), Error>(())
    /// ```
    #[must_use]
    pub fn from_words(words: [u64; 4]) -> Self {
        Cursor { words }
    }
}
