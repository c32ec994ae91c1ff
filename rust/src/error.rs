//! The refusals, and how a call's number becomes a result.

use crate::ffi::{Picked, Said};
use crate::sizes::{words_for, HEADER, LARGEST, NODE};
use core::fmt;

/// Why a call was refused. A refused call has changed no word. Where several would fit, the first of `BadSize`, `BadArena`,
/// `BadImage`, `Older`, `BadRange`, `StaleCursor`, `BadOrder`, `NotRising`, `NoRoom` or `Spent` is given; only the upgrade and the join
/// have `BadSize` behind `BadArena`.
///
/// ```
/// use cuffgarnet::{Error, Index};
/// let mut index = Index::with_nodes(1)?;
/// index.reserve(7)?;
/// let refused = index.reserve(7).err();
/// assert_eq!(refused, Some(Error::Spent));
/// assert_eq!(refused.map(|why| why.to_string()), Some("the counter is spent: take one above the mark, as next_counter says".into()));
/// # Ok::<(), Error>(())
/// ```
#[derive(Clone, Copy, Debug, Eq, Hash, PartialEq)]
#[non_exhaustive]
pub enum Error {
    /// 3: the insertion of an absent key, a load, a cut or a join lacks nodes.
    NoRoom,
    /// 4: the words are not a well-formed arena of format 2; of format 1, in the upgrade.
    BadArena,
    /// 5: a range whose start is above its end, or equal to it with both excluded.
    BadRange,
    /// 6: an order's code is not 1, 2, 3 or 4.
    BadOrder,
    /// 7: a number of words, or of nodes, that cannot be.
    BadSize(Size),
    /// 8: the image is not a well-formed arena.
    BadImage,
    /// 9: the cursor's count is another one, or its place holds no pair and is no end.
    StaleCursor,
    /// 10: the keys of the pairs that were to be loaded do not rise strictly.
    NotRising,
    /// 11: the key that was to be reserved is not above the mark.
    Spent,
    /// 12: the image's mark is lower than the index's.
    Older,
    /// A number that this version does not know; the library that it is built with gives none.
    Other(u64),
}

impl Error {
    /// The number, as C sees it.
    ///
    /// ```
    /// assert_eq!(cuffgarnet::Error::BadArena.number(), 4);
    /// ```
    #[must_use]
    pub fn number(self) -> u64 {
        match self {
            Error::NoRoom => 3,
            Error::BadArena => 4,
            Error::BadRange => 5,
            Error::BadOrder => 6,
            Error::BadSize(_) => 7,
            Error::BadImage => 8,
            Error::StaleCursor => 9,
            Error::NotRising => 10,
            Error::Spent => 11,
            Error::Older => 12,
            Error::Other(number) => number,
        }
    }

    /// Of a number that says all by itself; 7 does not, see [`sized`].
    fn of(number: u64) -> Self {
        match number {
            3 => Error::NoRoom,
            4 => Error::BadArena,
            5 => Error::BadRange,
            6 => Error::BadOrder,
            8 => Error::BadImage,
            9 => Error::StaleCursor,
            10 => Error::NotRising,
            11 => Error::Spent,
            12 => Error::Older,
            _ => Error::Other(number),
        }
    }
}

impl fmt::Display for Error {
    fn fmt(&self, f: &mut fmt::Formatter<'_>) -> fmt::Result {
        f.write_str(match self {
            Error::NoRoom => {
                "no room: there are too few free nodes; remove pairs, or bring all into an index with more nodes"
            }
            Error::BadArena => {
                "the words are not a well-formed index: damaged (recover from an image; do not format, that forgets \
                 the mark), of format 1 (upgrade them), or never formatted"
            }
            Error::BadRange => "no such range: its start is above its end, or equal to it with both excluded",
            Error::BadOrder => "no such order: its code is not 1 (put), 2 (get), 3 (delete) or 4 (reserve)",
            Error::BadSize(size) => return size.fmt(f),
            Error::BadImage => "the image is damaged or of format 1, and nothing was restored: take another image",
            Error::StaleCursor => {
                "the cursor is stale: the index has changed since, or no pair is there; seek the key where it stood"
            }
            Error::NotRising => {
                "the keys to be loaded do not rise strictly: sort the pairs, and leave doubled keys out"
            }
            Error::Spent => "the counter is spent: take one above the mark, as next_counter says",
            Error::Older => "the image is older than the index: its mark is lower; if that is meant, say restore_older",
            Error::Other(number) => return write!(f, "refused with the unknown number {number}"),
        })
    }
}

impl core::error::Error for Error {}

/// Which size was given, and which would do.
///
/// ```
/// use cuffgarnet::{Error, Index, Size};
/// let refused = Index::format([0; 100]).map_err(Error::from).err();
/// assert_eq!(refused, Some(Error::BadSize(Size::Words { given: 100 })));
/// let said = refused.map(|why| why.to_string());
/// assert_eq!(said, Some("100 words make no index: 88 would (2 nodes), or 127 (3 nodes)".into()));
/// ```
#[derive(Clone, Copy, Debug, Eq, Hash, PartialEq)]
#[non_exhaustive]
pub enum Size {
    /// A number of nodes. There are 1 to 1,048,575.
    Nodes {
        /// How many were asked for.
        given: usize,
    },
    /// The words of an index, 10 and 39 a node.
    Words {
        /// How many there were.
        given: usize,
    },
    /// The words of a batch's orders, 3 an order.
    Orders {
        /// How many there were.
        given: usize,
    },
    /// The words of a batch's answers, 2 an order.
    Answers {
        /// How many there were.
        given: usize,
        /// How many the orders need.
        wanted: usize,
    },
    /// The words of an image.
    Image {
        /// How many there were.
        given: usize,
        /// How many the index has that it is restored to.
        wanted: usize,
    },
    /// The words that an upgrade writes.
    Target {
        /// How many there were.
        given: usize,
        /// How many the old index needs in format 2.
        wanted: usize,
    },
    /// The words of a run that was to be loaded, 2 a pair.
    Run {
        /// How many there were.
        given: usize,
    },
    /// The words that a join writes the pairs to.
    Joined {
        /// How many there were.
        given: usize,
        /// How many the pairs of both need, at least.
        wanted: usize,
    },
}

impl Size {
    /// The number that was given.
    ///
    /// ```
    /// assert_eq!(cuffgarnet::Size::Words { given: 100 }.given(), 100);
    /// ```
    #[must_use]
    pub fn given(self) -> usize {
        match self {
            Size::Nodes { given }
            | Size::Words { given }
            | Size::Orders { given }
            | Size::Answers { given, .. }
            | Size::Image { given, .. }
            | Size::Target { given, .. }
            | Size::Run { given }
            | Size::Joined { given, .. } => given,
        }
    }

    /// The next smaller number that would do, if there is one.
    ///
    /// ```
    /// use cuffgarnet::Size;
    /// assert_eq!(Size::Words { given: 100 }.below(), Some(88));
    /// assert_eq!(Size::Words { given: 48 }.below(), None);
    /// assert_eq!(Size::Image { given: 100, wanted: 88 }.below(), Some(88));
    /// ```
    #[must_use]
    pub fn below(self) -> Option<usize> {
        let below = match self {
            Size::Nodes { given } => given.min(LARGEST),
            Size::Words { given } => words_for(nodes_in(given).min(LARGEST))?,
            Size::Orders { given } => given.saturating_sub(given % 3),
            Size::Run { given } => given.saturating_sub(given % 2),
            Size::Answers { wanted, .. }
            | Size::Image { wanted, .. }
            | Size::Target { wanted, .. }
            | Size::Joined { wanted, .. } => wanted,
        };
        (below < self.given()).then_some(below)
    }

    /// The next larger number that would do, if there is one.
    ///
    /// ```
    /// use cuffgarnet::Size;
    /// assert_eq!(Size::Words { given: 100 }.above(), Some(127));
    /// assert_eq!(Size::Nodes { given: 0 }.above(), Some(1));
    /// assert_eq!(Size::Image { given: 100, wanted: 88 }.above(), None);
    /// ```
    #[must_use]
    pub fn above(self) -> Option<usize> {
        let above = match self {
            Size::Nodes { given } => given.max(1),
            Size::Words { given } => words_for(nodes_in(given).saturating_add(1))?,
            Size::Orders { given } => given.checked_next_multiple_of(3)?,
            Size::Run { given } => given.checked_next_multiple_of(2)?,
            Size::Answers { wanted, .. }
            | Size::Image { wanted, .. }
            | Size::Target { wanted, .. }
            | Size::Joined { wanted, .. } => wanted,
        };
        (above > self.given()).then_some(above)
    }
}

/// How many whole nodes so many words have room for.
fn nodes_in(words: usize) -> usize {
    words.saturating_sub(HEADER) / NODE
}

impl fmt::Display for Size {
    fn fmt(&self, f: &mut fmt::Formatter<'_>) -> fmt::Result {
        let given = self.given();
        match *self {
            Size::Nodes { .. } => return write!(f, "an index has 1 to 1,048,575 nodes, and not {given}"),
            Size::Words { .. } => write!(f, "{given} words make no index: ")?,
            Size::Orders { .. } => write!(f, "{given} words are no whole orders of 3 words: ")?,
            Size::Run { .. } => write!(f, "{given} words are no whole pairs of 2 words: ")?,
            Size::Answers { wanted, .. } => {
                return write!(f, "{given} words for the answers, and these orders need {wanted}: 2 each")
            }
            Size::Image { wanted, .. } => {
                return write!(
                    f,
                    "an image of {given} words, and the index has {wanted}: restore it to an index with as many nodes"
                )
            }
            Size::Target { wanted, .. } => {
                return write!(f, "{given} words to write to, and the old index needs {wanted} in format 2")
            }
            Size::Joined { wanted, .. } => {
                return write!(f, "{given} words for the joined pairs, and the pairs of both need {wanted}: 2 each")
            }
        }
        let nodes = |f: &mut fmt::Formatter<'_>, words: usize| match (self, nodes_in(words)) {
            (Size::Words { .. }, 1) => f.write_str(" (1 node)"),
            (Size::Words { .. }, nodes) => write!(f, " ({nodes} nodes)"),
            _ => Ok(()),
        };
        match (self.below(), self.above()) {
            (Some(below), Some(above)) => {
                write!(f, "{below} would")?;
                nodes(f, below)?;
                write!(f, ", or {above}")?;
                nodes(f, above)
            }
            (Some(one), None) | (None, Some(one)) => {
                write!(f, "{one} would")?;
                nodes(f, one)
            }
            (None, None) => f.write_str("no number near it would"),
        }
    }
}

/// Words that an [`Index`](crate::Index) could not be made on, with the reason. They come back as they were given, unchanged.
///
/// It turns into an [`Error`] by `?` or [`Error::from`]. Where the words are borrowed, a `Box<dyn Error>` cannot keep them: write
/// `.map_err(Error::from)?`.
///
/// ```
/// use cuffgarnet::{Error, Index};
/// let file = vec![7; 49]; // no index
/// let refused = Index::open(file).err().ok_or("opened")?;
/// assert_eq!(refused.error(), Error::BadArena);
/// let file = refused.into_words(); // to be looked at, or saved
/// assert_eq!(file, [7; 49]);
/// # Ok::<(), &str>(())
/// ```
#[derive(Clone, Copy, Eq, PartialEq)]
pub struct Refused<W> {
    error: Error,
    words: W,
}

impl<W> Refused<W> {
    pub(crate) fn new(error: Error, words: W) -> Self {
        Refused { error, words }
    }

    /// Why.
    ///
    /// ```
    /// use cuffgarnet::{Error, Index, Size};
    /// let refused = Index::format([0; 48]).err();
    /// assert_eq!(refused.map(|r| r.error()), Some(Error::BadSize(Size::Words { given: 48 })));
    /// ```
    pub fn error(&self) -> Error {
        self.error
    }

    /// The words as they were given.
    ///
    /// ```
    /// use cuffgarnet::Index;
    /// let refused = Index::format([3; 48]).err();
    /// assert_eq!(refused.map(|r| r.into_words()), Some([3; 48]));
    /// ```
    pub fn into_words(self) -> W {
        self.words
    }
}

impl<W> From<Refused<W>> for Error {
    fn from(refused: Refused<W>) -> Self {
        refused.error
    }
}

impl<W> fmt::Debug for Refused<W> {
    fn fmt(&self, f: &mut fmt::Formatter<'_>) -> fmt::Result {
        f.debug_struct("Refused").field("error", &self.error).finish_non_exhaustive()
    }
}

impl<W> fmt::Display for Refused<W> {
    fn fmt(&self, f: &mut fmt::Formatter<'_>) -> fmt::Result {
        self.error.fmt(f)
    }
}

impl<W> core::error::Error for Refused<W> {}

/// Of a call that answers 0 or a refusal.
pub(crate) fn done(number: u64) -> Result<(), Error> {
    match number {
        0 => Ok(()),
        _ => Err(Error::of(number)),
    }
}

/// The same of a call that can answer 7: the size that was wrong.
pub(crate) fn sized(number: u64, size: impl FnOnce() -> Size) -> Result<(), Error> {
    match number {
        7 => Err(Error::BadSize(size())),
        _ => done(number),
    }
}

/// Of a call on one key: 1 comes with a value, 0 (a new key) and 2 (absent) with none.
pub(crate) fn value(said: &Said) -> Result<Option<u64>, Error> {
    match said.number {
        0 | 2 => Ok(None),
        1 => Ok(Some(said.second)),
        _ => Err(Error::of(said.number)),
    }
}

/// Of a call that answers 0 with a number, or a refusal. No number that is told is above the number of pairs.
pub(crate) fn number(said: &Said) -> Result<usize, Error> {
    done(said.number)?;
    Ok(long(said.second))
}

/// Of a pair at a rank or a cursor: 1 comes with a pair, 2 with none.
pub(crate) fn pair(picked: &Picked) -> Result<Option<(u64, u64)>, Error> {
    match picked.number {
        1 => Ok(Some((picked.key, picked.value))),
        2 => Ok(None),
        _ => Err(Error::of(picked.number)),
    }
}

/// A word as a length.
#[allow(clippy::cast_possible_truncation, reason = "on x86-64, which this crate is for alone, a usize has 64 bits")]
pub(crate) fn long(word: u64) -> usize {
    word as usize
}
