//! Orders of a batch, and their outcomes.

use crate::error::{self, Error};
use crate::ffi;

/// One order of a batch.
///
/// ```
/// use cuffgarnet::{Error, Index, Order};
/// let mut index = Index::with_nodes(4)?;
/// let said = index.apply(&[Order::Reserve(7), Order::Insert(7, 70), Order::Get(7), Order::Remove(7)])?;
/// assert_eq!(said, [Ok(None), Ok(None), Ok(Some(70)), Ok(Some(70))]);
/// # Ok::<(), Error>(())
/// ```
#[derive(Clone, Copy, Debug, Eq, Hash, PartialEq)]
pub enum Order {
    /// Put this key with this value.
    Insert(u64, u64),
    /// Get the value of this key.
    Get(u64),
    /// Take the pair of this key out.
    Remove(u64),
    /// Spend this key, with no pair put.
    Reserve(u64),
}

/// What an order came to: as the single call's result.
///
/// ```
/// use cuffgarnet::{Error, Index, Order, Outcome};
/// let mut index = Index::with_nodes(1)?;
/// let outcome: Outcome = index.apply_one(Order::Insert(1, 10));
/// assert_eq!(outcome, Ok(None)); // a new key
/// # Ok::<(), Error>(())
/// ```
pub type Outcome = Result<Option<u64>, Error>;

impl Order {
    /// Code, key and value.
    fn words(self) -> [u64; 3] {
        match self {
            Order::Insert(key, value) => [1, key, value],
            Order::Get(key) => [2, key, 0],
            Order::Remove(key) => [3, key, 0],
            Order::Reserve(key) => [4, key, 0],
        }
    }
}

pub(crate) fn apply_one(arena: &mut [u64], order: Order) -> Outcome {
    let [code, key, value] = order.words();
    error::value(&ffi::order(arena, code, key, value))
}

#[cfg(feature = "alloc")]
pub(crate) fn apply(arena: &mut [u64], orders: &[Order]) -> Result<alloc::vec::Vec<Outcome>, Error> {
    use alloc::vec::Vec;
    let asked: Vec<u64> = orders.iter().flat_map(|order| order.words()).collect();
    let mut said: Vec<u64> = orders.iter().flat_map(|_| [0, 0]).collect();
    error::done(ffi::batch(arena, &asked, &mut said))?;
    let answers = said.chunks_exact(2).filter_map(|answer| <[u64; 2]>::try_from(answer).ok());
    Ok(answers.map(|[number, second]| error::value(&ffi::Said { number, second })).collect())
}
