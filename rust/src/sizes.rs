//! How many words and nodes an index needs.

/// Words before the first node.
pub(crate) const HEADER: usize = 10;

/// Words of a node. In format 1 it was one less.
pub(crate) const NODE: usize = 39;

/// The most nodes there can be.
pub(crate) const LARGEST: usize = 1_048_575;

/// How many words an index of so many nodes has; `None` if there is no such index (nodes are 1 to 1,048,575).
///
/// ```
/// assert_eq!(cuffgarnet::words_for(2), Some(88));
/// assert_eq!(cuffgarnet::words_for(0), None);
/// assert_eq!(cuffgarnet::words_for(1_048_576), None);
/// ```
#[must_use]
pub fn words_for(nodes: usize) -> Option<usize> {
    if nodes == 0 || nodes > LARGEST {
        return None;
    }
    nodes.checked_mul(NODE)?.checked_add(HEADER)
}

/// How many nodes are enough for so many pairs, in whatever order they are put and removed: as long as there are never more pairs than
/// that, no insertion is refused with [`NoRoom`](crate::Error::NoRoom). `None` if no index is large enough.
///
/// This is the worst case, five pairs in each node. Keys in random order need about two thirds of it, and [`nodes_for_rising`] says
/// what rising keys need.
///
/// ```
/// use cuffgarnet::{nodes_for, Error, Index};
/// let mut index = Index::with_nodes(nodes_for(1000).ok_or("too many")?)?;
/// for key in (0..1000).rev() {
///     index.insert(key, 0)?; // there is room for each
/// }
/// assert_eq!(nodes_for(1000), Some(198));
/// assert_eq!(nodes_for(usize::MAX), None);
/// # Ok::<(), Box<dyn std::error::Error>>(())
/// ```
#[must_use]
pub fn nodes_for(pairs: usize) -> Option<usize> {
    // With L leaves there are L - 1 pairs above them, and each leaf but a lone one has 5 or more: 6 L - 1 pairs at least.
    let leaves = if pairs < 11 { 1 } else { pairs.saturating_add(1) / 6 };
    total(leaves, |level| (level / 6).max(1)) // an inner node but the root has 6 children or more
}

/// How many nodes just hold so many pairs if they are put in rising order and none is removed, as a broker's counters are until the
/// first delivery. `None` if no index is large enough. Once pairs are removed as well, [`nodes_for`] is the safe number.
///
/// ```
/// use cuffgarnet::{nodes_for_rising, Error, Index};
/// assert_eq!(nodes_for_rising(389), Some(64));
/// let mut index = Index::with_nodes(64)?;
/// for key in 1..=389 {
///     index.insert(key, 0)?;
/// }
/// assert_eq!(index.insert(390, 0), Err(Error::NoRoom));
/// # Ok::<(), Error>(())
/// ```
#[must_use]
pub fn nodes_for_rising(pairs: usize) -> Option<usize> {
    // A level takes the first 11 pairs into one node. The 12th splits it, and each 7th from there on: 6 pairs stay, one goes a level up.
    let splits = |pairs: usize| if pairs < 12 { 0 } else { pairs.saturating_sub(5) / 7 };
    total(splits(pairs).checked_add(1)?, |level| splits(level.saturating_sub(1)).saturating_add(1))
}

/// How many nodes a load of so many pairs takes, and so the upper part of a cut, and a join. `None` if no index is large enough. No
/// tree of so many pairs has fewer nodes: lend some more for what comes later, or [`nodes_for`] to be safe.
///
/// ```
/// use cuffgarnet::{nodes_for_load, Error, Index};
/// assert_eq!([0, 11, 12, 144, 1_000_000].map(nodes_for_load), [1, 1, 3, 16, 90_913].map(Some));
/// assert_eq!(Index::loaded((0..12).map(|key| (key, 0)), 2).err(), Some(Error::NoRoom));
/// ```
#[must_use]
pub fn nodes_for_load(pairs: usize) -> Option<usize> {
    // A level takes 11 pairs a node, and each 12th goes a level up.
    let nodes = |pairs: usize| (pairs / 12).saturating_add(1);
    total(nodes(pairs), |level| nodes(level.saturating_sub(1)))
}

/// The nodes of all levels, if they are not too many: from so many leaves on, as long as a level has more than one node.
fn total(leaves: usize, above: impl Fn(usize) -> usize) -> Option<usize> {
    let (mut level, mut nodes) = (leaves, leaves);
    while level > 1 {
        level = above(level);
        nodes = nodes.checked_add(level)?;
    }
    (nodes <= LARGEST).then_some(nodes)
}
