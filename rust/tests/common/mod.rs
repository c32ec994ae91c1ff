//! What the tests share.
#![allow(dead_code, reason = "each test takes what it needs")]
#![allow(clippy::unwrap_used, clippy::arithmetic_side_effects, reason = "a test may stop")]

use cuffgarnet::{Error, Index, Order, Words};
use std::ops::Bound::{self, Excluded, Included};

/// Words before the first node, and words of a node.
pub const HEADER: usize = 10;
pub const NODE: usize = 39;

/// Words of a node: the link (parent, or the next free node), the edges, the count.
pub const LINK: usize = 2;
pub const KEYS: usize = 4;
pub const VALUES: usize = 15;
pub const EDGES: usize = 26;
pub const COUNT: usize = 38;

/// No node.
pub const NONE: u64 = 4_294_967_295;

/// The first word of a node.
pub fn base(node: usize) -> usize {
    HEADER + NODE * node
}

/// A word as a number of things.
#[allow(clippy::cast_possible_truncation, reason = "the library is for x86-64, where a usize has 64 bits")]
pub fn long(word: u64) -> usize {
    word as usize
}

/// Plain pseudo-random numbers, the same in every run.
pub struct Rand(pub u64);

impl Rand {
    pub fn next(&mut self) -> u64 {
        self.0 ^= self.0 << 13;
        self.0 ^= self.0 >> 7;
        self.0 ^= self.0 << 17;
        self.0
    }

    pub fn below(&mut self, n: u64) -> u64 {
        self.next() % n
    }
}

/// The value that the tests give a key.
pub fn value(key: u64) -> u64 {
    key.wrapping_add(1)
}

/// An index with these keys, all new, in one batch.
pub fn filled(nodes: usize, keys: impl Iterator<Item = u64>) -> Index {
    let mut index = Index::with_nodes(nodes).unwrap();
    let orders: Vec<Order> = keys.map(|key| Order::Insert(key, value(key))).collect();
    assert!(index.apply(&orders).unwrap().iter().all(|o| *o == Ok(None)));
    index
}

/// All pairs.
pub fn pairs<W: Words>(index: &Index<W>) -> Vec<(u64, u64)> {
    index.iter().map(Result::unwrap).collect()
}

/// Why words were refused, or a call; none if it was not.
pub fn why<T, E: Into<Error>>(result: Result<T, E>) -> Option<Error> {
    result.err().map(Into::into)
}

/// Whether a range is refused, by the documentation of `BTreeMap::range`.
pub fn panics(start: Bound<u64>, end: Bound<u64>) -> bool {
    match (start, end) {
        (Excluded(s), Excluded(e)) => s >= e,
        (Included(s) | Excluded(s), Included(e) | Excluded(e)) => s > e,
        _ => false,
    }
}

/// Ranges with bounds of every kind at these keys.
pub fn ranges(starts: &[u64], ends: &[u64]) -> Vec<(Bound<u64>, Bound<u64>)> {
    let bounds = |key: u64| [Bound::Unbounded, Included(key), Excluded(key)];
    let with = |start: Bound<u64>| ends.iter().flat_map(move |b| bounds(*b)).map(move |end| (start, end));
    starts.iter().flat_map(|a| bounds(*a)).flat_map(with).collect()
}
