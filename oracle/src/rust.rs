//! The Rust's side of a history: the map of the seven files, held against the toolchain's BTreeMap, with document 01's rule of room, its
//! mark, and the reserve of request (vii), which the Rust does not have.

use std::ops::Bound::{Excluded, Included, Unbounded};

use crate::btree::{End, Map, Pairs};
use crate::nightly::Nightly;
use crate::slab::Slab;
use crate::words;

pub struct Rust<'s> {
    pub map: Map<'s>,
    slab: &'s Slab,
    other: &'s Slab,
    nightly: Nightly<'s>,
    /// Whether the toolchain's map has had the same history from its beginning, and so the same nodes.
    alike: bool,
    pub seen: u64,
    pub mark: u64,
    /// Pairs whose node and place were held against the toolchain's.
    pub placed: u64,
}

/// A bound of its kind: 0 open, 1 included, 2 excluded.
pub fn end(kind: u64, key: u64) -> End {
    match kind {
        0 => Unbounded,
        1 => Included(key),
        2 => Excluded(key),
        _ => panic!("no kind of bound: {kind}"),
    }
}

impl<'s> Rust<'s> {
    /// On two slabs, both cleared; the second, for the toolchain's map, has nodes beyond those of the first.
    pub fn new(slab: &'s Slab, other: &'s Slab) -> Rust<'s> {
        slab.clear();
        other.clear();
        Rust { map: Map::new(slab), slab, other, nightly: Nightly::new(other), alike: true, seen: 0, mark: 0, placed: 0 }
    }

    /// From an arena's words. The toolchain's map gets the same pairs, not the same nodes.
    pub fn from_words(slab: &'s Slab, other: &'s Slab, w: &[u64]) -> Result<Rust<'s>, String> {
        let map = Map::from_words(slab, w)?;
        other.clear();
        let mut nightly = Nightly::new(other);
        for (k, v, ..) in map.places() {
            nightly.put(k, v);
        }
        Ok(Rust { map, slab, other, nightly, alike: false, seen: w[words::SEEN], mark: w[words::MARK], placed: 0 })
    }

    /// The iterator's pairs, both ways: rising from a start bound on, and all of it falling.
    pub fn walks(&self, start: End) -> (Vec<(u64, u64)>, Vec<(u64, u64)>) {
        self.nightly.walks(start)
    }

    /// One order: its number and second word. A put that lacks room, by document 01's rule, is not done.
    pub fn order(&mut self, [code, key, value]: [u64; 3]) -> (u64, u64) {
        match code {
            1 => self.put(key, value),
            2 => {
                let got = self.map.get(key);
                assert_eq!(got, self.nightly.get(key), "get {key}");
                got.map_or((2, 0), |v| (1, v))
            }
            3 => {
                let got = self.map.delete(key);
                assert_eq!(got, self.nightly.delete(key), "delete {key}");
                got.map_or((2, 0), |v| (1, v))
            }
            // spends a key above the mark; no pair is looked at
            4 if self.seen == 0 || key > self.mark => {
                (self.seen, self.mark) = (1, key);
                (0, 0)
            }
            4 => (11, 0),
            _ => (6, 0),
        }
    }

    fn put(&mut self, key: u64, value: u64) -> (u64, u64) {
        let needed = self.map.nodes_needed(key);
        // a map with no root takes the node that a formatted arena's root already has
        let first = self.map.is_rootless() as usize;
        if needed.is_some_and(|n| n + first > self.slab.free_nodes()) {
            return (3, 0);
        }
        let before = self.slab.traffic();
        let got = self.map.put(key, value);
        let after = self.slab.traffic();
        assert_eq!(after.0 - before.0, (needed.unwrap_or(0) + first) as u64, "nodes taken by put {key}");
        assert_eq!(after.1, before.1, "nodes returned by put {key}");
        assert_eq!(got, self.nightly.put(key, value), "put {key}");
        assert_eq!(got.is_none(), needed.is_some(), "put {key}");
        self.mark = if self.seen == 0 { key } else { self.mark.max(key) };
        self.seen = 1;
        got.map_or((0, 0), |v| (1, v))
    }

    /// The first pairs of a range, None where the Rust panics; both ways along, and against the toolchain's.
    pub fn range(&mut self, start: End, end: End, room: usize) -> Option<Pairs> {
        let got = self.map.range(start, end, room);
        let theirs = self.nightly.range(start, end, room);
        // a map laid out from words has a root, the toolchain's may have none
        if self.alike || self.nightly.len() > 0 {
            assert_eq!(got.is_none(), theirs.is_none(), "range {start:?} {end:?}");
        }
        if let (Some(got), Some((pairs, more))) = (&got, &theirs) {
            assert!(got.pairs == *pairs && got.more == *more, "range {start:?} {end:?}");
            let mut back = self.map.range_back(start, end).expect("it did not panic forwards");
            back.reverse();
            assert!(back.len() >= pairs.len() && back[..pairs.len()] == pairs[..], "range {start:?} {end:?}, backwards");
            assert_eq!(back.len() > pairs.len(), *more, "range {start:?} {end:?}, backwards");
        }
        got
    }

    /// The words, after the nodes were held against the toolchain's.
    pub fn words(&mut self) -> Vec<u64> {
        assert_eq!(self.map.len(), self.nightly.len(), "pairs");
        if self.alike {
            let places = self.map.places();
            assert!(places == self.nightly.places(), "the toolchain's nodes differ");
            let beyond = self.slab.count() as u64..self.other.count() as u64;
            let chain: Vec<u64> = self.slab.chain().into_iter().chain(beyond).collect();
            assert!(chain == self.other.chain(), "the toolchain's free nodes differ");
            self.placed += places.len() as u64;
        }
        self.map.words(self.seen, self.mark)
    }

    pub fn near(&self, key: u64) -> Option<u64> {
        self.nightly.near(key)
    }

    pub fn first(&self) -> Option<u64> {
        self.nightly.first()
    }

    pub fn last(&self) -> Option<u64> {
        self.nightly.last()
    }

    pub fn free_nodes(&self) -> usize {
        self.slab.free_nodes() - self.map.is_rootless() as usize
    }
}
