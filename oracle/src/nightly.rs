//! The toolchain's own BTreeMap over the same kind of allocator. Its nodes are private, but a pair's address says in which node and at
//! which place it stands, and the allocator says which nodes are free.

use std::collections::BTreeMap;
use std::mem::ManuallyDrop;
use std::ops::Bound;
use std::panic::{AssertUnwindSafe, catch_unwind};

use crate::btree::End;
use crate::slab::{Numbered, Slab};

pub struct Nightly<'s> {
    /// Never dropped: its nodes are the slab's, which may have been cleared.
    map: ManuallyDrop<BTreeMap<u64, u64, Numbered<'s>>>,
    slab: &'s Slab,
    /// Where a node's keys and values begin.
    keys: usize,
    vals: usize,
}

impl<'s> Nightly<'s> {
    pub fn new(slab: &'s Slab) -> Nightly<'s> {
        let probe = Slab::new(1);
        let mut one = BTreeMap::new_in(probe.alloc());
        one.insert(0u64, 0u64);
        let (k, v) = one.iter().next().expect("one pair");
        let (keys, vals) = (probe.place(k).1, probe.place(v).1);
        Nightly { map: ManuallyDrop::new(BTreeMap::new_in(slab.alloc())), slab, keys, vals }
    }

    pub fn get(&self, key: u64) -> Option<u64> {
        self.map.get(&key).copied()
    }

    pub fn put(&mut self, key: u64, value: u64) -> Option<u64> {
        self.map.insert(key, value)
    }

    pub fn delete(&mut self, key: u64) -> Option<u64> {
        self.map.remove(&key)
    }

    pub fn len(&self) -> usize {
        self.map.len()
    }

    /// The first present key from this one on, else the first of all.
    pub fn near(&self, key: u64) -> Option<u64> {
        let on = self.map.range(key..).next().or_else(|| self.map.iter().next());
        on.map(|(k, _)| *k)
    }

    pub fn first(&self) -> Option<u64> {
        self.map.first_key_value().map(|(k, _)| *k)
    }

    pub fn last(&self) -> Option<u64> {
        self.map.last_key_value().map(|(k, _)| *k)
    }

    /// The first `room` pairs of a range and whether more remain; None where it panics.
    pub fn range(&self, start: End, end: End, room: usize) -> Option<(Vec<(u64, u64)>, bool)> {
        let mut all = catch_unwind(AssertUnwindSafe(|| self.map.range::<u64, (Bound<u64>, Bound<u64>)>((start, end)))).ok()?;
        let pairs = all.by_ref().take(room).map(|(k, v)| (*k, *v)).collect();
        Some((pairs, all.next().is_some()))
    }

    /// What its iterator gives, both ways: rising from a start bound on, and all of it falling.
    pub fn walks(&self, start: End) -> (Vec<(u64, u64)>, Vec<(u64, u64)>) {
        let pair = |(k, v): (&u64, &u64)| (*k, *v);
        let rising = self.map.range::<u64, (Bound<u64>, Bound<u64>)>((start, Bound::Unbounded)).map(pair).collect();
        (rising, self.map.iter().rev().map(pair).collect())
    }

    /// Each pair in order: key, value, node, place in the node.
    pub fn places(&self) -> Vec<(u64, u64, u64, u64)> {
        let place = |(k, v): (&u64, &u64)| {
            let (node, far) = self.slab.place(k);
            let (also, over) = self.slab.place(v);
            let at = far.wrapping_sub(self.keys);
            assert!(node == also && at == over.wrapping_sub(self.vals) && at % 8 == 0 && at / 8 < 11, "a pair out of its place");
            (*k, *v, node, at as u64 / 8)
        };
        self.map.iter().map(place).collect()
    }
}
