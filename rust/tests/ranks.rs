//! Rank, count and the pair at a rank beside `BTreeMap`: while pairs come and go, in every kind of range, and in large indexes.
#![cfg(feature = "alloc")]
#![allow(clippy::unwrap_used, clippy::indexing_slicing, clippy::arithmetic_side_effects, reason = "a test may stop")]

mod common;

use common::{base, filled, long, pairs, panics, ranges, value, why, Rand, COUNT, LINK, NONE};
use cuffgarnet::{Error, Index};
use std::collections::BTreeMap;
use std::ops::Bound::{Excluded, Unbounded};

/// Every rank, and the pair at each, of an index that holds these pairs; and ranks of the keys between.
fn same_ranks(index: &Index, map: &BTreeMap<u64, u64>) {
    for (rank, (key, value)) in map.iter().enumerate() {
        assert_eq!(index.nth(rank), Ok(Some((*key, *value))));
        assert_eq!(index.rank(*key), Ok(rank));
        assert_eq!(index.rank(key + 1), Ok(rank + 1));
    }
    for beyond in [map.len(), map.len() + 1, usize::MAX] {
        assert_eq!(index.nth(beyond), Ok(None));
    }
    assert_eq!((index.rank(0), index.rank(u64::MAX)), (Ok(0), Ok(map.len())));
    assert_eq!(index.count(..), Ok(map.len()));
}

#[test]
fn while_pairs_come_and_go() {
    let mut rand = Rand(7);
    let mut index = Index::with_nodes(200).unwrap();
    let mut map = BTreeMap::new();
    for turn in 0..8_000 {
        let (key, value) = (rand.below(1200), rand.next());
        // it fills, empties, and fills again, so that nodes are split, merged and lent pairs
        let fills = if turn / 2000 % 2 == 0 { 7 } else { 3 };
        if rand.below(10) < fills {
            assert_eq!(index.insert(key, value), Ok(map.insert(key, value)));
        } else {
            assert_eq!(index.remove(key), Ok(map.remove(&key)));
        }
        let (a, b) = (rand.below(1250), rand.below(1250));
        assert_eq!(index.rank(a), Ok(map.range(..a).count()));
        assert_eq!(index.count(a.min(b)..a.max(b)), Ok(map.range(a.min(b)..a.max(b)).count()));
        let before = long(rand.below(map.len() as u64 + 2));
        assert_eq!(index.nth(before), Ok(map.iter().nth(before).map(|(k, v)| (*k, *v))));
        if turn % 2000 == 1999 {
            same_ranks(&index, &map);
        }
    }
    // and down to nothing
    for key in 0..1200 {
        assert_eq!(index.remove(key), Ok(map.remove(&key)));
        if key % 300 == 0 {
            same_ranks(&index, &map);
        }
    }
    same_ranks(&index, &map);
    assert_eq!(index.free_nodes(), Ok(199));
}

#[test]
fn every_kind_of_range() {
    for size in [0, 1, 11, 12, 200] {
        let index = filled(60, (0..size).map(|k| 2 * k));
        let map: BTreeMap<u64, u64> = pairs(&index).into_iter().collect();
        for range in ranges(&[0, 1, 21, 22, 200, 398, 399, u64::MAX], &[0, 1, 22, 23, 100, 398, u64::MAX]) {
            let bad = panics(range.0, range.1);
            let wanted = if bad { Err(Error::BadRange) } else { Ok(map.range(range).count()) };
            assert_eq!(index.count(range), wanted, "{range:?} of {size}");
            // as many as a listing has
            let listed: Result<Vec<_>, _> = index.range(range).collect();
            assert_eq!(index.count(range), listed.map(|pairs| pairs.len()));
        }
    }
}

#[test]
fn the_last_keys_there_are() {
    let index = filled(2, u64::MAX - 3..=u64::MAX);
    assert_eq!((index.rank(u64::MAX), index.nth(3)), (Ok(3), Ok(Some((u64::MAX, 0)))));
    assert_eq!((index.count(u64::MAX..), index.count(..u64::MAX)), (Ok(1), Ok(3)));
    assert_eq!(index.count((Excluded(u64::MAX), Unbounded)), Ok(0));
    assert_eq!((index.nth(4), index.nth(usize::MAX)), (Ok(None), Ok(None)));
}

#[test]
fn in_a_large_index() {
    let pairs = 50_000;
    let mut rand = Rand(8);
    let mut map = BTreeMap::new();
    while map.len() < pairs {
        let key = rand.next();
        map.insert(key, value(key));
    }
    // in the order of their coming: by a second run of the same numbers
    let mut again = Rand(8);
    let index = filled(10_000, (0..pairs).map(|_| again.next()));
    let keys: Vec<u64> = map.keys().copied().collect();
    for rank in (0..pairs).step_by(997).chain([0, pairs - 1]) {
        assert_eq!(index.nth(rank), Ok(Some((keys[rank], value(keys[rank])))));
        assert_eq!((index.rank(keys[rank]), index.rank(keys[rank] + 1)), (Ok(rank), Ok(rank + 1)));
        let other = long(rand.below(pairs as u64));
        let (low, high) = (rank.min(other), rank.max(other));
        assert_eq!(index.count(keys[low]..keys[high]), Ok(high - low));
        assert_eq!(index.count(keys[low]..=keys[high]), Ok(high - low + 1));
    }
    assert_eq!(index.nth(pairs), Ok(None));
}

/// The rank's own word of a node: each count is checked, not only the root's against the header.
#[test]
fn counts_are_checked_for_truth() {
    let good = filled(40, 0..150).snapshot();
    let live: Vec<usize> = (0..40).filter(|n| good[base(*n)] != 0).collect();
    assert!(live.len() > 20);
    for node in 0..40 {
        for wrong in [good[base(node) + COUNT] + 1, good[base(node) + COUNT].wrapping_sub(1), u64::MAX] {
            let mut words = good.clone();
            words[base(node) + COUNT] = wrong;
            assert_eq!(why(Index::open(words)), Some(Error::BadArena), "node {node}");
        }
    }
    // one leaf's too many and the next one's too few: the sum is true, and so is every count above them
    let leaves: Vec<usize> = live.iter().copied().filter(|n| good[base(*n)] == 1).collect();
    for pair in leaves.windows(2) {
        let mut words = good.clone();
        words[base(pair[0]) + COUNT] += 1;
        words[base(pair[1]) + COUNT] -= 1;
        assert_eq!(why(Index::open(words)), Some(Error::BadArena), "leaves {pair:?}");
    }
    // of an inner node and its parent
    for node in live.iter().copied().filter(|n| good[base(*n)] == 2) {
        let mut words = good.clone();
        let mut at = node as u64;
        while at != NONE {
            words[base(long(at)) + COUNT] += 1;
            at = good[base(long(at)) + LINK];
        }
        words[5] += 1;
        assert_eq!(why(Index::open(words)), Some(Error::BadArena), "node {node} and all above it");
    }
}
