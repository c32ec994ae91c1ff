//! The walking cursor beside `BTreeMap`: both ways through indexes of every height, seeks, turns, ends, and what makes a cursor stale.
#![cfg(feature = "alloc")]
#![allow(clippy::unwrap_used, clippy::indexing_slicing, clippy::arithmetic_side_effects, reason = "a test may stop")]

mod common;

use common::Rand;
use cuffgarnet::{Cursor, Error, Index, Moved};
use std::collections::BTreeMap;
use std::ops::Bound::{self, Excluded, Included, Unbounded};

/// An index and the same map, made by random puts and removals.
fn random(rand: &mut Rand, nodes: usize, turns: usize, keys: u64) -> (Index, BTreeMap<u64, u64>) {
    let mut index = Index::with_nodes(nodes).unwrap();
    let mut map = BTreeMap::new();
    for _ in 0..turns {
        let (key, value) = (rand.below(keys), rand.next());
        if rand.below(3) == 0 {
            assert_eq!(index.remove(key), Ok(map.remove(&key)));
        } else if let Ok(former) = index.insert(key, value) {
            assert_eq!(former, map.insert(key, value));
        }
    }
    (index, map)
}

/// What the steps find, until one finds none; then another finds none either, and stands where it stood.
fn walked(index: &Index, from: Moved, step: fn(Cursor, &Index, u64) -> Result<Moved, Error>) -> Vec<(u64, u64)> {
    let mut found = Vec::new();
    let mut at = from;
    while let Some(pair) = at.1 {
        found.push(pair);
        at = step(at.0, index, 5).unwrap();
    }
    assert_eq!(step(at.0, index, 5), Ok((at.0, None)));
    found
}

#[test]
fn every_pair_both_ways() {
    let mut rand = Rand(3);
    for (nodes, turns) in [(1, 0), (1, 9), (3, 40), (12, 120), (60, 900), (300, 4000)] {
        let (index, map) = random(&mut rand, nodes, turns, 3000);
        let pairs: Vec<(u64, u64)> = map.into_iter().collect();
        assert_eq!(walked(&index, Cursor::first(&index, 5).unwrap(), Cursor::next), pairs);
        let falling: Vec<(u64, u64)> = pairs.iter().rev().copied().collect();
        assert_eq!(walked(&index, Cursor::last(&index, 5).unwrap(), Cursor::previous), falling);
    }
}

#[test]
fn seeks_and_turns() {
    let mut rand = Rand(11);
    let (index, map) = random(&mut rand, 100, 1500, 2000);
    for _ in 0..300 {
        let key = rand.below(2100);
        for start in [Unbounded, Included(key), Excluded(key)] {
            let (cursor, pair) = Cursor::seek_from(&index, 7, (start, Unbounded)).unwrap();
            let mut range = map.range((start, Unbounded)).map(|(k, v)| (*k, *v));
            assert_eq!(pair, range.next());
            let on = cursor.next(&index, 7).unwrap();
            assert_eq!(on.1, range.next());
            let back: Bound<u64> = pair.map_or(Unbounded, |(k, _)| Excluded(k));
            let below = map.range((Unbounded, back)).next_back().map(|(k, v)| (*k, *v));
            assert_eq!(cursor.previous(&index, 7).unwrap().1, below);
            if pair.is_some() {
                assert_eq!(on.0.previous(&index, 7), Ok((cursor, pair)));
                let before = cursor.previous(&index, 7).unwrap().0;
                assert_eq!(before.next(&index, 7), Ok((cursor, pair)));
            }
        }
    }
}

#[test]
fn an_empty_index_has_two_ends() {
    let index = Index::with_nodes(2).unwrap();
    let (past, none) = Cursor::first(&index, 4).unwrap();
    assert_eq!((past.words(), none), ([4, 2, 0, 0], None));
    let (before, none) = past.previous(&index, 4).unwrap();
    assert_eq!((before.words(), none), ([4, 0, 0, 0], None));
    assert_eq!(before.previous(&index, 4), Ok((before, None)));
    assert_eq!(before.next(&index, 4), Ok((past, None)));
    assert_eq!(Cursor::last(&index, 4), Ok((before, None)));
    assert_eq!(past.next(&index, 5), Err(Error::StaleCursor));
}

#[test]
fn a_stale_cursor_is_refused_and_may_seek() {
    let mut index = Index::with_nodes(3).unwrap();
    for key in 1..=11 {
        index.insert(key, key * 10).unwrap();
    }
    let (cursor, pair) = Cursor::seek_from(&index, 3, 6..).unwrap();
    assert_eq!((cursor.words(), pair), ([3, 1, 0, 5], Some((6, 60))));
    assert_eq!(cursor.next(&index, 4), Err(Error::StaleCursor));
    assert_eq!(cursor.next(&index, 2), Err(Error::StaleCursor));
    assert_eq!(cursor.seek(&index, 4, Excluded(6)).unwrap().1, Some((7, 70)));
    // with the same count the step goes on from whatever stands there
    index.remove(2).unwrap();
    assert_eq!(cursor.next(&index, 3).unwrap().1, Some((8, 80)));
    // places that hold no pair: no such node, a free one, past a node's length, no kind of place
    for words in [[3, 1, 3, 0], [3, 1, 1, 0], [3, 1, 0, 10], [3, 1, 0, u64::MAX], [3, 1, u64::MAX, 0], [3, 3, 0, 0]] {
        let stray = Cursor::from_words(words);
        assert_eq!(stray.next(&index, 3), Err(Error::StaleCursor));
        assert_eq!(stray.previous(&index, 3), Err(Error::StaleCursor));
        assert_eq!(stray.words(), words);
    }
    // at an end node and place are not looked at
    assert_eq!(Cursor::from_words([3, 0, 9, 9]).next(&index, 3).unwrap().1, Some((1, 10)));
}
