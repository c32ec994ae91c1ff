//! Joins of two indexes.
#![cfg(feature = "alloc")]
#![allow(clippy::unwrap_used, clippy::indexing_slicing, clippy::arithmetic_side_effects, reason = "a test may stop")]

mod common;

use common::pairs as all;
use cuffgarnet::{nodes_for_load, Error, Index, Size};
use std::collections::BTreeMap;

/// Keys from one number on, each so far from the last, with values that tell the two sides apart.
fn pairs(from: u64, step: u64, many: u64, value: u64) -> Vec<(u64, u64)> {
    (0..many).map(|i| (from + step * i, value + i)).collect()
}

fn nodes_for(pairs: usize) -> usize {
    nodes_for_load(pairs).unwrap()
}

#[test]
fn is_the_append_of_btreemap_in_the_words_of_a_load() {
    for (n, m) in [(0, 0), (0, 5), (5, 0), (1, 1), (11, 1), (12, 12), (30, 200), (400, 90), (2000, 2000)] {
        for (from, step) in [(0, 1), (5, 2), (3, 7), (100_000, 1)] {
            let (a, b) = (pairs(0, 2, n, 1000), pairs(from, step, m, 50_000));
            let mut map: BTreeMap<u64, u64> = a.iter().copied().collect();
            map.append(&mut b.iter().copied().collect());
            let nodes = nodes_for(map.len()).max(nodes_for(a.len()));
            let (mut first, mut second) =
                (Index::loaded(&a, nodes).unwrap(), Index::loaded(&b, nodes_for(b.len()) + 1).unwrap());
            let marks = (first.mark().unwrap(), second.mark().unwrap());
            first.append(&mut second).unwrap();
            assert_eq!(all(&first), map.iter().map(|(k, v)| (*k, *v)).collect::<Vec<_>>(), "{n} and {m}");
            // a load of the pairs, but for the mark
            let mut loaded = Index::loaded(all(&first), nodes).unwrap();
            if let Some(mark) = marks.0.max(marks.1).filter(|mark| loaded.mark().unwrap() < Some(*mark)) {
                loaded.reserve(mark).unwrap();
            }
            assert_eq!(first.words(), loaded.words());
            // a formatted one, but for the mark
            let mut empty = Index::with_nodes(nodes_for(b.len()) + 1).unwrap();
            marks.1.iter().for_each(|mark| empty.reserve(*mark).unwrap());
            assert_eq!(second.words(), empty.words());
        }
    }
}

#[test]
fn an_older_pair_gives_way_and_the_larger_mark_stays() {
    let mut first = Index::with_nodes(4).unwrap();
    let mut second = Index::with_nodes(4).unwrap();
    for k in [1, 2, 3] {
        first.insert(k, 10 * k).unwrap();
    }
    first.reserve(9).unwrap();
    second.insert(3, 31).unwrap();
    second.insert(4, 41).unwrap();
    let mut run = [7; 11];
    first.append_words(&mut second, &mut run).unwrap();
    assert_eq!(run, [1, 10, 2, 20, 3, 31, 4, 41, 7, 7, 7]);
    assert_eq!((all(&first), first.mark().unwrap()), (vec![(1, 10), (2, 20), (3, 31), (4, 41)], Some(9)));
    assert_eq!((all(&second), second.mark().unwrap()), (vec![], Some(4)));
    // and back: the first is empty then
    second.append(&mut first).unwrap();
    assert_eq!((second.len().unwrap(), second.mark().unwrap(), first.len().unwrap()), (4, Some(9), 0));
}

#[test]
fn an_empty_second_still_gives_a_load() {
    let mut first = Index::with_nodes(3).unwrap();
    for k in 1..=12 {
        first.insert(k, 0).unwrap();
    }
    assert_eq!(first.words()[3], 2);
    first.append(&mut Index::with_nodes(1).unwrap()).unwrap();
    assert_eq!(first.words()[3], 1);
}

#[test]
fn refuses_in_its_order_and_changes_no_word() {
    // 12 pairs in all, 6 keys are in both, and the first has one node
    let (mut first, mut second) =
        (Index::loaded(pairs(0, 1, 11, 0), 1).unwrap(), Index::loaded(pairs(5, 1, 7, 0), 1).unwrap());
    let before = (first.clone().into_words(), second.clone().into_words());
    for long in [0, 24, 35, 36, 37] {
        let said = match long {
            36.. => Error::NoRoom,
            given => Error::BadSize(Size::Joined { given, wanted: 36 }),
        };
        let mut run = vec![7; long];
        assert_eq!(first.append_words(&mut second, &mut run), Err(said));
        assert!(run.iter().all(|x| *x == 7));
        assert_eq!((first.words(), second.words()), (&before.0[..], &before.1[..]));
    }
    assert_eq!(first.append(&mut second), Err(Error::NoRoom));
    // 11 pairs with a key in both once fit, though 18 would not
    let mut inside = Index::loaded(pairs(4, 1, 7, 100), 1).unwrap();
    first.append(&mut inside).unwrap();
    assert_eq!((first.len().unwrap(), first.get(10).unwrap(), first.get(3).unwrap()), (11, Some(106), Some(3)));
}
