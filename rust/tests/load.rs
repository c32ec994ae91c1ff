//! Loads of pairs that are in order already.
#![cfg(feature = "alloc")]
#![allow(clippy::unwrap_used, clippy::indexing_slicing, clippy::arithmetic_side_effects, reason = "a test may stop")]

mod common;

use common::{base, long, pairs, why, Rand, KEYS};
use cuffgarnet::{nodes_for_load, words_for, Error, Index, Order, Refused, Size};
use std::collections::BTreeMap;

/// So many pairs, the key k with the value k + 1000.
fn run(pairs: u64) -> Vec<(u64, u64)> {
    (1..=pairs).map(|k| (k, k + 1000)).collect()
}

/// A node's keys.
fn keys(index: &Index, node: usize) -> &[u64] {
    let words = &index.words()[base(node)..];
    &words[KEYS..][..long(words[1])]
}

#[test]
fn holds_the_pairs_in_the_fewest_nodes() {
    for pairs in (0..=400).chain([1727, 1728, 1729, 20_000, 20_735, 20_736, 20_737]) {
        let run = run(pairs);
        let need = nodes_for_load(run.len()).unwrap();
        for spare in [0, 2] {
            let index = Index::loaded(&run, need + spare).unwrap();
            index.check().unwrap();
            assert_eq!(common::pairs(&index), run, "{pairs} pairs");
            assert_eq!((index.len().unwrap(), index.free_nodes().unwrap()), (run.len(), spare));
            assert_eq!(index.mark().unwrap(), run.last().map(|p| p.0));
        }
        if need > 1 {
            assert_eq!(Index::loaded(&run, need - 1).err(), Some(Error::NoRoom), "{pairs} pairs");
        }
    }
}

#[test]
fn fills_from_the_left_and_stocks_the_right_border() {
    let eleven = Index::loaded(run(11), 3).unwrap();
    assert_eq!((eleven.words()[3], keys(&eleven, 0).len()), (0, 11));
    // node 0 is the first leaf, the new root 1, the leaf right of it 2, which gets what it lacks to 5
    let twelve = Index::loaded(run(12), 4).unwrap();
    assert_eq!(twelve.words()[3..8], [1, 1, 12, 3, 1]);
    assert_eq!(
        (keys(&twelve, 0), keys(&twelve, 1), keys(&twelve, 2)),
        (&[1, 2, 3, 4, 5, 6][..], &[7][..], &[8, 9, 10, 11, 12][..])
    );
    let more = Index::loaded(run(144), 17).unwrap();
    assert_eq!((more.words()[3], more.words()[6]), (13, 16));
    assert_eq!((keys(&more, 13), keys(&more, 14)), (&[84][..], &[140, 141, 142, 143, 144][..]));
    assert_eq!(keys(&more, 15), [96, 108, 120, 132, 139]);
}

#[test]
fn refuses_in_its_order_and_changes_no_word() {
    let rising = [1, 10, 2, 20];
    let many: Vec<u64> = (0..24).collect();
    let (odd, words) = (Error::BadSize(Size::Run { given: 3 }), |given| Error::BadSize(Size::Words { given }));
    for (long, run, said) in [
        (49, &rising[..3], odd),
        (48, &rising[..], words(48)),
        (0, &rising[..0], words(0)),
        (10 + 38 * 2, &rising[..], words(86)),
        // behind a bad size everything else
        (48, &[5, 1, 4, 1][..], words(48)),
        (48, &[5, 1, 4][..], odd),
        (48, &many[..], words(48)),
        (49, &[5, 1, 4, 1][..], Error::NotRising),
        (49, &[5, 1, 5, 1][..], Error::NotRising),
        (49, &[0, 0, 0, 0][..], Error::NotRising),
        (49, &[u64::MAX, 0, 0, 0][..], Error::NotRising),
        (88, &many[..], Error::NoRoom),
        (49, &many[..], Error::NoRoom),
    ] {
        // noise, and a good arena with a mark of its own where there is one of that length
        let good = Index::format(vec![0; long]).ok().map(|mut index| {
            index.reserve(99).unwrap();
            index.into_words()
        });
        for before in [Some(vec![7; long]), good].into_iter().flatten() {
            let mut words = before.clone();
            assert_eq!(why(Index::load_words(run, &mut words[..])), Some(said), "{long} words, {run:?}");
            assert_eq!(words, before);
            assert_eq!(Index::load_words(run, words).err().map(Refused::into_words), Some(before));
        }
    }
    // not rising comes before the nodes
    let mut falling = many.clone();
    falling[22] = 3;
    assert_eq!(why(Index::load_words(&falling, vec![0; 49])), Some(Error::NotRising));
    assert_eq!(why(Index::loaded(run(1), 0)), Some(Error::BadSize(Size::Nodes { given: 0 })));
}

#[test]
fn begins_anew_whatever_the_words_held() {
    let long = words_for(8).unwrap();
    let fresh = Index::load(run(30), vec![0; long]).unwrap();
    let mut marked = Index::with_nodes(8).unwrap();
    marked.insert(u64::MAX, 1).unwrap();
    for words in [vec![7; long], vec![u64::MAX; long], marked.into_words(), fresh.words().to_vec()] {
        assert_eq!(Index::load(run(30), words).unwrap().words(), fresh.words());
    }
    // with no pair it is a formatted arena: the mark is forgotten
    let empty = Index::load::<(u64, u64)>([], fresh.into_words()).unwrap();
    assert_eq!(empty.words(), Index::with_nodes(8).unwrap().words());
    assert_eq!(empty.mark().unwrap(), None);
    // 0 is a key like any other
    assert_eq!(Index::loaded([(0, 5)], 1).unwrap().mark().unwrap(), Some(0));
    assert_eq!(Index::loaded([(u64::MAX, 5)], 1).unwrap().mark().unwrap(), Some(u64::MAX));
}

#[test]
fn takes_orders_afterwards() {
    let mut map: BTreeMap<u64, u64> = (0..5000).map(|k| (3 * k, k)).collect();
    let mut index = Index::loaded(map.iter().map(|(k, v)| (*k, *v)), 3000).unwrap();
    let mut rand = Rand(1);
    for _ in 0..40 {
        let orders: Vec<Order> = (0..200)
            .map(|i| {
                let key = rand.below(16_000);
                if i % 2 == 0 {
                    Order::Insert(key, i)
                } else {
                    Order::Remove(key)
                }
            })
            .collect();
        let said = index.apply(&orders).unwrap();
        for (order, said) in orders.iter().zip(said) {
            let wanted = match *order {
                Order::Insert(key, value) => map.insert(key, value),
                Order::Remove(key) => map.remove(&key),
                _ => None,
            };
            assert_eq!(said, Ok(wanted));
        }
    }
    assert!(index.iter().map(Result::unwrap).eq(map.into_iter()));
    assert!(index.mark().unwrap() >= Some(3 * 4999));
}

/// docs/OPERATING.md, "Growing": listed, loaded into more nodes, the old mark reserved.
#[test]
fn growing_by_a_load_keeps_pairs_and_mark() {
    let mut old = Index::loaded(run(300), 64).unwrap();
    old.reserve(777).unwrap();
    let mut new = Index::load(pairs(&old), vec![7; words_for(128).unwrap()]).unwrap();
    assert_eq!(new.mark().unwrap(), Some(300));
    new.reserve(old.mark().unwrap().unwrap()).unwrap();
    assert_eq!(new.mark().unwrap(), Some(777));
    assert!(new.iter().eq(old.iter()));
}

#[test]
fn a_million_pairs() {
    let run = run(1_000_000);
    let index = Index::loaded(&run, nodes_for_load(run.len()).unwrap()).unwrap();
    assert_eq!((index.len().unwrap(), index.free_nodes().unwrap(), index.stats().unwrap().height), (1_000_000, 0, 5));
    assert_eq!((index.nth(0).unwrap(), index.nth(999_999).unwrap()), (Some((1, 1001)), Some((1_000_000, 1_001_000))));
}
