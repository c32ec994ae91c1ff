//! Cuts of an index in two.
#![cfg(feature = "alloc")]
#![allow(clippy::unwrap_used, clippy::indexing_slicing, clippy::arithmetic_side_effects, reason = "a test may stop")]

mod common;

use common::{base, pairs, why, KEYS};
use cuffgarnet::{nodes_for_load, words_for, Error, Index, Refused, Size};
use std::collections::BTreeMap;

/// So many pairs with even keys, put one by one in an order that is not theirs.
fn made(many: u64, nodes: usize) -> (Index, BTreeMap<u64, u64>) {
    let (mut index, mut map) = (Index::with_nodes(nodes).unwrap(), BTreeMap::new());
    for i in 0..many {
        let key = 2 * (i * 7919 % many.max(1));
        index.insert(key, i).unwrap();
        map.insert(key, i);
    }
    (index, map)
}

#[test]
fn is_the_split_off_of_btreemap() {
    for many in [0, 1, 11, 12, 30, 143, 144, 500, 3001] {
        for key in [0, 1, 2, many / 2, many, many + 1, 2 * many, 2 * many + 9, u64::MAX] {
            let (mut first, mut map) = made(many, 700);
            let mark = first.mark().unwrap();
            let above = map.split_off(&key);
            assert_eq!(first.rank(key).unwrap(), map.len());
            let nodes = nodes_for_load(above.len()).unwrap();
            let second = first.split_off(key, vec![7; words_for(nodes + 2).unwrap()]).unwrap();
            assert_eq!(pairs(&first), map.into_iter().collect::<Vec<_>>(), "{many} at {key}");
            assert_eq!(pairs(&second), above.into_iter().collect::<Vec<_>>(), "{many} at {key}");
            assert_eq!((first.mark().unwrap(), second.mark().unwrap()), (mark, mark));
            // whole, and the second in the words of a load, but for the mark
            first.check().unwrap();
            let mut loaded = Index::loaded(pairs(&second), nodes + 2).unwrap();
            if loaded.mark().unwrap() < mark {
                loaded.reserve(mark.unwrap()).unwrap();
            }
            assert_eq!(second.words(), loaded.words());
        }
    }
}

#[test]
fn nothing_cut_off_still_repairs_the_border() {
    // 1-6, 7, 8-12 become 1-5, 6, 7-12
    let mut first = Index::with_nodes(3).unwrap();
    for k in 1..=12 {
        first.insert(k, 0).unwrap();
    }
    let root = base(2) + KEYS;
    assert_eq!((first.words()[3], first.words()[root]), (2, 7));
    let second = first.split_off(13, vec![0; 49]).unwrap();
    assert_eq!((first.words()[3], first.words()[root], first.len().unwrap(), second.len().unwrap()), (2, 6, 12, 0));
}

#[test]
fn everything_cut_off_leaves_the_leaf_of_the_path() {
    let (mut first, _) = made(200, 60);
    let mark = first.mark().unwrap();
    let second = first.split_off(0, vec![0; words_for(60).unwrap()]).unwrap();
    let mut empty = Index::with_nodes(60).unwrap();
    empty.reserve(mark.unwrap()).unwrap();
    assert_eq!((first.words(), second.len().unwrap()), (empty.words(), 200));
    // and the keys can be put again
    first.insert(5, 5).unwrap();
    assert_eq!(first.mark().unwrap(), mark);
}

#[test]
fn a_cut_undone_by_a_join() {
    for key in [0, 1, 77, 500, 5000] {
        let (mut first, map) = made(1000, 300);
        let mark = first.mark().unwrap();
        let mut second = first.split_off(key, vec![0; words_for(300).unwrap()]).unwrap();
        first.append(&mut second).unwrap();
        assert_eq!((pairs(&first), first.mark().unwrap()), (map.into_iter().collect::<Vec<_>>(), mark));
    }
}

#[test]
fn refuses_in_its_order_and_changes_no_word() {
    let (mut first, _) = made(12, 3);
    let before = first.clone().into_words();
    for long in [0, 48, 50, 49, 88] {
        let said = match long {
            49 | 88 => Error::NoRoom,
            given => Error::BadSize(Size::Words { given }),
        };
        let mut second = vec![7; long];
        assert_eq!(why(first.split_off(0, &mut second[..])), Some(said));
        assert_eq!(first.split_off(0, second).err().map(Refused::into_words), Some(vec![7; long]));
        assert_eq!(first.words(), before);
    }
    // 11 go: one node is enough
    let mut second = [7; 49];
    assert_eq!(first.clone().split_off(2, &mut second[..]).unwrap().len().unwrap(), 11);
}
