//! What a user of std's collections expects, beside `BTreeMap`: both ends, many pairs at a time, words of any kind, and errors that say
//! what to do.
#![cfg(feature = "alloc")]
#![allow(clippy::unwrap_used, clippy::indexing_slicing, clippy::arithmetic_side_effects, reason = "a test may stop")]

mod common;

use common::{filled, pairs, ranges, value, why, Rand, NODE};
use cuffgarnet::{words_for, Error, Index, Order, Size, Words, WordsMut};
use std::collections::BTreeMap;
use std::ops::Bound;

// ---- both ends

/// An iterator taken from both ends, in this pattern, is the map's.
fn same_from_both_ends(index: &Index, map: &BTreeMap<u64, u64>, range: std::ops::Range<u64>, mut rand: Rand) {
    let mut ours = index.range(range.clone());
    let mut theirs = map.range(range);
    loop {
        // long runs from one end, so that pages are turned there
        let (back, run) = (rand.below(2) == 0, rand.below(1500));
        for _ in 0..run {
            let (low, high) = ours.size_hint();
            let left = theirs.clone().count();
            assert!(low <= left && high.is_none_or(|high| high == left));
            let theirs = if back { theirs.next_back() } else { theirs.next() };
            let ours = if back { ours.next_back() } else { ours.next() };
            assert_eq!(ours.map(Result::unwrap), theirs.map(|(k, v)| (*k, *v)));
            if theirs.is_none() {
                return;
            }
        }
    }
}

#[test]
fn from_both_ends() {
    let index = filled(1200, (0..5000).map(|k| 3 * k));
    let map: BTreeMap<u64, u64> = pairs(&index).into_iter().collect();
    for (seed, range) in (1..).zip([0..15_000, 0..1, 1..3, 100..3172, 100..3173, 7..9000, 14_990..20_000, 0..3072]) {
        same_from_both_ends(&index, &map, range, Rand(seed));
    }
    assert!(index.iter().rev().eq(pairs(&index).into_iter().rev().map(Ok)));
    assert!((&index).into_iter().eq(index.iter()));
}

#[test]
fn an_error_is_the_last_item() {
    let mut words = filled(60, 0..300).into_words();
    let index = Index::open(&words[..]).unwrap();
    let backwards = (Bound::Included(20), Bound::Included(10));
    let mut range = index.range(backwards);
    assert_eq!((range.next(), range.next(), range.next_back()), (Some(Err(Error::BadRange)), None, None));
    let mut range = index.range(backwards);
    assert_eq!((range.next_back(), range.next(), range.size_hint()), (Some(Err(Error::BadRange)), None, (0, Some(0))));
    words[5] += 1;
    // an index on damaged words cannot be opened; a listing of it from either end would be one error
    assert_eq!(why(Index::open(&words[..])), Some(Error::BadArena));
}

#[test]
fn first_and_last() {
    let mut index = Index::with_nodes(100).unwrap();
    let mut map = BTreeMap::new();
    let mut rand = Rand(3);
    for _ in 0..3000 {
        let key = rand.below(400);
        match rand.below(8) {
            0 => assert_eq!(index.pop_first(), Ok(map.pop_first())),
            1 => assert_eq!(index.pop_last(), Ok(map.pop_last())),
            2 => assert_eq!(index.remove(key), Ok(map.remove(&key))),
            _ => assert_eq!(index.insert(key, value(key)), Ok(map.insert(key, value(key)))),
        }
        let pair = |pair: Option<(&u64, &u64)>| Ok(pair.map(|(k, v)| (*k, *v)));
        assert_eq!(index.first_key_value(), pair(map.first_key_value()));
        assert_eq!(index.last_key_value(), pair(map.last_key_value()));
    }
    while let Some(pair) = map.pop_last() {
        assert_eq!(index.pop_last(), Ok(Some(pair)));
    }
    assert_eq!((index.pop_first(), index.pop_last()), (Ok(None), Ok(None)));
    assert!(index.mark().unwrap().is_some());
}

// ---- many pairs at a time

/// As single insertions: the same words, the same pair refused, and the iterator stands behind it.
fn extended_as_inserted(nodes: usize, keys: &[u64]) {
    let mut one = Index::with_nodes(nodes).unwrap();
    let refused = keys.iter().position(|key| one.insert(*key, value(*key)).is_err());
    let mut all = Index::with_nodes(nodes).unwrap();
    let mut from = keys.iter().map(|key| (*key, value(*key)));
    let wanted = if refused.is_some() { Err(Error::NoRoom) } else { Ok(()) };
    assert_eq!(all.extend(from.by_ref()), wanted);
    assert_eq!(from.len(), refused.map_or(0, |at| keys.len() - at - 1));
    assert_eq!(all.words(), one.words());
}

#[test]
fn extend_is_insert_after_insert() {
    let mut rand = Rand(9);
    for nodes in [1, 2, 3, 20, 64, 300] {
        let rising: Vec<u64> = (0..8 * nodes as u64 + 20).collect();
        let falling: Vec<u64> = rising.iter().rev().copied().collect();
        let scattered: Vec<u64> = rising.iter().map(|_| rand.below(1_000_000)).collect();
        let few: Vec<u64> = rising.iter().map(|_| rand.below(10)).collect();
        for keys in [&rising, &falling, &scattered, &few] {
            extended_as_inserted(nodes, keys);
        }
    }
    assert_eq!(Index::with_nodes(1).unwrap().extend([]), Ok(()));
}

#[test]
fn removal_of_a_range() {
    let full = filled(1200, (0..5000).map(|k| 2 * k));
    let map: BTreeMap<u64, u64> = pairs(&full).into_iter().collect();
    for range in ranges(&[0, 1, 2000, 5001, u64::MAX], &[0, 3, 2047, 2048, 9000, 9998, u64::MAX]) {
        let mut index = full.clone();
        if common::panics(range.0, range.1) {
            assert_eq!(index.remove_range(range), Err(Error::BadRange));
            assert_eq!(index.words(), full.words());
            continue;
        }
        assert_eq!(index.remove_range(range), Ok(map.range(range).count()));
        let mut left = map.clone();
        map.range(range).for_each(|(key, _)| _ = left.remove(key));
        assert!(pairs(&index).into_iter().eq(left));
        assert_eq!(index.mark(), full.mark());
    }
}

// ---- what it says of itself

#[test]
fn stats_are_the_calls() {
    let mut index = Index::with_nodes(200).unwrap();
    for round in 0..6 {
        let stats = index.stats().unwrap();
        assert_eq!((Ok(stats.pairs), Ok(stats.nodes)), (index.len(), index.nodes()));
        assert_eq!((Ok(stats.free), Ok(stats.mark)), (index.free_nodes(), index.mark()));
        assert_eq!((stats.nodes, stats.height), (200, [0, 1, 2, 2, 2, 0][round]));
        assert_eq!(Ok(stats.next_counter()), index.next_counter());
        assert_eq!(index.is_empty(), Ok(stats.pairs == 0));
        let first = stats.next_counter().unwrap();
        match round {
            4 => _ = index.remove_range(..),
            _ => index.extend((first..first + 50).map(|key| (key, 0))).unwrap(),
        }
    }
    index.reserve(u64::MAX).unwrap();
    assert_eq!((index.next_counter(), index.reserve(u64::MAX)), (Ok(None), Err(Error::Spent)));
}

#[test]
fn shown_in_short() {
    let index = filled(60, 0..300);
    assert_eq!(
        format!("{index:?}"),
        format!("Index {{ pairs: 300, nodes: 60, free: {}, height: 2, mark: Some(299) }}", index.free_nodes().unwrap())
    );
    assert!(format!("{:?}", index.range(7..)).len() < 60);
    let refused = Index::open(vec![7; 1000]).unwrap_err();
    assert_eq!(format!("{refused:?}"), "Refused { error: BadArena, .. }");
}

// ---- words of any kind

struct Mapped(Box<[u64]>);

impl AsRef<[u64]> for Mapped {
    fn as_ref(&self) -> &[u64] {
        &self.0
    }
}

impl AsMut<[u64]> for Mapped {
    fn as_mut(&mut self) -> &mut [u64] {
        &mut self.0
    }
}

fn used<W: WordsMut>(words: W) -> W {
    let mut index = Index::format(words).map_err(Error::from).unwrap();
    index.insert(7, 70).unwrap();
    index.into_words()
}

fn read<W: Words>(words: W) -> Option<u64> {
    Index::open(words).map_err(Error::from).unwrap().get(7).unwrap()
}

#[test]
fn any_words() {
    let long = words_for(2).unwrap();
    assert_eq!(read(used([0; 88])), Some(70));
    assert_eq!(read(used(vec![0; long])), Some(70));
    assert_eq!(read(used(vec![0; long].into_boxed_slice())), Some(70));
    assert_eq!(read(used(Mapped(vec![0; long].into_boxed_slice()))), Some(70));
    assert_eq!(read(used(&mut [0; 88])), Some(70));
    assert_eq!(read(used(&mut vec![0; long])), Some(70));
    assert_eq!(read(used(&mut Mapped(vec![0; long].into_boxed_slice())).0.as_ref()), Some(70));
    // only to be read: shared, static, counted
    let words = used([0; 88]);
    let lent: &[u64; 88] = &words;
    assert_eq!(read(lent), Some(70));
    assert_eq!(read(&words[..]), Some(70));
    assert_eq!(read(std::sync::Arc::<[u64]>::from(words)), Some(70));
}

#[test]
fn refused_words_come_back() {
    let refused = Index::open(Mapped(vec![9; 49].into())).map(drop).unwrap_err();
    assert_eq!(refused.error(), Error::BadArena);
    assert_eq!(refused.into_words().0[..], [9; 49]);
    let refused = Index::format(vec![9; 50]).map(drop).unwrap_err();
    assert_eq!((refused.error().number(), refused.into_words()), (7, vec![9; 50]));
    let old = Index::with_nodes(1).unwrap();
    let refused = Index::upgrade(old.words(), vec![9; 3]).map(drop).unwrap_err();
    assert_eq!((refused.error(), refused.into_words()), (Error::BadArena, vec![9; 3]));
}

// ---- errors that say what to do

#[test]
fn sizes_that_would_do() {
    for given in (0..500).chain([40_894_434, 40_894_436, usize::MAX]) {
        let Some(Error::BadSize(size)) = (match given {
            0..500 => why(Index::format(vec![0; given])),
            _ => Some(Error::BadSize(Size::Words { given })),
        }) else {
            assert!((1..).map_while(words_for).any(|words| words == given));
            continue;
        };
        let fits = |words: usize| words >= 49 && (words - 10) % NODE == 0 && words <= 40_894_435;
        let below = (0..given.min(40_894_436)).rev().take(100).find(|words| fits(*words));
        let above = (given..given.saturating_add(100)).find(|words| fits(*words));
        assert_eq!((size.given(), size.below(), size.above()), (given, below, above));
        let said = size.to_string();
        assert!([Some(given), below, above].iter().flatten().all(|n| said.contains(&n.to_string())), "{said}");
    }
    let mut index = filled(2, 0..5);
    let said = |refused: Result<(), Error>| refused.unwrap_err().to_string();
    assert_eq!(
        said(Index::format([0; 48]).map(drop).map_err(Error::from)),
        "48 words make no index: 49 would (1 node)"
    );
    assert_eq!(said(Index::with_nodes(0).map(drop)), "an index has 1 to 1,048,575 nodes, and not 0");
    assert_eq!(said(index.apply_words(&[1; 4], &mut [])), "4 words are no whole orders of 3 words: 3 would, or 6");
    assert_eq!(
        said(index.apply_words(&[1; 6], &mut [0; 3])),
        "3 words for the answers, and these orders need 4: 2 each"
    );
    assert_eq!(
        said(index.restore(&[0; 49])),
        "an image of 49 words, and the index has 88: restore it to an index with as many nodes"
    );
    let refused = Order::Reserve(3);
    assert_eq!(
        index.apply_one(refused).unwrap_err().to_string(),
        "the counter is spent: take one above the mark, as next_counter says"
    );
}
