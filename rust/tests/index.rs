//! The index beside `BTreeMap`, its refusals, and words of every kind that it must only refuse.
#![cfg(feature = "alloc")]
#![allow(clippy::unwrap_used, clippy::indexing_slicing, clippy::arithmetic_side_effects, reason = "a test may stop")]

mod common;

use common::{filled, long, pairs, panics, ranges, value, why, Rand};
use cuffgarnet::{words_for, Error, Index, Order, Size};
use std::collections::BTreeMap;

#[test]
fn as_a_btree_map() {
    let mut rand = Rand(1);
    let mut index = Index::with_nodes(400).unwrap();
    let mut map = BTreeMap::new();
    let mut mark = None;
    for turn in 0..20_000 {
        let (key, value) = (rand.below(1500), rand.next());
        match rand.below(5) {
            0 | 1 => {
                assert_eq!(index.insert(key, value), Ok(map.insert(key, value)));
                mark = mark.max(Some(key));
            }
            2 | 3 => assert_eq!(index.remove(key), Ok(map.remove(&key))),
            _ => assert_eq!(index.get(key), Ok(map.get(&key).copied())),
        }
        if turn % 500 == 0 {
            assert_eq!(index.len(), Ok(map.len()));
            assert_eq!(index.mark(), Ok(mark));
            assert!(pairs(&index).into_iter().eq(map.iter().map(|(k, v)| (*k, *v))));
        }
    }
}

#[test]
fn batches_answer_as_single_calls() {
    let mut rand = Rand(2);
    let mut one = Index::with_nodes(12).unwrap();
    let mut all = Index::with_nodes(12).unwrap();
    for _ in 0..200 {
        let orders: Vec<Order> = (0..rand.below(40))
            .map(|_| match (rand.below(12), rand.below(120)) {
                (0..=3, key) => Order::Get(key),
                (4..=7, key) => Order::Remove(key),
                (8, key) => Order::Reserve(key),
                (_, key) => Order::Insert(key, key + 1),
            })
            .collect();
        let single: Vec<_> = orders
            .iter()
            .map(|order| match *order {
                Order::Insert(key, value) => one.insert(key, value),
                Order::Get(key) => one.get(key),
                Order::Remove(key) => one.remove(key),
                Order::Reserve(key) => one.reserve(key).map(|()| None),
            })
            .collect();
        assert_eq!(all.apply(&orders), Ok(single));
        assert_eq!(all.words(), one.words());
    }
    assert!(one.words()[7] < 12);
}

#[test]
fn every_kind_of_range() {
    let index = filled(60, (0..200).map(|k| 2 * k));
    let map: BTreeMap<u64, u64> = pairs(&index).into_iter().collect();
    for range in ranges(&[0, 1, 21, 22, 200, 398, 399, u64::MAX], &[0, 22, 23, 100, 398, u64::MAX]) {
        let listed: Result<Vec<_>, _> = index.range(range).collect();
        let mut falling: Result<Vec<_>, _> = index.range(range).rev().collect();
        if let Ok(pairs) = &mut falling {
            pairs.reverse();
        }
        assert_eq!(listed, falling);
        if panics(range.0, range.1) {
            assert_eq!(listed, Err(Error::BadRange));
        } else {
            assert!(listed.unwrap().into_iter().eq(map.range(range).map(|(k, v)| (*k, *v))));
        }
    }
}

#[test]
fn pages_join() {
    for pairs in [0, 1, 1023, 1024, 1025, 2048, 5000] {
        let index = filled(1200, 0..pairs);
        let keys: Vec<u64> = index.iter().map(|p| p.unwrap().0).collect();
        assert!(keys.into_iter().eq(0..pairs));
    }
    let index = filled(2, u64::MAX - 3..u64::MAX);
    assert_eq!(index.range(u64::MAX - 1..).next(), Some(Ok((u64::MAX - 1, u64::MAX))));
}

#[test]
fn into_a_buffer() {
    let index = filled(4, 1..=5);
    for long in 0..14 {
        let mut out = vec![99; long];
        let listed = index.range_into(.., &mut out).unwrap();
        assert_eq!((listed.written, listed.more), ((long / 2).min(5), long / 2 < 5));
        assert!(out.iter().skip(2 * listed.written).all(|w| *w == 99));
    }
}

#[test]
fn sizes() {
    for long in [0, 1, 9, 10, 48, 50, 86, 87, 89] {
        let mut words = vec![3; long];
        assert_eq!(why(Index::format(&mut words[..])), Some(Error::BadSize(Size::Words { given: long })));
        assert!(words.iter().all(|w| *w == 3));
        assert_eq!(why(Index::open(&mut words[..])), Some(Error::BadArena));
    }
    assert_eq!(words_for(1_048_575), Some(40_894_435));
    for given in [0, 1_048_576, usize::MAX] {
        assert_eq!(why(Index::with_nodes(given)), Some(Error::BadSize(Size::Nodes { given })));
    }
    let large = Index::with_nodes(65_536).unwrap();
    assert_eq!(large.free_nodes(), Ok(65_535));
}

#[test]
fn no_room_changes_nothing() {
    let mut index = filled(2, 1..=11);
    let before = index.snapshot();
    assert_eq!(index.insert(12, 0), Err(Error::NoRoom));
    assert_eq!(index.apply(&[Order::Insert(12, 0), Order::Get(11)]), Ok(vec![Err(Error::NoRoom), Ok(Some(value(11)))]));
    assert_eq!(index.words(), before);
}

#[test]
fn restores() {
    let mut index = filled(8, [9].into_iter());
    let image = index.snapshot();
    index.insert(12, 1).unwrap();
    index.remove(9).unwrap();
    let later = index.snapshot();
    assert_eq!(index.restore(&image), Err(Error::Older));
    assert_eq!(index.words(), later);
    index.restore_older(&image).unwrap();
    assert_eq!(index.iter().collect::<Result<Vec<_>, _>>(), Ok(vec![(9, value(9))]));
    assert_eq!(index.mark(), Ok(Some(12)));

    let before = index.snapshot();
    for image in [&image[1..], &[]] {
        let size = Size::Image { given: image.len(), wanted: before.len() };
        assert_eq!(index.restore(image), Err(Error::BadSize(size)));
    }
    let mut damaged = image.clone();
    damaged[5] += 1;
    assert_eq!(index.restore(&damaged), Err(Error::BadImage));
    assert_eq!(index.words(), before);

    let unseen = Index::with_nodes(8).unwrap();
    assert_eq!(index.restore(unseen.words()), Err(Error::Older));
    index.restore_older(unseen.words()).unwrap();
    assert_eq!((index.is_empty(), index.mark()), (Ok(true), Ok(Some(12))));
    assert_eq!(unseen.mark(), Ok(None));
}

#[test]
fn borrowed_words() {
    let mut file = vec![0; words_for(5).unwrap()];
    {
        let mut index = Index::format(&mut file[..]).unwrap();
        index.insert(1, 2).unwrap();
    }
    let mut index = Index::open(&mut file[..]).unwrap();
    assert_eq!(index.remove(1), Ok(Some(2)));
    assert_eq!(index.into_words()[5], 0);
    let boxed = Index::open(file.into_boxed_slice()).unwrap();
    assert_eq!(boxed.mark(), Ok(Some(1)));
}

/// Words that are no arena are neither opened nor restored, and stay as they are.
fn all_refused(words: &mut [u64]) {
    let before = words.to_vec();
    assert_eq!(why(Index::open(&mut *words)), Some(Error::BadArena));
    let mut index = Index::with_nodes(3).unwrap();
    let size = Size::Image { given: words.len(), wanted: 127 };
    assert_eq!(index.restore(words), Err(if words.len() == 127 { Error::BadImage } else { Error::BadSize(size) }));
    assert_eq!(words, before);
}

#[test]
fn damage_is_refused_or_harmless() {
    let good = filled(60, 0..300).snapshot();
    let mut rand = Rand(4);
    let mut refused = 0;
    for at in (0..good.len()).step_by(7) {
        for word in [0, 1, good[at] ^ 1, good[at].wrapping_add(1), 4_294_967_295, rand.next()] {
            if word == good[at] {
                continue;
            }
            let mut words = good.clone();
            words[at] = word;
            match Index::open(&mut words[..]) {
                Ok(index) => assert!(index.iter().all(|pair| pair.is_ok())),
                Err(e) => {
                    assert_eq!(e.error(), Error::BadArena);
                    refused += 1;
                }
            }
        }
    }
    assert!(refused > 1000);
}

#[test]
fn random_words_are_refused() {
    let mut rand = Rand(5);
    for turn in 0..2000 {
        let long = if turn % 2 == 0 { 127 } else { long(rand.below(300)) };
        let mut words: Vec<u64> =
            (0..long).map(|_| if rand.below(2) == 0 { rand.below(12) } else { rand.next() }).collect();
        if turn % 4 == 0 {
            words[0] = 2;
            words[1] = 3;
            words[2] = 10;
        }
        all_refused(&mut words);
    }
}

#[test]
fn errors_have_their_numbers() {
    let size = Error::BadSize(Size::Words { given: 11 });
    let all = [Error::NoRoom, Error::BadArena, Error::BadRange, Error::BadOrder, size, Error::BadImage];
    assert!(all.iter().map(|e| e.number()).eq(3..=8));
    assert!(all.iter().all(|e| !e.to_string().is_empty()));
    let mut index = Index::with_nodes(1).unwrap();
    let mut answers = [7; 4];
    assert_eq!(index.apply_words(&[0, 0, 0, u64::MAX, 0, 0], &mut answers), Ok(()));
    assert_eq!(answers, [6, 0, 6, 0]);
    let size = Size::Answers { given: 4, wanted: 0 };
    assert_eq!(index.apply_words(&[], &mut answers), Err(Error::BadSize(size)));
    assert_eq!(index.apply_words(&[], &mut []), Ok(()));
    assert_eq!(index.apply(&[]), Ok(vec![]));
}
