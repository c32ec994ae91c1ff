//! The upgrade of arenas of format 1. Such an arena is laid out here: the same words but the last of each node, and the format
//! number 1.
#![cfg(feature = "alloc")]
#![allow(clippy::unwrap_used, clippy::indexing_slicing, clippy::arithmetic_side_effects, reason = "a test may stop")]

mod common;

use common::{filled, long, why, HEADER, LINK, NODE, NONE};
use cuffgarnet::{words_for, Error, Index, Size};

const FIRST_FREE: usize = 6;

/// The words in format 1.
fn old(new: &[u64]) -> Vec<u64> {
    let mut words = new[..HEADER].to_vec();
    words[0] = 1;
    for node in new[HEADER..].chunks_exact(NODE) {
        words.extend(&node[..NODE - 1]);
    }
    words
}

/// Indexes of heights 0 to 3, some of whose nodes were returned.
fn some() -> Vec<Index> {
    let mut all = vec![Index::with_nodes(1).unwrap(), filled(1, 1..=11), filled(3, 1..=12), filled(64, 1..=300)];
    let mut seen = Index::with_nodes(5).unwrap();
    seen.reserve(9).unwrap();
    all.push(seen);
    let mut holes = filled(400, (0..1500).map(|k| 3 * k));
    for key in (0..1500).filter(|k| k % 7 < 3) {
        holes.remove(3 * key).unwrap();
    }
    holes.reserve(1 << 40).unwrap();
    all.push(holes);
    let mut emptied = filled(30, 1..=100);
    for key in 1..=100 {
        emptied.remove(key).unwrap();
    }
    all.push(emptied);
    all.push(filled(2000, (0..9000).map(|k: u64| k.wrapping_mul(0x9e37_79b9_7f4a_7c15) >> 8)));
    all
}

#[test]
fn keeps_nodes_pairs_and_mark() {
    for index in some() {
        let source = old(index.words());
        let before = source.clone();
        // what the target held does not matter: zeros, noise, or a good arena with a mark of its own
        let mut marked = Index::with_nodes(long(index.words()[1])).unwrap();
        marked.insert(u64::MAX, 1).unwrap();
        for target in [vec![0; index.words().len()], vec![7; index.words().len()], marked.into_words()] {
            let new = Index::upgrade(&source, target).unwrap();
            assert_eq!(new.words(), index.words());
        }
        assert_eq!(source, before);
        let new = Index::upgraded(&source).unwrap();
        assert_eq!(new.words(), index.words());
        assert!(new.iter().eq(index.iter()));
        assert_eq!((new.mark(), new.free_nodes()), (index.mark(), index.free_nodes()));
        for rank in [0, new.len().unwrap() / 2] {
            assert_eq!(new.nth(rank), Ok(index.iter().nth(rank).map(Result::unwrap)));
        }
    }
}

#[test]
fn into_borrowed_words() {
    let source = old(filled(8, 1..=40).words());
    let mut file = vec![0; words_for(8).unwrap()];
    {
        let mut index = Index::upgrade(&source, &mut file[..]).unwrap();
        assert_eq!(index.reserve(40), Err(Error::Spent)); // the mark came along
        index.insert(41, 0).unwrap();
    }
    assert_eq!(Index::open(file).unwrap().count(..), Ok(41));
}

#[test]
fn other_calls_refuse_format_1() {
    for index in some() {
        let mut source = old(index.words());
        assert_eq!(why(Index::open(&mut source[..])), Some(Error::BadArena));
        let mut copy = index.clone();
        let size = Size::Image { given: source.len(), wanted: index.words().len() };
        assert_eq!(copy.restore_older(&source), Err(Error::BadSize(size)));
        assert_eq!(copy.words(), index.words());
    }
    // the one length that both formats have: 39 nodes of 38 words, 38 nodes of 39. The format number decides
    let index = filled(39, 1..=150);
    let source = old(index.words());
    assert_eq!((source.len(), words_for(38)), (1492, Some(1492)));
    assert_eq!(why(Index::open(source.clone())), Some(Error::BadArena));
    let mut other = filled(38, 1..=9);
    assert_eq!(other.restore_older(&source), Err(Error::BadImage));
    assert_eq!(Index::upgraded(&source).unwrap().words(), index.words());
    // nor does an arena of format 2 with the other number, or one of format 1 with it, pass
    let mut number = index.snapshot();
    number[0] = 1;
    assert_eq!(
        (why(Index::open(number.clone())), Index::upgraded(&number).err()),
        (Some(Error::BadArena), Some(Error::BadArena))
    );
    let mut number = source.clone();
    number[0] = 2;
    assert_eq!(
        (why(Index::open(number.clone())), Index::upgraded(&number).err()),
        (Some(Error::BadArena), Some(Error::BadArena))
    );
}

/// Refused, with every word as it was.
fn refused(source: &[u64], long: usize, error: Error) {
    let mut target = vec![7; long];
    assert_eq!(why(Index::upgrade(source, &mut target[..])), Some(error));
    assert!(target.iter().all(|w| *w == 7));
}

#[test]
fn refuses_format_2() {
    for index in some() {
        refused(index.words(), index.words().len(), Error::BadArena);
        assert_eq!(Index::upgraded(index.words()).err(), Some(Error::BadArena));
    }
}

#[test]
fn a_target_of_another_size() {
    let index = filled(8, 1..=40);
    let source = old(index.words());
    let long = index.words().len();
    for wrong in [0, 1, 9, 10, 49, source.len(), long - 39, long - 1, long + 1, long + 39] {
        refused(&source, wrong, Error::BadSize(Size::Target { given: wrong, wanted: long }));
        // a bad source comes first
        refused(index.words(), wrong, Error::BadArena);
        refused(&source[1..], wrong, Error::BadArena);
        refused(&[], wrong, Error::BadArena);
    }
}

#[test]
fn a_chain_that_falls_is_refused() {
    let index = Index::with_nodes(4).unwrap();
    let good = old(index.words());
    assert!(Index::upgraded(&good).is_ok());
    let link = |node: usize| HEADER + (NODE - 1) * node + LINK;
    for chain in [[1, 3, 2], [2, 1, 3], [2, 3, 1], [3, 1, 2], [3, 2, 1]] {
        let mut source = good.clone();
        source[FIRST_FREE] = chain[0];
        source[link(long(chain[0]))] = chain[1];
        source[link(long(chain[1]))] = chain[2];
        source[link(long(chain[2]))] = NONE;
        refused(&source, words_for(4).unwrap(), Error::BadArena);
    }
}

/// A word changed in both formats is refused in both, or in neither, and then the upgrade is the other arena.
#[test]
fn damage_is_refused_as_in_format_2() {
    let good = filled(12, (1..=40).map(|k| 10 * k)).snapshot();
    let (mut refused, mut taken) = (0, 0);
    for at in 1..good.len() {
        if at >= HEADER && (at - HEADER) % NODE == NODE - 1 {
            continue; // the count, which format 1 has not
        }
        for word in [0, 1, 2, 5, 12, good[at] ^ 1, good[at].wrapping_add(1), good[at].wrapping_sub(1), NONE, u64::MAX] {
            let mut new = good.clone();
            new[at] = word;
            match (Index::open(new.clone()), Index::upgraded(&old(&new))) {
                (Ok(_), Ok(upgraded)) => {
                    assert_eq!(upgraded.words(), new);
                    taken += 1;
                }
                (a, b) => {
                    let bad = Some(Error::BadArena);
                    assert_eq!((why(a), why(b)), (bad, bad), "word {at} made {word}");
                    refused += 1;
                }
            }
        }
    }
    assert!(refused > 3000 && taken > 500, "{refused} refused, {taken} taken");
}
