//! What the check cannot see, what formatting forgets, and the recipes of docs/OPERATING.md for both.
#![cfg(feature = "alloc")]
#![allow(clippy::unwrap_used, clippy::indexing_slicing, clippy::arithmetic_side_effects, reason = "a test may stop")]

mod common;

use common::{filled, long, why, Rand, HEADER, KEYS, NODE, VALUES};
use cuffgarnet::{nodes_for, nodes_for_rising, Error, Index, Order, Size, Words};

const MARK: usize = 9;
const FIRST_KEY: usize = HEADER + KEYS;
const FIRST_VALUE: usize = HEADER + VALUES;

fn next_counter<W: Words>(index: &Index<W>) -> u64 {
    index.next_counter().unwrap().unwrap()
}

// ---- the check is no checksum

#[test]
fn a_flipped_bit_in_a_value_is_believed() {
    let mut words = filled(1, [10, 20].into_iter()).into_words();
    words[FIRST_VALUE] ^= 1 << 40;
    let index = Index::open(words).unwrap();
    assert_eq!(index.get(10), Ok(Some(11 + (1 << 40)))); // wrong mail
}

#[test]
fn a_key_moved_within_its_gap_is_believed() {
    let mut words = filled(1, [10, 20].into_iter()).into_words();
    words[FIRST_KEY] = 19;
    let index = Index::open(&mut words[..]).unwrap();
    assert_eq!((index.get(10), index.get(19)), (Ok(None), Ok(Some(11))));
    words[FIRST_KEY] = 20; // out of its gap: refused
    assert_eq!(why(Index::open(words)), Some(Error::BadArena));
}

#[test]
fn a_mark_lowered_where_the_keys_allow_it_is_believed() {
    let mut index = filled(1, [3, 9].into_iter());
    index.remove(9).unwrap();
    assert_eq!(next_counter(&index), 10);
    let mut words = index.into_words();
    words[MARK] = 3;
    assert_eq!(next_counter(&Index::open(&mut words[..]).unwrap()), 4); // 4 to 9 would be used again

    // so at every start the counter saved in a second place is put and taken out again
    let mut index = Index::open(words.clone()).unwrap();
    index.insert(9, 0).unwrap();
    index.remove(9).unwrap();
    assert_eq!((next_counter(&index), index.len()), (10, Ok(1)));

    words[MARK] = 2; // below a key that is there: refused
    assert_eq!(why(Index::open(words)), Some(Error::BadArena));
}

/// All single-bit flips of an arena of 64 nodes with 300 pairs: which of them the check cannot see.
#[test]
fn one_flip_in_seven_is_believed() {
    let mut words = filled(64, (1..=300).map(|i| 1000 * i)).into_words();
    let (mut flips, mut values, mut keys, mut marks) = (0, 0, 0, 0);
    for at in 0..words.len() {
        for bit in 0..64 {
            flips += 1;
            words[at] ^= 1 << bit;
            if Index::open(&mut words[..]).is_ok() {
                match at.checked_sub(HEADER).map(|w| w % NODE) {
                    Some(15..=25) => values += 1,
                    Some(4..=14) => keys += 1,
                    _ => {
                        assert_eq!(at, MARK);
                        marks += 1;
                    }
                }
            }
            words[at] ^= 1 << bit;
        }
    }
    assert_eq!((flips, values + keys + marks), (160_384, 22_251));
    assert_eq!((values, keys, marks), (19_200, 2_995, 56));
}

// ---- formatting forgets the mark

/// Messages under counters 1 to 3, an image, and messages under 4 and 5; the mark is kept in a second place.
fn story() -> (Vec<u64>, u64) {
    let mut index = filled(8, 1..=3);
    let image = index.snapshot();
    index.insert(4, 0).unwrap();
    index.insert(5, 0).unwrap();
    let saved = index.mark().unwrap().unwrap();
    (image, saved)
    // and here the arena is lost
}

#[test]
fn a_lost_arena_forgets_the_mark() {
    let (image, saved) = story();
    let mut torn = vec![7; image.len()];
    assert_eq!(why(Index::open(&mut torn[..])), Some(Error::BadArena)); // no call but formatting takes these words
    let mut index = Index::format(torn).unwrap();
    index.restore(&image).unwrap();
    assert_eq!((saved, next_counter(&index)), (5, 4)); // counters 4 and 5 would be used a second time
}

/// Recovery as docs/OPERATING.md has it: format, reserve the saved mark, restore the image.
fn recovered(nodes: usize, saved: Option<u64>, image: Option<&[u64]>) -> Result<Index, Error> {
    let mut index = Index::with_nodes(nodes)?;
    if let Some(mark) = saved {
        index.reserve(mark)?; // raises the mark
    }
    if let Some(image) = image {
        index.restore_older(image)?; // the image's pairs, the larger of both marks
    }
    Ok(index)
}

#[test]
fn recovery() {
    let (image, saved) = story();
    let index = recovered(8, Some(saved), Some(&image)).unwrap();
    assert_eq!(index.iter().collect::<Result<Vec<_>, _>>(), Ok(vec![(1, 2), (2, 3), (3, 4)]));
    assert_eq!(next_counter(&index), 6);

    // the image may know more than the second place, and either may be missing
    assert_eq!(next_counter(&recovered(8, Some(2), Some(&image)).unwrap()), 4);
    assert_eq!(next_counter(&recovered(8, None, Some(&image)).unwrap()), 4);
    let bare = recovered(8, Some(saved), None).unwrap();
    assert_eq!((bare.len(), next_counter(&bare)), (Ok(0), 6));

    // a damaged image, or one of another size, is refused; the mark stands already
    let mut damaged = image.clone();
    damaged[5] += 1;
    assert_eq!(recovered(8, Some(saved), Some(&damaged)).err(), Some(Error::BadImage));
    let size = Size::Image { given: image.len(), wanted: image.len() + NODE };
    assert_eq!(recovered(9, Some(saved), Some(&image)).err(), Some(Error::BadSize(size)));
}

// ---- growing, and the last counter

/// Growing as docs/OPERATING.md has it: a larger arena, the mark reserved, then all pairs.
fn grown(old: &Index, nodes: usize) -> Result<Index, Error> {
    let mut new = recovered(nodes, old.mark()?, None)?;
    let pairs: Vec<(u64, u64)> = old.iter().collect::<Result<_, _>>()?;
    new.extend(pairs)?;
    Ok(new)
}

#[test]
fn growing_keeps_pairs_and_mark() {
    let mut old = filled(64, 1..=300);
    old.remove(300).unwrap();
    let new = grown(&old, 640).unwrap();
    assert!(new.iter().eq(old.iter()));
    assert_eq!((new.mark(), new.len()), (Ok(Some(300)), Ok(299)));
    assert_eq!(grown(&old, 20).err(), Some(Error::NoRoom));
}

#[test]
fn one_wrong_put_spends_every_counter() {
    let mut index = filled(4, 1..=3);
    index.insert(u64::MAX, 0).unwrap();
    index.remove(u64::MAX).unwrap();
    assert_eq!(index.mark(), Ok(Some(u64::MAX)));
    assert_eq!(index.next_counter(), Ok(None));
}

#[test]
fn pairs_a_node_for_rising_counters() {
    for (nodes, pairs) in [(1, 11), (2, 11), (3, 18), (64, 389), (65_535, 393_222)] {
        let mut index = Index::with_nodes(nodes).unwrap();
        let orders: Vec<Order> = (1..=7 * nodes as u64 + 5).map(|key| Order::Insert(key, 0)).collect();
        let fitted = index.apply(&orders).unwrap().iter().take_while(|o| o.is_ok()).count();
        assert_eq!(fitted, pairs, "{nodes} nodes");
        assert!(nodes_for_rising(pairs).unwrap() <= nodes && nodes_for_rising(pairs + 1).unwrap() > nodes);
    }
}

/// As long as there are no more pairs than that, no history is refused. The worst that was met is not far off.
#[test]
fn nodes_for_any_order() {
    for most in [1, 10, 11, 12, 17, 71, 200, 400] {
        let nodes = nodes_for(most).unwrap();
        let mut index = Index::with_nodes(nodes).unwrap();
        let mut rand = Rand(most as u64);
        for turn in 0..3_000_u64 {
            // full, then thinned out, again and again: by falling, rising and scattered keys
            let key = match turn / 250 % 3 {
                0 => turn,
                1 => 1_000_000 - turn,
                _ => rand.below(1_000_000),
            };
            if index.len().unwrap() == most {
                let out = index.nth(long(rand.below(most as u64))).unwrap().unwrap();
                index.remove(out.0).unwrap();
            }
            index.insert(key, 0).unwrap();
        }
    }
    // rising keys leave six pairs in a node; with one of each leaf taken out, five
    let mut index = filled(nodes_for_rising(2000).unwrap(), 0..2000);
    let leaves = (0..).step_by(7).take_while(|key| *key < 1990);
    leaves.for_each(|key| assert!(index.remove(key).unwrap().is_some()));
    let stats = index.stats().unwrap();
    let worst = nodes_for(stats.pairs).unwrap();
    assert!(stats.nodes <= worst && worst - stats.nodes < worst / 20, "{stats:?}, {worst} at worst");
    assert_eq!((nodes_for(0), nodes_for(5_242_895), nodes_for(usize::MAX)), (Some(1), None, None));
    // the table of docs/BROKER.md
    let table = [10_000, 100_000, 1_000_000, 5_242_894].map(|pairs| nodes_for(pairs).unwrap());
    assert_eq!(table, [1_997, 19_997, 199_996, 1_048_575]);
}
