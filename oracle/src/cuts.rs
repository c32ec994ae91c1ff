//! Cuts of an arena: the pairs of both parts against BTreeMap::split_off, all words of the lower one against split.rs's split_off, of the upper one
//! against append.rs's bulk_push of the pairs that go; refusals by request (v)'s rule.

use std::collections::BTreeMap;

use crate::btree::Map;
use crate::joins::Arena;
use crate::loads::taken;
use crate::ours;
use crate::pair::{Fault, Totals};
use crate::slab::Slab;
use crate::source::Random;
use crate::words;

/// No tree is higher: so many nodes the Rust takes at most for the pillar of its right part.
const PILLAR: usize = 9;

/// The same tree in an arena with so many more nodes, all of them free.
fn roomier(w: &[u64], more: usize) -> Result<Vec<u64>, String> {
    let count = w[words::NODES] as usize;
    let mut chain = words::chain(w)?;
    chain.extend((count..count + more).map(|n| n as u64));
    let mut big = w.to_vec();
    big.resize(words::long(count + more), 0);
    headed(&mut big, count + more, &chain);
    Ok(big)
}

/// The header with other nodes and another free chain.
fn headed(w: &mut [u64], count: usize, chain: &[u64]) {
    let [root, height, pairs, seen, mark] = [words::ROOT, words::HEIGHT, words::PAIRS, words::SEEN, words::MARK].map(|at| w[at]);
    words::write_header(w, count, root, height, pairs, chain, seen, mark);
}

/// The words that split_off leaves of its left part, whose mark stays, and the pairs that went. The nodes that went are free.
fn split(first: &Arena, key: u64) -> Result<(Vec<u64>, Vec<(u64, u64)>), String> {
    let (seen, mark) = first.mark();
    let slab = Slab::new(first.count() + PILLAR);
    let mut map = Map::from_words(&slab, &roomier(&first.words, PILLAR)?)?;
    let gone = map.split_off(key);
    let mut w = map.words(seen, mark);
    let chain: Vec<u64> = slab.chain().into_iter().filter(|n| *n < first.count() as u64).collect();
    w.truncate(words::long(first.count()));
    headed(&mut w, first.count(), &chain);
    Ok((w, gone))
}

/// One cut into a second slice of so many words.
fn one(totals: &mut Totals, fault: Option<Fault>, first: &Arena, key: u64, long: usize, random: &mut Random) -> Result<(), String> {
    let mut below: BTreeMap<u64, u64> = first.pairs.clone();
    let run: Vec<(u64, u64)> = below.split_off(&key).into_iter().collect();
    let second: Vec<u64> = (0..long).map(|_| random.next()).collect();
    let (mut a, mut b) = (first.words.clone(), second.clone());
    let number = ours::cut(&mut a, &mut b, key);
    if fault == Some(Fault::Last) && number == 0 {
        b[words::MARK] = run.last().map_or(0, |p| p.0);
    }
    let count = (long > words::HEADER && (long - words::HEADER) % words::WORDS == 0).then(|| (long - words::HEADER) / words::WORDS);
    let wanted = match count {
        None => 7,
        Some(_) if !words::well_formed(&first.words) => 4,
        Some(count) if taken(&run) > count => 3,
        Some(_) => 0,
    };
    let (want_a, want_b) = if wanted == 0 {
        totals.cuts += 1;
        totals.cut += run.len() as u64;
        let (lower, gone) = split(first, key)?;
        if gone != run || lower[words::PAIRS] != below.len() as u64 {
            return Err(format!("split_off of the seven files and of BTreeMap differ: {gone:?} {run:?}"));
        }
        let (seen, mark) = first.mark();
        (lower, Map::load(&Slab::new(count.unwrap_or(0)), &run).words(seen, mark))
    } else {
        totals.not_cut += 1;
        (first.words.clone(), second)
    };
    totals.words += (a.len() + b.len()) as u64;
    for (what, got, want) in [("lower", &a, &want_a), ("upper", &b, &want_b)] {
        if number != wanted || got != want {
            let n = first.pairs.len();
            return Err(format!(
                "cut of {n} pairs at {key} into {long} words: {number}, not {wanted}, or the {what}\n  {got:?}\n  {want:?}"
            ));
        }
    }
    Ok(())
}

/// The order of the refusals: the second slice's length, then the arena, then its nodes.
fn refusals(totals: &mut Totals, random: &mut Random) -> Result<(), String> {
    for (count, orders) in [(1, 0), (1, 11), (6, 30), (40, 200)] {
        let first = Arena::made(count, orders, 300, random)?;
        let broken =
            Arena { words: first.words.iter().enumerate().map(|(i, w)| w + u64::from(i == 0)).collect(), pairs: first.pairs.clone() };
        for long in [0, 9, 10, 48, 49, 50, 86, 88, 127, 128, 10 + 39 * 30] {
            for key in [0, 1, 150, 299, 300, u64::MAX] {
                one(totals, None, &first, key, long, random)?;
                one(totals, None, &broken, key, long, random)?;
            }
        }
    }
    // the largest second slice passes, one node more does not
    for count in [words::LARGEST, words::LARGEST + 1] {
        let mut first = words::formatted(1);
        let number = ours::cut(&mut first, &mut vec![7; words::long(count)], 5);
        if number != (if count > words::LARGEST { 7 } else { 0 }) {
            return Err(format!("cut into {count} nodes: {number}"));
        }
    }
    Ok(())
}

pub fn all(totals: &mut Totals, fault: Option<Fault>, scale: u64) -> Result<(), String> {
    let mut random = Random::new(31);
    refusals(totals, &mut random)?;
    for turn in 0..(1500 * scale / 100).max(60) {
        // sizes from none to thousands of pairs, keys close together or not, each cut at keys that are there, beside them, below and above all
        let most = 1 << random.below(if turn % 50 == 0 { 14 } else { 9 });
        let bits = 1 + random.below(40);
        let below = 1 + random.below(1 << bits);
        let orders = random.below(most + 1);
        let first = Arena::made(1 + random.below(most / 4 + 2) as usize, orders, below, &mut random)?;
        let keys: Vec<u64> = first.pairs.keys().copied().collect();
        let mut at = vec![0, u64::MAX, random.below(below), keys.last().map_or(0, |k| k + 1)];
        at.extend((0..4).filter(|_| !keys.is_empty()).map(|_| keys[random.below(keys.len() as u64) as usize]));
        for key in at {
            let need = taken(&first.pairs.range(key..).map(|(k, v)| (*k, *v)).collect());
            let count = (need + random.below(4) as usize).saturating_sub(1).max(1);
            one(totals, fault, &first, key, words::long(count), &mut random)?;
        }
    }
    Ok(())
}
