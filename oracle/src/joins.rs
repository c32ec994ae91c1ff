//! Joins of two arenas: the pairs against BTreeMap::append and against a plain list, all words of the first against append.rs's bulk_push of the joined
//! run, of the second against a formatted slice, of the third against the run; refusals by request (vi)'s rule.

use std::collections::BTreeMap;

use crate::btree::Map;
use crate::loads::taken;
use crate::ours;
use crate::pair::{Fault, Totals};
use crate::slab::Slab;
use crate::source::Random;
use crate::words;

type Run = Vec<(u64, u64)>;

/// An arena made by orders of all kinds, and its pairs.
pub struct Arena {
    pub words: Vec<u64>,
    pub pairs: BTreeMap<u64, u64>,
}

impl Arena {
    /// So many orders with keys below a number, into so many nodes; most are puts.
    pub fn made(count: usize, orders: u64, below: u64, random: &mut Random) -> Result<Arena, String> {
        let mut words = vec![7; words::long(count)];
        let number = ours::format(&mut words);
        let orders: Vec<[u64; 3]> = (0..orders)
            .map(|_| {
                let code = [1, 1, 1, 1, 1, 1, 1, 3, 3, 4][random.below(10) as usize];
                [code, random.below(below), random.next()]
            })
            .collect();
        let (ran, answers) = ours::batch(&mut words, &orders);
        if (number, ran) != (0, 0) {
            return Err(format!("format of {count} nodes and a batch: {number}, {ran}"));
        }
        let mut pairs = BTreeMap::new();
        for ([code, key, value], (said, _)) in orders.into_iter().zip(answers) {
            match (code, said) {
                (1, 0 | 1) => _ = pairs.insert(key, value),
                (3, 1) => _ = pairs.remove(&key),
                _ => {}
            }
        }
        Ok(Arena { words, pairs })
    }

    pub fn count(&self) -> usize {
        (self.words.len() - words::HEADER) / words::WORDS
    }

    /// Seen and mark.
    pub fn mark(&self) -> (u64, u64) {
        (self.words[words::SEEN], self.words[words::MARK])
    }
}

/// The joined run: by BTreeMap::append, and by a plain list into which each pair of the second goes.
fn joined(first: &Arena, second: &Arena) -> Result<Run, String> {
    let (mut map, mut other) = (first.pairs.clone(), second.pairs.clone());
    map.append(&mut other);
    let run: Run = map.into_iter().collect();
    let mut plain: Run = first.pairs.iter().map(|(k, v)| (*k, *v)).collect();
    for (k, v) in &second.pairs {
        match plain.binary_search_by_key(k, |p| p.0) {
            Ok(i) => plain[i].1 = *v,
            Err(i) => plain.insert(i, (*k, *v)),
        }
    }
    if run != plain || !other.is_empty() {
        return Err(format!("BTreeMap::append and the plain list differ: {run:?} {plain:?}"));
    }
    Ok(run)
}

/// One join with a third slice of so many words.
fn one(totals: &mut Totals, fault: Option<Fault>, first: &Arena, second: &Arena, long: usize, random: &mut Random) -> Result<(), String> {
    let run = joined(first, second)?;
    let third: Vec<u64> = (0..long).map(|_| random.next()).collect();
    let (mut a, mut b, mut o) = (first.words.clone(), second.words.clone(), third.clone());
    let number = ours::join(&mut a, &mut b, &mut o);
    if fault == Some(Fault::Own) && number == 0 {
        for (i, (key, _)) in run.iter().enumerate() {
            o[2 * i + 1] = *first.pairs.get(key).or(second.pairs.get(key)).unwrap_or(&0);
        }
    }
    let wanted = match () {
        () if !words::well_formed(&first.words) || !words::well_formed(&second.words) => 4,
        () if long < 2 * (first.pairs.len() + second.pairs.len()) => 7,
        () if taken(&run) > first.count() => 3,
        () => 0,
    };
    let (first_mark, second_mark) = (first.mark(), second.mark());
    let (want_a, want_b, want_o) = if wanted == 0 {
        totals.joins += 1;
        totals.joined += run.len() as u64;
        let slab = Slab::new(first.count());
        let w = Map::load(&slab, &run).words(first_mark.0.max(second_mark.0), first_mark.1.max(second_mark.1));
        let mut v = words::formatted(second.count());
        (v[words::SEEN], v[words::MARK]) = second_mark;
        let mut t = third;
        t[..2 * run.len()].copy_from_slice(&run.iter().flat_map(|(k, v)| [*k, *v]).collect::<Vec<u64>>());
        (w, v, t)
    } else {
        totals.not_joined += 1;
        (first.words.clone(), second.words.clone(), third)
    };
    totals.words += (a.len() + b.len() + o.len()) as u64;
    for (what, got, want) in [("first", &a, &want_a), ("second", &b, &want_b), ("third", &o, &want_o)] {
        if number != wanted || got != want {
            let (n, m) = (first.pairs.len(), second.pairs.len());
            return Err(format!(
                "join of {n} and {m} pairs, third of {long} words: {number}, not {wanted}, or the {what}\n  {got:?}\n  {want:?}"
            ));
        }
    }
    Ok(())
}

/// The order of the refusals: either arena, then the third slice, then the nodes.
fn refusals(totals: &mut Totals, random: &mut Random) -> Result<(), String> {
    for (count, orders, others) in [(1, 5, 5), (3, 20, 0), (2, 9, 60), (6, 40, 40), (1, 11, 30)] {
        for below in [6, 30, 1000] {
            let first = Arena::made(count, orders, below, random)?;
            let second = Arena::made(12, others, below, random)?;
            let all = 2 * (first.pairs.len() + second.pairs.len());
            for long in [0, all / 2, all.saturating_sub(2), all.saturating_sub(1), all, all + 1, all + 40] {
                one(totals, None, &first, &second, long, random)?;
                for bad in [true, false] {
                    // a header word that cannot be
                    let break_one = |arena: &Arena, broken: bool| {
                        let mut words = arena.words.clone();
                        words[0] += u64::from(broken);
                        Arena { words, pairs: arena.pairs.clone() }
                    };
                    one(totals, None, &break_one(&first, bad), &break_one(&second, !bad), long, random)?;
                }
            }
        }
    }
    Ok(())
}

pub fn all(totals: &mut Totals, fault: Option<Fault>, scale: u64) -> Result<(), String> {
    let mut random = Random::new(25);
    refusals(totals, &mut random)?;
    for turn in 0..(1500 * scale / 100).max(60) {
        // sizes from none to thousands of pairs, keys in few or in none of the other, nodes just enough or not
        let most = 1 << random.below(if turn % 50 == 0 { 13 } else { 8 });
        let (n, m) = (random.below(most + 1), random.below(most + 1));
        let bits = 1 + random.below(40);
        let below = 1 + random.below(1 << bits);
        let first = Arena::made(1 + random.below(most / 4 + 2) as usize, n, below, &mut random)?;
        let second = Arena::made(1 + random.below(most / 4 + 2) as usize, m, below, &mut random)?;
        let all = 2 * (first.pairs.len() + second.pairs.len());
        let long = all + random.below(5) as usize;
        one(totals, fault, &first, &second, long, &mut random)?;
        one(totals, fault, &second, &first, long, &mut random)?;
    }
    Ok(())
}
