//! Loads of sorted runs: all words against append.rs's bulk_push, whatever the slice held; refusals by request (iii)'s rule, where the nodes that
//! a load takes are those that bulk_push took.

use crate::btree::Map;
use crate::ours;
use crate::pair::{Fault, Pair, Totals};
use crate::slab::Slab;
use crate::source::{KINDS, Random, Source};
use crate::words;

type Run = Vec<(u64, u64)>;

fn flat(run: &Run) -> Vec<u64> {
    run.iter().flat_map(|(k, v)| [*k, *v]).collect()
}

/// How many nodes bulk_push takes.
pub fn taken(run: &Run) -> usize {
    let slab = Slab::new(run.len() / 5 + 2);
    Map::load(&slab, run);
    slab.traffic().0 as usize
}

/// The words that bulk_push leaves in so many nodes. By request (iii) the mark is the last key, or unseen.
fn wanted(run: &Run, count: usize) -> Vec<u64> {
    let slab = Slab::new(count);
    let last = run.last().map(|p| p.0);
    Map::load(&slab, run).words(u64::from(last.is_some()), last.unwrap_or(0))
}

/// Keys that rise by 1, by up to so much, or are spread over all numbers, 0 and 2^64 - 1 among them.
fn rising(pairs: usize, random: &mut Random) -> Run {
    let most = match random.below(3) {
        0 => 1,
        1 => 1 + random.below(100),
        _ => u64::MAX / (pairs as u64 + 1),
    };
    let mut key = random.below(2);
    let mut run = Run::new();
    for _ in 0..pairs {
        run.push((key, random.next() >> random.below(64)));
        key += 1 + random.below(most);
    }
    if let Some(last) = run.last_mut().filter(|_| most > 100) {
        last.0 = u64::MAX;
    }
    run
}

/// One run into slices with just the nodes that it takes, with some more, and with one less.
fn one(totals: &mut Totals, fault: Option<Fault>, run: &Run, random: &mut Random) -> Result<(), String> {
    let (words, need) = (flat(run), taken(run));
    for count in [need, need + 1 + random.below(4) as usize] {
        let mut ours = vec![random.next(); words::long(count)];
        let number = ours::load(&mut ours, &words);
        if fault == Some(Fault::First) && number == 0 && !run.is_empty() {
            ours[words::MARK] = run[0].0;
        }
        totals.loads += 1;
        totals.loaded += run.len() as u64;
        totals.words += ours.len() as u64;
        if number != 0 || ours != wanted(run, count) {
            return Err(format!("load of {} pairs into {count} nodes: {number}\n  {run:?}\n  {ours:?}", run.len()));
        }
    }
    if need > 1 {
        refused(totals, words::long(need - 1), &words, 3)?;
    }
    Ok(())
}

/// No word of a refused load changes.
fn refused(totals: &mut Totals, long: usize, run: &[u64], wanted: u64) -> Result<(), String> {
    let (mut ours, kept) = (vec![7; long], run.to_vec());
    let number = ours::load(&mut ours, run);
    totals.not_loaded += 1;
    if number != wanted || ours.iter().any(|x| *x != 7) || kept != run {
        return Err(format!("load of {run:?} into {long} words: {number}, not {wanted}"));
    }
    Ok(())
}

/// The order of the refusals: an odd run or a length that no arena has, then keys that do not rise, then too few nodes.
fn refusals(totals: &mut Totals, random: &mut Random) -> Result<(), String> {
    let mut runs: Vec<Vec<u64>> =
        vec![vec![], vec![1], vec![5, 1, 4, 1], vec![5, 1, 5, 1], vec![0; 4], vec![u64::MAX, 0, 0, 0], vec![5, 1, 5]];
    for pairs in [1, 2, 11, 12, 13, 24] {
        let whole = flat(&rising(pairs, random));
        for i in (0..whole.len()).step_by(2).skip(1) {
            // a key made the one before it, or smaller
            for key in [whole[i - 2], whole[i - 2].saturating_sub(1), 0] {
                let mut run = whole.clone();
                run[i] = key;
                runs.push(run);
            }
        }
        runs.push(whole[1..].to_vec());
        runs.push(whole);
    }
    for run in &runs {
        let pairs: Run = run.chunks_exact(2).map(|p| (p[0], p[1])).collect();
        let need = taken(&pairs);
        for long in [0, 9, 10, 48, 49, 50, 86, 87, 88, 89, 126, 127, 128, 166] {
            let count = (long >= 49 && (long - 10) % words::WORDS == 0).then(|| (long - 10) / words::WORDS);
            let said = match count {
                _ if run.len() % 2 == 1 => 7,
                None => 7,
                Some(_) if !pairs.is_sorted_by(|a, b| a.0 < b.0) => 10,
                Some(count) if need > count => 3,
                Some(_) => continue,
            };
            refused(totals, long, run, said)?;
        }
    }
    // the largest arena passes, one node more does not
    for count in [words::LARGEST, words::LARGEST + 1] {
        let mut ours = vec![7; words::long(count)];
        let number = ours::load(&mut ours, &[5, 50]);
        if number != (if count > words::LARGEST { 7 } else { 0 }) || ours[0] != (if number == 0 { 2 } else { 7 }) {
            return Err(format!("load into {count} nodes: {number}"));
        }
    }
    Ok(())
}

/// Orders after a load.
fn orders(totals: &mut Totals, fault: Option<Fault>, run: &Run, seed: u64) -> Result<(), String> {
    let count = taken(run) + 6;
    let mut ours = vec![7; words::long(count)];
    if ours::load(&mut ours, &flat(run)) != 0 {
        return Err(format!("load of {} pairs into {count} nodes", run.len()));
    }
    let (slab, other) = (Slab::new(count), Slab::beside(count));
    let mut pair = Pair::from_words(&slab, &other, &ours, fault)?;
    let kind = KINDS[seed as usize % KINDS.len()];
    let mut source = Source::new(kind, count, seed);
    for i in 0..60 {
        let order = source.order(&pair.rust);
        pair.single(totals, order)
            .and_then(|()| pair.compare(totals))
            .map_err(|why| format!("{kind:?} after a load of {} pairs, order {i} {order:?}: {why}", run.len()))?;
    }
    Ok(())
}

pub fn all(totals: &mut Totals, fault: Option<Fault>, scale: u64) -> Result<(), String> {
    let mut random = Random::new(12);
    refusals(totals, &mut random)?;
    let part = |n: u64| n * scale / 100;
    // each length, past the first split of height 3 at the full scale
    for pairs in 0..=part(4000).max(300) as usize {
        let run = rising(pairs, &mut random);
        one(totals, fault, &run, &mut random)?;
        if pairs % 8 == 0 && pairs <= 800 {
            orders(totals, fault, &run, pairs as u64)?;
        }
    }
    // around the lengths at which a level is full, and any
    let full = [1727, 1728, 1729, 20_735, 20_736, 20_737, 20_748, 248_831, 248_832, 248_833];
    for pairs in full.into_iter().filter(|n| *n <= part(250_000).max(1729)) {
        one(totals, fault, &rising(pairs as usize, &mut random), &mut random)?;
    }
    for _ in 0..part(200) {
        let most = 1 << (5 + random.below(12));
        let pairs = random.below(most);
        one(totals, fault, &rising(pairs as usize, &mut random), &mut random)?;
    }
    if scale >= 100 {
        one(totals, fault, &rising(1_000_000, &mut random), &mut random)?;
    }
    Ok(())
}
