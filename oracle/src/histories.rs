//! The histories that the driver runs.

use crate::pair::{Fault, Pair, Totals};
use crate::slab::Slab;
use crate::source::{KINDS, Kind, Source};

/// A history of single calls, all words compared after each; listings between them.
fn singles(totals: &mut Totals, fault: Option<Fault>, kind: Kind, count: usize, seed: u64, orders: u64) -> Result<(), String> {
    let (slab, other) = (Slab::new(count), Slab::beside(count));
    let mut pair = Pair::new(&slab, &other, fault)?;
    let mut source = Source::new(kind, count, seed);
    totals.histories += 1;
    for i in 0..orders {
        let order = source.order(&pair.rust);
        pair.single(totals, order)
            .and_then(|()| pair.compare(totals))
            .map_err(|why| format!("{kind:?}, {count} nodes, seed {seed}, order {i} {order:?}: {why}"))?;
        if i % 16 == 0 {
            one_range(totals, &mut pair, &mut source)?;
        }
    }
    Ok(())
}

fn one_range(totals: &mut Totals, pair: &mut Pair<'_>, source: &mut Source) -> Result<(), String> {
    let (start, end) = source.range(&pair.rust);
    let long = source.random.below(60) as usize;
    pair.list(totals, start, end, long)?;
    pair.ranks(totals, start, end)?;
    // each step checks the arena: all pairs of a small one, some of a large one
    pair.walk(totals, start, if pair.ours.len() < 1000 { usize::MAX } else { 12 })
}

/// A history of batches, all words compared after each; now and then an image is kept, and restored later: over what the history became, or
/// over an arena that is formatted anew, with or without a batch of its own.
#[allow(clippy::too_many_arguments)]
fn batches(
    totals: &mut Totals,
    fault: Option<Fault>,
    kind: Kind,
    count: usize,
    seed: u64,
    orders: u64,
    batch: usize,
    restores: bool,
) -> Result<(), String> {
    let (slab, other) = (Slab::new(count), Slab::beside(count));
    let mut pair = Pair::new(&slab, &other, fault)?;
    let mut source = Source::new(kind, count, seed);
    let mut image = None;
    let mut done = 0;
    totals.histories += 1;
    while done < orders {
        pair.batch(totals, batch, |rust| source.order(rust))
            .and_then(|()| pair.compare(totals))
            .map_err(|why| format!("{kind:?}, {count} nodes, seed {seed}, batch at {done}: {why}"))?;
        done += batch as u64;
        one_range(totals, &mut pair, &mut source)?;
        if restores && source.random.below(10) == 0 {
            match image.take() {
                None => image = Some(pair.ours.clone()),
                Some(image) => {
                    if source.random.below(4) == 0 {
                        pair = Pair::new(&slab, &other, fault)?;
                        let few = source.random.below(2) as usize * batch;
                        pair.batch(totals, few, |rust| source.order(rust)).and_then(|()| pair.compare(totals))?;
                    }
                    // a word that is no yes, or the yes; where the first is refused, the yes afterwards
                    let older = [0, 0, 2, u64::MAX, 1][source.random.below(5) as usize];
                    let done = pair.restore(totals, &image, older)?;
                    pair.compare(totals)?;
                    if !done {
                        pair.restore(totals, &image, 1)?;
                        pair.compare(totals)?;
                    }
                }
            }
        }
    }
    Ok(())
}

pub fn all(totals: &mut Totals, fault: Option<Fault>, scale: u64) -> Result<(), String> {
    let part = |n: u64| n * scale / 100;
    for (i, kind) in KINDS.into_iter().enumerate() {
        let seed = 100 * (i as u64 + 1);
        for count in [1, 2, 3, 4, 5, 8, 13, 24] {
            singles(totals, fault, kind, count, seed + count as u64, part(25_000))?;
        }
        for (count, batch) in [(16, 20), (64, 60), (150, 120), (400, 300)] {
            batches(totals, fault, kind, count, seed + count as u64, part(350_000), batch, false)?;
        }
        batches(totals, fault, kind, 40, seed, part(200_000), 40, true)?;
        batches(totals, fault, kind, 3000, seed + 60, part(200_000), 4000, false)?;
    }
    for (i, kind) in [Kind::Rising, Kind::Shuffled].into_iter().enumerate() {
        batches(totals, fault, kind, 65_535, 900 + i as u64, part(1_600_000), 100_000, false)?;
    }
    Ok(())
}
