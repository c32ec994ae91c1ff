//! Border repairs, forks and steps along pairs: inner parts of our index, which its library does not export. faults.py makes a library that
//! does, with no proof.

use crate::btree::{Fork, Map};
use crate::pair::Totals;
use crate::rust::end;
use crate::shapes::{Plan, sizes};
use crate::slab::Slab;
use crate::source::Random;
use crate::words;

unsafe extern "C" {
    fn inner_fix_right(arena: *mut u64, n: u64) -> u64;
    fn inner_fix_left(arena: *mut u64, n: u64) -> u64;
    fn inner_fork(arena: *const u64, n: u64, start_kind: u64, start: u64, end_kind: u64, end: u64, out: *mut u64, out_n: u64) -> u64;
    fn inner_step(arena: *const u64, n: u64, node: u64, at: u64, back: u64, out: *mut u64, out_n: u64) -> u64;
}

pub fn all(totals: &mut Totals, scale: u64) -> Result<(), String> {
    let mut random = Random::new(8);
    for right in [true, false] {
        borders(totals, right, scale, &mut random)?;
    }
    forks(totals, scale, &mut random)?;
    steps(totals, &mut random)
}

/// One repair on both sides: all words after it.
fn border(totals: &mut Totals, right: bool, plan: &Plan, spare: usize, random: &mut Random) -> Result<(), String> {
    let w = plan.words(spare, random);
    let slab = Slab::new(w[1] as usize);
    let mut map = Map::from_words(&slab, &w)?;
    let mut ours = w.clone();
    // SAFETY: the words are a tree whose only short nodes lie on the border
    unsafe {
        if right {
            inner_fix_right(ours.as_mut_ptr(), ours.len() as u64);
            map.fix_right_border();
        } else {
            inner_fix_left(ours.as_mut_ptr(), ours.len() as u64);
            map.fix_left_border();
        }
    }
    totals.borders += 1;
    let rust = map.words(w[words::SEEN], w[words::MARK]);
    if ours != rust {
        return Err(format!("border repair, right {right}, of {w:?}: ours {ours:?}, the Rust {rust:?}"));
    }
    if !words::well_formed(&ours) {
        return Err(format!("border repair, right {right}, of {w:?} left {ours:?}, which is no arena"));
    }
    Ok(())
}

fn side<T>(right: bool, mut row: Vec<T>) -> Vec<T> {
    if !right {
        row.reverse();
    }
    row
}

/// A tree of a height whose border nodes hold any number of pairs; the others 5 to 11.
fn ragged(right: bool, height: u64, on_border: bool, random: &mut Random) -> Plan {
    let size = if on_border { random.below(12) } else { 5 + random.below(7) } as usize;
    // now and then a border of empty nodes, and of short ones
    let size = if on_border { size.min([0, 4, 11, 11][random.below(4) as usize]) } else { size };
    if height == 0 {
        return Plan::Leaf(size);
    }
    let row = (0..=size).map(|i| ragged(right, height - 1, on_border && i == size, random)).collect();
    Plan::Inner(side(right, row))
}

fn borders(totals: &mut Totals, right: bool, scale: u64, random: &mut Random) -> Result<(), String> {
    // one, two and three leaves, the border leaf of any size
    for children in [0, 1, 2] {
        for row in sizes(children) {
            for last in 0..=11 {
                let row = side(right, [&row[..], &[last]].concat());
                border(totals, right, &Plan::Inner(row.into_iter().map(Plan::Leaf).collect()), 2, random)?;
            }
        }
    }
    // two and three inner nodes, the border one of any size, and so its border leaf
    for children in [1, 2] {
        for row in sizes(children) {
            for last in 0..=11 {
                for leaf in 0..=11 {
                    if random.below(100) >= scale {
                        continue;
                    }
                    let fill = random.below(3);
                    let some = |random: &mut Random| Plan::Leaf([5, 11, 5 + random.below(7) as usize][fill as usize]);
                    let mut inner: Vec<Plan> = Vec::new();
                    for n in &row {
                        inner.push(Plan::Inner((0..=*n).map(|_| some(random)).collect()));
                    }
                    let mut leaves: Vec<Plan> = (0..last).map(|_| some(random)).collect();
                    leaves.push(Plan::Leaf(leaf));
                    inner.push(Plan::Inner(side(right, leaves)));
                    border(totals, right, &Plan::Inner(side(right, inner)), 2, random)?;
                }
            }
        }
    }
    // any border at all
    for i in 0..200 * scale {
        let height = [0, 1, 2, 3][(i % 4) as usize];
        border(totals, right, &ragged(right, height, true, random), random.below(4) as usize, random)?;
    }
    Ok(())
}

fn small_trees() -> [Plan; 7] {
    let leaves = |row: &[usize]| Plan::Inner(row.iter().map(|n| Plan::Leaf(*n)).collect());
    [
        Plan::Leaf(0),
        Plan::Leaf(1),
        Plan::Leaf(11),
        leaves(&[5, 5]),
        leaves(&[11, 7]),
        leaves(&[5, 11, 6]),
        Plan::Inner(vec![leaves(&[5, 6, 5, 7, 5, 5]), leaves(&[5, 5, 8, 5, 5, 11])]),
    ]
}

/// The pairs on both sides of every leaf edge.
fn steps(totals: &mut Totals, random: &mut Random) -> Result<(), String> {
    let tall = (0..2).map(|_| ragged(true, 3, false, random));
    for plan in small_trees().into_iter().chain(tall.collect::<Vec<_>>()) {
        let w = plan.words(1, random);
        let slab = Slab::new(w[1] as usize);
        for ((node, at), next, before) in Map::from_words(&slab, &w)?.neighbours() {
            for (back, rust) in [(0, next), (1, before)] {
                let mut out = [9; 2];
                // SAFETY: the words are a well-formed arena, and this is a leaf edge of it
                let many = unsafe { inner_step(w.as_ptr(), w.len() as u64, node, at, back, out.as_mut_ptr(), 2) };
                let ours = (many == 2).then_some((out[0], out[1]));
                totals.steps += 1;
                if ours != rust {
                    return Err(format!(
                        "the pair beside edge {at} of leaf {node}, back {back}, of {w:?}: ours {ours:?}, the Rust {rust:?}"
                    ));
                }
            }
        }
    }
    Ok(())
}

/// Every good range over small trees.
fn forks(totals: &mut Totals, scale: u64, random: &mut Random) -> Result<(), String> {
    for plan in small_trees() {
        let w = plan.words(1, random);
        let slab = Slab::new(w[1] as usize);
        let map = Map::from_words(&slab, &w)?;
        let mut bounds = vec![(0, 0)];
        for key in (1..=2 * w[words::PAIRS] + 1).chain([0, u64::MAX]) {
            bounds.extend([(1, key), (2, key)]);
        }
        for start in &bounds {
            for finish in &bounds {
                if w[words::HEIGHT] > 0 && random.below(100) >= scale {
                    continue;
                }
                let Some(rust) = map.fork(end(start.0, start.1), end(finish.0, finish.1)) else { continue };
                let mut out = [9; 7];
                // SAFETY: the words are a well-formed arena
                let many = unsafe { inner_fork(w.as_ptr(), w.len() as u64, start.0, start.1, finish.0, finish.1, out.as_mut_ptr(), 7) };
                let ours = match many {
                    2 => Fork::Together { node: out[0], at: out[1] },
                    _ => Fork::Parted { node: out[0], lower: out[1], upper: out[2], start: (out[3], out[4]), end: (out[5], out[6]) },
                };
                totals.forks += 1;
                if ours != rust {
                    return Err(format!("fork from {start:?} to {finish:?} of {w:?}: ours {ours:?}, the Rust {rust:?}"));
                }
            }
        }
    }
    Ok(())
}
