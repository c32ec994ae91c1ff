//! Arenas of every shape of two and three children, with every insertion and deletion on each; every range over small trees.

use crate::pair::{Fault, Pair, Totals};
use crate::slab::Slab;
use crate::source::Random;
use crate::words::{self, NONE};

/// A tree to be laid out: how many pairs a leaf holds, or an inner node's children.
pub enum Plan {
    Leaf(usize),
    Inner(Vec<Plan>),
}

impl Plan {
    fn nodes(&self) -> usize {
        match self {
            Plan::Leaf(_) => 1,
            Plan::Inner(c) => 1 + c.iter().map(Plan::nodes).sum::<usize>(),
        }
    }

    fn height(&self) -> u64 {
        match self {
            Plan::Leaf(_) => 0,
            Plan::Inner(c) => 1 + c[0].height(),
        }
    }

    /// The words of an arena with `spare` free nodes and the keys 2, 4, .., node numbers shuffled; the chain of those left over rises.
    pub fn words(&self, spare: usize, random: &mut Random) -> Vec<u64> {
        let count = self.nodes() + spare;
        let mut numbers: Vec<u64> = (0..count as u64).collect();
        random.shuffle(&mut numbers);
        let mut w = vec![0; words::long(count)];
        let mut key = 0;
        let root = self.lay(&mut w, &mut numbers, &mut key, NONE, 0);
        numbers.sort();
        words::write_header(&mut w, count, root, self.height(), key / 2, &numbers, 1, key);
        w
    }

    fn lay(&self, w: &mut [u64], numbers: &mut Vec<u64>, key: &mut u64, parent: u64, index: u64) -> u64 {
        let Some(n) = numbers.pop() else { unreachable!("as many numbers as nodes") };
        let mut next = || {
            *key += 2;
            (*key, *key + 1000)
        };
        match self {
            Plan::Leaf(len) => {
                let pairs: Vec<_> = (0..*len).map(|_| next()).collect();
                words::write_node(w, n, 1, &pairs, parent, index, 0);
            }
            Plan::Inner(children) => {
                let base = words::HEADER + words::WORDS * n as usize;
                let (mut pairs, mut below) = (Vec::new(), 0);
                for (i, child) in children.iter().enumerate() {
                    let number = child.lay(w, numbers, key, n, i as u64);
                    w[base + words::EDGES + i] = number;
                    below += words::node(w, number)[words::COUNT];
                    if i + 1 < children.len() {
                        *key += 2;
                        pairs.push((*key, *key + 1000));
                    }
                }
                words::write_node(w, n, 2, &pairs, parent, index, below);
            }
        }
        n
    }
}

/// Every order on its own copy of the words: deletes of each key, puts beside each.
fn every_order(totals: &mut Totals, fault: Option<Fault>, w: &[u64], deletes: bool, puts: bool) -> Result<(), String> {
    let count = w[1] as usize;
    let (slab, other) = (Slab::new(count), Slab::beside(count));
    let last = 2 * w[words::PAIRS];
    totals.built += 1;
    for key in 1..=last + 1 {
        let mut one = |order: [u64; 3]| {
            let mut pair = Pair::from_words(&slab, &other, w, fault)?;
            pair.compare(totals)?;
            pair.single(totals, order).and_then(|()| pair.compare(totals)).map_err(|why| format!("{order:?} on {w:?}: {why}"))
        };
        if key % 2 == 0 && deletes {
            one([3, key, 0])?;
        }
        if key % 2 == 1 && puts {
            one([1, key, 77])?;
        }
    }
    Ok(())
}

/// The sizes 5 to 11 of so many children, one row after the other.
pub fn sizes(children: usize) -> Vec<Vec<usize>> {
    let mut rows = vec![Vec::new()];
    for _ in 0..children {
        rows = rows.iter().flat_map(|r| (5..=11).map(move |n| [r.clone(), vec![n]].concat())).collect();
    }
    rows
}

/// A root over two or three leaves.
pub fn two_and_three_leaves(totals: &mut Totals, fault: Option<Fault>) -> Result<(), String> {
    let mut random = Random::new(1);
    for children in [2, 3] {
        for row in sizes(children) {
            let plan = Plan::Inner(row.iter().map(|n| Plan::Leaf(*n)).collect());
            // room for a split, then none
            for spare in [3, 0] {
                every_order(totals, fault, &plan.words(spare, &mut random), true, true)?;
            }
        }
    }
    Ok(())
}

/// A root over two or three inner nodes of every size: their leaves of 5, of 11, and of mixed sizes.
pub fn two_and_three_inner(totals: &mut Totals, fault: Option<Fault>, scale: u64) -> Result<(), String> {
    let mut random = Random::new(2);
    for children in [2, 3] {
        for row in sizes(children) {
            if random.below(100) >= scale {
                continue;
            }
            for fill in 0..3 {
                let leaf = |random: &mut Random| match fill {
                    0 => Plan::Leaf(5),
                    1 => Plan::Leaf(11),
                    _ => Plan::Leaf(5 + random.below(7) as usize),
                };
                let inner = row.iter().map(|n| Plan::Inner((0..=*n).map(|_| leaf(&mut random)).collect())).collect();
                let w = Plan::Inner(inner).words(4, &mut random);
                // leaves of 11 do not shrink, leaves of 5 do not split
                every_order(totals, fault, &w, fill != 1, fill != 0)?;
            }
        }
    }
    Ok(())
}

/// A tree of one size throughout, the root of `top` pairs.
fn even(height: u64, top: usize, size: usize) -> Plan {
    if height == 0 {
        return Plan::Leaf(top);
    }
    Plan::Inner((0..=top).map(|_| even(height - 1, size, size)).collect())
}

/// The smallest trees of every height that 01 allows, where a deletion merges all the way up, and the full ones of each height that fits,
/// where an insertion splits all the way up, with just the room for it and with one node less.
pub fn smallest_and_full(totals: &mut Totals, fault: Option<Fault>) -> Result<(), String> {
    let mut random = Random::new(4);
    for height in 0..=6 {
        let w = even(height, 1, 5).words(1, &mut random);
        some_orders(totals, fault, &w, &mut random, 3)?;
        some_orders(totals, fault, &w, &mut random, 1)?;
    }
    for height in 0..=3 {
        for spare in [height as usize + 2, height as usize + 1] {
            let w = even(height, 11, 11).words(spare, &mut random);
            some_orders(totals, fault, &w, &mut random, 1)?;
        }
    }
    Ok(())
}

/// Orders of one code on their own copies of the words: at the first, the last, the root's and a few other keys.
fn some_orders(totals: &mut Totals, fault: Option<Fault>, w: &[u64], random: &mut Random, code: u64) -> Result<(), String> {
    let count = w[1] as usize;
    let (slab, other) = (Slab::new(count), Slab::beside(count));
    let last = 2 * w[words::PAIRS];
    let root = words::node(w, w[words::ROOT])[words::KEYS];
    totals.built += 1;
    let others: Vec<u64> = (0..12).map(|_| 2 + 2 * random.below(w[words::PAIRS])).collect();
    for key in [2, 4, last, root, root - 2, root + 2].into_iter().chain(others) {
        // the keys are even: an odd one is put
        let order = [code, if code == 1 { key + 1 } else { key }, 77];
        let mut pair = Pair::from_words(&slab, &other, w, fault)?;
        pair.compare(totals)?;
        pair.single(totals, order)
            .and_then(|()| pair.compare(totals))
            .map_err(|why| format!("{order:?} on {count} nodes, height {}: {why}", w[words::HEIGHT]))?;
    }
    Ok(())
}

/// Every range whose bounds are open, included or excluded at each key and beside each, over small trees.
pub fn every_range(totals: &mut Totals, fault: Option<Fault>, scale: u64) -> Result<(), String> {
    let mut random = Random::new(3);
    let leaves = |row: &[usize]| Plan::Inner(row.iter().map(|n| Plan::Leaf(*n)).collect());
    for pairs in 0..=11 {
        let w = Plan::Leaf(pairs).words(0, &mut random);
        let (slab, other) = (Slab::new(1), Slab::beside(1));
        ranges(totals, &mut Pair::from_words(&slab, &other, &w, fault)?, pairs as u64, 100)?;
    }
    for plan in [
        leaves(&[5, 5]),
        leaves(&[11, 7]),
        leaves(&[5, 11, 6]),
        Plan::Inner(vec![leaves(&[5, 6, 5, 7, 5, 5]), leaves(&[5, 5, 8, 5, 5, 11])]),
    ] {
        let w = plan.words(2, &mut random);
        let (slab, other) = (Slab::new(w[1] as usize), Slab::beside(w[1] as usize));
        totals.built += 1;
        ranges(totals, &mut Pair::from_words(&slab, &other, &w, fault)?, w[words::PAIRS], scale)?;
    }
    // the map that never held a pair, and one that did
    let (slab, other) = (Slab::new(2), Slab::beside(2));
    let mut pair = Pair::new(&slab, &other, fault)?;
    ranges(totals, &mut pair, 2, 100)?;
    pair.single(totals, [1, 3, 4])?;
    pair.single(totals, [3, 3, 0])?;
    pair.compare(totals)?;
    ranges(totals, &mut pair, 2, 100)
}

/// All of them, or a share in a hundred.
fn ranges(totals: &mut Totals, pair: &mut Pair<'_>, pairs: u64, scale: u64) -> Result<(), String> {
    let mut random = Random::new(7);
    let mut bounds = vec![(0, 0)];
    for key in (1..=2 * pairs + 1).chain([0, u64::MAX]) {
        bounds.extend([(1, key), (2, key)]);
    }
    for start in &bounds {
        for end in &bounds {
            if random.below(100) >= scale {
                continue;
            }
            for long in [0, 1, 2, 7, 2 * pairs as usize, 2 * pairs as usize + 3] {
                pair.list(totals, *start, *end, long)?;
            }
            pair.ranks(totals, *start, *end)?;
        }
    }
    Ok(())
}
