//! Our arena and the Rust's map under one history.

use std::collections::BTreeMap;
use std::fmt;

use crate::btree::Pairs;
use crate::ours;
use crate::rust::{Rust, end};
use crate::slab::Slab;
use crate::words;

/// A fault put between our index and the driver. It is none of the index itself, which cannot be built with one: only what is proved is.
#[derive(Clone, Copy, PartialEq, Eq, Debug)]
pub enum Fault {
    /// A value found is answered with one more.
    Value,
    /// A delete reaches our index as a get.
    Kept,
    /// After an order the first two free nodes change places: the chain no longer rises, and the words are no arena.
    Chain,
    /// After an order one pair moves from one leaf to the next, where that stays well-formed: as if a split had been made elsewhere.
    Halves,
    /// A listing leaves out that more remain.
    More,
    /// A spent key is handed out again: 11 is passed on as 0.
    Twice,
    /// A restore of an older image reaches our index with the yes that was not given.
    Meant,
    /// A rank counts the key itself, where it is present.
    Itself,
    /// After an order the root's count is one too many: the words are no arena.
    Count,
    /// The mark of a load is its first key.
    First,
    /// A join writes the first's value of a key in both.
    Own,
    /// The mark of a cut's upper part is its last key.
    Last,
    /// A step of a cursor is made twice.
    Twofold,
}

impl Fault {
    pub const NAMES: [&str; 13] =
        ["value", "kept", "chain", "halves", "more", "twice", "meant", "itself", "count", "first", "own", "last", "twofold"];

    pub fn named(name: &str) -> Option<Fault> {
        Some(match name {
            "value" => Fault::Value,
            "kept" => Fault::Kept,
            "chain" => Fault::Chain,
            "halves" => Fault::Halves,
            "more" => Fault::More,
            "twice" => Fault::Twice,
            "meant" => Fault::Meant,
            "itself" => Fault::Itself,
            "count" => Fault::Count,
            "first" => Fault::First,
            "own" => Fault::Own,
            "last" => Fault::Last,
            "twofold" => Fault::Twofold,
            _ => return None,
        })
    }
}

/// How many times a fault would have its turn before it does; restores are fewer than orders.
fn rare(fault: Fault) -> u64 {
    if fault == Fault::Meant { 3 } else { 1000 }
}

#[derive(Default)]
pub struct Totals {
    pub orders: u64,
    pub batches: u64,
    /// Orders by code (1 to 4, other) and number.
    pub answers: BTreeMap<(u64, u64), u64>,
    pub listings: u64,
    pub refused: u64,
    pub listed: u64,
    /// BadRange on a map with no root, where the Rust does not panic: the listed difference.
    pub rootless: u64,
    pub restores: u64,
    /// Of them, those of an older image, with the yes; and how often one was refused without it.
    pub older: u64,
    pub not_meant: u64,
    pub words: u64,
    pub compares: u64,
    pub placed: u64,
    pub taken: u64,
    pub returned: u64,
    pub built: u64,
    pub histories: u64,
    /// Calls on words of wrong length or that may be no arena, and how many such words were none.
    pub refusals: u64,
    pub refused_arenas: u64,
    /// Reserves around the mark, by each way to ask, held against the rule alone.
    pub reserves: u64,
    /// Ranks, counts and pairs at a rank, held against the plain list of the Rust's pairs; upgrades of format 1.
    pub ranks: u64,
    pub upgrades: u64,
    /// Loads held against bulk_push, and their pairs; and how many were refused.
    pub loads: u64,
    pub loaded: u64,
    pub not_loaded: u64,
    /// Joins held against BTreeMap::append and bulk_push, and their pairs; and how many were refused.
    pub joins: u64,
    pub joined: u64,
    pub not_joined: u64,
    /// Cuts held against split_off and bulk_push, and the pairs that went; and how many were refused.
    pub cuts: u64,
    pub cut: u64,
    pub not_cut: u64,
    /// Moves of a cursor, held against the Rust's iterator.
    pub moves: u64,
    /// Steps from any place, held against the rule for 9 alone.
    pub strays: u64,
    /// Border repairs, forks and steps along pairs, where they can be called.
    pub borders: u64,
    pub forks: u64,
    pub steps: u64,
    pub heights: BTreeMap<u64, u64>,
    turns: u64,
}

impl fmt::Display for Totals {
    fn fmt(&self, f: &mut fmt::Formatter<'_>) -> fmt::Result {
        writeln!(
            f,
            "orders {}, of them in {} batches; {} histories, {} arenas laid out",
            self.orders, self.batches, self.histories, self.built
        )?;
        for ((code, number), count) in &self.answers {
            let name = ["other code", "put", "get", "delete", "reserve"][*code as usize];
            let number = match (code, number) {
                (4, 0) => "handed out",
                (_, 0) => "new",
                (_, 1) => "value",
                (_, 2) => "absent",
                (_, 3) => "no room",
                (_, 6) => "bad order",
                (_, 11) => "spent",
                _ => "?",
            };
            writeln!(f, "  {name}, {number}: {count}")?;
        }
        writeln!(f, "nodes taken {}, returned {} by the Rust", self.taken, self.returned)?;
        writeln!(f, "listings {}, refused as bad ranges {}, pairs listed {}", self.listings, self.refused, self.listed)?;
        writeln!(f, "bad ranges on a map with no root, where the Rust does not panic (listed): {}", self.rootless)?;
        writeln!(
            f,
            "restores {}, of them of older images with the yes {}; older images refused without it {}",
            self.restores, self.older, self.not_meant
        )?;
        writeln!(f, "lengths and damaged arenas asked {}, of them no arenas {}", self.refusals, self.refused_arenas)?;
        writeln!(f, "reserves around the mark, by the rule alone: {}", self.reserves)?;
        writeln!(f, "ranks, counts and pairs at a rank, by the plain list: {}; upgrades of format 1: {}", self.ranks, self.upgrades)?;
        writeln!(f, "loads {}, of {} pairs; refused {}", self.loads, self.loaded, self.not_loaded)?;
        writeln!(f, "joins {}, of {} pairs; refused {}", self.joins, self.joined, self.not_joined)?;
        writeln!(f, "cuts {}, of {} pairs that went; refused {}", self.cuts, self.cut, self.not_cut)?;
        writeln!(f, "moves of a cursor, by the Rust's iterator: {}; steps from any place, by the rule for 9: {}", self.moves, self.strays)?;
        if cfg!(inner) {
            writeln!(f, "border repairs {}, forks {}, steps along pairs {}", self.borders, self.forks, self.steps)?;
        }
        writeln!(f, "arenas compared {}, words compared {}", self.compares, self.words)?;
        write!(f, "  by height:")?;
        for (height, count) in &self.heights {
            write!(f, " {height}: {count}")?;
        }
        writeln!(f)?;
        write!(f, "pairs whose node and place the toolchain's own BTreeMap shares: {}", self.placed)
    }
}

pub struct Pair<'s> {
    pub ours: Vec<u64>,
    pub rust: Rust<'s>,
    slab: &'s Slab,
    other: &'s Slab,
    fault: Option<Fault>,
    before: (u64, u64),
}

impl<'s> Pair<'s> {
    /// Both formatted.
    pub fn new(slab: &'s Slab, other: &'s Slab, fault: Option<Fault>) -> Result<Pair<'s>, String> {
        let mut ours = vec![7; words::long(slab.count())];
        let number = ours::format(&mut ours);
        if number != 0 || ours != words::formatted(slab.count()) {
            return Err(format!("format of {} nodes: {number}", slab.count()));
        }
        Ok(Pair { ours, rust: Rust::new(slab, other), slab, other, fault, before: slab.traffic() })
    }

    /// Both with these words, which our checker must accept.
    pub fn from_words(slab: &'s Slab, other: &'s Slab, w: &[u64], fault: Option<Fault>) -> Result<Pair<'s>, String> {
        if ours::check(w) != 0 {
            return Err(format!("our checker refuses {w:?}"));
        }
        let rust = Rust::from_words(slab, other, w)?;
        Ok(Pair { ours: w.to_vec(), rust, slab, other, fault, before: slab.traffic() })
    }

    fn due(&self, totals: &mut Totals, fault: Fault) -> bool {
        if self.fault != Some(fault) {
            return false;
        }
        totals.turns += 1;
        totals.turns % rare(fault) == 0
    }

    fn pass(&self, totals: &mut Totals, order: [u64; 3]) -> [u64; 3] {
        if order[0] == 3 && self.due(totals, Fault::Kept) {
            return [2, order[1], order[2]];
        }
        order
    }

    fn fault_words(&mut self, totals: &mut Totals) {
        let first = self.ours[words::FIRST_FREE];
        if self.ours[words::FREE_NODES] >= 2 && self.due(totals, Fault::Chain) {
            let at = |n: u64| words::HEADER + words::WORDS * n as usize + words::PARENT;
            let second = self.ours[at(first)];
            let third = self.ours[at(second)];
            self.ours[at(second)] = first;
            self.ours[at(first)] = third;
            self.ours[words::FIRST_FREE] = second;
        }
        if self.due(totals, Fault::Count) {
            let root = self.ours[words::ROOT] as usize;
            self.ours[words::HEADER + words::WORDS * root + words::COUNT] += 1;
        }
        if self.ours[words::HEIGHT] >= 1 && self.due(totals, Fault::Halves) {
            self.move_one();
        }
    }

    /// Moves one pair through the root from its first child to its second, if both are leaves and may.
    fn move_one(&mut self) {
        let a = &mut self.ours;
        let base = |n: u64| words::HEADER + words::WORDS * n as usize;
        let root = base(a[words::ROOT]);
        let (l, r) = (base(a[root + words::EDGES]), base(a[root + words::EDGES + 1]));
        let (n, m) = (a[l + words::LEN] as usize, a[r + words::LEN] as usize);
        if a[words::HEIGHT] != 1 || n < 6 || m > 10 {
            return;
        }
        for part in [words::KEYS, words::VALS] {
            for i in (0..m).rev() {
                a[r + part + i + 1] = a[r + part + i];
            }
            a[r + part] = a[root + part];
            a[root + part] = a[l + part + n - 1];
            a[l + part + n - 1] = 0;
        }
        for word in [words::LEN, words::COUNT] {
            a[l + word] -= 1;
            a[r + word] += 1;
        }
    }

    fn answer(&mut self, totals: &mut Totals, order: [u64; 3], ours: (u64, u64), rust: (u64, u64)) -> Result<(), String> {
        let mut ours = ours;
        if ours.0 == 1 && self.due(totals, Fault::Value) {
            ours.1 = ours.1.wrapping_add(1);
        }
        if ours.0 == 11 && self.due(totals, Fault::Twice) {
            ours.0 = 0;
        }
        if ours != rust {
            return Err(format!("order {order:?}: ours {ours:?}, the Rust {rust:?}"));
        }
        totals.orders += 1;
        *totals.answers.entry((if order[0] > 4 { 0 } else { order[0] }, ours.0)).or_default() += 1;
        Ok(())
    }

    /// One order by the call of its own; and on a copy of the words by the call that takes any code, which must answer and write the same.
    pub fn single(&mut self, totals: &mut Totals, order: [u64; 3]) -> Result<(), String> {
        let passed = self.pass(totals, order);
        let mut copy = self.ours.clone();
        let ours = ours::single(&mut self.ours, passed);
        let also = ours::order(&mut copy, passed);
        if also != ours || copy != self.ours {
            return Err(format!("order {order:?}: by its own call {ours:?}, by its code {also:?}; the same words: {}", copy == self.ours));
        }
        self.fault_words(totals);
        let rust = self.rust.order(order);
        self.answer(totals, order, ours, rust)
    }

    /// A batch of so many orders: each is made as the Rust's map stands after those before it.
    pub fn batch(&mut self, totals: &mut Totals, long: usize, mut make: impl FnMut(&Rust<'s>) -> [u64; 3]) -> Result<(), String> {
        let (mut orders, mut passed, mut rust) = (Vec::new(), Vec::new(), Vec::new());
        for _ in 0..long {
            let order = make(&self.rust);
            orders.push(order);
            passed.push(self.pass(totals, order));
            rust.push(self.rust.order(order));
        }
        let (number, answers) = ours::batch(&mut self.ours, &passed);
        if number != 0 {
            return Err(format!("a batch of {long} orders: {number}"));
        }
        self.fault_words(totals);
        totals.batches += 1;
        for (i, ours) in answers.into_iter().enumerate() {
            self.answer(totals, orders[i], ours, rust[i])?;
        }
        Ok(())
    }

    /// All words.
    pub fn compare(&mut self, totals: &mut Totals) -> Result<(), String> {
        let rust = self.rust.words();
        totals.compares += 1;
        totals.words += rust.len() as u64;
        *totals.heights.entry(rust[words::HEIGHT]).or_default() += 1;
        let after = self.slab.traffic();
        totals.taken += after.0 - self.before.0;
        totals.returned += after.1 - self.before.1;
        self.before = after;
        totals.placed += std::mem::take(&mut self.rust.placed);
        if self.ours != rust {
            let i = (0..rust.len()).find(|i| self.ours[*i] != rust[*i]).unwrap_or(0);
            return Err(format!("word {i}: ours {}, the Rust {}\n  ours {:?}\n  the Rust {:?}", self.ours[i], rust[i], self.ours, rust));
        }
        Ok(())
    }

    /// A listing into an output of so many words.
    pub fn list(&mut self, totals: &mut Totals, start: (u64, u64), finish: (u64, u64), long: usize) -> Result<(), String> {
        let mut out = vec![9; long];
        let (number, written, mut more) = ours::list(&self.ours, start, finish, &mut out);
        if more == 1 && self.due(totals, Fault::More) {
            more = 0;
        }
        totals.listings += 1;
        let rust = self.rust.range(end(start.0, start.1), end(finish.0, finish.1), long / 2);
        let mut wanted = vec![9; long];
        let said = match rust {
            None => {
                totals.refused += 1;
                (5, 0, 0)
            }
            Some(_) if self.rust.map.is_rootless() && number == 5 && bad(start, finish) => {
                totals.rootless += 1;
                totals.refused += 1;
                (5, 0, 0)
            }
            Some(Pairs { pairs, more }) => {
                for (i, (k, v)) in pairs.iter().enumerate() {
                    wanted[2 * i] = *k;
                    wanted[2 * i + 1] = *v;
                }
                totals.listed += pairs.len() as u64;
                (0, pairs.len() as u64, u64::from(more))
            }
        };
        if (number, written, more) != said || out != wanted {
            return Err(format!(
                "listing from {start:?} to {finish:?} into {long} words: ours {:?} {out:?}, the Rust {said:?} {wanted:?}",
                (number, written, more)
            ));
        }
        Ok(())
    }

    /// Rank, count and pair at a rank, by the plain list of the Rust's pairs; and the upgrade of the same arena in format 1, which must give
    /// these words back. The bounds' keys are taken as keys and as ranks.
    pub fn ranks(&mut self, totals: &mut Totals, start: (u64, u64), finish: (u64, u64)) -> Result<(), String> {
        let list: Vec<(u64, u64)> = self.rust.map.places().into_iter().map(|(k, v, ..)| (k, v)).collect();
        let admits = |key: u64| match start.0 {
            0 => true,
            1 => start.1 <= key,
            _ => start.1 < key,
        } && match finish.0 {
            0 => true,
            1 => key <= finish.1,
            _ => key < finish.1,
        };
        let wanted = if bad(start, finish) { (5, 0) } else { (0, list.iter().filter(|p| admits(p.0)).count() as u64) };
        let said = ours::count(&self.ours, start, finish);
        totals.ranks += 1;
        if said != wanted {
            return Err(format!("count from {start:?} to {finish:?}: {said:?}, not {wanted:?}"));
        }
        let long = list.len() as u64;
        let middle = list.get(list.len() / 2).map_or(0, |p| p.0);
        for key in [start.1, finish.1, middle, 0, u64::MAX] {
            let mut said = ours::rank(&self.ours, key);
            let there = list.binary_search_by_key(&key, |p| p.0);
            if there.is_ok() && self.due(totals, Fault::Itself) {
                said.1 += 1;
            }
            let rank = there.unwrap_or_else(|rank| rank) as u64;
            totals.ranks += 1;
            if said != (0, rank) {
                return Err(format!("rank of {key}: {said:?}, not {rank}"));
            }
            for rank in [rank, key, key % (long + 2), long.saturating_sub(1), long] {
                let wanted = usize::try_from(rank).ok().and_then(|i| list.get(i)).map_or((2, 0, 0), |p| (1, p.0, p.1));
                let said = ours::at(&self.ours, rank);
                totals.ranks += 1;
                if said != wanted {
                    return Err(format!("the pair at rank {rank}: {said:?}, not {wanted:?}"));
                }
            }
        }
        let mut target = vec![7; self.ours.len()];
        let number = ours::upgrade(&words::old(&self.ours), &mut target);
        totals.upgrades += 1;
        if number != 0 || target != self.ours {
            return Err(format!("upgrade of the same arena in format 1: {number}"));
        }
        Ok(())
    }

    /// A cursor beside the Rust's iterator: from a start bound on and back again, so many steps each, then with another count, which is
    /// refused; and all pairs falling, if there are no more than that. Its words say where the Rust has the pair.
    pub fn walk(&mut self, totals: &mut Totals, start: (u64, u64), most: usize) -> Result<(), String> {
        let at: BTreeMap<u64, (u64, u64)> = self.rust.map.places().into_iter().map(|(k, _, node, place)| (k, (node, place))).collect();
        let (rising, falling) = self.rust.walks(end(start.0, start.1));
        let mut cursor = vec![9; 4];
        let mut said = ours::seek(&self.ours, 3, start, &mut cursor);
        let shown = |pair: Option<&(u64, u64)>, end: u64| match pair {
            Some((k, v)) => ((1, *k, *v), vec![3, 1, at[k].0, at[k].1]),
            None => ((2, 0, 0), vec![3, end, 0, 0]),
        };
        for i in 0..=rising.len().min(most) {
            totals.moves += 1;
            if (said, cursor.clone()) != shown(rising.get(i), 2) {
                return Err(format!("from {start:?}, move {i}: {said:?}, cursor {cursor:?}"));
            }
            if i == rising.len().min(most) {
                break;
            }
            said = ours::next(&self.ours, 3, &mut cursor);
            if self.due(totals, Fault::Twofold) {
                said = ours::next(&self.ours, 3, &mut cursor);
            }
        }
        for i in (0..rising.len().min(most)).rev() {
            said = ours::previous(&self.ours, 3, &mut cursor);
            totals.moves += 1;
            if (said, cursor.clone()) != shown(rising.get(i), 0) {
                return Err(format!("from {start:?}, back at {i}: {said:?}, cursor {cursor:?}"));
            }
        }
        let kept = cursor.clone();
        for step in [ours::next, ours::previous] {
            said = step(&self.ours, 4, &mut cursor);
            totals.moves += 1;
            if said != (9, 0, 0) || cursor != kept {
                return Err(format!("a step with another count: {said:?}, cursor {cursor:?}, before {kept:?}"));
            }
        }
        if falling.len() <= most {
            said = ours::last(&self.ours, 3, &mut cursor);
            for i in 0..=falling.len() {
                totals.moves += 1;
                if (said, cursor.clone()) != shown(falling.get(i), 0) {
                    return Err(format!("falling, move {i}: {said:?}, cursor {cursor:?}"));
                }
                said = ours::previous(&self.ours, 3, &mut cursor);
            }
            said = ours::next(&self.ours, 3, &mut cursor);
            let mut anew = vec![0; 4];
            if (said, cursor) != (ours::first(&self.ours, 3, &mut anew), anew) {
                return Err("from before the first pair to it".into());
            }
        }
        Ok(())
    }

    /// Restores an image, with the word whether an older one is meant; whether that was done. By request (viii) only a 1 lets an older image
    /// pass. The Rust's side is laid out from the image's words anew, or stays as it is.
    pub fn restore(&mut self, totals: &mut Totals, image: &[u64], older: u64) -> Result<bool, String> {
        let kept = image.to_vec();
        let (seen, mark) = (self.rust.seen, self.rust.mark);
        let is_older = words::is_older((seen, mark), (image[words::SEEN], image[words::MARK]));
        let wanted = if is_older && older != 1 { 12 } else { 0 };
        let passed = if wanted == 12 && self.due(totals, Fault::Meant) { 1 } else { older };
        let number = ours::restore(&mut self.ours, image, passed);
        if number != wanted || kept != image {
            return Err(format!("restore with the word {older}, over seen {seen} and mark {mark}: {number}, not {wanted}"));
        }
        if wanted == 12 {
            totals.not_meant += 1;
            return Ok(false);
        }
        self.rust = Rust::from_words(self.slab, self.other, image)?;
        self.before = self.slab.traffic();
        // a key counts as spent on either side; unseen marks are 0
        self.rust.seen = self.rust.seen.max(seen);
        self.rust.mark = self.rust.mark.max(mark);
        totals.restores += 1;
        totals.older += u64::from(is_older);
        Ok(true)
    }
}

/// Document 01's BadRange: start above end, or equal and both excluded.
fn bad(start: (u64, u64), end: (u64, u64)) -> bool {
    start.0 != 0 && end.0 != 0 && (start.1 > end.1 || (start.1 == end.1 && start.0 == 2 && end.0 == 2))
}
