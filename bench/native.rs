//! What bench/native runs: several variants of our library in one program, beside BTreeMap and absl::btree_map. The same orders,
//! interleaved, answers compared; times are the thread's own, so that other work on the machine disturbs them less.
//!
//!     native try PAIRS NODES ROUNDS CASES       random orders, listings and checks beside BTreeMap
//!     native times PAIRS NODES ROUNDS CASES CALLS       a line a case, size and contestant
//!     native count PAIRS NODES ORDERS CASES CALLS       one round of each case, checks of arenas, and single calls, for callgrind
//!     native returns NODES                      runs that return nodes: turns of the search for their place, in copies that count
//!                                               them, else times

use std::collections::BTreeMap;
use std::hint::black_box;

mod orders;
mod rivals;

use orders::{drawn, median, mixed, orders, quarters, Keys, Rand, OPS};
use rivals::{absl_batch, absl_free, absl_new, spent, Absl};

/// A variant's calls.
pub struct Ours {
    name: &'static str,
    format: unsafe extern "C" fn(*mut u64, u64) -> u64,
    check: unsafe extern "C" fn(*const u64, u64) -> u64,
    get: unsafe extern "C" fn(*const u64, u64, u64, *mut u64) -> u64,
    put: unsafe extern "C" fn(*mut u64, u64, u64, u64, *mut u64) -> u64,
    delete: unsafe extern "C" fn(*mut u64, u64, u64, *mut u64) -> u64,
    list: unsafe extern "C" fn(*const u64, u64, u64, u64, u64, u64, *mut u64, u64, *mut u64, *mut u64) -> u64,
    batch: unsafe extern "C" fn(*mut u64, u64, *const u64, u64, *mut u64, u64) -> u64,
    timed_batch: fn(&mut [u64], &[u64], &mut [u64]),
    timed_check: fn(&[u64]),
    counted: Option<unsafe extern "C" fn(*mut u64)>,
    ranks: Option<Ranks>,
}

/// Rank, count and pair at a rank, in a variant that has them.
pub struct Ranks {
    rank: unsafe extern "C" fn(*const u64, u64, u64, *mut u64) -> u64,
    count: unsafe extern "C" fn(*const u64, u64, u64, u64, u64, u64, *mut u64) -> u64,
    at: unsafe extern "C" fn(*const u64, u64, u64, *mut u64, *mut u64) -> u64,
}

mod variants {
    use super::{Ours, Ranks};
    include!(env!("VARIANTS"));
}

use variants::{OURS, UNCHECKED};

// SAFETY, of every call of ours: the pointers and lengths are those of slices and of local words, and what is written is
// lent as `&mut`. The calls have no `requires`: they take any words and end.
impl Ours {
    /// An empty arena of so many nodes, in the variant's own format: 38 words a node in format 1, 39 in format 2.
    fn arena(&self, nodes: usize) -> Vec<u64> {
        for each in [39, 38] {
            let mut arena = vec![0; 10 + each * nodes];
            let number = unsafe { (self.format)(arena.as_mut_ptr(), arena.len() as u64) };
            if number == 0 && arena[1] == nodes as u64 {
                return arena;
            }
        }
        panic!("{}: no arena of {nodes} nodes", self.name);
    }

    fn run(&self, arena: &mut [u64], orders: &[u64]) -> Vec<u64> {
        let mut answers = vec![0; orders.len() / 3 * 2];
        let (n, o, r) = (arena.len() as u64, orders.len() as u64, answers.len() as u64);
        assert_eq!(unsafe { (self.batch)(arena.as_mut_ptr(), n, orders.as_ptr(), o, answers.as_mut_ptr(), r) }, 0);
        answers
    }
}

extern "C" {
    fn collect_begin();
    fn collect_end(name: *const std::ffi::c_char);
}

#[inline(never)]
fn timed_or(arena: &[u64]) -> u64 {
    rivals::or(arena)
}

#[inline(never)]
fn btree_batch(map: &mut BTreeMap<u64, u64>, orders: &[u64], answers: &mut [u64]) {
    rivals::btree_batch(map, orders, answers);
}

/// One part of callgrind's file, under a name.
fn collected(name: &str, f: impl FnOnce()) {
    let name = std::ffi::CString::new(name).expect("no zero in a name");
    unsafe { collect_begin() };
    f();
    unsafe { collect_end(name.as_ptr()) };
}

// ---- the contestants: ours, then BTreeMap, then absl::btree_map

const BTREE: usize = OURS.len();
const ABSL: usize = BTREE + 1;
const ALL: usize = ABSL + 1;

fn name_of(who: usize) -> &'static str {
    OURS.get(who).map_or_else(|| ["BTreeMap", "absl"][who - BTREE], |ours| ours.name)
}

struct All {
    arenas: Vec<Vec<u64>>,
    btree: BTreeMap<u64, u64>,
    absl: *mut Absl,
}

impl All {
    fn new(nodes: usize) -> Self {
        let arenas = OURS.iter().map(|o| o.arena(nodes)).collect();
        All { arenas, btree: BTreeMap::new(), absl: unsafe { absl_new() } }
    }

    fn untimed(&mut self, who: usize, orders: &[u64]) -> Vec<u64> {
        let mut answers = vec![0; orders.len() / 3 * 2];
        match who {
            BTREE => btree_batch(&mut self.btree, orders, &mut answers),
            ABSL => unsafe { absl_batch(self.absl, orders.as_ptr(), orders.len() / 3, answers.as_mut_ptr()) },
            _ => answers = OURS[who].run(&mut self.arenas[who], orders),
        }
        answers
    }

    fn timed(&mut self, who: usize, orders: &[u64], answers: &mut [u64]) {
        match who {
            BTREE => btree_batch(&mut self.btree, orders, answers),
            ABSL => unsafe { absl_batch(self.absl, orders.as_ptr(), orders.len() / 3, answers.as_mut_ptr()) },
            _ => (OURS[who].timed_batch)(&mut self.arenas[who], orders, answers),
        }
    }
}

impl Drop for All {
    fn drop(&mut self) {
        unsafe { absl_free(self.absl) }
    }
}

// ---- cases

/// Nanoseconds of a round, by contestant: of the runs, or of the checks alone. A check just before a timed run would warm the
/// caches for the run's own, so the two take turns.
struct Case<'a> {
    name: &'a str,
    keys: Keys,
    all: All,
    /// Orders a round.
    most: usize,
    round: usize,
    turn: usize,
    run: Vec<Vec<f64>>,
    check: Vec<Vec<f64>>,
    ops: usize,
}

impl<'a> Case<'a> {
    fn new(name: &'a str, pairs: usize, most: usize) -> Self {
        let mut keys = Keys::new(pairs);
        let mut all = All::new(keys.nodes(matches!(name, "new" | "delete")));
        if matches!(name, "new" | "delete") {
            keys.absent.truncate(most);
        }
        for who in 0..ALL {
            all.untimed(who, &orders(1, keys.present.iter().copied()));
        }
        Case { name, keys, all, most, round: 0, turn: 0, run: vec![vec![]; ALL], check: vec![vec![]; ALL], ops: 0 }
    }

    fn round(&mut self, count: bool) {
        self.round += 1;
        let mut rand = Rand(self.round as u64 * 1_000_003);
        let (mut run, mut check) = (vec![vec![]; ALL], vec![vec![]; ALL]);
        self.ops = 0;
        if matches!(self.name, "new" | "delete") {
            // all absent keys put and deleted again, as often as makes so many orders; one of the two is timed
            for _ in 0..self.most / self.keys.absent.len() {
                for code in [1, 3] {
                    rand.shuffle(&mut self.keys.absent);
                    let list = orders(code, self.keys.absent.iter().copied());
                    if (code == 1) == (self.name == "new") {
                        self.one(&list, count, &mut run, &mut check);
                    } else {
                        (0..ALL).for_each(|who| _ = self.all.untimed(who, &list));
                    }
                }
            }
        } else {
            let mut list = match self.name {
                "get" => drawn(2, &self.keys.present, &mut rand),
                "absent" => drawn(2, &self.keys.absent, &mut rand),
                "replace" => drawn(1, &self.keys.present, &mut rand),
                "mixed" => mixed(&self.keys.every(), &mut rand),
                _ => panic!("no case {}", self.name),
            };
            list.truncate(3 * self.most);
            self.one(&list, count, &mut run, &mut check);
        }
        let mean = |list: &Vec<f64>| list.iter().sum::<f64>() / list.len() as f64;
        for who in 0..ALL {
            if !run[who].is_empty() {
                self.run[who].push(mean(&run[who]));
            }
            if !check[who].is_empty() {
                self.check[who].push(mean(&check[who]));
            }
        }
    }

    /// One batch for each, in another order each time, so that none always runs behind the same other; nanoseconds an order.
    fn one(&mut self, list: &[u64], count: bool, run: &mut [Vec<f64>], check: &mut [Vec<f64>]) {
        self.turn += 1;
        let n = list.len() / 3;
        self.ops += n;
        let mut answers = vec![vec![0; 2 * n]; ALL];
        let mut order: Vec<u64> = (0..ALL as u64).collect();
        Rand(self.turn as u64 * 7_919).shuffle(&mut order);
        for who in order.into_iter().map(|who| who as usize) {
            let check_alone = || (OURS[who].timed_check)(&self.all.arenas[who]);
            if count {
                let part = format!("case {} {} {}", self.name, self.keys.present.len(), name_of(who));
                if who < BTREE {
                    collected(&format!("{part} less"), check_alone);
                }
                collected(&part, || self.all.timed(who, list, &mut answers[who]));
            } else if who < BTREE && self.turn % 2 == 0 {
                check[who].push(spent(check_alone) / n as f64);
                answers[who] = self.all.untimed(who, list);
            } else {
                let time = spent(|| self.all.timed(who, list, &mut answers[who]));
                if self.turn % 2 == 1 {
                    run[who].push(time / n as f64);
                }
            }
        }
        assert!(answers.windows(2).all(|w| w[0] == w[1]), "the answers differ");
    }
}

fn time_case(name: &str, pairs: usize, rounds: usize) {
    let mut case = Case::new(name, pairs, OPS);
    (0..2 * rounds).for_each(|_| case.round(false));
    let check: Vec<f64> = (0..ALL).map(|who| if who < BTREE { median(case.check[who].clone()) } else { 0.0 }).collect();
    // a round's own ratio: they ran one after the other, whatever else the machine did that minute
    let ratio = |who: usize, to: usize| {
        let pairs = case.run[who].iter().zip(&case.run[to]);
        quarters(pairs.map(|(a, b)| (a - check[who]) / (b - check[to])).collect())
    };
    for who in 0..ALL {
        print!("{name},{pairs},{},{:.2},{:.2}", name_of(who), median(case.run[who].clone()), check[who]);
        for to in [BTREE, ABSL, 0] {
            let [low, middle, high] = ratio(who, to);
            print!(",{low:.3},{middle:.3},{high:.3}");
        }
        println!();
    }
}

// ---- the check

/// An arena with no free node to speak of, one as it is in use, and one of free nodes, as bench.rs has them.
fn arena(ours: &Ours, kind: &str, nodes: usize) -> Vec<u64> {
    let mut arena = ours.arena(nodes);
    let mut rand = Rand(nodes as u64);
    let pairs = match kind {
        "full" => 11 * nodes,
        "grown" => 5 * nodes,
        _ => 0,
    };
    let asked: Vec<u64> = (0..pairs).map(|_| rand.next()).collect();
    ours.run(&mut arena, &orders(1, asked.into_iter()));
    arena
}

/// Each checks its own arena, of the same orders, which the OR then passes.
fn time_check(kind: &str, nodes: usize, rounds: usize) {
    let arenas: Vec<Vec<u64>> = OURS.iter().map(|o| arena(o, kind, nodes)).collect();
    let times = (2_000_000 / arenas[0].len()).max(1);
    let (mut check, mut or) = (vec![vec![]; OURS.len()], vec![vec![]; OURS.len()]);
    for round in 0..rounds {
        for i in 0..OURS.len() {
            let who = (i + round) % OURS.len();
            let arena = &arenas[who];
            let a_word = (times * arena.len()) as f64;
            check[who].push(spent(|| (0..times).for_each(|_| (OURS[who].timed_check)(black_box(arena)))) / a_word);
            or[who].push(spent(|| (0..times).for_each(|_| _ = black_box(timed_or(black_box(arena))))) / a_word);
        }
    }
    for (who, ours) in OURS.iter().enumerate() {
        let n = arenas[who].len();
        let ratio = |to: &[f64]| quarters(check[who].iter().zip(to).map(|(a, b)| a / b).collect());
        let each = |list: &Vec<f64>| quarters(list.clone())[0] * n as f64; // other work on the machine only adds
        print!("{kind},{nodes},{},{n},{},{:.1},{:.1}", ours.name, arenas[who][5], each(&check[who]), each(&or[who]));
        for [low, middle, high] in [ratio(&or[who]), ratio(&check[0])] {
            print!(",{low:.3},{middle:.3},{high:.3}");
        }
        println!();
    }
}

// ---- single calls: rank, count and pair at a rank beside get

const CALLS: [&str; 4] = ["get", "rank", "count", "at"];

struct Calls<'a> {
    ours: &'a Ours,
    arena: Vec<u64>,
    pairs: usize,
    keys: Vec<u64>,
}

impl<'a> Calls<'a> {
    fn new(ours: &'a Ours, pairs: usize, calls: usize) -> Self {
        let keys = Keys::new(pairs);
        let mut arena = ours.arena(keys.nodes(false));
        ours.run(&mut arena, &orders(1, keys.present.iter().copied()));
        let mut rand = Rand(pairs as u64 + 1);
        let keys = (0..calls).map(|_| keys.present[rand.below(pairs)]).collect();
        Calls { ours, arena, pairs, keys }
    }

    fn has(&self, call: &str) -> bool {
        call == "get" || self.ours.ranks.is_some()
    }

    /// One call for each of the keys, which are present: a get; a rank; the count from the key, included, to the next one of
    /// the list, excluded; the pair at a rank drawn from the key.
    fn run(&self, call: &str) -> u64 {
        let (a, n) = (self.arena.as_ptr(), self.arena.len() as u64);
        let (mut second, mut third, mut sum) = (0, 0, 0u64);
        let ranks = || self.ours.ranks.as_ref().expect("ranks");
        let number = |number: u64, wanted: u64| assert_eq!(number, wanted);
        match call {
            "get" => self.keys.iter().for_each(|k| {
                number(unsafe { (self.ours.get)(a, n, *k, &mut second) }, 1);
                sum = sum.wrapping_add(second);
            }),
            "rank" => self.keys.iter().for_each(|k| {
                number(unsafe { (ranks().rank)(a, n, *k, &mut second) }, 0);
                sum = sum.wrapping_add(second);
            }),
            "count" => self.keys.iter().zip(self.keys.iter().cycle().skip(1)).for_each(|(k, l)| {
                number(unsafe { (ranks().count)(a, n, 1, *k.min(l), 2, *k.max(l), &mut second) }, 0);
                sum = sum.wrapping_add(second);
            }),
            _ => self.keys.iter().for_each(|k| {
                number(unsafe { (ranks().at)(a, n, k % self.pairs as u64, &mut second, &mut third) }, 1);
                sum = sum.wrapping_add(second);
            }),
        }
        sum
    }
}

/// The calls of a copy that does not check, timed; and as ratios to get's time in the same round.
fn time_calls(ours: &Ours, pairs: usize, rounds: usize) {
    let calls = Calls::new(ours, pairs, 10_000);
    let mut time = vec![vec![]; CALLS.len()];
    for round in 0..rounds {
        for i in 0..CALLS.len() {
            let which = (i + round) % CALLS.len();
            time[which].push(spent(|| _ = black_box(calls.run(CALLS[which]))) / calls.keys.len() as f64);
        }
    }
    for (which, call) in CALLS.iter().enumerate() {
        let [low, middle, high] = quarters(time[which].iter().zip(&time[0]).map(|(a, b)| a / b).collect());
        println!("{call},{pairs},{},{:.1},{low:.3},{middle:.3},{high:.3}", ours.name, median(time[which].clone()));
    }
}

// ---- right answers

/// Random orders on few keys and many, in batches and one at a time; a listing and a check after each batch.
fn try_all(ours: &Ours) {
    let (mut batches, mut singles, mut listed) = (0, 0, 0);
    for seed in 0..400 {
        let mut rand = Rand(seed);
        let keys: Vec<u64> = (0..[8, 40, 300, 5_000][seed as usize % 4]).map(|_| rand.next() >> (seed % 60)).collect();
        let mut arena = ours.arena(keys.len() / 3 + 16);
        let len = arena.len() as u64;
        let mut map = BTreeMap::new();
        for part in 0..20 {
            let puts = 1 + rand.below(9);
            let list: Vec<u64> = (0..keys.len() * 2)
                .flat_map(|_| {
                    [
                        if rand.below(10) < puts { 1 } else { 2 + rand.below(2) as u64 },
                        keys[rand.below(keys.len())],
                        rand.next(),
                    ]
                })
                .collect();
            let mut wanted = vec![0; list.len() / 3 * 2];
            btree_batch(&mut map, &list, &mut wanted);
            if part % 5 < 4 || keys.len() > 1_000 {
                assert_eq!(ours.run(&mut arena, &list), wanted);
                batches += list.len() / 3;
            } else {
                for (order, wanted) in list.chunks(3).zip(wanted.chunks(2)) {
                    let mut second = 7;
                    let number = unsafe {
                        match order[0] {
                            1 => (ours.put)(arena.as_mut_ptr(), len, order[1], order[2], &mut second),
                            2 => (ours.get)(arena.as_ptr(), len, order[1], &mut second),
                            _ => (ours.delete)(arena.as_mut_ptr(), len, order[1], &mut second),
                        }
                    };
                    assert_eq!([number, second], wanted);
                    singles += 1;
                }
            }
            assert_eq!(unsafe { (ours.check)(arena.as_ptr(), len) }, 0);
            let (from, to) = (keys[rand.below(keys.len())], keys[rand.below(keys.len())]);
            let (from, to) = (from.min(to), from.max(to));
            let wanted: Vec<u64> = map.range(from..=to).flat_map(|(k, v)| [*k, *v]).collect();
            let mut out = vec![0; wanted.len()];
            let (mut written, mut more) = (7, 7);
            let (o, n) = (out.as_mut_ptr(), out.len() as u64);
            let number = unsafe { (ours.list)(arena.as_ptr(), len, 1, from, 1, to, o, n, &mut written, &mut more) };
            assert_eq!((number, written, more), (0, wanted.len() as u64 / 2, 0));
            assert_eq!(out, wanted);
            listed += wanted.len() / 2;
            if let Some(ranks) = &ours.ranks {
                let a = arena.as_ptr();
                let (mut second, mut third) = (7, 7);
                let below = map.range(..from).count() as u64;
                assert_eq!((unsafe { (ranks.rank)(a, len, from, &mut second) }, second), (0, below));
                let number = unsafe { (ranks.count)(a, len, 1, from, 1, to, &mut second) };
                assert_eq!((number, second), (0, wanted.len() as u64 / 2));
                let at = rand.below(map.len() + 1);
                let number = unsafe { (ranks.at)(a, len, at as u64, &mut second, &mut third) };
                let wanted = map.iter().nth(at).map_or((2, 0, 0), |(k, v)| (1, *k, *v));
                assert_eq!((number, second, third), wanted);
            }
        }
    }
    println!("{}: {batches} orders in batches, {singles} alone, {listed} pairs listed: as BTreeMap", ours.name);
}

// ---- returns

struct Returns<'a> {
    ours: &'a Ours,
    arena: Vec<u64>,
    nodes: usize,
}

impl Returns<'_> {
    /// Runs orders; says how many turns their returns took, in a copy that counts them, or else the time, less that of the checks.
    fn run(&mut self, what: &str, list: Vec<u64>) {
        let (name, nodes, orders) = (self.ours.name, self.nodes, list.len() / 3);
        let mut time = 0.0;
        for part in list.chunks(3 * OPS) {
            let mut answers = vec![0; part.len() / 3 * 2];
            time += spent(|| (self.ours.timed_batch)(&mut self.arena, part, &mut answers));
            time -= spent(|| (self.ours.timed_check)(&self.arena));
        }
        let Some(counted) = self.ours.counted else {
            println!("{what},{nodes},{name},{orders},{:.1}", time / orders as f64);
            return;
        };
        let mut three = [0; 3];
        unsafe { counted(three.as_mut_ptr()) };
        let [returns, turns, worst] = three;
        let each = |n: f64| turns as f64 / n.max(1.0);
        print!("{what},{nodes},{name},{orders},{},{returns},", self.arena[7]);
        println!("{:.2},{worst},{:.4}", each(returns as f64), each(orders as f64));
    }
}

fn returns(ours: &Ours, nodes: usize) {
    let fresh = || Returns { ours, arena: ours.arena(nodes), nodes };
    let mut rand = Rand(nodes as u64);
    let pairs = 5 * nodes;
    let keys: Vec<u64> = (0..2 * pairs).map(|_| rand.next()).collect();
    let mut r = fresh();
    r.run("grown: random puts to 5 pairs a node", orders(1, keys[..pairs].iter().copied()));
    let many: Vec<u64> = (0..10 * pairs / OPS + 1).flat_map(|_| mixed(&keys, &mut rand)).collect();
    r.run("mixed: half gets; a quarter puts and deletes each", many);
    let mut left = keys.clone();
    rand.shuffle(&mut left);
    let half = &left[..pairs];
    r.run("shrunk: random deletes of half of all keys", orders(3, half.iter().copied()));
    r.run("grown again by these", orders(1, half.iter().copied()));
    r.run("shrunk: random deletes down to empty", orders(3, left.iter().copied()));
    let m = pairs as u64;
    let mut r = fresh();
    r.run("grown: rising puts", orders(1, 0..m));
    r.run("queue: put the newest; delete the oldest", (0..m).flat_map(|k| [1, m + k, 0, 3, k, 0]).collect());
    r.run("shrunk: newest half deleted; falling", orders(3, (m + m / 2..2 * m).rev()));
    let mut r = fresh();
    r.run("grown: rising puts", orders(1, 0..m));
    r.run("shrunk: oldest half deleted; rising", orders(3, 0..m / 2));
    let q = m / 16;
    r.run("shrunk: then the newest sixteenth; falling", orders(3, (m - q..m).rev()));
    let blocks = (0..).map(|i| m - q - 400 * i).take_while(|t| *t > m / 2 + 200).flat_map(|t| t - 100..t);
    r.run("shrunk: then blocks of 100 in 400; from the top", orders(3, blocks));
}

fn main() {
    let args: Vec<String> = std::env::args().skip(1).collect();
    let words: Vec<&str> = args.iter().map(String::as_str).collect();
    fn names(list: &str) -> impl Iterator<Item = &str> {
        list.split(',').filter(|name| !name.is_empty())
    }
    let numbers = |list: &str| -> Vec<usize> { names(list).map(|n| n.parse().expect("a number")).collect() };
    match words[..] {
        ["try", ..] => OURS.iter().for_each(try_all),
        ["times", pairs, nodes, rounds, cases, calls] => {
            let rounds = rounds.parse().expect("a number");
            println!("case,pairs,who,ns,check,b1,b2,b3,a1,a2,a3,f1,f2,f3");
            for n in numbers(pairs) {
                names(cases).for_each(|case| time_case(case, n, rounds));
            }
            println!("arena,nodes,who,words,pairs,check,or,r1,r2,r3,f1,f2,f3");
            for n in numbers(nodes) {
                ["full", "grown", "free"].into_iter().for_each(|kind| time_check(kind, n, rounds));
            }
            println!("call,pairs,who,ns,g1,g2,g3");
            for n in numbers(calls) {
                UNCHECKED.iter().for_each(|ours| time_calls(ours, n, rounds));
            }
        }
        // a line for each part of callgrind's file: its name, and how many orders, words or calls it is for
        ["count", pairs, nodes, orders, cases, calls] => {
            let most = orders.parse().expect("a number");
            for n in numbers(pairs) {
                for name in names(cases) {
                    let mut case = Case::new(name, n, most);
                    case.round(true);
                    (0..ALL).for_each(|who| println!("case {name} {n} {},{}", name_of(who), case.ops));
                }
            }
            for n in numbers(nodes) {
                for kind in ["full", "grown", "free"] {
                    for (who, ours) in OURS.iter().enumerate() {
                        let arena = arena(ours, kind, n);
                        let mut part = format!("arena {kind} {n} {}", ours.name);
                        collected(&part, || (ours.timed_check)(black_box(&arena)));
                        println!("{part},{}", arena.len());
                        if who == OURS.len() - 1 {
                            part = format!("arena {kind} {n} OR");
                            collected(&part, || _ = black_box(timed_or(black_box(&arena))));
                            println!("{part},{}", arena.len());
                        }
                    }
                }
            }
            for n in numbers(calls) {
                let all = OURS.iter().map(|o| (o, 24)).chain(UNCHECKED.iter().map(|o| (o, 2_000)));
                for (ours, many) in all {
                    let calls = Calls::new(ours, n, many);
                    for call in CALLS.into_iter().filter(|c| calls.has(c)) {
                        let part = format!("call {call} {n} {}", ours.name);
                        collected(&part, || _ = black_box(calls.run(call)));
                        println!("{part},{many}");
                    }
                    // one check, to be taken off as often as there were calls
                    let check = || (ours.timed_check)(black_box(&calls.arena));
                    collected(&format!("call each {n} {}", ours.name), check);
                }
            }
        }
        ["returns", nodes] => {
            match OURS[0].counted {
                Some(_) => println!("run,nodes,who,orders,free,returns,each,most,order"),
                None => println!("run,nodes,who,orders,time"),
            }
            for n in numbers(nodes) {
                OURS.iter().for_each(|ours| returns(ours, n));
            }
        }
        _ => eprintln!("see the head of bench/native"),
    }
}
