//! Times the static library beside BTreeMap and absl::btree_map: the same orders, interleaved, answers compared.
//!
//!     bench time [--short]          a line a case and size: medians in nanoseconds
//!     bench count CASE PAIRS WHO    one round of one case for one of ours, btree, absl, for callgrind (see bench/run)
//!     bench check full|grown|free NODES     one check and one OR of an arena, for callgrind

use std::collections::BTreeMap;
use std::hint::black_box;
use std::time::Instant;

#[allow(dead_code)]
#[path = "../rust/src/ffi.rs"]
mod ffi;
mod orders;
#[allow(dead_code)]
mod rivals;

use orders::{drawn, median, mixed, orders, quarters, Keys, Rand, OPS};
use rivals::{absl_batch, absl_free, absl_new, Absl};

extern "C" {
    fn timed_absl_batch(map: *mut Absl, orders: *const u64, n: usize, answers: *mut u64);
    fn timed_absl_list(map: *mut Absl, out: *mut u64, room: usize) -> usize;
}

// ---- what is timed, and what callgrind counts by name

#[no_mangle]
#[inline(never)]
fn timed_ours_batch(arena: &mut [u64], orders: &[u64], answers: &mut [u64]) {
    assert_eq!(ffi::batch(arena, orders, answers), 0);
}

#[no_mangle]
#[inline(never)]
fn timed_ours_check(arena: &[u64]) {
    assert_eq!(ffi::check(arena), 0);
}

#[no_mangle]
#[inline(never)]
fn timed_ours_get(arena: &[u64], key: u64) -> u64 {
    ffi::get(arena, key).second
}

#[no_mangle]
#[inline(never)]
fn timed_ours_list(arena: &[u64], out: &mut [u64]) -> usize {
    ffi::list(arena, (0, 0), (0, 0), out).written as usize
}

#[no_mangle]
#[inline(never)]
fn timed_or(arena: &[u64]) -> u64 {
    rivals::or(arena)
}

#[no_mangle]
#[inline(never)]
fn timed_btree_batch(map: &mut BTreeMap<u64, u64>, orders: &[u64], answers: &mut [u64]) {
    rivals::btree_batch(map, orders, answers);
}

#[no_mangle]
#[inline(never)]
fn timed_btree_list(map: &BTreeMap<u64, u64>, out: &mut [u64]) -> usize {
    let mut wrote = 0;
    for ((key, value), pair) in map.iter().zip(out.chunks_exact_mut(2)) {
        pair[0] = *key;
        pair[1] = *value;
        wrote += 1;
    }
    wrote
}

// ---- the three, each behind the same orders

#[derive(Clone, Copy, PartialEq)]
enum Who {
    Ours,
    Btree,
    Absl,
}

const ALL: [Who; 3] = [Who::Ours, Who::Btree, Who::Absl];

struct Three {
    turn: usize,
    arena: Vec<u64>,
    btree: BTreeMap<u64, u64>,
    absl: *mut Absl,
}

/// Nanoseconds and orders of the runs, and of the checks alone. Of ours every second run is timed, and before each other
/// one a check: a check just before a timed run would warm the caches for the run's own.
#[derive(Clone, Copy, Default)]
struct Spent {
    run: f64,
    ran: usize,
    check: f64,
    checked: usize,
}

impl Spent {
    fn of_run(run: f64, ran: usize) -> Self {
        Spent { run, ran, ..Spent::default() }
    }

    fn add(&mut self, other: Spent) {
        self.run += other.run;
        self.ran += other.ran;
        self.check += other.check;
        self.checked += other.checked;
    }
}

fn spent(f: impl FnOnce()) -> f64 {
    let start = Instant::now();
    f();
    start.elapsed().as_nanos() as f64
}

impl Three {
    fn new(nodes: usize) -> Self {
        let mut arena = vec![0; 10 + 39 * nodes];
        assert_eq!(ffi::format(&mut arena), 0);
        Three { turn: 0, arena, btree: BTreeMap::new(), absl: unsafe { absl_new() } }
    }

    /// Runs orders untimed.
    fn fill(&mut self, who: Who, orders: &[u64]) {
        let mut answers = vec![0; orders.len() / 3 * 2];
        match who {
            Who::Ours => assert_eq!(ffi::batch(&mut self.arena, orders, &mut answers), 0),
            Who::Btree => self.btree.extend(orders.chunks_exact(3).map(|o| (o[1], o[2]))),
            Who::Absl => unsafe { absl_batch(self.absl, orders.as_ptr(), orders.len() / 3, answers.as_mut_ptr()) },
        }
    }

    fn run(&mut self, who: Who, orders: &[u64], answers: &mut [u64]) -> Spent {
        let n = orders.len() / 3;
        match who {
            Who::Ours => self.ours(n, |arena| timed_ours_batch(arena, orders, answers)),
            Who::Btree => Spent::of_run(spent(|| timed_btree_batch(&mut self.btree, orders, answers)), n),
            Who::Absl => {
                let (orders, answers) = (orders.as_ptr(), answers.as_mut_ptr());
                Spent::of_run(spent(|| unsafe { timed_absl_batch(self.absl, orders, n, answers) }), n)
            }
        }
    }

    fn list(&mut self, who: Who, out: &mut [u64]) -> Spent {
        let n = out.len() / 2;
        match who {
            Who::Ours => self.ours(n, |arena| assert_eq!(timed_ours_list(arena, out), n)),
            Who::Btree => Spent::of_run(spent(|| assert_eq!(timed_btree_list(&self.btree, out), n)), n),
            Who::Absl => {
                let f = || assert_eq!(unsafe { timed_absl_list(self.absl, out.as_mut_ptr(), n) }, n);
                Spent::of_run(spent(f), n)
            }
        }
    }

    fn ours(&mut self, n: usize, f: impl FnOnce(&mut [u64])) -> Spent {
        self.turn += 1;
        if self.turn % 2 == 1 {
            return Spent::of_run(spent(|| f(&mut self.arena)), n);
        }
        let check = spent(|| timed_ours_check(&self.arena));
        f(&mut self.arena);
        Spent { check, checked: n, ..Spent::default() }
    }
}

impl Drop for Three {
    fn drop(&mut self) {
        unsafe { absl_free(self.absl) }
    }
}

const BATCH: usize = 1_000;

// ---- cases

const CASES: [&str; 9] = ["get", "absent", "replace", "new", "delete", "list", "mixed", "batches", "swept"];

/// What a round of a case comes to: orders, batches of them, and the times of the three.
struct Round {
    ops: usize,
    batches: usize,
    spent: [Spent; 3],
}

impl Round {
    /// Nanoseconds an order.
    fn run(&self, who: Who) -> Option<f64> {
        let s = self.spent[who as usize];
        (s.ran > 0).then(|| s.run / s.ran as f64)
    }

    fn check(&self) -> Option<f64> {
        let s = self.spent[0];
        (s.checked > 0).then(|| s.check / s.checked as f64)
    }
}

struct Case {
    name: &'static str,
    keys: Keys,
    three: Three,
    turn: u64,
}

impl Case {
    fn new(name: &'static str, pairs: usize, who: &[Who]) -> Self {
        let keys = Keys::new(pairs);
        let mut three = Three::new(keys.nodes(matches!(name, "new" | "delete")));
        for w in who {
            three.fill(*w, &orders(1, keys.present.iter().copied()));
        }
        Case { name, keys, three, turn: 0 }
    }

    /// One round of the case for each of those asked for, in turn.
    fn round(&mut self, who: &[Who]) -> Round {
        self.turn += 1;
        let mut rand = Rand(self.turn * 1_000_003);
        let every = self.keys.every();
        match self.name {
            "get" => self.one(who, drawn(2, &self.keys.present, &mut rand), OPS),
            "absent" => self.one(who, drawn(2, &self.keys.absent, &mut rand), OPS),
            "replace" => self.one(who, drawn(1, &self.keys.present, &mut rand), OPS),
            "mixed" => self.one(who, mixed(&every, &mut rand), OPS),
            "batches" | "swept" => self.one(who, mixed(&every, &mut rand), BATCH),
            "new" | "delete" => self.grow(who, &mut rand),
            _ => self.list(who),
        }
    }

    /// Orders in batches of one length. A check leaves the caches full of the arena; where the case says so, the other two
    /// run after a pass over as many words.
    fn one(&mut self, who: &[Who], orders: Vec<u64>, batch: usize) -> Round {
        let mut answers = vec![vec![0; orders.len() / 3 * 2]; 3];
        let mut total = [Spent::default(); 3];
        for w in who {
            let parts = orders.chunks(3 * batch).zip(answers[*w as usize].chunks_mut(2 * batch));
            for (orders, answers) in parts {
                if self.name == "swept" && *w != Who::Ours {
                    black_box(timed_or(black_box(&self.three.arena)));
                }
                total[*w as usize].add(self.three.run(*w, orders, answers));
            }
        }
        same(who, &answers);
        Round { ops: orders.len() / 3, batches: orders.len().div_ceil(3 * batch), spent: total }
    }

    /// Puts all absent keys and deletes them again, as often as makes OPS orders; one of the two is timed.
    fn grow(&mut self, who: &[Who], rand: &mut Rand) -> Round {
        let times = OPS / self.keys.absent.len();
        let mut total = [Spent::default(); 3];
        for _ in 0..times {
            for code in [1, 3] {
                rand.shuffle(&mut self.keys.absent);
                let orders = orders(code, self.keys.absent.iter().copied());
                let mut answers = vec![vec![0; orders.len() / 3 * 2]; 3];
                let timed = (code == 1) == (self.name == "new");
                for w in who {
                    if timed {
                        total[*w as usize].add(self.three.run(*w, &orders, &mut answers[*w as usize]));
                    } else {
                        self.untimed(*w, &orders);
                    }
                }
                if timed {
                    same(who, &answers);
                }
            }
        }
        Round { ops: times * self.keys.absent.len(), batches: times, spent: total }
    }

    /// The other half of `grow`, by calls that callgrind does not count.
    fn untimed(&mut self, who: Who, orders: &[u64]) {
        match who {
            Who::Btree => {
                for order in orders.chunks_exact(3) {
                    if order[0] == 1 {
                        self.three.btree.insert(order[1], order[2]);
                    } else {
                        self.three.btree.remove(&order[1]);
                    }
                }
            }
            _ => self.three.fill(who, orders),
        }
    }

    /// All pairs, as often as makes OPS pairs.
    fn list(&mut self, who: &[Who]) -> Round {
        let pairs = self.keys.present.len();
        let times = (OPS / pairs).max(1);
        let mut total = [Spent::default(); 3];
        let mut out = vec![vec![0; 2 * pairs]; 3];
        for _ in 0..times {
            for w in who {
                total[*w as usize].add(self.three.list(*w, &mut out[*w as usize]));
            }
        }
        same(who, &out);
        Round { ops: times * pairs, batches: times, spent: total }
    }
}

/// All that ran answered the same.
fn same(who: &[Who], answers: &[Vec<u64>]) {
    assert!(who.windows(2).all(|w| answers[w[0] as usize] == answers[w[1] as usize]), "the answers differ");
}

/// The three in another order each round.
fn rotated(round: usize) -> [Who; 3] {
    [ALL[round % 3], ALL[(round + 1) % 3], ALL[(round + 2) % 3]]
}

fn time_cases(pairs: usize, rounds: usize) {
    for name in CASES {
        let mut case = Case::new(name, pairs, &ALL);
        let rounds: Vec<Round> = (0..rounds).map(|r| case.round(&rotated(r))).collect();
        let of = |f: &dyn Fn(&Round) -> Option<f64>| median(rounds.iter().filter_map(f).collect());
        let (ours, check) = (of(&|r| r.run(Who::Ours)), of(&|r| r.check()));
        let (btree, absl) = (of(&|r| r.run(Who::Btree)), of(&|r| r.run(Who::Absl)));
        // a round's own ratio: the three ran one after the other, whatever else the machine did that minute
        let ratio = |who: Who| {
            let one = |r: &Round| Some((r.run(Who::Ours)? - r.check().unwrap_or(check)) / r.run(who)?);
            quarters(rounds.iter().filter_map(one).collect())
        };
        let ([b1, b2, b3], [a1, a2, a3]) = (ratio(Who::Btree), ratio(Who::Absl));
        let (ops, batches) = (rounds[0].ops, rounds[0].batches);
        print!("{name},{pairs},{ops},{batches},{ours:.2},{check:.2},{btree:.2},{absl:.2},");
        println!("{b1:.3},{b2:.3},{b3:.3},{a1:.3},{a2:.3},{a3:.3}");
    }
}

/// An arena with no free node to speak of: filled at random until there is no room.
fn full(nodes: usize) -> Vec<u64> {
    let mut three = Three::new(nodes);
    let mut rand = Rand(nodes as u64);
    let asked: Vec<u64> = (0..11 * nodes).map(|_| rand.next()).collect();
    three.fill(Who::Ours, &orders(1, asked.into_iter()));
    std::mem::take(&mut three.arena)
}

/// An arena as it is in use: grown at random to five pairs a node, so that about a quarter of the nodes are free.
fn grown(nodes: usize) -> Vec<u64> {
    let mut three = Three::new(nodes);
    let mut rand = Rand(nodes as u64);
    let asked: Vec<u64> = (0..5 * nodes).map(|_| rand.next()).collect();
    three.fill(Who::Ours, &orders(1, asked.into_iter()));
    std::mem::take(&mut three.arena)
}

fn free(nodes: usize) -> Vec<u64> {
    std::mem::take(&mut Three::new(nodes).arena)
}

fn arena(kind: &str, nodes: usize) -> Vec<u64> {
    match kind {
        "full" => full(nodes),
        "grown" => grown(nodes),
        _ => free(nodes),
    }
}

const NODES: [usize; 5] = [16, 160, 1_600, 16_000, 65_535];

/// The check beside one OR over the same words, and a single get, which checks first.
fn time_check(nodes: usize, rounds: usize) {
    for name in ["full", "grown", "free"] {
        let arena = arena(name, nodes);
        let times = (4_000_000 / arena.len()).max(1);
        let (mut check, mut or, mut get) = (vec![], vec![], vec![]);
        for round in 0..rounds {
            let f = || (0..times).for_each(|_| timed_ours_check(black_box(&arena)));
            let g = || (0..times).for_each(|_| _ = black_box(timed_or(black_box(&arena))));
            let h = || (0..times).for_each(|i| _ = black_box(timed_ours_get(black_box(&arena), i as u64)));
            if round % 2 == 0 {
                check.push(spent(f));
                or.push(spent(g));
            } else {
                or.push(spent(g));
                check.push(spent(f));
            }
            get.push(spent(h));
        }
        let each = |list| quarters(list)[0] / times as f64; // other work on the machine only adds
        let (check, or, get) = (each(check), each(or), each(get));
        println!("{name},{nodes},{},{pairs},{check:.1},{or:.1},{get:.1}", arena.len(), pairs = arena[5]);
    }
}

fn main() {
    let args: Vec<String> = std::env::args().skip(1).collect();
    let words: Vec<&str> = args.iter().map(String::as_str).collect();
    match words[..] {
        ["time", ref short @ ..] => {
            let (sizes, nodes, rounds): (&[usize], &[usize], usize) = match short {
                [] => (&[100, 1_000, 10_000, 50_000, 150_000], &NODES, 41),
                _ => (&[1_000, 50_000], &NODES[1..3], 9),
            };
            println!("case,pairs,orders,batches,ours,check,btree,absl,b1,b2,b3,a1,a2,a3");
            sizes.iter().for_each(|pairs| time_cases(*pairs, rounds));
            println!("arena,nodes,words,pairs,check,or,get");
            nodes.iter().for_each(|n| time_check(*n, rounds));
        }
        ["count", case, pairs, who] => {
            let who = [match who {
                "ours" => Who::Ours,
                "btree" => Who::Btree,
                _ => Who::Absl,
            }];
            let name = CASES.into_iter().find(|c| *c == case).expect("a case");
            let round = Case::new(name, pairs.parse().expect("a number"), &who).round(&who);
            println!("{},{}", round.ops, round.batches);
        }
        ["check", kind, nodes] => {
            let nodes = nodes.parse().expect("a number");
            let arena = arena(kind, nodes);
            timed_ours_check(black_box(&arena));
            black_box(timed_or(black_box(&arena)));
            println!("{},{}", arena.len(), arena[5]);
        }
        _ => eprintln!(
            "bench time [--short] | bench count CASE PAIRS ours|btree|absl | bench check full|grown|free NODES"
        ),
    }
}
