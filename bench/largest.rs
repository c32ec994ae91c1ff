//! The largest arenas of request (x), through the library: filled, checked, listed, emptied; the highest tree, and the refusal of a higher one.
//!
//!     largest             everything, with times: a minute or two, 460 MB
//!     largest --answers   everything once, and no times: for a machine that emulates another
//!     largest --check rising|scattered NODES    fills an arena, timed_check checks it once: for callgrind's --toggle-collect
//!
//! Every answer is verified, and a wrong one stops the program. Each batch and each page of a listing has as many orders or pairs as the arena
//! has nodes, so that an order bears the check of one node in a small arena as in a large one. Times are the thread's own processor time;
//! filling, listing and emptying run once, and count the batches in which every order was accepted and the full pages; the check runs nine
//! times in turn with one OR over the words.

use std::hint::black_box;

#[allow(dead_code)]
#[path = "../rust/src/ffi.rs"]
mod ffi;
#[allow(dead_code)]
mod orders;
#[allow(dead_code)]
mod rivals;
#[allow(dead_code)]
#[path = "../oracle/src/words.rs"]
mod words;

use orders::{quarters, Rand};
use rivals::spent;
use words::{LARGEST, NONE};

const NODES: [usize; 2] = [65_535, LARGEST];
const ROUNDS: usize = 9;
const PUT: u64 = 1;
const DELETE: u64 = 3;

#[inline(never)]
fn timed_or(arena: &[u64]) -> u64 {
    rivals::or(arena)
}

/// A number that differs if a word does, but for bad luck.
fn print_of(arena: &[u64]) -> u64 {
    arena.iter().fold(1, |all, word| (all ^ word).wrapping_mul(0x9e37_79b9_7f4a_7c15).rotate_left(23))
}

fn grouped(n: u64) -> String {
    let digits = n.to_string();
    let part = |(i, c): (usize, char)| {
        let comma = i > 0 && (digits.len() - i) % 3 == 0;
        [comma.then_some(','), Some(c)]
    };
    digits.chars().enumerate().flat_map(part).flatten().collect()
}

#[no_mangle]
#[inline(never)]
fn timed_check(arena: &[u64]) {
    assert_eq!(ffi::check(arena), 0, "the check refused");
}

// ---- filled, checked, listed, emptied

/// The i-th key of a run: rising counters, or the same times an odd number, which meets no key twice and goes all over.
#[derive(Clone, Copy)]
struct Run {
    name: &'static str,
    times: u64,
}

const RUNS: [Run; 2] = [Run { name: "rising", times: 1 }, Run { name: "scattered", times: 0x9e37_79b9_7f4a_7c15 }];

impl Run {
    fn key(&self, i: u64) -> u64 {
        i.wrapping_mul(self.times)
    }

    /// The i of a key: the odd number has an inverse.
    fn place(&self, key: u64) -> u64 {
        let mut inverse = self.times;
        for _ in 0..5 {
            inverse = inverse.wrapping_mul(2_u64.wrapping_sub(self.times.wrapping_mul(inverse)));
        }
        key.wrapping_mul(inverse)
    }
}

fn value(key: u64) -> u64 {
    key ^ 0x5555_0000_aaaa_ffff
}

/// As words::formatted has them, without a second copy of so many words.
fn is_formatted(arena: &[u64], nodes: u64) -> bool {
    let next = |n: u64| if n + 1 < nodes { n + 1 } else { NONE };
    let free = |n: u64| [0, 0, next(n), 0];
    arena[..words::HEADER] == [2, nodes, 10, 0, 0, 0, next(0), nodes - 1, 0, 0]
        && (0..nodes).all(|n| {
            let (head, rest) = words::node(arena, n).split_at(words::KEYS);
            head == (if n == 0 { [1, 0, NONE, 0] } else { free(n) }) && rest.iter().all(|w| *w == 0)
        })
}

/// What check and OR took: a line of the arena as it stands.
fn checked(arena: &[u64], what: &str, timed: bool, lines: &mut Vec<String>) {
    timed_check(arena);
    if !timed {
        return;
    }
    let (mut checks, mut ors, mut ratios) = (vec![], vec![], vec![]);
    for _ in 0..ROUNDS {
        let check = spent(|| timed_check(arena));
        let or = spent(|| _ = black_box(timed_or(black_box(arena))));
        checks.push(check);
        ors.push(or);
        ratios.push(check / or);
    }
    let nodes = arena[1] as f64;
    let ([_, check, _], [_, or, _], [low, ratio, high]) = (quarters(checks), quarters(ors), quarters(ratios));
    lines.push(format!(
        "| {what} | {} | {:.2} | {:.2} | **{ratio:.2}** ({low:.2} to {high:.2}) | {:.1} | {:.1} |",
        grouped(arena[1]),
        check / 1e6,
        or / 1e6,
        check / nodes,
        or / nodes
    ));
}

/// A line of the run; the lines of its checks go to a list.
fn whole(nodes: usize, run: Run, timed: bool, lines: &mut Vec<String>) -> String {
    let mut arena = vec![0; words::long(nodes)];
    assert_eq!(ffi::format(&mut arena), 0);
    assert!(is_formatted(&arena, nodes as u64), "not the words of an empty arena");
    let mut orders = vec![0; 3 * nodes];
    let mut answers = vec![7; 2 * nodes];

    // filled, until a put finds no room
    let mut stored = Vec::new(); // by the place of a key, if it was accepted
    let (mut mark, mut pairs, mut filling, mut accepted, mut is_full) = (0, 0_u64, 0.0, 0, false);
    while !is_full {
        for order in orders.chunks_exact_mut(3) {
            let key = run.key(stored.len() as u64 + 1);
            stored.push(false);
            order.copy_from_slice(&[PUT, key, value(key)]);
        }
        let took = spent(|| assert_eq!(ffi::batch(&mut arena, &orders, &mut answers), 0));
        let first = stored.len() - nodes;
        for (i, (order, answer)) in orders.chunks_exact(3).zip(answers.chunks_exact(2)).enumerate() {
            if answer == [0, 0] {
                stored[first + i] = true;
                pairs += 1;
                mark = order[1].max(mark);
            } else {
                assert_eq!(answer, [3, 0], "a put was neither accepted nor without room");
                is_full = true;
            }
            assert!(run.times != 1 || is_full != (answer[0] == 0), "a rising counter had room again");
        }
        if !is_full {
            filling += took;
            accepted += nodes;
        }
    }
    let tried = stored.len();
    assert_eq!(&arena[words::PAIRS..=words::PAIRS], [pairs]);
    assert_eq!(&arena[words::SEEN..=words::MARK], [1, mark]);
    let (height, free) = (arena[words::HEIGHT], arena[words::FREE_NODES]);
    assert!(height <= 8 && free <= height, "free nodes are left only where a way down needs more");
    checked(&arena, &format!("filled, {}", run.name), timed, lines);
    let before = print_of(&arena);

    // listed, by pages
    let mut out = vec![0; 2 * nodes];
    let (mut start, mut met, mut last, mut listing, mut listed) = ((0, 0), 0_u64, None, 0.0, 0);
    loop {
        let mut told = ffi::Told { number: 7, written: 7, more: 7 };
        let took = spent(|| told = ffi::list(&arena, start, (0, 0), &mut out));
        assert_eq!(told.number, 0);
        for pair in out[..2 * told.written as usize].chunks_exact(2) {
            assert!(last.is_none_or(|last| last < pair[0]), "a listing does not rise");
            last = Some(pair[0]);
            assert_eq!(pair[1], value(pair[0]));
            assert!(stored[run.place(pair[0]) as usize - 1], "a pair that was never put");
        }
        met += told.written;
        assert_eq!(told.more, u64::from(met < pairs));
        if told.more == 0 {
            break;
        }
        assert_eq!(told.written, nodes as u64);
        listing += took;
        listed += nodes;
        start = (2, out[2 * nodes - 2]);
    }
    assert_eq!((met, last), (pairs, Some(mark)));
    assert_eq!(ffi::rank(&arena, mark).second, pairs - 1);
    assert_eq!(ffi::count(&arena, (0, 0), (0, 0)).second, pairs);
    let middle = ffi::at(&arena, pairs / 2);
    assert_eq!((middle.number, middle.value), (1, value(middle.key)));
    assert_eq!(ffi::rank(&arena, middle.key).second, pairs / 2);
    assert_eq!(print_of(&arena), before, "a call that only reads changed a word");

    // emptied, the oldest first
    let mut emptying = 0.0;
    for first in (0..tried).step_by(nodes) {
        for (i, order) in orders.chunks_exact_mut(3).enumerate() {
            order.copy_from_slice(&[DELETE, run.key((first + i) as u64 + 1), 0]);
        }
        let took = spent(|| assert_eq!(ffi::batch(&mut arena, &orders, &mut answers), 0));
        if first < accepted {
            emptying += took;
        }
        for (i, (order, answer)) in orders.chunks_exact(3).zip(answers.chunks_exact(2)).enumerate() {
            let due = if stored[first + i] { [1, value(order[1])] } else { [2, 0] };
            assert_eq!(answer, due, "a delete answered wrongly");
        }
    }
    let n = nodes as u64;
    assert_eq!((arena[words::HEIGHT], arena[words::PAIRS], arena[words::FREE_NODES]), (0, 0, n - 1));
    assert_eq!(&arena[words::SEEN..=words::MARK], [1, mark]);
    let chain = words::chain(&arena).expect("a chain that rises");
    assert_eq!(chain.len() as u64, n - 1);
    checked(&arena, &format!("emptied, {}", run.name), timed, lines);

    let costs = |ns: f64, of: usize| if timed { format!("{:.1}", ns / of as f64) } else { "-".to_string() };
    format!(
        "| {} | {} | {} | {} | {:.1} | {height} | {} | {} | {} |",
        run.name,
        grouped(n),
        grouped(arena.len() as u64),
        grouped(pairs),
        pairs as f64 / n as f64,
        costs(filling, accepted),
        costs(listing, listed),
        costs(emptying, accepted)
    )
}

fn fill_and_check(nodes: usize, run: Run) {
    let mut arena = vec![0; words::long(nodes)];
    assert_eq!(ffi::format(&mut arena), 0);
    let (mut i, mut answers) = (0, vec![0; 2 * nodes]);
    while answers.chunks_exact(2).all(|a| a[0] == 0) {
        let keys = (i + 1..=i + nodes as u64).map(|i| run.key(i));
        let orders: Vec<u64> = keys.flat_map(|key| [PUT, key, value(key)]).collect();
        assert_eq!(ffi::batch(&mut arena, &orders, &mut answers), 0);
        i += nodes as u64;
    }
    timed_check(&arena);
    println!("{}", arena[words::PAIRS]);
}

// ---- the highest tree

/// How many nodes a subtree of a height has, each inner one with so many children.
fn below(height: u64, children: u64) -> u64 {
    (0..height).fold(1, |all, _| 1 + children * all)
}

/// Lays a tree of one size throughout but for its root; node numbers are drawn from a list, keys are 2, 4, ..
struct Layer {
    arena: Vec<u64>,
    numbers: Vec<u64>,
    key: u64,
    size: usize,
}

impl Layer {
    fn lay(&mut self, height: u64, len: usize, parent: u64, index: u64) -> u64 {
        let n = self.numbers.pop().expect("as many numbers as nodes");
        let (mut pairs, mut under) = ([(0, 0); words::MOST], 0);
        for i in 0..=len {
            if height > 0 {
                let child = self.lay(height - 1, self.size, n, i as u64);
                self.arena[words::HEADER + words::WORDS * n as usize + words::EDGES + i] = child;
                under += words::node(&self.arena, child)[words::COUNT];
            }
            if i < len {
                self.key += 2;
                pairs[i] = (self.key, value(self.key));
            }
        }
        let state = if height == 0 { 1 } else { 2 };
        words::write_node(&mut self.arena, n, state, &pairs[..len], parent, index, under);
        n
    }

    /// A whole arena: the root with one pair, every other node with `size`.
    fn tree(height: u64, size: usize) -> Vec<u64> {
        let nodes = 1 + 2 * below(height - 1, size as u64 + 1) as usize;
        let mut numbers: Vec<u64> = (0..nodes as u64).collect();
        Rand(9).shuffle(&mut numbers);
        let mut layer = Layer { arena: vec![0; words::long(nodes)], numbers, key: 0, size };
        let root = layer.lay(height, 1, NONE, 0);
        let mark = layer.key;
        words::write_header(&mut layer.arena, nodes, root, height, mark / 2, &[], 1, mark);
        layer.arena
    }
}

/// Every call answers 4 to these words, and changes none.
fn refused(arena: &mut [u64], what: &str) {
    let before = print_of(arena);
    assert_eq!(ffi::check(arena), 4, "the check accepts {what}");
    assert!(!words::well_formed(arena), "the oracle's reading accepts {what}");
    let said = [ffi::get(arena, 2), ffi::put(arena, 3, 1), ffi::delete(arena, 2), ffi::rank(arena, 2)];
    assert!(said.iter().all(|s| (s.number, s.second) == (4, 0)), "a call takes {what}");
    assert_eq!(print_of(arena), before, "a word changed in {what}");
}

/// The words are refused whatever height the header says.
fn refused_at_all_heights(arena: &mut [u64], but: Option<u64>, what: &str) {
    let said = arena[words::HEIGHT];
    for height in (0..=12).chain([255, 256 + 8, 65_536 + 8, (1 << 32) + 8, NONE, (1 << 63) + 8, u64::MAX]) {
        if Some(height) != but {
            arena[words::HEIGHT] = height;
            refused(arena, &format!("{what}, its header with height {height}"));
        }
    }
    arena[words::HEIGHT] = said;
}

fn smallest_of_height_8() {
    let mut arena = Layer::tree(8, 5);
    let (nodes, pairs) = (arena[1], arena[words::PAIRS]);
    assert_eq!((nodes, pairs), (671_847, 3_359_231));
    assert!(words::well_formed(&arena), "the oracle's reading refuses the smallest tree of height 8");
    assert_eq!(ffi::check(&arena), 0, "the check refuses the smallest tree of height 8");
    refused_at_all_heights(&mut arena, Some(8), "the smallest tree of height 8");

    let root = words::node(&arena, arena[words::ROOT])[words::KEYS];
    for key in [2, root - 2, root, root + 2, 2 * pairs] {
        let (there, beside) = (ffi::get(&arena, key), ffi::get(&arena, key + 1));
        assert_eq!((there.number, there.second), (1, value(key)));
        assert_eq!((beside.number, beside.second), (2, 0));
        let rank = ffi::rank(&arena, key);
        assert_eq!((rank.number, rank.second), (0, key / 2 - 1));
        let at = ffi::at(&arena, key / 2 - 1);
        assert_eq!((at.number, at.key, at.value), (1, key, value(key)));
    }
    // a put takes no node; then nothing else has changed once it is gone again
    let before = print_of(&arena);
    assert_eq!(ffi::put(&mut arena, 1, 77).number, 0);
    assert_eq!((arena[words::HEIGHT], arena[words::FREE_NODES], arena[words::PAIRS]), (8, 0, pairs + 1));
    assert_eq!(ffi::delete(&mut arena, 1).second, 77);
    assert_eq!(print_of(&arena), before);
    // deletes merge all the way up: a node a level and the root come free; each time from the words as they were
    let image = arena.clone();
    for key in [2, root - 2, root, root + 2, 2 * pairs] {
        let said = ffi::delete(&mut arena, key);
        assert_eq!((said.number, said.second), (1, value(key)));
        assert_eq!((arena[words::HEIGHT], arena[words::FREE_NODES], arena[words::PAIRS]), (7, 9, pairs - 1));
        assert_eq!(arena[words::MARK], 2 * pairs);
        assert!(words::well_formed(&arena), "the oracle's reading refuses what a delete left");
        assert_eq!(ffi::check(&arena), 0);
        assert_eq!(ffi::get(&arena, key).number, 2);
        assert_eq!(ffi::restore(&mut arena, &image, 0), 0);
        assert!(arena == image);
    }
    println!(
        "height 8: {} nodes, {} pairs: accepted; get, put, delete, rank, at, restore",
        grouped(nodes),
        grouped(pairs)
    );
    println!("height 8: the same words with every other height in the header: refused");
}

/// Nine levels of inner nodes over leaves, every node but the root one pair short.
fn short_of_height_9() {
    let mut arena = Layer::tree(9, 4);
    assert_eq!(arena[1], 976_563);
    refused_at_all_heights(&mut arena, None, "a tree of height 9 with 4 pairs a node");
    println!("height 9: {} nodes with 4 pairs: refused", grouped(arena[1]));
    for size in 1..4 {
        refused_at_all_heights(&mut Layer::tree(9, size), None, "a tree of height 9 with fewer pairs a node");
    }
    println!("height 9: fewer nodes with 3, 2 or 1 pairs: refused");
}

/// Nine levels of inner nodes over leaves, every node but the root with 5 pairs: subtrees of height 7 that are sound are each reached four
/// times. Every node is in the tree, and counts are those of what is reached.
fn shared_of_height_9() {
    let subtree = below(7, 6) as usize;
    let nodes = 3 + 3 * subtree;
    assert!(nodes <= LARGEST);
    let mut numbers: Vec<u64> = (3..nodes as u64).collect();
    Rand(10).shuffle(&mut numbers);
    let mut layer = Layer { arena: vec![0; words::long(nodes)], numbers, key: 0, size: 5 };
    // node 0 is the root, 1 and 2 its children
    let mut tops = [0; 3];
    for (i, top) in tops.iter_mut().enumerate() {
        *top = layer.lay(7, 5, 1, i as u64);
        layer.key += 2;
    }
    let mut arena = layer.arena;
    let each = words::node(&arena, tops[0])[words::COUNT];
    let pairs = 1 + 2 * (5 + 6 * each);
    for inner in [1, 2] {
        let five: Vec<(u64, u64)> = (1..=5).map(|i| (i * (layer.key / 3), 0)).collect();
        words::write_node(&mut arena, inner, 2, &five, 0, inner - 1, 6 * each);
        for i in 0..6 {
            arena[words::HEADER + words::WORDS * inner as usize + words::EDGES + i] = tops[i % 3];
        }
    }
    words::write_node(&mut arena, 0, 2, &[(layer.key, 0)], NONE, 0, pairs - 1);
    arena[words::HEADER + words::EDGES..][..2].copy_from_slice(&[1, 2]);
    words::write_header(&mut arena, nodes, 0, 9, pairs, &[], 1, u64::MAX);
    refused_at_all_heights(&mut arena, None, "a shared tree of height 9");
    println!(
        "height 9: {} nodes with 5 pairs, subtrees of height 7 reached 4 times each: refused",
        grouped(nodes as u64)
    );

    // one node a level, reached by all edges above it
    let mut arena = vec![0; words::long(10)];
    let mut under = 0;
    for n in (0..10).rev() {
        let (len, state) = (if n == 0 { 1 } else { 5 }, if n == 9 { 1 } else { 2 });
        let pairs: Vec<(u64, u64)> = (1..=len).map(|i| (i, 0)).collect();
        let edges = if n == 9 { 0 } else { len + 1 };
        words::write_node(&mut arena, n, state, &pairs, if n == 0 { NONE } else { n - 1 }, 0, under * edges);
        for i in 0..edges as usize {
            arena[words::HEADER + words::WORDS * n as usize + words::EDGES + i] = n + 1;
        }
        under = words::node(&arena, n)[words::COUNT];
    }
    words::write_header(&mut arena, 10, 0, 9, under, &[], 1, u64::MAX);
    refused_at_all_heights(&mut arena, None, "one shared node a level");
    println!("height 9: one node a level, shared by all above it: refused");
}

/// One node more than the largest arena: no format, and no arena.
fn one_node_more() {
    let mut arena = vec![0; words::long(LARGEST + 1)];
    assert_eq!(ffi::format(&mut arena), 7);
    assert!(arena.iter().all(|w| *w == 0), "a refused format changed a word");
    arena = words::formatted(LARGEST + 1);
    refused(&mut arena, "an arena with one node more than the largest");
    println!("{} nodes: no format (7), no arena (4)", grouped(LARGEST as u64 + 1));
}

fn main() {
    let asked: Vec<String> = std::env::args().skip(1).collect();
    if let [check, keys, nodes] = &asked[..] {
        assert_eq!(check, "--check");
        let run = RUNS.into_iter().find(|run| run.name == keys).expect("rising or scattered");
        return fill_and_check(nodes.parse().expect("a number of nodes"), run);
    }
    let timed = match asked.iter().map(String::as_str).collect::<Vec<_>>()[..] {
        [] => true,
        ["--answers"] => false,
        _ => panic!("largest [--answers]"),
    };
    smallest_of_height_8();
    short_of_height_9();
    shared_of_height_9();
    one_node_more();
    let (mut runs, mut checks) = (Vec::new(), Vec::new());
    for run in RUNS {
        for nodes in NODES {
            runs.push(whole(nodes, run, timed, &mut checks));
        }
    }
    println!("\n| keys | nodes | words | pairs | pairs a node | height | fill, ns an order | list, ns a pair | empty, ns an order |");
    println!("|---|---|---|---|---|---|---|---|---|\n{}", runs.join("\n"));
    if timed {
        println!("\n| arena | nodes | check, ms | OR, ms | check / OR | check, ns a node | OR, ns a node |");
        println!("|---|---|---|---|---|---|---|\n{}", checks.join("\n"));
    }
    println!("\nEvery answer was as it should be.");
}
