//! What `explain` says of words, held against the proved check: on every arena of the damage list (crates/damage) and on random damage.
#![cfg(feature = "alloc")]
#![allow(clippy::unwrap_used, clippy::indexing_slicing, clippy::arithmetic_side_effects, reason = "a test may stop")]

mod common;
#[allow(dead_code, reason = "the program shows more than the test looks at")]
#[path = "../src/bin/explain/rules.rs"]
mod rules;

use common::{base, filled, long, Rand, COUNT, EDGES, KEYS, LINK, NONE, VALUES};
use cuffgarnet::Index;
use rules::{Arena, Fault, Place, RULES};
use std::path::Path;

/// A file of the repository; none in a package, which has only the crate.
fn in_repository(path: &str) -> Option<String> {
    std::fs::read_to_string(Path::new(env!("CARGO_MANIFEST_DIR")).join("..").join(path)).ok()
}

/// What `explain` says, which must be what the check says.
fn explained(words: &[u64]) -> Option<Fault> {
    let fault = Arena::read(words).first_fault();
    assert_eq!(fault.is_none(), Index::open(words).is_ok(), "{fault:?} of {words:?}");
    fault
}

#[test]
fn the_rules_are_those_of_the_document() {
    let Some(document) = in_repository("docs/RULES.md") else { return };
    let section = document.split("## 2. Well-formed").nth(1).unwrap().split("From these it follows").next().unwrap();
    let flat = section.split_whitespace().collect::<Vec<_>>().join(" ");
    for (at, rule) in (1..).zip(RULES) {
        assert!(flat.contains(&format!("{at}. {rule}")), "rule {at} reads otherwise");
    }
    assert!(!section.contains(&format!("\n{}. ", RULES.len() + 1)));
}

// ---- the damage list

fn formatted(nodes: usize) -> Vec<u64> {
    Index::with_nodes(nodes).unwrap().into_words()
}

fn leaf(w: &mut [u64], node: usize, index: u64, keys: &[u64]) {
    let b = base(node);
    w[b..b + 4].copy_from_slice(&[1, keys.len() as u64, 3, index]);
    for (i, key) in keys.iter().enumerate() {
        w[b + KEYS + i] = *key;
        w[b + VALUES + i] = key + 100;
    }
    w[b + COUNT] = keys.len() as u64;
}

/// 7 in node 3, between nodes 0 (1 to 6) and 4 (8 to 12); nodes 1 and 2 are free.
fn tree() -> Vec<u64> {
    let mut w = formatted(5);
    w[3..10].copy_from_slice(&[3, 1, 12, 1, 2, 1, 12]);
    leaf(&mut w, 0, 0, &[1, 2, 3, 4, 5, 6]);
    leaf(&mut w, 4, 1, &[8, 9, 10, 11, 12]);
    w[base(1) + LINK] = 2;
    w[base(2) + LINK] = NONE;
    let b = base(3);
    w[b..b + 5].copy_from_slice(&[2, 1, NONE, 0, 7]);
    w[b + VALUES] = 107;
    w[b + EDGES..b + EDGES + 2].copy_from_slice(&[0, 4]);
    w[b + COUNT] = 12;
    w
}

/// The digits that crates/damage prints for an arena whose words are damaged one at a time, a line a word.
fn every_word(good: &[u64]) -> Vec<String> {
    assert_eq!(explained(good), None);
    let answer = |at: usize, word: u64| {
        let mut words = good.to_vec();
        words[at] = word;
        if explained(&words).is_none() {
            '0'
        } else {
            '4'
        }
    };
    let damages = |v: u64| [v.wrapping_add(1), v.wrapping_sub(1), 0, 1, 2, 3, 4, 5, 6, 7, 11, 12, NONE, u64::MAX];
    (0..good.len()).map(|at| damages(good[at]).into_iter().map(|word| answer(at, word)).collect()).collect()
}

/// Every length up to 205, of words that were formatted as far as that can be: the digits of formatting and of the check.
fn sizes() -> Vec<String> {
    let mut words = vec![7; 205];
    let mut said = Vec::new();
    for long in 0..=205 {
        let format = if Index::format(&mut words[..long]).is_ok() { '0' } else { '7' };
        let check = if explained(&words[..long]).is_none() { '0' } else { '4' };
        said.push(format!("{format}{check}"));
    }
    said
}

/// The five arenas that are wrong in one respect alone, with the rule and the place that is to be named.
fn five() -> [(Vec<u64>, usize, Place); 5] {
    let mut short_leaf = tree();
    let b = base(4);
    [short_leaf[5], short_leaf[b + 1], short_leaf[b + 8], short_leaf[b + 19], short_leaf[b + COUNT]] = [11, 4, 0, 0, 4];
    short_leaf[base(3) + COUNT] = 11;
    let mut lost_node = tree();
    [lost_node[7], lost_node[base(1) + LINK]] = [1, NONE];
    let mut empty_root = tree();
    empty_root[base(3)..base(5)].fill(0);
    [empty_root[5], empty_root[7], empty_root[base(3)], empty_root[base(3) + LINK]] = [6, 3, 2, NONE];
    [empty_root[base(3) + COUNT], empty_root[base(4) + LINK], empty_root[base(2) + LINK]] = [6, NONE, 4];
    let mut falling = tree();
    [falling[6], falling[base(1) + LINK], falling[base(2) + LINK]] = [2, NONE, 1];
    let mut shifted_counts = tree();
    [shifted_counts[base(0) + COUNT], shifted_counts[base(4) + COUNT]] = [7, 4];
    [
        (short_leaf, 7, Place::Node(4, 1)),
        (lost_node, 4, Place::Node(2, 0)),
        (empty_root, 7, Place::Node(3, 1)),
        (falling, 4, Place::Node(2, LINK)),
        (shifted_counts, 9, Place::Node(0, COUNT)),
    ]
}

#[test]
fn on_the_damage_list() {
    let words: Vec<String> = formatted(2).iter().map(u64::to_string).collect();
    let mut said = vec![words.join(" ") + " "];
    said.extend(every_word(&formatted(1)));
    said.extend(sizes());
    said.extend(every_word(&tree()));
    for (words, rule, place) in five() {
        let fault = explained(&words).unwrap();
        assert_eq!((fault.rule, fault.place), (rule, place), "{}", fault.what);
        said.push("4".to_string());
    }
    assert_eq!(said.len(), 1 + 49 + 206 + 205 + 5);
    if let Some(stored) = in_repository("crates/damage/stdout") {
        assert!(stored.lines().eq(said)); // line for line what the proved program writes
    }
}

// ---- random damage

/// Arenas of heights 0 to 3, some of whose nodes were returned.
fn some() -> Vec<Vec<u64>> {
    let mut holes = filled(120, (0..450).map(|k| 3 * k));
    for key in (0..450).filter(|k| k % 7 < 3) {
        holes.remove(3 * key).unwrap();
    }
    let mut emptied = filled(30, 1..=100);
    emptied.remove_range(..).unwrap();
    let all = [filled(1, 1..=11), filled(3, 1..=12), filled(64, 1..=300), filled(300, 0..1300), holes, emptied];
    all.into_iter().map(Index::into_words).chain([formatted(1), formatted(7), tree()]).collect()
}

/// Takes the last pairs of a node out, and leaves no word behind that is not in use.
fn shorten(words: &mut [u64], node: usize, to: usize) {
    let b = base(node);
    let inner = usize::from(words[b] == 2);
    if words[b] != 0 && to < long(words[b + 1]) {
        words[b + 1] = to as u64;
        words[b + KEYS + to..b + VALUES].fill(0);
        words[b + VALUES + to..b + EDGES].fill(0);
        words[b + EDGES + to + inner..b + COUNT].fill(0);
    }
}

#[test]
fn on_random_damage() {
    let mut rand = Rand(27);
    let mut met = [0; 11];
    for good in some() {
        assert_eq!(explained(&good), None);
        let turns = 2_000_000 / (good.len() + 1_000);
        for _ in 0..turns {
            let mut words = good.clone();
            for _ in 0..=rand.below(3) {
                // one word in three of the header; small numbers, words of the arena itself, their neighbours, or anything
                let at = long(if rand.below(3) == 0 { rand.below(10) } else { rand.below(good.len() as u64) });
                let other = good[long(rand.below(good.len() as u64))];
                words[at] = match rand.below(8) {
                    0 => rand.next(),
                    1 => words[at] ^ (1 << rand.below(64)),
                    2 => words[at].wrapping_add(1),
                    3 => words[at].wrapping_sub(1),
                    4 => NONE,
                    5 => rand.below(13),
                    _ => other,
                };
            }
            if rand.below(5) == 0 {
                words = good.clone();
                shorten(&mut words, long(rand.below(good[1])), long(rand.below(11)));
            }
            if rand.below(50) == 0 {
                words.truncate(long(rand.below(words.len() as u64 + 1)));
            }
            met[explained(&words).map_or(0, |fault| fault.rule)] += 1;
        }
    }
    assert!(met.iter().all(|n| *n > 20), "each rule is to be the first that fails: {met:?}");
}

#[test]
fn on_flipped_bits_and_on_noise() {
    let good = filled(12, (1..=40).map(|key| 1000 * key)).into_words();
    let mut believed = 0;
    for at in 0..good.len() {
        for bit in [0, 1, 2, 5, 9, 31, 32, 63] {
            let mut words = good.clone();
            words[at] ^= 1 << bit;
            believed += usize::from(explained(&words).is_none());
        }
    }
    assert!(believed > 40 * 8, "values may be anything: {believed}");
    // nodes that are sound by themselves, with links and edges that lead anywhere, round and round too
    let mut rand = Rand(28);
    let mut met = [0; 11];
    for _ in 0..4000 {
        let nodes = 1 + rand.below(6);
        let mut words = vec![0; base(long(nodes))];
        words[..3].copy_from_slice(&[2, nodes, 10]);
        words[3..10].fill_with(|| rand.below(nodes + 1));
        for node in 0..long(nodes) {
            let b = base(node);
            let (state, length) = (rand.below(3), long(rand.below(4)));
            let to = |rand: &mut Rand| if rand.below(4) == 0 { NONE } else { rand.below(nodes) };
            words[b] = state;
            words[b + LINK] = to(&mut rand);
            if state > 0 {
                words[b + 1] = length as u64;
                words[b + KEYS..b + KEYS + length].fill_with(|| rand.below(99));
                words[b + COUNT] = rand.below(9);
            }
            if state == 2 {
                words[b + EDGES..=b + EDGES + length].fill_with(|| rand.below(nodes));
            }
        }
        met[explained(&words).map_or(0, |fault| fault.rule)] += 1;
    }
    assert!(met[3] > 500 && met[4] > 1000 && met[0] == 0, "{met:?}");
}

#[test]
fn says_the_node_and_the_word() {
    let good = filled(64, 1..=300).into_words();
    let root = long(good[3]);
    let child = long(good[base(root) + EDGES]);
    let last = |w: &[u64]| long(w[base(root) + EDGES + long(w[base(root) + 1])]);
    let cases: [(usize, u64, usize, Place, &str); 9] = [
        (0, 1, 1, Place::Header(0), "the format number is 1: an arena of format 1, which only the upgrade reads"),
        (base(child), 3, 2, Place::Node(child as u64, 0), "the state is 3"),
        (base(root) + EDGES, 64, 3, Place::Node(root as u64, EDGES), "leads to node 64, and there are 64"),
        (base(child) + LINK, 63, 5, Place::Node(child as u64, LINK), "the parent is 63, and edge 0 of node"),
        (
            4,
            1,
            6,
            Place::Node(long(good[base(child) + EDGES]) as u64, 0),
            "a leaf 2 levels below the root, and the height is 1",
        ),
        (base(root) + KEYS, 1, 8, Place::Node(root as u64, KEYS), "the key 1 comes after"),
        (5, 299, 9, Place::Header(5), "the number of pairs is 299, and there are 300"),
        (base(last(&good)) + COUNT, 1, 9, Place::Node(last(&good) as u64, COUNT), "the count is 1, and there are"),
        (9, 299, 10, Place::Header(9), "the mark is 299, and the key 300 is larger"),
    ];
    for (at, word, rule, place, what) in cases {
        let mut words = good.clone();
        words[at] = word;
        let fault = explained(&words).unwrap();
        assert_eq!((fault.rule, fault.place), (rule, place), "{}", fault.what);
        assert!(fault.what.contains(what), "{}", fault.what);
    }
}

#[test]
fn on_a_large_one() {
    let index = filled(10_000, (0..50_000).map(|key: u64| key.wrapping_mul(0x9e37_79b9_7f4a_7c15)));
    let words = index.into_words();
    assert_eq!(explained(&words), None);
    assert_eq!(Arena::read(&words).chain.len() as u64, words[7]);
}
