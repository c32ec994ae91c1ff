//! The records that crates/replay is run on, three words each, and what it must write for them.
//!   a record that is none of those below: an order; its number and second word
//!   256: formats anew; 0 0
//!   512 + 4 s + e, key, value: a listing from key to value, whose kinds of bound are s and e, into 17 words of 9; its number, how many
//!     pairs, whether more remain, the mix
//!   1024 + 4 s + e: a fork of the same, never on a bad range; node, lower and upper edge and the children's bounds, or node and edge
//!   2048: the mix so far and the ten header words
//! All words of the arena are mixed in after each order and each formatting, and those of the output after each listing.

use std::fmt::Write;

use crate::btree::Fork;
use crate::rust::{Rust, end};
use crate::slab::Slab;
use crate::source::{KINDS, Source};
use crate::words;

const NODES: usize = 150;
const FORMAT: u64 = 256;
const LISTING: u64 = 512;
const FORK: u64 = 1024;
const TELL: u64 = 2048;
const OUTPUT: usize = 17;

fn mixed(mix: u64, w: &[u64]) -> u64 {
    w.iter().fold(mix, |mix, w| mix.wrapping_mul(31).wrapping_add(*w))
}

/// The kinds of a record's bounds.
fn kinds(code: u64) -> (u64, u64) {
    (code / 4 % 4, code % 4)
}

pub fn answers(records: &[[u64; 3]]) -> String {
    let (slab, other) = (Slab::new(NODES), Slab::beside(NODES));
    let mut rust = Rust::new(&slab, &other);
    let (mut mix, mut said) = (0, String::new());
    for record in records {
        let [code, key, value] = *record;
        let (s, e) = kinds(code);
        let line = match code {
            FORMAT => {
                rust = Rust::new(&slab, &other);
                mix = mixed(mix, &rust.words());
                "0 0".to_string()
            }
            LISTING..FORK => {
                let mut out = [9; OUTPUT];
                let (number, wrote, more) = match rust.range(end(s, key), end(e, value), OUTPUT / 2) {
                    None => (5, 0, 0),
                    Some(got) => {
                        for (i, (k, v)) in got.pairs.iter().enumerate() {
                            (out[2 * i], out[2 * i + 1]) = (*k, *v);
                        }
                        (0, got.pairs.len(), got.more as u64)
                    }
                };
                mix = mixed(mix, &out);
                format!("{number} {wrote} {more} {mix}")
            }
            FORK..TELL => match rust.map.fork(end(s, key), end(e, value)).expect("a root, and a good range") {
                Fork::Together { node, at } => format!("{node} {at}"),
                Fork::Parted { node, lower, upper, start, end } => {
                    format!("{node} {lower} {upper} {} {} {} {}", start.0, start.1, end.0, end.1)
                }
            },
            TELL => {
                let w = rust.words();
                let header: Vec<String> = w[..words::HEADER].iter().map(u64::to_string).collect();
                format!("{mix} {}", header.join(" "))
            }
            _ => {
                let (number, second) = rust.order(*record);
                mix = mixed(mix, &rust.words());
                format!("{number} {second}")
            }
        };
        writeln!(said, "{line}").expect("a string takes it");
    }
    said
}

/// Document 01's key lists that its orders can show, then histories of each kind, with listings, forks and tellings between.
pub fn sample() -> Vec<[u64; 3]> {
    let mut all = Vec::new();
    lists(&mut all);
    let (slab, other) = (Slab::new(NODES), Slab::beside(NODES));
    for (i, kind) in KINDS.into_iter().enumerate() {
        all.push([FORMAT, 0, 0]);
        let mut rust = Rust::new(&slab, &other);
        let mut source = Source::new(kind, NODES, 7000 + i as u64);
        for turn in 0..5000 {
            let order = source.order(&rust);
            rust.order(order);
            all.push(order);
            if turn % 12 == 5 && !rust.map.is_rootless() {
                let ((s, start), (e, finish)) = source.range(&rust);
                all.push([LISTING + 4 * s + e, start, finish]);
            }
            if turn % 12 == 11 && !rust.map.is_rootless() {
                let ((s, start), (e, finish)) = source.range(&rust);
                if rust.map.fork(end(s, start), end(e, finish)).is_some() {
                    all.push([FORK + 4 * s + e, start, finish]);
                }
            }
            if turn % 25 == 24 {
                all.push([TELL, 0, 0]);
            }
        }
    }
    all
}

fn lists(all: &mut Vec<[u64; 3]>) {
    let put = |k: u64| [1, k, k + 1000];
    let to_12: Vec<_> = (1..=12).map(put).collect();
    let tens: Vec<_> = (1..=11).map(|k| put(10 * k)).collect();
    let runs: [Vec<[u64; 3]>; 8] = [
        [&to_12[..], &[[3, 12, 0]]].concat(),
        [&to_12[..], &[[3, 7, 0], [3, 6, 0]]].concat(),
        (2..=12).map(put).chain([put(1)]).collect(),
        [&tens[..], &[put(55)]].concat(),
        [&tens[..], &[put(65)]].concat(),
        (0..=12).rev().map(put).chain([[3, 12, 0]]).collect(),
        // counters: a reserved key is spent, and may still be put
        [[4, 0, 0], [4, 0, 0], [4, 7, 0], [1, 5, 50], [4, 6, 0], [1, 7, 70], [4, 7, 0], [4, 8, 9], [3, 7, 0], [4, 8, 0], [5, 9, 0]]
            .into_iter()
            .chain([[4, u64::MAX, 0], [4, u64::MAX, 0], [1, 9, 90]])
            .collect(),
        vec![[1, u64::MAX, 1], [1, 0, 2], [2, u64::MAX, 0], [3, 0, 0], [1, u64::MAX, 3], [3, u64::MAX, 0], [2, 0, 0]],
    ];
    for run in runs {
        for order in run {
            all.extend([order, [TELL, 0, 0]]);
        }
        for (s, start, e, finish) in [(2, 5, 2, 5), (1, 5, 2, 5), (1, 6, 1, 5), (2, 5, 2, 6), (1, 5, 1, 5), (0, 0, 0, 0)] {
            all.push([LISTING + 4 * s + e, start, finish]);
        }
        all.push([FORMAT, 0, 0]);
    }
}
