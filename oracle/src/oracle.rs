//! Answers by the Rust's own btree code, release 1.97.0: orders, ranges, forks and border repairs, with the node shapes as document 01's
//! words. README.md says how it is built.

#![feature(allocator_api, btreemap_alloc, core_intrinsics, min_specialization)]
#![feature(slice_ptr_get)]
#![allow(internal_features)]
// some of it is the driver's
#![allow(dead_code)]

/// What the seven files name by `crate::`.
mod alloc {
    pub use std::alloc::{Allocator, Layout};
}
mod boxed {
    pub use std::boxed::Box;
}

mod btree;
mod nightly;
mod replay;
mod rust;
mod slab;
mod source;
mod words;

use std::io::{Read, Write};
use std::process::exit;

use btree::{Fork, Map};
use rust::Rust;
use slab::Slab;

const USAGE: &str = "usage:
  oracle ask N                  a history on a formatted arena of N nodes, a line each on standard input:
                                  put K V | get K | delete K | reserve K | list START END | fork START END | words
  oracle put K V | delete K | reserve K
                                on the arena whose words stand on standard input: the answer to standard error, the words after it to
                                standard output
  oracle fix-right | fix-left   the same, border repair: the words after it
  oracle load N                 a run on standard input, key and value in turn: the words of N nodes after bulk_push
  oracle get K | list START END | fork START END
                                the same, the answer to standard output
  oracle sample                 the records that crates/replay is run on
  oracle replay                 what crates/replay must write for the records on standard input
START and END are `open`, `included K` or `excluded K`. Words are decimal, with white space between. A fork is answered by
`parted NODE LOWER UPPER START END`, the children's bounds with `nothing` for the fourth kind, or by `together NODE EDGE`.";

fn fail(why: &str) -> ! {
    eprintln!("{why}");
    exit(2)
}

/// Takes a number off the words of a line.
fn number(words: &mut &[String]) -> u64 {
    let Some((first, rest)) = words.split_first() else { fail("a number is missing") };
    *words = rest;
    first.parse().unwrap_or_else(|_| fail(&format!("not a number: {first}")))
}

fn bound(words: &mut &[String]) -> btree::End {
    let Some((first, rest)) = words.split_first() else { fail("a bound is missing") };
    *words = rest;
    match first.as_str() {
        "open" => rust::end(0, 0),
        "included" => rust::end(1, number(words)),
        "excluded" => rust::end(2, number(words)),
        _ => fail(&format!("not a bound: {first}")),
    }
}

fn said((kind, key): (u64, u64)) -> String {
    match kind {
        0 => "open".to_string(),
        1 => format!("included {key}"),
        2 => format!("excluded {key}"),
        _ => "nothing".to_string(),
    }
}

fn fork(map: &Map<'_>, start: btree::End, end: btree::End) -> String {
    match map.fork(start, end) {
        None if map.is_rootless() => "no root".to_string(),
        None => "panics".to_string(),
        Some(Fork::Together { node, at }) => format!("together {node} {at}"),
        Some(Fork::Parted { node, lower, upper, start, end }) => {
            format!("parted {node} {lower} {upper} {} {}", said(start), said(end))
        }
    }
}

fn list(rust: &mut Rust<'_>, start: btree::End, end: btree::End) -> String {
    match rust.range(start, end, usize::MAX) {
        None => "panics".to_string(),
        Some(got) => got.pairs.iter().map(|(k, v)| format!("{k} {v} ")).collect(),
    }
}

fn print_words(w: &[u64]) {
    let text: Vec<String> = w.iter().map(u64::to_string).collect();
    println!("{}", text.join(" "));
}

fn ask(count: usize) {
    let (slab, other) = (Slab::new(count), Slab::beside(count));
    let mut rust = Rust::new(&slab, &other);
    for line in std::io::stdin().lines() {
        let line: Vec<String> = line.unwrap_or_else(|e| fail(&e.to_string())).split_whitespace().map(String::from).collect();
        let Some((verb, rest)) = line.split_first() else { continue };
        answer(&mut rust, verb, &mut &rest[..]);
        rust.words();
    }
}

/// One request; whether it may have changed words.
fn answer(rust: &mut Rust<'_>, verb: &str, rest: &mut &[String]) -> bool {
    let order = |rust: &mut Rust<'_>, order| {
        let (number, second) = rust.order(order);
        println!("{number} {second}");
    };
    match verb {
        "put" => order(rust, [1, number(rest), number(rest)]),
        "get" => order(rust, [2, number(rest), 0]),
        "delete" => order(rust, [3, number(rest), 0]),
        "reserve" => order(rust, [4, number(rest), 0]),
        "list" => println!("{}", list(rust, bound(rest), bound(rest))),
        "fork" => println!("{}", fork(&rust.map, bound(rest), bound(rest))),
        "words" => print_words(&rust.words()),
        _ => fail(USAGE),
    }
    true
}

/// The arena on standard input.
fn on_words(verb: &str, rest: &mut &[String]) {
    let mut text = String::new();
    std::io::stdin().read_to_string(&mut text).unwrap_or_else(|e| fail(&e.to_string()));
    let w: Vec<u64> = text.split_whitespace().map(|x| x.parse().unwrap_or_else(|_| fail(&format!("not a word: {x}")))).collect();
    if w.len() < 2 || w[1] > 1_048_575 {
        fail("these words are no arena");
    }
    let (slab, other) = (Slab::new(w[1] as usize), Slab::beside(w[1] as usize));
    let mut rust = Rust::from_words(&slab, &other, &w).unwrap_or_else(|why| fail(&why));
    match verb {
        "fix-right" => rust.map.fix_right_border(),
        "fix-left" => rust.map.fix_left_border(),
        "put" | "delete" | "reserve" => {
            let code = match verb {
                "put" => 1,
                "delete" => 3,
                _ => 4,
            };
            let (key, value) = (number(rest), if code == 1 { number(rest) } else { 0 });
            let (number, second) = rust.order([code, key, value]);
            eprintln!("{number} {second}");
        }
        _ => {
            answer(&mut rust, verb, rest);
            return;
        }
    }
    print_words(&rust.words());
}

/// The run on standard input, by bulk_push.
fn load(count: usize) {
    let mut text = String::new();
    std::io::stdin().read_to_string(&mut text).unwrap_or_else(|e| fail(&e.to_string()));
    let run: Vec<u64> = text.split_whitespace().map(|x| x.parse().unwrap_or_else(|_| fail(&format!("not a word: {x}")))).collect();
    let pairs: Vec<(u64, u64)> = run.chunks_exact(2).map(|p| (p[0], p[1])).collect();
    let slab = Slab::new(count);
    let last = pairs.last().map(|p| p.0);
    print_words(&Map::load(&slab, &pairs).words(u64::from(last.is_some()), last.unwrap_or(0)));
}

fn main() {
    // a range that panics is an answer here; anything else that does ends the run
    let usual = std::panic::take_hook();
    std::panic::set_hook(Box::new(move |info| {
        if !info.payload().downcast_ref::<&str>().is_some_and(|m| m.starts_with("range start")) {
            usual(info);
        }
    }));
    let args: Vec<String> = std::env::args().skip(1).collect();
    let Some((verb, rest)) = args.split_first() else { fail(USAGE) };
    let rest = &mut &rest[..];
    match verb.as_str() {
        "ask" => ask(number(rest) as usize),
        "load" => load(number(rest) as usize),
        "sample" => {
            let bytes: Vec<u8> = replay::sample().as_flattened().iter().flat_map(|w| w.to_le_bytes()).collect();
            std::io::stdout().write_all(&bytes).unwrap_or_else(|e| fail(&e.to_string()));
        }
        "replay" => {
            let mut bytes = Vec::new();
            std::io::stdin().read_to_end(&mut bytes).unwrap_or_else(|e| fail(&e.to_string()));
            let words: Vec<u64> = bytes.chunks_exact(8).map(|b| b.iter().rev().fold(0, |x, b| x << 8 | u64::from(*b))).collect();
            print!("{}", replay::answers(words.as_chunks::<3>().0));
        }
        "put" | "delete" | "reserve" | "fix-right" | "fix-left" | "get" | "list" | "fork" => on_words(verb, rest),
        _ => fail(USAGE),
    }
    let _ = std::io::stdout().flush();
}
