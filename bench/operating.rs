//! Capacity and cost for docs/OPERATING.md, through the static library alone.
//!
//!     operating          two tables, each with a line of names: how many rising counters an arena holds; microseconds a message
//!
//! A message is one put of the next counter and one delete of the oldest, both in the same batch: the index keeps its size, and every batch is
//! checked once. The words are in memory, nothing is synced to a disk. Each figure is the lower quarter of the rounds, for other work on the
//! machine only adds.

use std::time::Instant;

#[allow(dead_code)]
#[path = "../rust/src/ffi.rs"]
mod ffi;

const NODES: [usize; 4] = [64, 1_000, 10_000, 65_535];
const BATCHES: [usize; 5] = [1, 10, 100, 1_000, 10_000];
const ROUNDS: usize = 40;

fn formatted(nodes: usize) -> Vec<u64> {
    let mut arena = vec![0; 10 + 39 * nodes];
    assert_eq!(ffi::format(&mut arena), 0);
    arena
}

/// Runs orders as one batch; how many of the first ones were accepted.
fn run(arena: &mut [u64], orders: &[u64]) -> usize {
    let mut answers = vec![0; orders.len() / 3 * 2];
    assert_eq!(ffi::batch(arena, orders, &mut answers), 0);
    answers.chunks_exact(2).take_while(|a| a[0] < 3).count()
}

fn puts(keys: impl Iterator<Item = u64>) -> Vec<u64> {
    keys.flat_map(|key| [1, key, key % 977]).collect()
}

fn shuffled(n: u64) -> impl Iterator<Item = u64> {
    let mut x = 1_u64;
    (0..n).map(move |_| {
        x ^= x << 13;
        x ^= x >> 7;
        x ^= x << 17;
        x
    })
}

fn capacity(nodes: usize) {
    let rising = run(&mut formatted(nodes), &puts(1..=11 * nodes as u64));
    let random = run(&mut formatted(nodes), &puts(shuffled(11 * nodes as u64)));
    println!("{nodes},{},{rising},{random}", 10 + 39 * nodes);
}

/// An arena with five pairs a node, and the counters of the next and of the oldest message.
struct Broker {
    arena: Vec<u64>,
    next: u64,
    oldest: u64,
}

impl Broker {
    fn new(nodes: usize) -> Self {
        let pairs = 5 * nodes as u64;
        let mut arena = formatted(nodes);
        assert_eq!(run(&mut arena, &puts(1..=pairs)), pairs as usize);
        Broker { arena, next: pairs + 1, oldest: 1 }
    }

    /// Microseconds a message in batches of one length, over some messages.
    fn round(&mut self, batch: usize) -> f64 {
        let batches = (20_000 / batch).clamp(1, 60_000_000 / self.arena.len() / 10).max(1);
        let mut spent = 0.0;
        for _ in 0..batches {
            let mut orders = Vec::with_capacity(6 * batch);
            for _ in 0..batch {
                orders.extend([3, self.oldest, 0, 1, self.next, self.next % 977]);
                self.oldest += 1;
                self.next += 1;
            }
            let mut answers = vec![0; 4 * batch];
            let begun = Instant::now();
            assert_eq!(ffi::batch(&mut self.arena, &orders, &mut answers), 0);
            spent += begun.elapsed().as_nanos() as f64;
            assert!(answers.chunks_exact(4).all(|a| a[0] == 1 && a[2] == 0), "a delete or a put was refused");
        }
        spent / 1000.0 / (batches * batch) as f64
    }
}

fn cost(nodes: usize) {
    let mut broker = Broker::new(nodes);
    let mut all: Vec<Vec<f64>> = vec![vec![]; BATCHES.len()];
    for _ in 0..ROUNDS {
        for (i, batch) in BATCHES.into_iter().enumerate() {
            all[i].push(broker.round(batch));
        }
    }
    for (batch, mut times) in BATCHES.into_iter().zip(all) {
        times.sort_by(f64::total_cmp);
        println!("{nodes},{},{batch},{:.3}", 5 * nodes, times[ROUNDS / 4]);
    }
}

fn main() {
    println!("capacity,words,rising,random");
    NODES.into_iter().for_each(capacity);
    println!("cost,pairs,batch,microseconds");
    NODES.into_iter().for_each(cost);
}
