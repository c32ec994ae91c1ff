//! Joins of request (vi), through the library, beside BTreeMap::append on the same pairs.
//!
//!     joins             everything, with times: a minute, 200 MB
//!     joins --answers   everything once, and no times: for a machine that emulates another
//!
//! Every answer is verified, and a wrong one stops the program. Both sides have the same number of pairs; the first has just the nodes that the joined run
//! takes. Times are the thread's own processor time, of turns one after the other; copies are made outside of them. `checks` is the check of both arenas
//! alone, which a join begins with.

use std::collections::BTreeMap;
use std::hint::black_box;

#[allow(dead_code)]
#[path = "../rust/src/ffi.rs"]
mod ffi;
#[allow(dead_code)]
mod orders;
#[allow(dead_code)]
#[path = "../oracle/src/words.rs"]
mod words;

use orders::quarters;

const PAIRS: [usize; 3] = [1_000, 50_000, 500_000];

extern "C" {
    fn clock_gettime(clock: i32, time: *mut [i64; 2]) -> i32;
}

/// The thread's processor time of something, in nanoseconds, and what it made.
fn spent<T>(f: impl FnOnce() -> T) -> (f64, T) {
    let now = || {
        let mut time = [0; 2];
        assert_eq!(unsafe { clock_gettime(3, &mut time) }, 0); // CLOCK_THREAD_CPUTIME_ID
        time[0] as f64 * 1e9 + time[1] as f64
    };
    let start = now();
    let made = f();
    (now() - start, made)
}

fn nodes_for(pairs: usize) -> usize {
    let mut left = pairs / 12;
    let mut nodes = left + 1;
    while left > 0 {
        left /= 12;
        nodes += left + 1;
    }
    nodes
}

fn loaded(pairs: &BTreeMap<u64, u64>, nodes: usize) -> Vec<u64> {
    let run: Vec<u64> = pairs.iter().flat_map(|(k, v)| [*k, *v]).collect();
    let mut arena = vec![0; words::long(nodes)];
    assert_eq!(ffi::load(&mut arena, &run), 0);
    arena
}

fn main() {
    let answers = std::env::args().any(|word| word == "--answers");
    println!("pairs of each,keys,who,nanoseconds a pair of both,lower quarter,upper quarter");
    for long in PAIRS {
        let many = long as u64;
        // the key i of the first, and of the second
        let cases: [(&str, fn(u64, u64) -> (u64, u64)); 3] = [
            ("in turn", |i, _| (2 * i, 2 * i + 1)),
            ("one above the other", |i, many| (i, many + i)),
            ("half in both", |i, many| (i, many / 2 + i)),
        ];
        for (keys, key) in cases {
            let a: BTreeMap<u64, u64> = (0..many).map(|i| (key(i, many).0, i)).collect();
            let b: BTreeMap<u64, u64> = (0..many).map(|i| (key(i, many).1, i + many)).collect();
            let mut both = a.clone();
            both.append(&mut b.clone());
            let first = loaded(&a, nodes_for(both.len()));
            let second = loaded(&b, nodes_for(long));
            let mut run = vec![0; 4 * long];
            let rounds = if answers { 1 } else { (20_000_000 / long).clamp(9, 499) };
            let mut times = [const { Vec::new() }; 3];
            for _ in 0..rounds {
                let (mut x, mut y) = (first.clone(), second.clone());
                let (time, number) = spent(|| ffi::join(black_box(&mut x), black_box(&mut y), black_box(&mut run)));
                assert_eq!(number, 0);
                times[0].push(time / (2 * long) as f64);
                let (time, _) = spent(|| assert_eq!((ffi::check(black_box(&first)), ffi::check(black_box(&second))), (0, 0)));
                times[1].push(time / (2 * long) as f64);
                let (mut p, mut q) = (a.clone(), b.clone());
                let (time, _) = spent(|| black_box(&mut p).append(black_box(&mut q)));
                assert_eq!(p.len(), both.len());
                times[2].push(time / (2 * long) as f64);
                assert_eq!((ffi::check(&x), ffi::check(&y), y[words::PAIRS]), (0, 0, 0));
            }
            assert!(both.iter().zip(run.chunks_exact(2)).all(|(p, q)| [*p.0, *p.1] == q[..]));
            if answers {
                println!("{long}, {keys}: as asked");
                continue;
            }
            for (who, times) in ["join", "checks", "BTreeMap::append"].iter().zip(times) {
                let [low, middle, high] = quarters(times);
                println!("{long},{keys},{who},{middle:.2},{low:.2},{high:.2}");
            }
        }
    }
}
