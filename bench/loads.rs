//! Loads of request (iii), through the library, beside BTreeMap::from_iter on the same sorted pairs and beside putting them in one batch.
//!
//!     loads             everything, with times: half a minute, 100 MB
//!     loads --answers   everything once, and no times: for a machine that emulates another
//!
//! Every answer is verified, and a wrong one stops the program. The arena has just the nodes that the load takes, and for the batch as many as
//! rising keys need. Times are the thread's own processor time, of turns one after the other; a map is dropped outside of them.

use std::collections::BTreeMap;
use std::hint::black_box;

#[allow(dead_code)]
#[path = "../rust/src/ffi.rs"]
mod ffi;
#[allow(dead_code)]
mod orders;
#[allow(dead_code)]
mod rivals;
#[allow(dead_code)]
#[path = "../rust/src/sizes.rs"]
mod sizes;
#[allow(dead_code)]
#[path = "../oracle/src/words.rs"]
mod words;

use orders::quarters;

const PAIRS: [usize; 3] = [1_000, 50_000, 1_000_000];

/// The thread's processor time of something, in nanoseconds, and what it made.
fn spent<T>(f: impl FnOnce() -> T) -> (f64, T) {
    let mut made = None;
    let time = rivals::spent(|| made = Some(f()));
    (time, made.expect("it was run"))
}

/// The nodes that a load takes.
fn nodes_for(pairs: usize) -> usize {
    sizes::nodes_for_load(pairs).expect("so many fit")
}

/// The arena holds these pairs, in order.
fn verify(arena: &[u64], pairs: &[(u64, u64)]) {
    assert_eq!(ffi::check(arena), 0);
    let mut out = vec![0; 2 * pairs.len() + 2];
    let told = ffi::list(arena, (0, 0), (0, 0), &mut out);
    assert_eq!((told.number, told.written, told.more), (0, pairs.len() as u64, 0));
    assert!(pairs.iter().zip(out.chunks_exact(2)).all(|(p, q)| [p.0, p.1] == q[..]));
}

fn main() {
    let answers = std::env::args().any(|word| word == "--answers");
    println!("pairs,who,nanoseconds a pair,lower quarter,upper quarter");
    for long in PAIRS {
        let pairs: Vec<(u64, u64)> = (0..long as u64).map(|i| (3 * i + 1, i)).collect();
        let run: Vec<u64> = pairs.iter().flat_map(|(k, v)| [*k, *v]).collect();
        let puts: Vec<u64> = pairs.iter().flat_map(|(k, v)| [1, *k, *v]).collect();
        let mut said = vec![0; 2 * long];
        let mut loaded = vec![0; words::long(nodes_for(long))];
        let mut put = vec![0; words::long(long / 6 + 9)];
        let rounds = if answers { 1 } else { (20_000_000 / long).clamp(9, 999) };
        let mut times = [const { Vec::new() }; 4];
        for _ in 0..rounds {
            let (time, number) = spent(|| ffi::load(black_box(&mut loaded), black_box(&run)));
            assert_eq!(number, 0);
            times[0].push(time / long as f64);
            // sorted pairs, as whoever has them in order hands them out
            let (time, map) = spent(|| black_box(&pairs).iter().copied().collect::<BTreeMap<u64, u64>>());
            assert_eq!(map.len(), long);
            times[1].push(time / long as f64);
            let (time, number) = spent(|| {
                assert_eq!(ffi::format(&mut put), 0);
                ffi::batch(black_box(&mut put), black_box(&puts), black_box(&mut said))
            });
            assert!(number == 0 && said.iter().all(|x| *x == 0));
            times[2].push(time / long as f64);
            let (time, _) = spent(|| assert_eq!(ffi::format(black_box(&mut put[..words::long(nodes_for(long))])), 0));
            times[3].push(time / long as f64);
        }
        verify(&loaded, &pairs);
        if answers {
            println!("{long}: as asked");
            continue;
        }
        for (who, times) in ["load", "BTreeMap::from_iter", "one batch of puts", "format alone"].iter().zip(times) {
            let [low, middle, high] = quarters(times);
            println!("{long},{who},{middle:.2},{low:.2},{high:.2}");
        }
    }
}
