//! What our index is timed beside, and one OR over its words: for bench.rs, native.rs, largest.rs and loads.rs. The bodies are inlined into functions
//! of theirs, which callgrind counts by name.

use std::collections::BTreeMap;

#[repr(C)]
pub struct Absl {
    opaque: [u8; 0],
}

extern "C" {
    pub fn absl_new() -> *mut Absl;
    pub fn absl_free(map: *mut Absl);
    pub fn absl_batch(map: *mut Absl, orders: *const u64, n: usize, answers: *mut u64);
    fn clock_gettime(clock: i32, time: *mut [i64; 2]) -> i32;
}

/// Runs orders as a batch of ours would, but for reserves.
#[inline(always)]
pub fn btree_batch(map: &mut BTreeMap<u64, u64>, orders: &[u64], answers: &mut [u64]) {
    for (order, answer) in orders.chunks_exact(3).zip(answers.chunks_exact_mut(2)) {
        let (number, second) = match order[0] {
            1 => map.insert(order[1], order[2]).map_or((0, 0), |v| (1, v)),
            2 => map.get(&order[1]).map_or((2, 0), |v| (1, *v)),
            3 => map.remove(&order[1]).map_or((2, 0), |v| (1, v)),
            _ => (6, 0),
        };
        answer[0] = number;
        answer[1] = second;
    }
}

#[inline(always)]
pub fn or(arena: &[u64]) -> u64 {
    arena.iter().fold(0, |all, word| all | word)
}

/// The thread's own processor time of something, in nanoseconds: other work on the machine disturbs it less.
pub fn spent(f: impl FnOnce()) -> f64 {
    let now = || {
        let mut time = [0; 2];
        assert_eq!(unsafe { clock_gettime(3, &mut time) }, 0); // CLOCK_THREAD_CPUTIME_ID
        time[0] as f64 * 1e9 + time[1] as f64
    };
    let start = now();
    f();
    now() - start
}
