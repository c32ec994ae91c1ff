//! Random histories, each from a fixed seed.

use crate::rust::Rust;

/// splitmix64.
pub struct Random(u64);

impl Random {
    pub fn new(seed: u64) -> Random {
        Random(seed)
    }

    pub fn next(&mut self) -> u64 {
        self.0 = self.0.wrapping_add(0x9e37_79b9_7f4a_7c15);
        let mut x = self.0;
        x = (x ^ (x >> 30)).wrapping_mul(0xbf58_476d_1ce4_e5b9);
        x = (x ^ (x >> 27)).wrapping_mul(0x94d0_49bb_1331_11eb);
        x ^ (x >> 31)
    }

    pub fn below(&mut self, n: u64) -> u64 {
        self.next() % n
    }

    pub fn shuffle<T>(&mut self, items: &mut [T]) {
        for i in (1..items.len()).rev() {
            items.swap(i, self.below(i as u64 + 1) as usize);
        }
    }
}

#[derive(Clone, Copy, Debug, PartialEq, Eq)]
pub enum Kind {
    /// New keys rise; deletes take the first.
    Rising,
    /// New keys fall; deletes take the last.
    Falling,
    /// Keys anywhere in a space about as large as the arena.
    Shuffled,
    /// The same, twice as many deletes as puts once it is full, down to nothing.
    DeleteHeavy,
    /// A few keys only.
    Few,
    /// 0, 2^64 - 1, and their neighbours, beside any keys at all.
    Ends,
    /// Any keys, and codes that are no order's.
    Wild,
}

pub const KINDS: [Kind; 7] = [Kind::Rising, Kind::Falling, Kind::Shuffled, Kind::DeleteHeavy, Kind::Few, Kind::Ends, Kind::Wild];

/// Makes the orders of a history.
pub struct Source {
    kind: Kind,
    pub random: Random,
    space: u64,
    next: u64,
    growing: bool,
}

impl Source {
    pub fn new(kind: Kind, count: usize, seed: u64) -> Source {
        let space = match kind {
            Kind::Few => 14 + count as u64,
            _ => 9 * count as u64 + 20,
        };
        let next = if kind == Kind::Falling { u64::MAX / 2 } else { 1 };
        Source { kind, random: Random::new(seed), space, next, growing: true }
    }

    pub fn key(&mut self) -> u64 {
        let r = &mut self.random;
        match self.kind {
            Kind::Ends => match r.below(6) {
                0 => r.below(3),
                1 => u64::MAX - r.below(3),
                _ => r.next(),
            },
            // spread over all numbers, and met again
            Kind::Wild => r.below(self.space).wrapping_mul(0x9e37_79b9_7f4a_7c15),
            _ => r.below(self.space),
        }
    }

    pub fn order(&mut self, rust: &Rust<'_>) -> [u64; 3] {
        if rust.map.len() == 0 {
            self.growing = true;
        } else if rust.free_nodes() == 0 && self.random.below(40) == 0 {
            self.growing = false;
        } else if self.random.below(3000) == 0 {
            self.growing = !self.growing;
        }
        let value = self.random.next() >> self.random.below(64);
        let roll = self.random.below(100);
        let (puts, deletes) = match (self.growing, self.kind) {
            (true, _) => (70, 85),
            (false, Kind::DeleteHeavy) => (10, 95),
            (false, _) => (25, 85),
        };
        if self.kind == Kind::Wild && self.random.below(50) == 0 {
            return [[0, 5, 6, u64::MAX, 1 << 32][self.random.below(5) as usize], self.key(), value];
        }
        if self.random.below(20) == 0 {
            return [4, self.counter(rust), value];
        }
        if roll < puts {
            let key = match self.kind {
                Kind::Rising if self.random.below(20) > 0 => {
                    self.next += 1 + self.random.below(2);
                    self.next
                }
                Kind::Falling if self.random.below(20) > 0 => {
                    self.next -= 1 + self.random.below(2);
                    self.next
                }
                _ => self.key(),
            };
            return [1, key, value];
        }
        let here = match self.kind {
            Kind::Rising if self.random.below(4) > 0 => rust.first(),
            Kind::Falling if self.random.below(4) > 0 => rust.last(),
            _ => {
                let key = self.key();
                rust.near(key)
            }
        };
        let key = match here {
            Some(key) if self.random.below(8) > 0 => key,
            _ => self.key(),
        };
        [if roll < deletes { 3 } else { 2 }, key, value]
    }

    /// A key to be reserved: at the mark or beside it, or any.
    fn counter(&mut self, rust: &Rust<'_>) -> u64 {
        match self.random.below(8) {
            0 => rust.mark,
            1 => rust.mark.saturating_sub(1),
            2..=4 => rust.mark.saturating_add(1 + self.random.below(2)),
            _ => self.key(),
        }
    }

    /// The bounds of a range, at or beside present keys; one in a few is bad.
    pub fn range(&mut self, rust: &Rust<'_>) -> ((u64, u64), (u64, u64)) {
        let mut bound = || {
            let key = self.key();
            let key = match rust.near(key) {
                Some(there) if self.random.below(3) > 0 => there,
                _ => key,
            };
            (self.random.below(3), key)
        };
        let (mut start, mut end) = (bound(), bound());
        if start.1 > end.1 && self.random.below(4) > 0 {
            std::mem::swap(&mut start.1, &mut end.1);
        }
        (start, end)
    }
}
