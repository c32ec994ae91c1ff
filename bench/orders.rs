//! The orders that bench.rs and native.rs run: random keys, one kind of order at a time or mixed.

pub struct Rand(pub u64);

impl Rand {
    pub fn next(&mut self) -> u64 {
        self.0 = self.0.wrapping_add(0x9e37_79b9_7f4a_7c15);
        let mut x = self.0;
        x = (x ^ (x >> 30)).wrapping_mul(0xbf58_476d_1ce4_e5b9);
        x = (x ^ (x >> 27)).wrapping_mul(0x94d0_49bb_1331_11eb);
        x ^ (x >> 31)
    }

    pub fn below(&mut self, n: usize) -> usize {
        (self.next() % n as u64) as usize
    }

    pub fn shuffle(&mut self, list: &mut [u64]) {
        for i in (1..list.len()).rev() {
            list.swap(i, self.below(i + 1));
        }
    }
}

pub const OPS: usize = 100_000;

/// Keys of a case of so many pairs: those present, and as many (at most OPS) absent ones.
pub struct Keys {
    pub present: Vec<u64>,
    pub absent: Vec<u64>,
}

impl Keys {
    pub fn new(pairs: usize) -> Self {
        let mut rand = Rand(pairs as u64);
        let present = (0..pairs).map(|_| rand.next()).collect();
        let absent = (0..pairs.min(OPS)).map(|_| rand.next()).collect();
        Keys { present, absent }
    }

    pub fn every(&self) -> Vec<u64> {
        self.present.iter().chain(&self.absent).copied().collect()
    }

    /// Nodes enough for so many pairs: a B-tree that is grown and shrunk at random has six or seven a node.
    pub fn nodes(&self, all: bool) -> usize {
        let pairs = self.present.len() + if all { self.absent.len() } else { 0 };
        (pairs / 5 + 16).min(65_535)
    }
}

pub fn orders(code: u64, keys: impl Iterator<Item = u64>) -> Vec<u64> {
    keys.flat_map(|key| [code, key, key >> 7]).collect()
}

/// So many orders of one kind at random keys of a list.
pub fn drawn(code: u64, keys: &[u64], rand: &mut Rand) -> Vec<u64> {
    orders(code, (0..OPS).map(|_| keys[rand.below(keys.len())]))
}

/// Half gets, a quarter puts, a quarter deletes, over all keys: about half of them are present at any time.
pub fn mixed(keys: &[u64], rand: &mut Rand) -> Vec<u64> {
    let one = |_| {
        let key = keys[rand.below(keys.len())];
        [[2, 2, 1, 3][rand.below(4)], key, key >> 9]
    };
    (0..OPS).flat_map(one).collect()
}

/// The quarter, the middle and the three quarters of a list.
pub fn quarters(mut list: Vec<f64>) -> [f64; 3] {
    list.sort_by(f64::total_cmp);
    [list[list.len() / 4], list[list.len() / 2], list[list.len() * 3 / 4]]
}

pub fn median(list: Vec<f64>) -> f64 {
    quarters(list)[1]
}
