//! Our index, through its static library; and faults that can be put between it and the driver, to see that the driver notices them.

use crate::ffi;
/// `raw_batch`: of any words, whole orders or not.
pub use crate::ffi::{batch as raw_batch, check, cut, format, join, load, restore, upgrade};

/// The call of an order's own; there is none for an unknown code.
pub fn single(a: &mut [u64], [code, key, value]: [u64; 3]) -> (u64, u64) {
    let said = match code {
        1 => ffi::put(a, key, value),
        2 => ffi::get(a, key),
        3 => ffi::delete(a, key),
        // it has no second word
        4 => return (ffi::reserve(a, key), 0),
        _ => return batch(a, &[[code, key, value]]).1[0],
    };
    (said.number, said.second)
}

/// The call that takes an order by its code.
pub fn order(a: &mut [u64], [code, key, value]: [u64; 3]) -> (u64, u64) {
    let said = ffi::order(a, code, key, value);
    (said.number, said.second)
}

/// A batch's number, and each order's.
pub fn batch(a: &mut [u64], orders: &[[u64; 3]]) -> (u64, Vec<(u64, u64)>) {
    let orders = orders.as_flattened();
    let mut answers = vec![7; orders.len() / 3 * 2];
    let number = raw_batch(a, orders, &mut answers);
    (number, answers.chunks(2).map(|x| (x[0], x[1])).collect())
}

/// A listing's number, how many pairs it wrote, and whether more remain.
pub fn list(a: &[u64], start: (u64, u64), end: (u64, u64), out: &mut [u64]) -> (u64, u64, u64) {
    let told = ffi::list(a, start, end, out);
    (told.number, told.written, told.more)
}

/// How many keys are smaller than this one.
pub fn rank(a: &[u64], key: u64) -> (u64, u64) {
    let said = ffi::rank(a, key);
    (said.number, said.second)
}

/// How many pairs a range has.
pub fn count(a: &[u64], start: (u64, u64), end: (u64, u64)) -> (u64, u64) {
    let said = ffi::count(a, start, end);
    (said.number, said.second)
}

/// The pair at a rank: its number, key and value.
pub fn at(a: &[u64], rank: u64) -> (u64, u64, u64) {
    let picked = ffi::at(a, rank);
    (picked.number, picked.key, picked.value)
}

/// What a cursor call answers: its number, key and value. The cursor's words are written.
pub type Found = (u64, u64, u64);

pub fn first(a: &[u64], changes: u64, cursor: &mut [u64]) -> Found {
    found(ffi::first(a, changes, cursor))
}

pub fn last(a: &[u64], changes: u64, cursor: &mut [u64]) -> Found {
    found(ffi::last(a, changes, cursor))
}

pub fn seek(a: &[u64], changes: u64, start: (u64, u64), cursor: &mut [u64]) -> Found {
    found(ffi::seek(a, changes, start, cursor))
}

pub fn next(a: &[u64], changes: u64, cursor: &mut [u64]) -> Found {
    found(ffi::next(a, changes, cursor))
}

pub fn previous(a: &[u64], changes: u64, cursor: &mut [u64]) -> Found {
    found(ffi::previous(a, changes, cursor))
}

fn found(picked: ffi::Picked) -> Found {
    (picked.number, picked.key, picked.value)
}
