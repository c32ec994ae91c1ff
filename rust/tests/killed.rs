//! What a kill in the middle of a call leaves in a mapped arena. The kill comes at a known moment: a child works on words that
//! it shares with the test, of which one page may not be written; it dies at the first word that it writes there. The page ends
//! with a word of our choice, so that the words behind it can be written.
#![cfg(feature = "alloc")]
#![allow(clippy::unwrap_used, clippy::indexing_slicing, clippy::arithmetic_side_effects, reason = "a test may stop")]

mod common;

use common::{base, filled, long, value, why, COUNT, EDGES, KEYS, LINK};
use cuffgarnet::{Error, Index};
use std::ffi::{c_int, c_long, c_void};

unsafe extern "C" {
    fn mmap(at: *mut c_void, long: usize, access: c_int, flags: c_int, file: c_int, from: c_long) -> *mut c_void;
    fn mprotect(at: *mut c_void, long: usize, access: c_int) -> c_int;
    fn munmap(at: *mut c_void, long: usize) -> c_int;
    fn fork() -> c_int;
    fn waitpid(process: c_int, status: *mut c_int, how: c_int) -> c_int;
    fn _exit(status: c_int) -> !;
}

const READ: c_int = 1;
const WRITE: c_int = 2;
const SHARED_NO_FILE: c_int = 0x21;
const PAGE: usize = 512; // words: 4,096 bytes
const HEADER: usize = 10;
const PAIRS: usize = 5;
const SEEN: usize = 8;
const MARK: usize = 9;

/// Does what is asked on the words of an arena in a child that may write neither one word nor the 511 before it; hands out what it leaves.
fn killed_at(word: usize, before: &[u64], asked: impl Fn(&mut [u64])) -> Vec<u64> {
    let shift = PAGE - 1 - word % PAGE; // the arena begins so far into the mapping
    let long = 8 * (shift + before.len()).next_multiple_of(PAGE);
    // SAFETY: the mapping is new, long enough and shared with the child alone, and no slice of it outlives it. The child
    // allocates nothing and ends here.
    unsafe {
        let at = mmap(std::ptr::null_mut(), long, READ | WRITE, SHARED_NO_FILE, -1, 0);
        assert_ne!(at as isize, -1);
        let arena = at.cast::<u64>().add(shift);
        std::slice::from_raw_parts_mut(arena, before.len()).copy_from_slice(before);
        let child = fork();
        if child == 0 {
            mprotect(at.cast::<u64>().add((shift + word) / PAGE * PAGE).cast(), 8 * PAGE, READ);
            asked(std::slice::from_raw_parts_mut(arena, before.len()));
            _exit(0);
        }
        let mut status = 0;
        assert_eq!(waitpid(child, &raw mut status, 0), child);
        assert_ne!(status, 0, "the child was not killed");
        let left = std::slice::from_raw_parts(arena, before.len()).to_vec();
        munmap(at, long);
        assert_ne!(left, before, "the child was killed before it wrote");
        left
    }
}

#[test]
fn a_put_that_is_killed_is_refused() {
    let index = filled(64, 1..=200);
    // the new pair goes to its leaf, and the counts above it are set, before the header's pair count
    let left = killed_at(PAIRS, index.words(), |words| {
        _ = Index::open(words).map_err(Error::from).and_then(|mut index| index.insert(201, 201));
    });
    assert_eq!(why(Index::open(left)), Some(Error::BadArena));
}

/// The limit: a delete of a pair in an inner node first takes the pair before it out of its leaf, and sets the counts above that.
/// In between the arena is well-formed without that other pair.
#[test]
fn a_delete_that_is_killed_may_lose_another_pair_unseen() {
    let index = filled(64, 1..=120);
    let w = index.words();
    // an inner node's key of which the header, the leaf before it and the counts above that are far enough
    let far = |word: usize, at: usize| at > word || at + PAGE <= word;
    let fits = |n: usize, i: usize| {
        let word = base(n) + KEYS + i;
        let leaf = long(w[base(n) + EDGES + i]);
        let above = |n: &usize| (w[base(*n) + LINK] < 64).then_some(long(w[base(*n) + LINK]));
        let mut path = std::iter::successors(Some(leaf), above);
        w[base(leaf)] == 1 && far(word, 9) && far(word, base(leaf)) && path.all(|n| far(word, base(n) + COUNT))
    };
    let inner = (0..64).filter(|n| w[base(*n)] == 2);
    let mut keys = inner.flat_map(|n| (0..long(w[base(n) + 1])).map(move |i| (n, i)));
    let (node, i) = keys.find(|(n, i)| fits(*n, *i)).unwrap();
    let key = w[base(node) + KEYS + i];

    let left = killed_at(base(node) + KEYS + i, w, |words| {
        _ = Index::open(words).map_err(Error::from).and_then(|mut index| index.remove(key));
    });
    let left = Index::open(left).unwrap(); // believed
    assert_eq!((left.get(key), left.get(key - 1)), (Ok(Some(value(key))), Ok(None)));
    // asked for key, lost the one before it
}

/// An arena, an image, the arena's mark, and stops at the mark's words.
type Turn<'a> = (&'a [u64], &'a [u64], u64, &'a [usize]);

/// A restore raises the mark first, and its copy leaves the mark's words out. So wherever it is killed the mark is not lower; the pairs
/// may be the arena's, the image's or some of each, or refused: docs/OPERATING.md. The stops are those that a page can make: at a
/// word of the mark, at the first word of the copy, and at each word behind the header.
#[test]
fn a_restore_that_is_killed_never_lowers_the_mark() {
    let mut index = filled(8, 1..=20);
    let early = index.snapshot();
    for key in 21..=25 {
        index.insert(key, value(key)).unwrap();
    }
    let late = index.snapshot();
    // the arena, the image, the arena's mark; where the mark rises, the page may end at the mark's words too
    let turns: [Turn<'_>; 2] = [(&late, &early, 25, &[]), (&early, &late, 20, &[SEEN, SEEN - 1])];
    for (before, image, mark, rising) in turns {
        let behind = HEADER + PAGE - 1..before.len() + PAGE - 1; // the page that ends here begins behind the header
        for stop in behind.chain(rising.iter().copied()) {
            let left = killed_at(stop, before, |words| {
                _ = Index::open(words).map_err(Error::from).and_then(|mut index| index.restore_older(image));
            });
            assert!(left[SEEN] == 1 && left[MARK] >= mark, "killed at {stop}");
            if let Ok(left) = Index::open(left) {
                assert!(left.mark().unwrap() >= Some(mark), "believed when killed at {stop}");
            }
        }
    }
}
