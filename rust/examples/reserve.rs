//! A writer is handed a counter and dies before its message is put. The counter was spent when it was handed out, so the next
//! writer gets another one.
//!
//!     cargo run --example reserve

use cuffgarnet::{Error, Index};
use std::ffi::c_int;
use std::io::Write as _;
use std::path::Path;
use std::{env, error, fs, process};

type Any = dyn error::Error;

unsafe extern "C" {
    fn fork() -> c_int;
    fn waitpid(child: c_int, status: *mut c_int, options: c_int) -> c_int;
}

fn load(file: &Path) -> Result<Index, Box<Any>> {
    let bytes = fs::read(file)?;
    let words = bytes.chunks_exact(8).map(|b| b.try_into().map(u64::from_le_bytes)).collect::<Result<Vec<u64>, _>>()?;
    Ok(Index::open(words)?)
}

/// Durable before anybody is told of a counter.
fn store(file: &Path, index: &Index) -> Result<(), Box<Any>> {
    let mut out = fs::File::create(file)?;
    for word in index.words() {
        out.write_all(&word.to_le_bytes())?;
    }
    Ok(out.sync_all()?)
}

/// Hands out the next counter, and spends it.
fn hand_out(file: &Path) -> Result<u64, Box<Any>> {
    let mut index = load(file)?;
    let counter = index.next_counter()?.ok_or("all counters are spent")?.max(1); // the first is 1
    index.reserve(counter)?;
    store(file, &index)?;
    Ok(counter)
}

fn main() -> Result<(), Box<Any>> {
    let file = env::temp_dir().join(format!("cuffgarnet-reserve-{}", process::id()));
    store(&file, &Index::with_nodes(4)?)?;

    // SAFETY: the program has one thread, and the child does nothing but this before it dies.
    let child = unsafe { fork() };
    if child == 0 {
        let got = hand_out(&file).map_or(0, |counter| counter);
        println!("the first writer got counter {got}, and dies before its put");
        process::abort();
    }
    let mut status = 0;
    // SAFETY: `status` is a word of this function's own.
    assert!(child > 0 && unsafe { waitpid(child, &raw mut status, 0) } == child);

    let mut index = load(&file)?;
    assert_eq!((index.len()?, index.mark()?), (0, Some(1))); // no pair, and the counter is spent
    assert_eq!(index.reserve(1), Err(Error::Spent)); // nobody gets it again
    let counter = hand_out(&file)?;
    println!("the second writer got counter {counter}");
    let mut index = load(&file)?;
    index.insert(counter, 700)?;
    println!("{} pair, mark {:?}", index.len()?, index.mark()?);
    Ok(fs::remove_file(&file)?)
}
