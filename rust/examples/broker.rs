//! A broker that keeps its index in a mapped file, is killed in the middle of its work again and again, and never uses a counter
//! twice. It follows docs/OPERATING.md. A child sends messages in batches; the parent kills it, recovers, and starts the next.
//!
//!     cargo run --release --example broker [FOLDER]      four files are made there, else in a new folder that is removed again
//!
//! Standard output is the same in every run (examples/c/broker.txt); how many arenas were torn goes to standard error.
#![allow(clippy::arithmetic_side_effects, reason = "its counters stay far below 2^64")]

use cuffgarnet::{Index, Order, WordsMut};
use std::error::Error as Any;
use std::ffi::{c_int, c_long, c_void};
use std::fs::{self, File, OpenOptions};
use std::io::{ErrorKind, Write};
use std::os::fd::AsRawFd;
use std::path::{Path, PathBuf};

const NODES: usize = 3000;
const BATCH: u64 = 5000; // messages sent behind one check and one sync
const KEPT: usize = 5000; // messages that wait for delivery; older ones are deleted
const KILLS: u64 = 20;
const MOST: u64 = 500; // kills, at most, until a torn arena was met

unsafe extern "C" {
    fn mmap(at: *mut c_void, long: usize, access: c_int, flags: c_int, file: c_int, from: c_long) -> *mut c_void;
    fn msync(at: *mut c_void, long: usize, flags: c_int) -> c_int;
    fn munmap(at: *mut c_void, long: usize) -> c_int;
    fn fork() -> c_int;
    fn kill(process: c_int, signal: c_int) -> c_int;
    fn waitpid(process: c_int, status: *mut c_int, how: c_int) -> c_int;
}

/// A whole file, mapped: what is written to the words is in the file, for other processes at once, on the disk after `sync`.
struct Mapped {
    at: *mut c_void,
    words: usize,
}

impl Mapped {
    fn open(path: &Path) -> Result<Self, Box<dyn Any>> {
        let file = OpenOptions::new().read(true).write(true).open(path)?;
        let words = usize::try_from(file.metadata()?.len() / 8)?;
        // SAFETY: a new shared mapping of an open file, to read and write (3, 1); its address is looked at before it is used.
        let at = unsafe { mmap(std::ptr::null_mut(), 8 * words, 3, 1, file.as_raw_fd(), 0) };
        match at as isize {
            -1 => Err(std::io::Error::last_os_error().into()),
            _ => Ok(Mapped { at, words }),
        }
    }

    /// The mark's word, while another process writes.
    fn mark(&self) -> u64 {
        // SAFETY: an arena has more than ten words.
        unsafe { self.at.cast::<u64>().add(9).read_volatile() }
    }

    fn sync(&self) -> Result<(), std::io::Error> {
        // SAFETY: the mapping's own address and length; 4 is MS_SYNC.
        match unsafe { msync(self.at, 8 * self.words, 4) } {
            0 => Ok(()),
            _ => Err(std::io::Error::last_os_error()),
        }
    }
}

// SAFETY, of both: the mapping is as long as that and aligned to a page. One process writes at a time: the parent waits for the child's
// end before it takes these words, and nobody shortens the file.
impl AsRef<[u64]> for Mapped {
    fn as_ref(&self) -> &[u64] {
        unsafe { std::slice::from_raw_parts(self.at.cast(), self.words) }
    }
}

impl AsMut<[u64]> for Mapped {
    fn as_mut(&mut self) -> &mut [u64] {
        unsafe { std::slice::from_raw_parts_mut(self.at.cast(), self.words) }
    }
}

impl Drop for Mapped {
    fn drop(&mut self) {
        // SAFETY: the mapping's own address and length; nothing borrows it any more.
        unsafe { munmap(self.at, 8 * self.words) };
    }
}

struct Files {
    arena: PathBuf, // the index
    saved: PathBuf, // the second place: a counter that no message has passed
    image: PathBuf, // a copy of the arena, taken now and then
    used: PathBuf,  // every counter that was encrypted under: this example's judge, no part of a broker
}

/// Writes a file so that it is either the old one or the new one, whatever happens meanwhile.
fn replace(path: &Path, words: &[u64]) -> Result<(), Box<dyn Any>> {
    let new = path.with_extension("new");
    let mut file = File::create(&new)?;
    file.write_all(&words.iter().flat_map(|w| w.to_le_bytes()).collect::<Vec<u8>>())?;
    file.sync_all()?;
    fs::rename(&new, path)?;
    File::open(path.parent().ok_or("no folder")?)?.sync_all()?;
    Ok(())
}

/// The words of a file; none if it is not there.
fn read(path: &Path) -> Result<Vec<u64>, Box<dyn Any>> {
    let bytes = match fs::read(path) {
        Err(e) if e.kind() == ErrorKind::NotFound => Vec::new(),
        other => other?,
    };
    Ok(bytes.chunks_exact(8).filter_map(|b| Some(u64::from_le_bytes(b.try_into().ok()?))).collect())
}

/// The next counter: above every one that was ever put. The first is 1.
fn next_counter<W: WordsMut>(index: &Index<W>) -> Result<u64, Box<dyn Any>> {
    Ok(index.next_counter()?.ok_or("all counters are spent")?.max(1))
}

/// The broker: sends batch after batch, until it is killed.
fn work(files: &Files) -> Result<(), Box<dyn Any>> {
    let mut index = Index::open(Mapped::open(&files.arena)?)?;
    let mut used = OpenOptions::new().create(true).append(true).open(&files.used)?;
    for turn in 0_u64.. {
        let first = next_counter(&index)?;
        let last = first.checked_add(BATCH - 1).ok_or("all counters are spent")?;
        replace(&files.saved, &[last])?; // 1. the second place first: no message passes this counter
        let old = index.len()?.saturating_sub(KEPT);
        let mut oldest = index.iter().take(old);
        let mut orders: Vec<Order> = Vec::new();
        for counter in first..=last {
            if let Some(pair) = oldest.next() {
                orders.push(Order::Remove(pair?.0));
            }
            orders.push(Order::Insert(counter, counter % 977));
        }
        for outcome in index.apply(&orders)? {
            outcome?; // 2. all orders, behind one check
        }
        index.get_ref().sync()?; // 3. made durable
        let counters: Vec<u8> = (first..=last).flat_map(u64::to_le_bytes).collect();
        used.write_all(&counters)?; // 4. only now messages are encrypted under these counters
        if turn % 2 == 0 {
            replace(&files.image, index.words())?;
        }
    }
    Ok(())
}

/// Raises the mark to the saved counter, if it is lower.
fn raise<W: WordsMut>(index: &mut Index<W>, files: &Files) -> Result<(), Box<dyn Any>> {
    if let Some(saved) = read(&files.saved)?.first() {
        if index.mark()? < Some(*saved) {
            index.reserve(*saved)?; // raises the mark
        }
    }
    Ok(())
}

/// Recovery: a new arena is formatted, the saved mark reserved, the image restored; whole and durable, it takes the old one's place.
fn recover(files: &Files) -> Result<(), Box<dyn Any>> {
    let mut index = Index::with_nodes(NODES)?;
    raise(&mut index, files)?;
    let image = read(&files.image)?;
    if !image.is_empty() {
        index.restore_older(&image)?; // the image's pairs, the larger of both marks
    }
    replace(&files.arena, index.words())
}

/// What every start does: recovers if the arena is lost or torn, and raises the mark to the saved one. Says the next counter, and
/// whether the arena was refused. One that is still well-formed is taken as it is; docs/OPERATING.md says what that means for its
/// pairs.
fn reopen(files: &Files) -> Result<(u64, bool), Box<dyn Any>> {
    let refused = !files.arena.exists() || Index::open(Mapped::open(&files.arena)?).is_err();
    if refused {
        recover(files)?;
    }
    let mut index = Index::open(Mapped::open(&files.arena)?)?;
    raise(&mut index, files)?;
    Ok((next_counter(&index)?, refused))
}

/// Starts a broker and kills it once its mark has reached a counter, in the middle of a batch.
fn kill_at(files: &Files, counter: u64) -> Result<(), Box<dyn Any>> {
    let watched = Mapped::open(&files.arena)?;
    // SAFETY: this process is one thread; the child works on the files alone and leaves by `exit`.
    let child = unsafe { fork() };
    if child == 0 {
        let why = work(files).err().map(|e| e.to_string());
        eprintln!("the broker ended: {}", why.unwrap_or_default());
        std::process::exit(1);
    }
    let mut status = 0;
    let mut turn = 0_u32;
    while watched.mark() < counter {
        turn = turn.wrapping_add(1);
        // SAFETY: the child's own number; 1 is WNOHANG.
        if turn % 4096 == 0 && unsafe { waitpid(child, &raw mut status, 1) } == child {
            return Err("the broker ended by itself".into());
        }
    }
    // SAFETY: the child's own number, which nobody has waited for yet; 9 is SIGKILL.
    unsafe {
        kill(child, 9);
        waitpid(child, &raw mut status, 0);
    }
    match status {
        9 => Ok(()),
        _ => Err("the broker was not killed".into()),
    }
}

/// Every counter used so far rises, so none was used twice; and the next one is above them all.
fn judge(files: &Files, next: u64) -> Result<usize, Box<dyn Any>> {
    let used = read(&files.used)?;
    let twice = used.windows(2).any(|two| two.first() >= two.last());
    if twice || used.last().is_some_and(|last| *last >= next) {
        return Err("a counter is used twice".into());
    }
    Ok(used.len())
}

fn story(folder: &Path) -> Result<(), Box<dyn Any>> {
    let file = |name: &str| folder.join(name);
    let files = Files { arena: file("arena"), saved: file("saved"), image: file("image"), used: file("used") };
    println!("an index of {NODES} nodes in a mapped file, messages in batches of {BATCH}");
    replace(&files.arena, Index::with_nodes(NODES)?.words())?;

    let (mut kills, mut torn, mut sent, mut next) = (0, 0, 0, 1_u64);
    while kills < KILLS || (torn == 0 && kills < MOST) {
        let ahead = kills % 4 * BATCH + 1 + kills * 37 % 1000; // another place of another batch each time
        kill_at(&files, next.saturating_add(ahead))?;
        let (after, refused) = reopen(&files)?;
        sent = judge(&files, after)?;
        next = after;
        kills += 1;
        torn += u64::from(refused);
    }
    println!(
        "killed {KILLS} times or more in the middle of a batch: each time the next counter was above every one used"
    );
    if torn == 0 {
        return Err("no kill left a torn arena".into());
    }
    println!("a torn arena was refused; recovered: format, reserve the saved mark, restore the image");
    eprintln!("{kills} kills, {torn} of them left a torn arena; {sent} messages");

    fs::remove_file(&files.arena)?;
    let (next, lost) = reopen(&files)?;
    judge(&files, next)?;
    if !lost {
        return Err("the arena was not lost".into());
    }
    println!("the arena's file was lost; recovered in the same way: the next counter was above every one used");
    println!("no counter was used twice");
    Ok(())
}

fn main() -> Result<(), Box<dyn Any>> {
    if let Some(folder) = std::env::args_os().nth(1) {
        return story(Path::new(&folder));
    }
    let folder = std::env::temp_dir().join(format!("broker-{}", std::process::id()));
    fs::create_dir(&folder)?;
    let told = story(&folder);
    fs::remove_dir_all(&folder)?;
    told
}
