//! The exported calls as they are, and safe functions over slices: a slice is never longer than what it lends.
//! They are declared here alone: oracle/ and bench/ take this file as a module of theirs.

unsafe extern "C" {
    fn cuffgarnet_format(arena: *mut u64, n: u64) -> u64;
    fn cuffgarnet_check(arena: *const u64, n: u64) -> u64;
    fn cuffgarnet_get(arena: *const u64, n: u64, key: u64, second: *mut u64) -> u64;
    fn cuffgarnet_put(arena: *mut u64, n: u64, key: u64, value: u64, second: *mut u64) -> u64;
    fn cuffgarnet_delete(arena: *mut u64, n: u64, key: u64, second: *mut u64) -> u64;
    fn cuffgarnet_reserve(arena: *mut u64, n: u64, key: u64) -> u64;
    fn cuffgarnet_order(arena: *mut u64, n: u64, code: u64, key: u64, value: u64, second: *mut u64) -> u64;
    fn cuffgarnet_list(
        arena: *const u64,
        n: u64,
        start_kind: u64,
        start: u64,
        end_kind: u64,
        end: u64,
        out: *mut u64,
        out_n: u64,
        written: *mut u64,
        more: *mut u64,
    ) -> u64;
    fn cuffgarnet_rank(arena: *const u64, n: u64, key: u64, second: *mut u64) -> u64;
    fn cuffgarnet_count(
        arena: *const u64,
        n: u64,
        start_kind: u64,
        start: u64,
        end_kind: u64,
        end: u64,
        second: *mut u64,
    ) -> u64;
    fn cuffgarnet_at(arena: *const u64, n: u64, rank: u64, key: *mut u64, value: *mut u64) -> u64;
    fn cuffgarnet_first(
        arena: *const u64,
        n: u64,
        changes: u64,
        cursor: *mut u64,
        cursor_n: u64,
        key: *mut u64,
        value: *mut u64,
    ) -> u64;
    fn cuffgarnet_last(
        arena: *const u64,
        n: u64,
        changes: u64,
        cursor: *mut u64,
        cursor_n: u64,
        key: *mut u64,
        value: *mut u64,
    ) -> u64;
    fn cuffgarnet_seek(
        arena: *const u64,
        n: u64,
        changes: u64,
        kind: u64,
        bound: u64,
        cursor: *mut u64,
        cursor_n: u64,
        key: *mut u64,
        value: *mut u64,
    ) -> u64;
    fn cuffgarnet_next(
        arena: *const u64,
        n: u64,
        changes: u64,
        cursor: *mut u64,
        cursor_n: u64,
        key: *mut u64,
        value: *mut u64,
    ) -> u64;
    fn cuffgarnet_previous(
        arena: *const u64,
        n: u64,
        changes: u64,
        cursor: *mut u64,
        cursor_n: u64,
        key: *mut u64,
        value: *mut u64,
    ) -> u64;
    fn cuffgarnet_batch(
        arena: *mut u64,
        n: u64,
        orders: *const u64,
        orders_n: u64,
        answers: *mut u64,
        answers_n: u64,
    ) -> u64;
    fn cuffgarnet_restore(arena: *mut u64, n: u64, image: *const u64, image_n: u64, older: u64) -> u64;
    fn cuffgarnet_upgrade(source: *const u64, source_n: u64, target: *mut u64, target_n: u64) -> u64;
    fn cuffgarnet_load(arena: *mut u64, n: u64, run: *const u64, run_n: u64) -> u64;
    fn cuffgarnet_cut(arena: *mut u64, n: u64, key: u64, upper: *mut u64, upper_n: u64) -> u64;
    fn cuffgarnet_join(
        first: *mut u64,
        first_n: u64,
        second: *mut u64,
        second_n: u64,
        run: *mut u64,
        run_n: u64,
    ) -> u64;
}

/// What a word holds before a call writes it, as every call does; not 0, so that oracle/ would notice one left unwritten.
const UNWRITTEN: u64 = 7;

/// A call's number and second word.
pub struct Said {
    pub number: u64,
    pub second: u64,
}

/// A listing's number, how many pairs it wrote, and 1 if more remain.
pub struct Told {
    pub number: u64,
    pub written: u64,
    pub more: u64,
}

/// The number of a pair at a rank or a cursor, and the pair.
pub struct Picked {
    pub number: u64,
    pub key: u64,
    pub value: u64,
}

// SAFETY, of every call below: the pointers and lengths are those of slices and of local words, so they are aligned and
// valid for that many words; what is written is lent as `&mut`, so it overlaps nothing else and nobody else touches it.
// The calls have no `requires`: they take any words and end.

pub fn format(arena: &mut [u64]) -> u64 {
    unsafe { cuffgarnet_format(arena.as_mut_ptr(), arena.len() as u64) }
}

pub fn check(arena: &[u64]) -> u64 {
    unsafe { cuffgarnet_check(arena.as_ptr(), arena.len() as u64) }
}

pub fn get(arena: &[u64], key: u64) -> Said {
    let mut second = UNWRITTEN;
    let number = unsafe { cuffgarnet_get(arena.as_ptr(), arena.len() as u64, key, &raw mut second) };
    Said { number, second }
}

pub fn put(arena: &mut [u64], key: u64, value: u64) -> Said {
    let mut second = UNWRITTEN;
    let number = unsafe { cuffgarnet_put(arena.as_mut_ptr(), arena.len() as u64, key, value, &raw mut second) };
    Said { number, second }
}

pub fn delete(arena: &mut [u64], key: u64) -> Said {
    let mut second = UNWRITTEN;
    let number = unsafe { cuffgarnet_delete(arena.as_mut_ptr(), arena.len() as u64, key, &raw mut second) };
    Said { number, second }
}

pub fn reserve(arena: &mut [u64], key: u64) -> u64 {
    unsafe { cuffgarnet_reserve(arena.as_mut_ptr(), arena.len() as u64, key) }
}

pub fn order(arena: &mut [u64], code: u64, key: u64, value: u64) -> Said {
    let mut second = UNWRITTEN;
    let number = unsafe { cuffgarnet_order(arena.as_mut_ptr(), arena.len() as u64, code, key, value, &raw mut second) };
    Said { number, second }
}

pub fn list(arena: &[u64], start: (u64, u64), end: (u64, u64), out: &mut [u64]) -> Told {
    let mut written = UNWRITTEN;
    let mut more = UNWRITTEN;
    let number = unsafe {
        cuffgarnet_list(
            arena.as_ptr(),
            arena.len() as u64,
            start.0,
            start.1,
            end.0,
            end.1,
            out.as_mut_ptr(),
            out.len() as u64,
            &raw mut written,
            &raw mut more,
        )
    };
    Told { number, written, more }
}

pub fn rank(arena: &[u64], key: u64) -> Said {
    let mut second = UNWRITTEN;
    let number = unsafe { cuffgarnet_rank(arena.as_ptr(), arena.len() as u64, key, &raw mut second) };
    Said { number, second }
}

pub fn count(arena: &[u64], start: (u64, u64), end: (u64, u64)) -> Said {
    let mut second = UNWRITTEN;
    let number = unsafe {
        cuffgarnet_count(arena.as_ptr(), arena.len() as u64, start.0, start.1, end.0, end.1, &raw mut second)
    };
    Said { number, second }
}

pub fn at(arena: &[u64], rank: u64) -> Picked {
    let mut key = UNWRITTEN;
    let mut value = UNWRITTEN;
    let number = unsafe { cuffgarnet_at(arena.as_ptr(), arena.len() as u64, rank, &raw mut key, &raw mut value) };
    Picked { number, key, value }
}

/// A cursor call: the arena, the count, the cursor's words, and where the pair is written.
type Walk = unsafe extern "C" fn(*const u64, u64, u64, *mut u64, u64, *mut u64, *mut u64) -> u64;

fn walk(call: Walk, arena: &[u64], changes: u64, cursor: &mut [u64]) -> Picked {
    let mut key = UNWRITTEN;
    let mut value = UNWRITTEN;
    let (arena_n, cursor_n) = (arena.len() as u64, cursor.len() as u64);
    let number =
        unsafe { call(arena.as_ptr(), arena_n, changes, cursor.as_mut_ptr(), cursor_n, &raw mut key, &raw mut value) };
    Picked { number, key, value }
}

pub fn first(arena: &[u64], changes: u64, cursor: &mut [u64]) -> Picked {
    walk(cuffgarnet_first, arena, changes, cursor)
}

pub fn last(arena: &[u64], changes: u64, cursor: &mut [u64]) -> Picked {
    walk(cuffgarnet_last, arena, changes, cursor)
}

pub fn next(arena: &[u64], changes: u64, cursor: &mut [u64]) -> Picked {
    walk(cuffgarnet_next, arena, changes, cursor)
}

pub fn previous(arena: &[u64], changes: u64, cursor: &mut [u64]) -> Picked {
    walk(cuffgarnet_previous, arena, changes, cursor)
}

pub fn seek(arena: &[u64], changes: u64, start: (u64, u64), cursor: &mut [u64]) -> Picked {
    let mut key = UNWRITTEN;
    let mut value = UNWRITTEN;
    let number = unsafe {
        cuffgarnet_seek(
            arena.as_ptr(),
            arena.len() as u64,
            changes,
            start.0,
            start.1,
            cursor.as_mut_ptr(),
            cursor.len() as u64,
            &raw mut key,
            &raw mut value,
        )
    };
    Picked { number, key, value }
}

pub fn batch(arena: &mut [u64], orders: &[u64], answers: &mut [u64]) -> u64 {
    unsafe {
        cuffgarnet_batch(
            arena.as_mut_ptr(),
            arena.len() as u64,
            orders.as_ptr(),
            orders.len() as u64,
            answers.as_mut_ptr(),
            answers.len() as u64,
        )
    }
}

pub fn restore(arena: &mut [u64], image: &[u64], older: u64) -> u64 {
    unsafe { cuffgarnet_restore(arena.as_mut_ptr(), arena.len() as u64, image.as_ptr(), image.len() as u64, older) }
}

pub fn upgrade(source: &[u64], target: &mut [u64]) -> u64 {
    unsafe { cuffgarnet_upgrade(source.as_ptr(), source.len() as u64, target.as_mut_ptr(), target.len() as u64) }
}

pub fn load(arena: &mut [u64], run: &[u64]) -> u64 {
    unsafe { cuffgarnet_load(arena.as_mut_ptr(), arena.len() as u64, run.as_ptr(), run.len() as u64) }
}

pub fn cut(first: &mut [u64], second: &mut [u64], key: u64) -> u64 {
    let (a, n) = (first.as_mut_ptr(), first.len() as u64);
    unsafe { cuffgarnet_cut(a, n, key, second.as_mut_ptr(), second.len() as u64) }
}

pub fn join(first: &mut [u64], second: &mut [u64], run: &mut [u64]) -> u64 {
    let (a, n) = (first.as_mut_ptr(), first.len() as u64);
    let (b, m) = (second.as_mut_ptr(), second.len() as u64);
    unsafe { cuffgarnet_join(a, n, b, m, run.as_mut_ptr(), run.len() as u64) }
}
