//! An allocator that numbers nodes as request (iv) does: the free node with the lowest number is taken, a returned one goes to its place in
//! the rising chain. A node's number is its place in one block of memory, so that the Rust's addresses can be read as numbers.

use std::alloc::{AllocError, Allocator, Layout};
use std::cell::{Cell, RefCell};
use std::ptr::NonNull;

/// Bytes to a node: no node of u64 pairs is larger.
const SLOT: usize = 320;

#[repr(C, align(64))]
#[derive(Clone, Copy)]
struct Slot([u8; SLOT]);

pub struct Slab {
    slots: Box<[std::cell::UnsafeCell<Slot>]>,
    /// The free nodes, falling: the first one last.
    free: RefCell<Vec<u32>>,
    /// A number that the next node is to have, while a tree is laid out.
    wanted: Cell<Option<u32>>,
    taken: Cell<u64>,
    returned: Cell<u64>,
}

impl Slab {
    pub fn new(count: usize) -> Slab {
        let slot = || std::cell::UnsafeCell::new(Slot([0; SLOT]));
        Slab {
            slots: (0..count).map(|_| slot()).collect(),
            free: RefCell::new((0..count as u32).rev().collect()),
            wanted: Cell::new(None),
            taken: Cell::new(0),
            returned: Cell::new(0),
        }
    }

    /// A slab for a map with the same pairs but other nodes, which may be more.
    pub fn beside(count: usize) -> Slab {
        Slab::new(3 * count + 8)
    }

    /// All nodes free, 0 first, then 1, 2, ..
    pub fn clear(&self) {
        self.free.replace((0..self.count() as u32).rev().collect());
    }

    pub fn count(&self) -> usize {
        self.slots.len()
    }

    pub fn free_nodes(&self) -> usize {
        self.free.borrow().len()
    }

    /// The free nodes, the first one first.
    pub fn chain(&self) -> Vec<u64> {
        self.free.borrow().iter().rev().map(|n| u64::from(*n)).collect()
    }

    /// The free nodes become these, which rise.
    pub fn set_chain(&self, chain: &[u64]) {
        assert!(chain.is_sorted_by(|a, b| a < b), "a free chain that does not rise");
        self.free.replace(chain.iter().rev().map(|n| *n as u32).collect());
    }

    pub fn want(&self, number: u64) {
        self.wanted.set(Some(number as u32));
    }

    /// Nodes taken and returned so far.
    pub fn traffic(&self) -> (u64, u64) {
        (self.taken.get(), self.returned.get())
    }

    fn base(&self) -> usize {
        self.slots.as_ptr() as usize
    }

    /// The number of the node that an address lies in, and where in it.
    pub fn place<T>(&self, at: *const T) -> (u64, usize) {
        let far = (at as usize).checked_sub(self.base()).expect("an address below the block");
        assert!(far / SLOT < self.count(), "an address above the block");
        ((far / SLOT) as u64, far % SLOT)
    }

    pub fn alloc(&self) -> Numbered<'_> {
        Numbered(self)
    }
}

#[derive(Clone, Copy)]
pub struct Numbered<'s>(&'s Slab);

// SAFETY: a slot is handed out once until it is returned, stays where it is while the slab lives, and is as large and as aligned as asked
// for, or else nothing is handed out.
unsafe impl Allocator for Numbered<'_> {
    fn allocate(&self, layout: Layout) -> Result<NonNull<[u8]>, AllocError> {
        assert!(layout.size() <= SLOT && layout.align() <= align_of::<Slot>(), "not a node: {layout:?}");
        let n = match self.0.wanted.take() {
            Some(n) => n,
            None => self.0.free.borrow_mut().pop().ok_or(AllocError)?,
        };
        self.0.taken.set(self.0.taken.get() + 1);
        let at = self.0.slots[n as usize].get().cast::<u8>();
        NonNull::new(std::ptr::slice_from_raw_parts_mut(at, layout.size())).ok_or(AllocError)
    }

    unsafe fn deallocate(&self, at: NonNull<u8>, _layout: Layout) {
        let (n, within) = self.0.place(at.as_ptr());
        assert!(within == 0, "not the start of a node");
        self.0.returned.set(self.0.returned.get() + 1);
        let mut free = self.0.free.borrow_mut();
        let at = free.partition_point(|m| *m > n as u32);
        free.insert(at, n as u32);
    }
}
