//! The glue over the seven files of `alloc::collections::btree`, which the build lays beside this one: a map of u64 to u64 that finds,
//! inserts and removes by their own functions, and shows its nodes as document 01's words. Only what map.rs does above them is written
//! here; it was written anew from the seven files' own comments, for map.rs of 1.97.0 is not at hand.

#![allow(dead_code)]

mod append;
mod fix;
mod mem;
mod navigate;
mod node;
mod remove;
mod search;
mod set_val;
mod split;

/// What fix.rs and remove.rs take from map.rs: node.rs says of its own constant that it is the least length after a split.
mod map {
    pub(super) const MIN_LEN: usize = super::node::MIN_LEN_AFTER_SPLIT;
}

use std::ops::Bound;
use std::panic::{AssertUnwindSafe, catch_unwind};

use node::ForceResult::{Internal, Leaf};
use node::{Handle, NodeRef, Root, marker};
use search::SearchBound;
use search::SearchResult::{Found, GoDown};

use crate::slab::Slab;
use crate::words::{self, HEADER, NONE, WORDS};

type Node<'a> = NodeRef<marker::Immut<'a>, u64, u64, marker::LeafOrInternal>;

/// A start or an end bound.
pub type End = Bound<u64>;

/// What search_tree_for_bifurcation answers.
#[derive(Clone, Copy, Debug, PartialEq, Eq)]
pub enum Fork {
    /// Node, lower and upper edge, the children's bounds as kind and key.
    Parted { node: u64, lower: u64, upper: u64, start: (u64, u64), end: (u64, u64) },
    /// The leaf edge where both coincide.
    Together { node: u64, at: u64 },
}

/// Open 0, included 1, excluded 2, nothing admitted 3; and the key, or 0.
fn kind(bound: SearchBound<&u64>) -> (u64, u64) {
    match bound {
        SearchBound::AllIncluded => (0, 0),
        SearchBound::Included(k) => (1, *k),
        SearchBound::Excluded(k) => (2, *k),
        SearchBound::AllExcluded => (3, 0),
    }
}

/// The first pairs of a range, and whether more remain.
pub struct Pairs {
    pub pairs: Vec<(u64, u64)>,
    pub more: bool,
}

/// A map whose nodes stand in a slab. It has no root until the first insertion, as BTreeMap has none.
pub struct Map<'s> {
    root: Option<Root<u64, u64>>,
    length: usize,
    slab: &'s Slab,
}

impl<'s> Map<'s> {
    pub fn new(slab: &'s Slab) -> Map<'s> {
        Map { root: None, length: 0, slab }
    }

    /// An empty leaf, then bulk_push.
    pub fn load(slab: &'s Slab, pairs: &[(u64, u64)]) -> Map<'s> {
        let (mut root, mut length) = (Root::new(slab.alloc()), 0);
        root.bulk_push(pairs.iter().copied(), &mut length, slab.alloc());
        Map { root: Some(root), length, slab }
    }

    pub fn is_rootless(&self) -> bool {
        self.root.is_none()
    }

    pub fn len(&self) -> usize {
        self.length
    }

    fn top(&self) -> Option<Node<'_>> {
        self.root.as_ref().map(|r| r.reborrow())
    }

    pub fn get(&self, key: u64) -> Option<u64> {
        match self.top()?.search_tree(&key) {
            Found(kv) => Some(*kv.into_kv().1),
            GoDown(_) => None,
        }
    }

    /// Inserts, or replaces the value; the former value.
    pub fn put(&mut self, key: u64, value: u64) -> Option<u64> {
        let alloc = self.slab.alloc();
        let root = self.root.get_or_insert_with(|| Root::new(alloc));
        let mut above = None;
        match root.borrow_mut().search_tree(&key) {
            Found(kv) => return Some(std::mem::replace(kv.into_val_mut(), value)),
            GoDown(edge) => {
                edge.insert_recursing(key, value, alloc, |split| above = Some((split.kv, split.right)));
            }
        }
        if let Some(((k, v), right)) = above {
            root.push_internal_level(alloc).push(k, v, right);
        }
        self.length += 1;
        None
    }

    pub fn delete(&mut self, key: u64) -> Option<u64> {
        let alloc = self.slab.alloc();
        let root = self.root.as_mut()?;
        let mut emptied = false;
        let ((_, value), _) = match root.borrow_mut().search_tree(&key) {
            Found(kv) => kv.remove_kv_tracking(|| emptied = true, alloc),
            GoDown(_) => return None,
        };
        if emptied {
            root.pop_internal_level(alloc);
        }
        self.length -= 1;
        Some(value)
    }

    /// How many nodes an insertion of an absent key takes, by document 01's rule: the run of full nodes from the leaf upwards, plus 1 if
    /// it includes the root. None if the key is there.
    pub fn nodes_needed(&self, key: u64) -> Option<usize> {
        let Some(top) = self.top() else { return Some(0) };
        let edge = match top.search_tree(&key) {
            Found(_) => return None,
            GoDown(edge) => edge,
        };
        let mut node = edge.into_node().forget_type();
        let mut needed = 0;
        while node.len() == node::CAPACITY {
            needed += 1;
            match node.ascend() {
                Ok(parent) => node = parent.into_node().forget_type(),
                Err(_) => return Some(needed + 1),
            }
        }
        Some(needed)
    }

    /// The first `room` pairs of a range by range_search and next_checked; None where the Rust panics.
    pub fn range(&self, start: End, end: End, room: usize) -> Option<Pairs> {
        let none = Pairs { pairs: Vec::new(), more: false };
        let Some(top) = self.top() else { return Some(none) };
        let mut leaves = catch_unwind(AssertUnwindSafe(|| top.range_search((start, end)))).ok()?;
        let mut pairs = Vec::new();
        while pairs.len() < room {
            match leaves.next_checked() {
                Some((k, v)) => pairs.push((*k, *v)),
                None => break,
            }
        }
        Some(Pairs { pairs, more: leaves.next_checked().is_some() })
    }

    /// All pairs of a range, from the back.
    pub fn range_back(&self, start: End, end: End) -> Option<Vec<(u64, u64)>> {
        let Some(top) = self.top() else { return Some(Vec::new()) };
        let mut leaves = catch_unwind(AssertUnwindSafe(|| top.range_search((start, end)))).ok()?;
        let mut pairs = Vec::new();
        while let Some((k, v)) = leaves.next_back_checked() {
            pairs.push((*k, *v));
        }
        Some(pairs)
    }

    /// search_tree_for_bifurcation; None where the Rust panics or has no root.
    pub fn fork(&self, start: End, end: End) -> Option<Fork> {
        let top = self.top()?;
        let range = (start, end);
        let found = catch_unwind(AssertUnwindSafe(|| top.search_tree_for_bifurcation::<u64, _>(&range))).ok()?;
        Some(match found {
            Ok((node, lower, upper, start, end)) => {
                Fork::Parted { node: self.number(node), lower: lower as u64, upper: upper as u64, start: kind(start), end: kind(end) }
            }
            Err(edge) => {
                let at = edge.idx() as u64;
                Fork::Together { node: self.number(edge.into_node().forget_type()), at }
            }
        })
    }

    /// Of each leaf edge, by node and place: the pair after it and the pair before it, if any, by node and place.
    pub fn neighbours(&self) -> Vec<((u64, u64), Option<(u64, u64)>, Option<(u64, u64)>)> {
        fn visit<'a>(map: &'a Map<'_>, node: Node<'a>, out: &mut Vec<((u64, u64), Option<(u64, u64)>, Option<(u64, u64)>)>) {
            match node.force() {
                Leaf(leaf) => {
                    for i in 0..=leaf.len() {
                        let edge = unsafe { Handle::new_edge(leaf, i) };
                        let next = edge.next_kv().ok().map(|kv| (map.number(kv.into_node()), kv.idx() as u64));
                        let back = edge.next_back_kv().ok().map(|kv| (map.number(kv.into_node()), kv.idx() as u64));
                        out.push(((map.number(node), i as u64), next, back));
                    }
                }
                Internal(internal) => {
                    for i in 0..=internal.len() {
                        visit(map, unsafe { Handle::new_edge(internal, i) }.descend(), out);
                    }
                }
            }
        }
        let mut out = Vec::new();
        if let Some(top) = self.top() {
            visit(self, top, &mut out);
        }
        out
    }

    /// split_off, and the pairs that went. Their nodes are free then, as if the right part had been dropped.
    pub fn split_off(&mut self, key: u64) -> Vec<(u64, u64)> {
        let Some(root) = &mut self.root else { return Vec::new() };
        let right = Map { root: Some(root.split_off(&key, self.slab.alloc())), length: 0, slab: self.slab };
        let mut w = vec![0; words::long(self.slab.count())];
        right.top().into_iter().for_each(|top| right.write(top, &mut w));
        let mut chain = self.slab.chain();
        chain.extend((0..self.slab.count() as u64).filter(|n| words::node(&w, *n)[words::STATE] != 0));
        chain.sort_unstable();
        self.slab.set_chain(&chain);
        let gone: Vec<(u64, u64)> = right.places().into_iter().map(|(k, v, ..)| (k, v)).collect();
        self.length -= gone.len();
        gone
    }

    pub fn fix_right_border(&mut self) {
        let alloc = self.slab.alloc();
        if let Some(root) = &mut self.root {
            root.fix_right_border(alloc);
        }
    }

    pub fn fix_left_border(&mut self) {
        let alloc = self.slab.alloc();
        if let Some(root) = &mut self.root {
            root.fix_left_border(alloc);
        }
    }

    /// A node's number, by where its keys lie.
    fn number(&self, node: Node<'_>) -> u64 {
        self.slab.place(node.keys().as_ptr()).0
    }

    /// Each pair in order: key, value, node, place in the node.
    pub fn places(&self) -> Vec<(u64, u64, u64, u64)> {
        fn visit(map: &Map<'_>, node: Node<'_>, out: &mut Vec<(u64, u64, u64, u64)>) {
            let number = map.number(node);
            for i in 0..=node.len() {
                if let Internal(internal) = node.force() {
                    visit(map, unsafe { Handle::new_edge(internal, i) }.descend(), out);
                }
                if i < node.len() {
                    let (k, v) = unsafe { Handle::new_kv(node, i) }.into_kv();
                    out.push((*k, *v, number, i as u64));
                }
            }
        }
        let mut out = Vec::with_capacity(self.length);
        if let Some(top) = self.top() {
            visit(self, top, &mut out);
        }
        out
    }

    /// The map's nodes and the slab's free chain as the words of an arena. A map with no root is written as a formatted arena: the first
    /// free node, 0, stands for the root that the first insertion makes.
    pub fn words(&self, seen: u64, mark: u64) -> Vec<u64> {
        let count = self.slab.count();
        let mut w = vec![0; HEADER + WORDS * count];
        let mut chain = self.slab.chain();
        let (root, height) = match self.top() {
            Some(top) => {
                self.write(top, &mut w);
                (self.number(top), top.height() as u64)
            }
            None => {
                let first = chain.remove(0);
                words::write_node(&mut w, first, 1, &[], NONE, 0, 0);
                (first, 0)
            }
        };
        words::write_header(&mut w, count, root, height, self.length as u64, &chain, seen, mark);
        w
    }

    fn write(&self, node: Node<'_>, w: &mut [u64]) {
        let n = self.number(node);
        let base = HEADER + WORDS * n as usize;
        let (parent, index) = match node.ascend() {
            Ok(edge) => {
                let index = edge.idx() as u64;
                (self.number(edge.into_node().forget_type()), index)
            }
            Err(_) => (NONE, 0),
        };
        assert!(w[base] == 0, "node {n} is met twice");
        let pairs: Vec<_> = (0..node.len())
            .map(|i| {
                let (k, v) = unsafe { Handle::new_kv(node, i) }.into_kv();
                (*k, *v)
            })
            .collect();
        match node.force() {
            Leaf(_) => words::write_node(w, n, 1, &pairs, parent, index, 0),
            Internal(internal) => {
                // marks the node as met
                w[base] = 2;
                let mut below = 0;
                for i in 0..=internal.len() {
                    let child = unsafe { Handle::new_edge(internal, i) }.descend();
                    let number = self.number(child);
                    w[base + words::EDGES + i] = number;
                    self.write(child, w);
                    below += words::node(w, number)[words::COUNT];
                }
                words::write_node(w, n, 2, &pairs, parent, index, below);
            }
        }
    }

    /// The tree that an arena's words hold, laid out in the slab by the Rust's own pushes, each node at its number; nodes may be short or
    /// empty. The slab's chain becomes the words' chain.
    pub fn from_words(slab: &'s Slab, w: &[u64]) -> Result<Map<'s>, String> {
        let chain = words::chain(w)?;
        let mut met = vec![false; slab.count()];
        for n in &chain {
            met[*n as usize] = true;
        }
        let root = lay(slab, w, w[words::ROOT], w[words::HEIGHT], &mut met)?;
        if let Some(lost) = met.iter().position(|m| !m) {
            return Err(format!("node {lost} is neither in the tree nor in the free chain"));
        }
        slab.set_chain(&chain);
        Ok(Map { root: Some(root), length: w[words::PAIRS] as usize, slab })
    }
}

fn lay(slab: &Slab, w: &[u64], n: u64, height: u64, met: &mut [bool]) -> Result<Root<u64, u64>, String> {
    match met.get_mut(n as usize) {
        None => return Err(format!("there is no node {n}")),
        Some(true) => return Err(format!("node {n} is met twice")),
        Some(m) => *m = true,
    }
    let node = words::node(w, n);
    let state = if height == 0 { 1 } else { 2 };
    let len = node[words::LEN] as usize;
    if node[words::STATE] != state || len > words::MOST {
        return Err(format!("node {n} is no node at height {height}"));
    }
    let pair = |i: usize| (node[words::KEYS + i], node[words::VALS + i]);
    if height == 0 {
        slab.want(n);
        let mut leaf = NodeRef::new_leaf(slab.alloc());
        for i in 0..len {
            let (k, v) = pair(i);
            leaf.borrow_mut().push(k, v);
        }
        return Ok(leaf.forget_type());
    }
    let mut root = lay(slab, w, node[words::EDGES], height - 1, met)?;
    slab.want(n);
    let mut top = root.push_internal_level(slab.alloc());
    for i in 0..len {
        let (k, v) = pair(i);
        let child = lay(slab, w, node[words::EDGES + i + 1], height - 1, met)?;
        top.push(k, v, child);
    }
    Ok(root)
}
