//! Reads words by docs/RULES.md and finds the first rule that they break. This is a second reading, for people; what counts is the
//! proved check, and `tests/explain.rs` holds the two against each other.

/// "No node".
pub const NONE: u64 = 4_294_967_295;

const HEADER: usize = 10;
const NODE: usize = 39;
const LARGEST: u64 = 1_048_575;

/// Places in the header.
const ROOT: usize = 3;
const HEIGHT: usize = 4;
const PAIRS: usize = 5;
const FIRST_FREE: usize = 6;
const FREE: usize = 7;
const SEEN: usize = 8;
const MARK: usize = 9;

/// Places in a node.
const STATE: usize = 0;
const LENGTH: usize = 1;
const LINK: usize = 2;
const INDEX: usize = 3;
const KEYS: usize = 4;
const VALUES: usize = 15;
const EDGES: usize = 26;
const COUNT: usize = 38;

/// What the words of the header hold.
pub const NAMES: [&str; HEADER] = [
    "format number",
    "number of nodes",
    "where the first node begins",
    "number of the root node",
    "height",
    "number of pairs",
    "first free node",
    "number of free nodes",
    "seen",
    "mark",
];

/// The rules of section 2, in its words.
pub const RULES: [&str; 10] = [
    "Word 0 is 2, word 1 is an N of 1 to 1,048,575, word 2 is 10, and there are exactly 10 + 39 N words.",
    "Each node's state is 0, 1 or 2, and its words are as in the table above; words not in use are 0.",
    "Following the edges from the root (word 3), each inner node has n + 1 edges and each leads to a node below N.",
    "Every node is either reached exactly once from the root, or stands exactly once in the free chain, and not both. The chain begins at \
     word 6, goes on by the free nodes' word 2, always to a larger number, and ends in NONE. Reached nodes have state 1 or 2, free ones \
     state 0.",
    "A reached node's parent and edge index are those of the edge that leads to it; at the root they are NONE and 0.",
    "Every leaf lies exactly `height` (word 4) levels below the root.",
    "A root that is a leaf holds 0 to 11 pairs, a root that is an inner node 1 to 11, every other reached node 5 to 11.",
    "The keys, read in order (edge 0, key 0, edge 1, key 1, .. edge n), rise strictly.",
    "Word 5 is the number of pairs, word 7 the number of free nodes. Every reached node's count (its word 38) is the number of pairs in it \
     and below it: each is compared, leaves too, not only the root's with word 5.",
    "Word 8 is 0 or 1. It is 1 if there is any pair. If it is 1, no key is larger than word 9; if it is 0, word 9 is 0.",
];

/// The first rule that fails, and where.
#[derive(Debug, Eq, PartialEq)]
pub struct Fault {
    /// From 1 on.
    pub rule: usize,
    pub place: Place,
    pub what: String,
}

/// Where a rule fails.
#[derive(Clone, Copy, Debug, Eq, PartialEq)]
pub enum Place {
    /// In the number of words.
    Length,
    /// In this word of the header.
    Header(usize),
    /// In this word of this node.
    Node(u64, usize),
}

impl Place {
    /// The word of the file.
    pub fn word(self) -> Option<usize> {
        match self {
            Place::Length => None,
            Place::Header(word) => Some(word),
            Place::Node(node, word) => base(node)?.checked_add(word),
        }
    }
}

#[allow(clippy::unnecessary_wraps, reason = "it is what a rule that fails answers")]
fn fault(rule: usize, place: Place, what: impl Into<String>) -> Option<Fault> {
    Some(Fault { rule, place, what: what.into() })
}

/// The first word of a node.
fn base(node: u64) -> Option<usize> {
    usize::try_from(node).ok()?.checked_mul(NODE)?.checked_add(HEADER)
}

/// A length of at most 11, as a number of things.
fn few(word: u64) -> usize {
    usize::try_from(word.min(11)).unwrap_or(11)
}

/// A node's words.
#[derive(Clone, Copy)]
pub struct Node<'a>(&'a [u64]);

impl<'a> Node<'a> {
    fn word(self, at: usize) -> u64 {
        self.0.get(at).copied().unwrap_or(0)
    }

    fn words(self, from: usize, n: usize) -> &'a [u64] {
        self.0.get(from..from.saturating_add(n)).unwrap_or(&[])
    }

    pub fn state(self) -> u64 {
        self.word(STATE)
    }

    pub fn length(self) -> u64 {
        self.word(LENGTH)
    }

    pub fn count(self) -> u64 {
        self.word(COUNT)
    }

    pub fn keys(self) -> &'a [u64] {
        self.words(KEYS, few(self.length()))
    }

    /// The edges in use; none, if this is no inner node.
    pub fn edges(self) -> &'a [u64] {
        match self.state() {
            2 => self.words(EDGES, few(self.length()).saturating_add(1)),
            _ => &[],
        }
    }
}

/// How the walk from the root came to a node.
#[derive(Clone, Copy)]
pub struct Arrival {
    pub node: u64,
    /// Along this edge of this node; NONE and 0 at the root.
    pub parent: u64,
    pub index: u64,
    pub depth: usize,
    /// Whether it was reached before.
    pub again: bool,
}

impl Arrival {
    /// The word that leads here.
    fn place(&self) -> Place {
        match self.parent {
            NONE => Place::Header(ROOT),
            parent => Place::Node(parent, EDGES.saturating_add(few(self.index))),
        }
    }

    fn way(&self) -> String {
        match self.parent {
            NONE => "the header".to_string(),
            parent => format!("edge {} of node {parent}", self.index),
        }
    }
}

/// The words, as far as they can be read.
pub struct Arena<'a> {
    pub words: &'a [u64],
    /// Whole nodes that the words have room for.
    pub nodes: u64,
    /// Of the walk from the root, a node before those below it; each node is walked through once.
    pub reached: Vec<Arrival>,
    /// The free nodes, as far as the chain can be followed.
    pub chain: Vec<u64>,
}

impl<'a> Arena<'a> {
    pub fn read(words: &'a [u64]) -> Self {
        let nodes = (words.len().saturating_sub(HEADER) / NODE) as u64;
        let mut arena = Arena { words, nodes, reached: Vec::new(), chain: Vec::new() };
        arena.walk();
        arena.follow();
        arena
    }

    pub fn header(&self, at: usize) -> u64 {
        self.words.get(at).copied().unwrap_or(0)
    }

    pub fn node(&self, number: u64) -> Option<Node<'a>> {
        let from = base(number)?;
        self.words.get(from..from.checked_add(NODE)?).map(Node)
    }

    fn walk(&mut self) {
        let mut seen = Marks::new(self.nodes);
        let root = Arrival { node: self.header(ROOT), parent: NONE, index: 0, depth: 0, again: false };
        let mut ways = vec![root];
        while let Some(mut way) = ways.pop() {
            let node = self.node(way.node);
            way.again = node.is_some() && seen.mark(way.node);
            self.reached.push(way);
            if way.again {
                continue;
            }
            let edges = node.map_or(&[][..], Node::edges);
            let depth = way.depth.saturating_add(1);
            let below =
                (0..).zip(edges).map(|(index, to)| Arrival { node: *to, parent: way.node, index, depth, again: false });
            let from = ways.len();
            ways.extend(below);
            ways.get_mut(from..).unwrap_or(&mut []).reverse(); // the first edge's is taken next
        }
    }

    /// Stops at a number that is no larger, or no node's.
    fn follow(&mut self) {
        let mut at = self.header(FIRST_FREE);
        while let Some(node) = self.node(at) {
            if self.chain.last().is_some_and(|last| at <= *last) {
                break;
            }
            self.chain.push(at);
            at = node.word(LINK);
        }
    }

    /// All nodes of the walk that are there.
    fn live(&self) -> impl Iterator<Item = (&Arrival, Node<'a>)> {
        self.reached.iter().filter_map(|way| Some((way, self.node(way.node)?)))
    }

    /// The first rule that fails; none of a well-formed arena. Each rule may count on those before it.
    pub fn first_fault(&self) -> Option<Fault> {
        let rules = [
            Self::sizes,
            Self::tables,
            Self::edges,
            Self::places,
            Self::links,
            Self::heights,
            Self::lengths,
            Self::order,
            Self::counts,
            Self::mark,
        ];
        rules.iter().find_map(|rule| rule(self))
    }

    fn sizes(&self) -> Option<Fault> {
        let (long, number, nodes) = (self.words.len(), self.header(0), self.header(1));
        if long < HEADER {
            return fault(1, Place::Length, format!("there are {long} words, and a header has {HEADER}"));
        }
        if number != 2 {
            let old = if number == 1 { ": an arena of format 1, which only the upgrade reads" } else { "" };
            return fault(1, Place::Header(0), format!("the format number is {number}{old}"));
        }
        if nodes == 0 || nodes > LARGEST {
            return fault(1, Place::Header(1), format!("the number of nodes is {nodes}"));
        }
        if self.header(2) != HEADER as u64 {
            return fault(1, Place::Header(2), format!("the first node is said to begin at word {}", self.header(2)));
        }
        match base(nodes) {
            Some(wanted) if wanted != long => {
                fault(1, Place::Length, format!("there are {long} words, and {nodes} nodes have {wanted}"))
            }
            _ => None,
        }
    }

    fn tables(&self) -> Option<Fault> {
        (0..self.nodes).find_map(|number| table(number, self.node(number)?))
    }

    fn edges(&self) -> Option<Fault> {
        let lost = self.reached.iter().find(|way| way.node >= self.nodes)?;
        fault(3, lost.place(), format!("{} leads to node {}, and there are {}", lost.way(), lost.node, self.nodes))
    }

    fn places(&self) -> Option<Fault> {
        let mut met = Marks::new(self.nodes);
        for (way, node) in self.live() {
            if way.again {
                return fault(
                    4,
                    way.place(),
                    format!("{} leads to node {}, which is reached already", way.way(), way.node),
                );
            }
            if node.state() == 0 {
                return fault(
                    4,
                    Place::Node(way.node, STATE),
                    format!("{} leads here, and the state is 0: free", way.way()),
                );
            }
            met.mark(way.node);
        }
        let mut from = Place::Header(FIRST_FREE);
        for free in &self.chain {
            let state = self.node(*free).map_or(0, Node::state);
            if state != 0 {
                return fault(4, from, format!("the chain goes on to node {free}, whose state is {state}"));
            }
            met.mark(*free);
            from = Place::Node(*free, LINK);
        }
        let end = from.word().and_then(|word| self.words.get(word)).copied().unwrap_or(NONE);
        if end != NONE {
            let why = if end < self.nodes { "which is not larger" } else { "which is no node" };
            return fault(4, from, format!("the chain goes on to {end}, {why}"));
        }
        let lost = (0..self.nodes).find(|node| !met.marked(*node))?;
        fault(4, Place::Node(lost, STATE), "neither reached from the root nor in the free chain")
    }

    fn links(&self) -> Option<Fault> {
        self.live().find_map(|(way, node)| {
            let (parent, index) = (node.word(LINK), node.word(INDEX));
            if parent != way.parent {
                return fault(
                    5,
                    Place::Node(way.node, LINK),
                    format!("the parent is {}, and {} leads here", name(parent), way.way()),
                );
            }
            let wrong = || {
                fault(
                    5,
                    Place::Node(way.node, INDEX),
                    format!("the edge index is {index}, and {} leads here", way.way()),
                )
            };
            (index != way.index).then(wrong)?
        })
    }

    fn heights(&self) -> Option<Fault> {
        let height = self.header(HEIGHT);
        let (way, _) = self.live().find(|(way, node)| node.state() == 1 && way.depth as u64 != height)?;
        fault(
            6,
            Place::Node(way.node, STATE),
            format!("a leaf {} levels below the root, and the height is {height}", way.depth),
        )
    }

    fn lengths(&self) -> Option<Fault> {
        self.live().find_map(|(way, node)| {
            let least = match (way.parent, node.state()) {
                (NONE, 1) => 0,
                (NONE, _) => 1,
                _ => 5,
            };
            let wrong = || {
                fault(
                    7,
                    Place::Node(way.node, LENGTH),
                    format!("{} pairs, and at least {least} belong here", node.length()),
                )
            };
            (node.length() < least).then(wrong)?
        })
    }

    /// The keys in order, with their nodes and places.
    fn in_order(&self) -> Vec<(u64, usize, u64)> {
        let mut keys = Vec::new();
        let mut ways = vec![(self.header(ROOT), 0_usize)];
        while let Some((number, place)) = ways.pop() {
            let Some(node) = self.node(number) else { continue };
            if let Some(key) = place.checked_sub(1).and_then(|at| Some((at, *node.keys().get(at)?))) {
                keys.push((number, key.0, key.1));
            }
            match node.edges().get(place) {
                Some(child) => ways.extend([(number, place.saturating_add(1)), (*child, 0)]),
                None if node.state() == 1 => {
                    keys.extend(node.keys().iter().enumerate().map(|(at, key)| (number, at, *key)));
                }
                None => (),
            }
        }
        keys
    }

    fn order(&self) -> Option<Fault> {
        let keys = self.in_order();
        let two = keys.windows(2).find(|two| matches!(two, [(.., a), (.., b)] if a >= b))?;
        let [(.., before), (node, at, key)] = *two else { return None };
        fault(8, Place::Node(node, KEYS.saturating_add(at)), format!("the key {key} comes after {before}"))
    }

    fn counts(&self) -> Option<Fault> {
        let pairs: u64 = self.live().map(|(_, node)| node.keys().len() as u64).sum();
        let free = self.chain.len() as u64;
        if self.header(PAIRS) != pairs {
            return fault(
                9,
                Place::Header(PAIRS),
                format!("the number of pairs is {}, and there are {pairs}", self.header(PAIRS)),
            );
        }
        if self.header(FREE) != free {
            return fault(
                9,
                Place::Header(FREE),
                format!("the number of free nodes is {}, and there are {free}", self.header(FREE)),
            );
        }
        // from the last node reached to the first, so that all below a node are counted before it
        let mut below: Vec<u64> = (0..self.nodes).map(|_| 0).collect();
        let mut wrong = None;
        for way in self.reached.iter().rev() {
            let Some(node) = self.node(way.node) else { continue };
            let of = |below: &[u64], node: &u64| below.get(usize::try_from(*node).ok()?).copied();
            let children: u64 = node.edges().iter().filter_map(|child| of(&below, child)).sum();
            let all = children.saturating_add(node.keys().len() as u64);
            if let Some(known) = usize::try_from(way.node).ok().and_then(|at| below.get_mut(at)) {
                *known = all;
            }
            if node.count() != all {
                let what = format!("the count is {}, and there are {all} pairs in it and below it", node.count());
                wrong = fault(9, Place::Node(way.node, COUNT), what);
            }
        }
        wrong
    }

    fn mark(&self) -> Option<Fault> {
        let (seen, mark, pairs) = (self.header(SEEN), self.header(MARK), self.header(PAIRS));
        if seen > 1 {
            return fault(10, Place::Header(SEEN), format!("seen is {seen}"));
        }
        if seen == 0 && pairs > 0 {
            return fault(10, Place::Header(SEEN), format!("seen is 0, and there are {pairs} pairs"));
        }
        if seen == 0 && mark != 0 {
            return fault(10, Place::Header(MARK), format!("the mark is {mark}, and seen is 0"));
        }
        let largest = self.live().flat_map(|(_, node)| node.keys()).max().filter(|key| **key > mark)?;
        fault(10, Place::Header(MARK), format!("the mark is {mark}, and the key {largest} is larger"))
    }
}

/// A node's own words, wherever it stands.
fn table(number: u64, node: Node) -> Option<Fault> {
    let (state, length) = (node.state(), node.length());
    if state > 2 {
        return fault(2, Place::Node(number, STATE), format!("the state is {state}"));
    }
    if length > 11 || (state == 0 && length > 0) {
        let most = if state == 0 { 0 } else { 11 };
        return fault(
            2,
            Place::Node(number, LENGTH),
            format!("the length is {length}, and at most {most} are possible here"),
        );
    }
    let n = few(length);
    let unused = |at: usize| match at {
        INDEX | COUNT => state == 0,
        KEYS..VALUES => at.saturating_sub(KEYS) >= n,
        VALUES..EDGES => at.saturating_sub(VALUES) >= n,
        EDGES..COUNT => state != 2 || at.saturating_sub(EDGES) > n,
        _ => false,
    };
    let at = (INDEX..NODE).find(|at| unused(*at) && node.word(*at) != 0)?;
    fault(2, Place::Node(number, at), format!("a word that is not in use is {}", node.word(at)))
}

/// A node's number, as RULES writes it.
pub fn name(node: u64) -> String {
    match node {
        NONE => "NONE".to_string(),
        node => node.to_string(),
    }
}

/// One yes or no a node.
struct Marks(Vec<bool>);

impl Marks {
    fn new(nodes: u64) -> Self {
        Marks((0..nodes).map(|_| false).collect())
    }

    /// Marks it; whether it was marked.
    fn mark(&mut self, node: u64) -> bool {
        let place = usize::try_from(node).ok().and_then(|at| self.0.get_mut(at));
        place.is_some_and(|place| std::mem::replace(place, true))
    }

    fn marked(&self, node: u64) -> bool {
        usize::try_from(node).ok().and_then(|at| self.0.get(at)).is_some_and(|place| *place)
    }
}
