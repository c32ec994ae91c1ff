//! The layout of document 01's arena, in format 2 of request (ix); and format 1, which is the same without each node's last word.

pub const HEADER: usize = 10;
/// Words of a node, and in format 1.
pub const WORDS: usize = 39;
pub const OLD_WORDS: usize = 38;
/// The format number.
const FORMAT: u64 = 2;
pub const NONE: u64 = 4_294_967_295;
pub const MOST: usize = 11;
/// Nodes of the largest arena.
pub const LARGEST: usize = 1_048_575;

pub const NODES: usize = 1;
pub const ROOT: usize = 3;
pub const HEIGHT: usize = 4;
pub const PAIRS: usize = 5;
pub const FIRST_FREE: usize = 6;
pub const FREE_NODES: usize = 7;
pub const SEEN: usize = 8;
pub const MARK: usize = 9;

pub const STATE: usize = 0;
pub const LEN: usize = 1;
pub const PARENT: usize = 2;
pub const INDEX: usize = 3;
pub const KEYS: usize = 4;
pub const VALS: usize = 15;
pub const EDGES: usize = 26;
/// The number of pairs in the node and below it; not in format 1.
pub const COUNT: usize = 38;

pub fn long(count: usize) -> usize {
    HEADER + WORDS * count
}

pub fn node(w: &[u64], n: u64) -> &[u64] {
    node_of(w, n, WORDS)
}

/// A node of so many words.
fn node_of(w: &[u64], n: u64, words: usize) -> &[u64] {
    let base = HEADER + words * n as usize;
    &w[base..base + words]
}

/// All but the edges; `below` is how many pairs are below its edges.
pub fn write_node(w: &mut [u64], n: u64, state: u64, pairs: &[(u64, u64)], parent: u64, index: u64, below: u64) {
    let base = HEADER + WORDS * n as usize;
    w[base..base + 4].copy_from_slice(&[state, pairs.len() as u64, parent, index]);
    w[base + COUNT] = pairs.len() as u64 + below;
    for (i, (k, v)) in pairs.iter().enumerate() {
        w[base + KEYS + i] = *k;
        w[base + VALS + i] = *v;
    }
}

/// The header, and the links of the free chain.
#[allow(clippy::too_many_arguments)]
pub fn write_header(w: &mut [u64], count: usize, root: u64, height: u64, pairs: u64, chain: &[u64], seen: u64, mark: u64) {
    let first = chain.first().copied().unwrap_or(NONE);
    let header = [FORMAT, count as u64, HEADER as u64, root, height, pairs, first, chain.len() as u64, seen, mark];
    w[..HEADER].copy_from_slice(&header);
    for (i, n) in chain.iter().enumerate() {
        w[HEADER + WORDS * *n as usize + PARENT] = chain.get(i + 1).copied().unwrap_or(NONE);
    }
}

/// Format, number of nodes, offset and length are those of an arena whose nodes have so many words.
fn is_headed(w: &[u64], words: usize) -> bool {
    let format = if words == WORDS { FORMAT } else { 1 };
    w.len() > HEADER && w[0] == format && w[2] == HEADER as u64 && (1..=LARGEST as u64).contains(&w[1]) && w.len() == HEADER + words * w[1] as usize
}

/// The free chain of an arena's words, which must rise.
pub fn chain(w: &[u64]) -> Result<Vec<u64>, String> {
    chain_of(w, WORDS)
}

fn chain_of(w: &[u64], words: usize) -> Result<Vec<u64>, String> {
    if !is_headed(w, words) {
        return Err("these words have no arena's header and length".to_string());
    }
    let mut chain = Vec::new();
    let mut at = w[FIRST_FREE];
    while at != NONE {
        if at >= w[1] {
            return Err("the free chain leads out of the arena".to_string());
        }
        if chain.last().is_some_and(|before| *before >= at) {
            return Err("the free chain does not rise".to_string());
        }
        chain.push(at);
        at = node_of(w, at, words)[PARENT];
    }
    if chain.len() as u64 != w[FREE_NODES] {
        return Err("the count of free nodes is not true".to_string());
    }
    Ok(chain)
}

/// Request (viii)'s older image, by seen and mark of the arena and of the image.
pub fn is_older(arena: (u64, u64), image: (u64, u64)) -> bool {
    arena.0 == 1 && (image.0 == 0 || image.1 < arena.1)
}

pub fn formatted(count: usize) -> Vec<u64> {
    let mut w = vec![0; long(count)];
    let chain: Vec<u64> = (1..count as u64).collect();
    write_node(&mut w, 0, 1, &[], NONE, 0, 0);
    write_header(&mut w, count, 0, 0, 0, &chain, 0, 0);
    w
}

/// The words of format 1: those of an arena of format 2 without each node's count.
pub fn old(w: &[u64]) -> Vec<u64> {
    let nodes = w[HEADER..].chunks_exact(WORDS).flat_map(|x| &x[..OLD_WORDS]);
    [1].iter().chain(&w[1..HEADER]).chain(nodes).copied().collect()
}

/// The words of format 2 of a good arena of format 1: each node's count is that of the keys below it.
pub fn upgraded(old: &[u64]) -> Vec<u64> {
    let mut w = [&[FORMAT], &old[1..HEADER]].concat();
    for x in old[HEADER..].chunks_exact(OLD_WORDS) {
        let count = if x[STATE] == 0 { 0 } else { pairs_below(old, x) };
        w.extend(x.iter().copied().chain([count]));
    }
    w
}

fn pairs_below(old: &[u64], x: &[u64]) -> u64 {
    let edges = if x[STATE] == 2 { x[LEN] + 1 } else { 0 };
    x[LEN] + (0..edges as usize).map(|i| pairs_below(old, node_of(old, x[EDGES + i], OLD_WORDS))).sum::<u64>()
}

/// Document 01's sentence "Well-formed", read anew, with request (iv)'s chain that rises and request (ix)'s counts that are true: what the
/// tree reaches and the chain holds is collected, and counted afterwards.
pub fn well_formed(w: &[u64]) -> bool {
    formed(w, WORDS)
}

/// The same of format 1, which has no counts.
pub fn old_formed(w: &[u64]) -> bool {
    formed(w, OLD_WORDS)
}

fn formed(w: &[u64], words: usize) -> bool {
    if !is_headed(w, words) {
        return false;
    }
    let (mut met, mut keys) = (vec![0u32; w[1] as usize], Vec::new());
    if !reach(w, words, w[ROOT], NONE, 0, w[HEIGHT], &mut met, &mut keys) {
        return false;
    }
    let Ok(chain) = chain_of(w, words) else { return false };
    for n in &chain {
        met[*n as usize] += 1;
        let free = node_of(w, *n, words);
        if free.iter().enumerate().any(|(i, x)| i != PARENT && *x != 0) {
            return false;
        }
    }
    let last = keys.last().copied();
    met.iter().all(|n| *n == 1)
        && keys.len() as u64 == w[PAIRS]
        && keys.is_sorted_by(|a, b| a < b)
        && w[SEEN] <= 1
        && (w[SEEN] == 1 || w[MARK] == 0)
        && last.is_none_or(|k| w[SEEN] == 1 && k <= w[MARK])
}

#[allow(clippy::too_many_arguments)]
fn reach(w: &[u64], words: usize, n: u64, parent: u64, index: u64, height: u64, met: &mut [u32], keys: &mut Vec<u64>) -> bool {
    if n >= w[1] || met[n as usize] > 0 {
        return false;
    }
    met[n as usize] += 1;
    let x = node_of(w, n, words);
    let before = keys.len();
    let (state, len) = if height == 0 { (1, x[LEN]) } else { (2, x[LEN]) };
    let fewest = match (parent, height) {
        (NONE, 0) => 0,
        (NONE, _) => 1,
        _ => 5,
    };
    if x[STATE] != state || x[PARENT] != parent || x[INDEX] != index || !(fewest..=MOST as u64).contains(&len) {
        return false;
    }
    let len = len as usize;
    let edges = if height == 0 { 0 } else { len + 1 };
    if [&x[KEYS + len..VALS], &x[VALS + len..EDGES], &x[EDGES + edges..COUNT]].concat().iter().any(|x| *x != 0) {
        return false;
    }
    for i in 0..=len {
        if height > 0 && !reach(w, words, x[EDGES + i], n, i as u64, height - 1, met, keys) {
            return false;
        }
        if i < len {
            keys.push(x[KEYS + i]);
        }
    }
    words == OLD_WORDS || x[COUNT] == (keys.len() - before) as u64
}
