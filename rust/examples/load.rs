//! A migration: pairs that an old store hands out in order are loaded, and orders follow.
//!
//!     cargo run --example load

use cuffgarnet::{nodes_for_load, Error, Index};
use std::collections::BTreeMap;

fn main() -> Result<(), Error> {
    let old: BTreeMap<u64, u64> = (0..50_000).map(|slot| (2_000_000_000_u64.saturating_add(slot), slot)).collect();
    let nodes = nodes_for_load(old.len()).ok_or(Error::NoRoom)?;
    // as many nodes as the load takes, and some for what comes later
    let mut index = Index::loaded(old, nodes.saturating_add(500))?;
    println!("{} pairs in {nodes} nodes, {} are free", index.len()?, index.free_nodes()?);
    // the mark is the last key, so the next counter is above every one of before
    let next = index.next_counter()?.ok_or(Error::Spent)?;
    index.insert(next, 50_000)?;
    println!("next counter {next}, with {} below it", index.rank(next)?);
    // what is not in order is refused, and nothing is changed
    assert_eq!(Index::loaded([(2, 0), (1, 0)], 1).err(), Some(Error::NotRising));
    Ok(())
}
