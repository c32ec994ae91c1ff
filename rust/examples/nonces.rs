//! The nonce story. A broker encrypts each message under a counter and keeps counter -> slot in the index. It takes a snapshot,
//! goes on, and an operator brings the snapshot back: the saved pairs are back, and the next counter is still a fresh one,
//! because the arena that is restored onto has kept its mark. An arena that is lost has not: see the example `broker`.

use cuffgarnet::Index;

/// Sends a message that lies in a slot: its counter is spent once it is in the index.
fn send(index: &mut Index, slot: u64) -> Result<u64, Box<dyn std::error::Error>> {
    let counter = index.next_counter()?.ok_or("all counters are spent")?.max(1); // the first is 1
    index.insert(counter, slot)?;
    Ok(counter)
}

fn main() -> Result<(), Box<dyn std::error::Error>> {
    let mut index = Index::with_nodes(64)?;
    for slot in [700, 701, 702] {
        println!("slot {slot} under counter {}", send(&mut index, slot)?);
    }

    let image = index.snapshot();
    println!("snapshot of {} pairs, mark {:?}", index.len()?, index.mark()?);

    for slot in [703, 704] {
        println!("slot {slot} under counter {}", send(&mut index, slot)?);
    }

    let refused = index.restore(&image);
    println!("restore: {}", refused.map_or_else(|why| why.to_string(), |()| "done".to_string()));
    index.restore_older(&image)?;
    println!("restored: {} pairs, mark {:?}", index.len()?, index.mark()?);
    for pair in &index {
        let (counter, slot) = pair?;
        println!("    {counter} -> {slot}");
    }

    // counters 4 and 5 are no longer in the index, and are not used again
    let counter = send(&mut index, 705)?;
    println!("slot 705 under counter {counter}");
    assert!(counter > 5, "a counter is used twice");
    Ok(())
}
