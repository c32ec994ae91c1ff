//! The lines that README shows, run as written.
use cuffgarnet::{Error, Index};

fn main() -> Result<(), Error> {
    let mut index = Index::with_nodes(64)?; // or Index::open(&mut words[..])? on a mapped file's words
    assert_eq!(index.insert(5, 50)?, None);
    assert_eq!(index.insert(5, 51)?, Some(50));
    assert_eq!(index.get(5)?, Some(51));
    assert_eq!(index.remove(5)?, Some(51));
    assert_eq!(index.mark()?, Some(5)); // a removal never lowers the mark
    Ok(())
}
