//! An index on lent words alone, with no memory of its own: what is there without the feature `alloc`.

use cuffgarnet::{nodes_for, nodes_for_load, Cursor, Error, Index, Order, Size};

#[test]
fn on_lent_words() -> Result<(), Error> {
    let mut words = [0; 10 + 39 * 4];
    let mut index = Index::format(&mut words)?;
    let mut answers = [0; 6];
    index.apply_words(&[1, 5, 50, 1, 7, 70, 3, 9, 0], &mut answers)?;
    assert_eq!(answers, [0, 0, 0, 0, 2, 0]);
    assert_eq!(index.apply_one(Order::Insert(6, 60)), Ok(None));
    assert_eq!((index.first_key_value()?, index.last_key_value()?), (Some((5, 50)), Some((7, 70))));
    let mut out = [0; 4];
    let listed = index.range_into(.., &mut out)?;
    assert_eq!((listed.written, listed.more, out), (2, true, [5, 50, 6, 60]));
    assert_eq!((index.pop_first()?, index.pop_last()?, index.next_counter()?), (Some((5, 50)), Some((7, 70)), Some(8)));
    assert_eq!((index.stats()?.pairs, index.nodes()?, nodes_for(11)), (1, 4, Some(3)));

    let mut new = [0; 10 + 39 * 4];
    let mut other = Index::format(&mut new)?;
    other.restore(index.words())?;
    assert_eq!((other.get(6)?, other.mark()?), (Some(60), Some(7)));
    assert_eq!(other.restore(&[0]), Err(Error::BadSize(Size::Image { given: 1, wanted: 166 })));
    Ok(())
}

#[test]
fn runs_and_cursors_on_lent_words() -> Result<(), Error> {
    let mut words = [7; 10 + 39 * 4];
    let mut index = Index::load_words(&[1, 10, 2, 20, 5, 50], &mut words)?;
    assert_eq!((index.len()?, index.mark()?, nodes_for_load(12)), (3, Some(5), Some(3)));
    let mut upper = index.split_off(2, [7; 49])?;
    assert_eq!((index.len()?, upper.len()?, upper.mark()?), (1, 2, Some(5)));
    let (cursor, first) = Cursor::first(&upper, 0)?;
    assert_eq!((first, cursor.next(&upper, 0)?.1), (Some((2, 20)), Some((5, 50))));
    let mut run = [7; 7];
    index.append_words(&mut upper, &mut run)?;
    assert_eq!((run, index.len()?, upper.is_empty()?), ([1, 10, 2, 20, 5, 50, 7], 3, true));
    let refused = Index::load_words(&[2, 20, 1, 10], [7; 49]).map_err(|r| (r.error(), r.into_words()));
    assert_eq!(refused.err(), Some((Error::NotRising, [7; 49])));
    Ok(())
}
