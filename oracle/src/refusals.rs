//! What the Rust has no counterpart of: document 01's refusals, held against that document read anew in words.rs; reserves, and images that
//! are older, against the rules of document 02. Words are damaged one at a time, free chains laid in every order, and every call must say so
//! exactly where they are then no arena; no refused call may change a lent word.

use crate::ours;
use crate::pair::Totals;
use crate::shapes::Plan;
use crate::source::Random;
use crate::words;

pub fn all(totals: &mut Totals) -> Result<(), String> {
    sizes(totals)?;
    let mut random = Random::new(5);
    let leaves = |row: &[usize]| Plan::Inner(row.iter().map(|n| Plan::Leaf(*n)).collect());
    for plan in [
        Plan::Leaf(0),
        Plan::Leaf(3),
        Plan::Leaf(11),
        leaves(&[5, 6]),
        leaves(&[11, 5, 7]),
        Plan::Inner(vec![leaves(&[5, 6, 5, 7, 5, 5]), leaves(&[5, 5, 8, 5, 5, 11])]),
    ] {
        for spare in [0, 3] {
            let whole = plan.words(spare, &mut random);
            damages(totals, &whole)?;
            cursors(totals, &whole)?;
        }
    }
    short(totals)?;
    chains(totals)?;
    reserves(totals)?;
    upgrades(totals)
}

/// Formatting at every small length; a batch and an image of every wrong one.
fn sizes(totals: &mut Totals) -> Result<(), String> {
    // 48, 86 and 2,490,340 are format 1's; 1,492 is one of each
    for long in (0..=200).chain([1492, 2_490_340, 2_555_875, 40_894_434, 40_894_435, 40_894_436, 40_894_474]) {
        let good = long >= 49 && (long - 10) % 39 == 0 && (long - 10) / 39 <= 1_048_575;
        let mut w = vec![7; long];
        let number = ours::format(&mut w);
        let wanted = if good { words::formatted((long - 10) / 39) } else { vec![7; long] };
        totals.refusals += 1;
        if number != (if good { 0 } else { 7 }) || w != wanted {
            return Err(format!("format of {long} words: {number}"));
        }
    }
    let whole = words::formatted(2);
    for (orders, answers) in [(0, 0), (3, 2), (6, 4), (1, 0), (2, 2), (4, 2), (3, 1), (3, 3), (3, 0), (0, 1), (0, 2), (6, 2)] {
        let good = orders % 3 == 0 && answers == orders / 3 * 2;
        for damaged in [false, true] {
            let mut w = whole.clone();
            w[0] += u64::from(damaged);
            let before = w.clone();
            let (asked, mut said) = (vec![2; orders], vec![7; answers]);
            let number = ours::raw_batch(&mut w, &asked, &mut said);
            // the length comes before the arena
            let wanted = if !good {
                7
            } else if damaged {
                4
            } else {
                0
            };
            totals.refusals += 1;
            if number != wanted || w != before || (wanted != 0 && said.iter().any(|x| *x != 7)) {
                return Err(format!("a batch of {orders} words with {answers} for answers, damaged {damaged}: {number}"));
            }
        }
    }
    for (long, arena_bad, image_bad, wanted) in [
        (88, false, false, 0),
        (87, true, true, 7),
        (88, true, true, 4),
        (88, false, true, 8),
        (49, false, false, 7),
        (86, false, false, 7),
        (89, false, false, 7),
        (127, false, false, 7),
    ] {
        // an image that is older comes after all of them, and only where the word is no yes
        for (marked, older) in [false, true].into_iter().flat_map(|marked| WORDS.map(|older| (marked, older))) {
            let (mut w, mut image) = (whole.clone(), whole.clone());
            (w[words::SEEN], w[words::MARK]) = if marked { (1, 5) } else { (0, 0) };
            w[7] += u64::from(arena_bad);
            image[7] += u64::from(image_bad);
            image.resize(long, 0);
            let (before, kept) = (w.clone(), image.clone());
            let wanted = if wanted == 0 && marked && older != 1 { 12 } else { wanted };
            let number = ours::restore(&mut w, &image, older);
            totals.refusals += 1;
            if number != wanted || w != before || image != kept {
                return Err(format!("restore of {long} words with the word {older}: {number}, not {wanted}"));
            }
        }
    }
    older(totals)
}

/// What a restore may be told: 1 is the yes.
const WORDS: [u64; 4] = [0, 1, 2, u64::MAX];

/// Images over arenas, each with no pair, one or three, unseen or with several marks: refused with 12 by the rule alone, else the image's words
/// but for seen, if either was, and the larger of the marks.
fn older(totals: &mut Totals) -> Result<(), String> {
    let mut random = Random::new(11);
    let mut all = vec![words::formatted(2)];
    for (pairs, marks) in [(0, vec![0, 1, 5, 6]), (1, vec![2, 5, 6]), (3, vec![6, 7])] {
        for mark in marks.into_iter().chain([u64::MAX]) {
            let mut w = Plan::Leaf(pairs).words(1, &mut random);
            w[words::MARK] = mark;
            all.push(w);
        }
    }
    let marked = |w: &[u64]| (w[words::SEEN], w[words::MARK]);
    for (arena, image) in all.iter().flat_map(|a| all.iter().map(move |b| (a, b))) {
        let (had, has) = (marked(arena), marked(image));
        let is_older = words::is_older(had, has);
        for word in WORDS {
            let (mut w, kept) = (arena.clone(), image.clone());
            let number = ours::restore(&mut w, &kept, word);
            let mut wanted = image.clone();
            (wanted[words::SEEN], wanted[words::MARK]) = (had.0.max(has.0), had.1.max(has.1));
            let refused = is_older && word != 1;
            if refused {
                wanted = arena.clone();
                totals.not_meant += 1;
            } else {
                totals.restores += 1;
                totals.older += u64::from(is_older);
            }
            if number != (if refused { 12 } else { 0 }) || w != wanted || kept != *image {
                return Err(format!("restore of {has:?} over {had:?} with the word {word}: {number}, {:?}", &w[..10]));
            }
        }
    }
    Ok(())
}

/// Each word of an arena changed in several ways.
fn damages(totals: &mut Totals, whole: &[u64]) -> Result<(), String> {
    for i in 0..whole.len() {
        let v = whole[i];
        for x in [v ^ 1, v.wrapping_add(1), v.wrapping_sub(1), v.wrapping_add(2), 0, 1, 2, 4, 5, 12, whole[1], words::NONE, u64::MAX] {
            let mut w = whole.to_vec();
            w[i] = x;
            one(totals, &w, whole).map_err(|why| format!("word {i} of {whole:?} made {x}: {why}"))?;
        }
    }
    Ok(())
}

/// A leaf or an inner node with too few pairs, counted truly; an inner root with no pair; a node that is nowhere.
fn short(totals: &mut Totals) -> Result<(), String> {
    let mut random = Random::new(6);
    let leaves = |row: &[usize]| Plan::Inner(row.iter().map(|n| Plan::Leaf(*n)).collect());
    let five = [5; 6];
    for plan in [
        leaves(&[5, 4]),
        leaves(&[4, 5]),
        leaves(&[5, 0, 5]),
        leaves(&[5]),
        Plan::Inner(vec![leaves(&five), leaves(&five[1..])]),
        Plan::Inner(vec![leaves(&five), leaves(&five[..1])]),
        Plan::Inner(vec![leaves(&five)]),
    ] {
        let w = plan.words(1, &mut random);
        one(totals, &w, &w).map_err(|why| format!("{w:?}: {why}"))?;
    }
    // the first free node is left out of the chain, and of the count
    let whole = leaves(&[5, 6]).words(3, &mut random);
    let mut w = whole.clone();
    let first = words::HEADER + words::WORDS * w[words::FIRST_FREE] as usize + words::PARENT;
    w[words::FIRST_FREE] = std::mem::take(&mut w[first]);
    w[words::FREE_NODES] -= 1;
    one(totals, &w, &whole).map_err(|why| format!("{w:?}: {why}"))?;
    // kinds of bound that are none, on a good arena
    for (start, end) in [((3, 0), (0, 0)), ((0, 0), (3, 9)), ((u64::MAX, 1), (1, 5)), ((1, 1), (4, 5))] {
        let mut out = [9; 8];
        let said = ours::list(&whole, start, end, &mut out);
        totals.refusals += 1;
        let count = ours::count(&whole, start, end);
        if said != (5, 0, 0) || out != [9; 8] || count != (5, 0) {
            return Err(format!("from {start:?} to {end:?} a listing says {said:?}, a count {count:?}"));
        }
    }
    Ok(())
}

/// Free chains of up to four nodes in every order: the rising one alone is an arena's, and any other is 4, or 8 as an image.
fn chains(totals: &mut Totals) -> Result<(), String> {
    let mut random = Random::new(9);
    let leaves = Plan::Inner(vec![Plan::Leaf(5), Plan::Leaf(6)]);
    let mut wholes = vec![words::formatted(3)];
    for spare in 1..=4 {
        wholes.extend([Plan::Leaf(3).words(spare, &mut random), leaves.words(spare, &mut random)]);
    }
    for whole in wholes {
        let rising = words::chain(&whole)?;
        let mut rows = vec![Vec::new()];
        for _ in &rising {
            let longer =
                |row: &Vec<u64>| rising.iter().filter(|n| !row.contains(n)).map(|n| [&row[..], &[*n]].concat()).collect::<Vec<_>>();
            rows = rows.iter().flat_map(longer).collect();
        }
        for row in rows {
            let mut w = whole.clone();
            let head: Vec<u64> = w[..words::HEADER].to_vec();
            words::write_header(&mut w, head[1] as usize, head[3], head[4], head[5], &row, head[8], head[9]);
            if words::well_formed(&w) != (row == rising) {
                return Err(format!("well_formed says of the chain {row:?}: {}", row != rising));
            }
            one(totals, &w, &whole).map_err(|why| format!("the free chain {row:?} in {w:?}: {why}"))?;
        }
    }
    Ok(())
}

/// Reserves by request (vii)'s rule alone, at keys around the mark, by each of the three ways to ask: 0, and the mark is the key, if nothing was
/// seen or the key is above the mark; else 11. No other word changes. Then a second time, which is 11 always.
fn reserves(totals: &mut Totals) -> Result<(), String> {
    let ways: [fn(&mut [u64], [u64; 3]) -> (u64, u64); 3] = [ours::single, ours::order, |a, order| match ours::batch(a, &[order]) {
        (0, answers) => answers[0],
        (number, _) => (number, 7),
    }];
    let mut random = Random::new(10);
    let leaves = Plan::Inner(vec![Plan::Leaf(5), Plan::Leaf(6)]);
    let mut wholes = vec![words::formatted(1), words::formatted(3)];
    for plan in [Plan::Leaf(0), Plan::Leaf(11), leaves] {
        wholes.extend([0, 2].map(|spare| plan.words(spare, &mut random)));
    }
    for whole in wholes {
        let seen = whole[words::SEEN];
        let last = whole[words::MARK];
        let marks = if seen == 0 { vec![0] } else { vec![last, last + 1, last + 9, u64::MAX - 1, u64::MAX] };
        for mark in marks {
            let near = [mark.saturating_sub(1), mark, mark.saturating_add(1), mark.saturating_add(2)];
            for key in [0, 1, 2, last, u64::MAX - 1, u64::MAX].into_iter().chain(near) {
                for (i, way) in ways.iter().enumerate() {
                    let mut w = whole.clone();
                    w[words::MARK] = mark;
                    let mut wanted = w.clone();
                    let above = seen == 0 || key > mark;
                    if above {
                        (wanted[words::SEEN], wanted[words::MARK]) = (1, key);
                    }
                    let said = [way(&mut w, [4, key, 9]), way(&mut w, [4, key, 9])];
                    totals.reserves += 2;
                    if said != [(if above { 0 } else { 11 }, 0), (11, 0)] || w != wanted {
                        return Err(format!("reserves of {key}, seen {seen}, mark {mark}, way {i}: {said:?}, {:?}", &w[..10]));
                    }
                    // a spent key, and one below the mark, may still be put where there is room, and the mark stays
                    let mut after = w.clone();
                    let put = ours::single(&mut after, [1, key, 5]).0;
                    if ![0, 1, 3].contains(&put) || after[words::MARK] != w[words::MARK] || after[words::SEEN] != 1 {
                        return Err(format!("put of the reserved {key}, mark {}: {put}, {:?}", w[words::MARK], &after[..10]));
                    }
                }
            }
        }
    }
    Ok(())
}

/// Arenas of format 1 by request (ix)'s rule alone: upgraded into words of any kind they are the arena of format 2, and no other call takes
/// them; each word changed in several ways, free chains in every order, format 2 in their place, targets of other lengths.
fn upgrades(totals: &mut Totals) -> Result<(), String> {
    let mut random = Random::new(12);
    let leaves = |row: &[usize]| Plan::Inner(row.iter().map(|n| Plan::Leaf(*n)).collect());
    let mut wholes = vec![words::formatted(1), words::formatted(3), words::formatted(39)];
    for plan in
        [Plan::Leaf(0), Plan::Leaf(11), leaves(&[11, 5, 7]), Plan::Inner(vec![leaves(&[5, 6, 5, 7, 5, 5]), leaves(&[5, 5, 8, 5, 5, 11])])]
    {
        wholes.extend([0, 3].map(|spare| plan.words(spare, &mut random)));
    }
    for whole in wholes {
        let old = words::old(&whole);
        if !words::old_formed(&old) || words::well_formed(&old) || words::old_formed(&whole) {
            return Err(format!("one format is read as the other: {whole:?}"));
        }
        let damaged = |i: usize, x: u64| {
            let mut w = whole.clone();
            w[i] = x;
            w
        };
        // a word of format 2 that is changed is changed in format 1 too, where it has it
        for i in 1..whole.len() {
            let v = whole[i];
            for x in [v, v ^ 1, v.wrapping_add(1), v.wrapping_sub(1), 0, 1, 2, 5, 12, whole[1], words::NONE, u64::MAX] {
                let w = damaged(i, x);
                upgrade(totals, &words::old(&w), w.len()).map_err(|why| format!("word {i} of {whole:?} made {x}: {why}"))?;
            }
        }
        for format in [0, 2, 3, u64::MAX] {
            let mut w = old.clone();
            w[0] = format;
            upgrade(totals, &w, whole.len()).map_err(|why| format!("format {format} of {whole:?}: {why}"))?;
        }
        // format 2, under either number
        upgrade(totals, &whole, whole.len())?;
        upgrade(totals, &damaged(0, 1), whole.len())?;
        for long in [0, 1, 9] {
            upgrade(totals, &old[..long], whole.len())?;
        }
        upgrade(totals, &old[..old.len() - 1], whole.len())?;
        // no other call
        let mut a = old.clone();
        let number = [ours::check(&old), ours::single(&mut a, [1, 1, 1]).0, ours::single(&mut a, [3, 2, 0]).0, ours::rank(&old, 1).0];
        if number != [4; 4] || a != old {
            return Err(format!("format 1 is answered {number:?}"));
        }
        // 39 nodes of format 1 are as long as 38 of format 2
        let other = words::formatted(38);
        let mut a = other.clone();
        let number = ours::restore(&mut a, &old, 1);
        if number != (if old.len() == other.len() { 8 } else { 7 }) || a != other {
            return Err(format!("an image of format 1 with {} nodes is answered {number}", whole[1]));
        }
    }
    Ok(())
}

/// One upgrade into targets of lengths around this one: 4 if the source is none of format 1, then 7; else the words of format 2.
fn upgrade(totals: &mut Totals, source: &[u64], near: usize) -> Result<(), String> {
    let good = words::old_formed(source);
    for long in [near, source.len(), near + words::WORDS, near - 1, 0] {
        let mut target = vec![7; long];
        let kept = source.to_vec();
        let number = ours::upgrade(source, &mut target);
        let said = match (good, good && long == words::long(source[1] as usize)) {
            (false, _) => 4,
            (true, false) => 7,
            (true, true) => 0,
        };
        totals.upgrades += 1;
        let left = if said == 0 { words::upgraded(source) } else { vec![7; long] };
        if number != said || target != left || kept != source {
            return Err(format!("upgrade into {long} words: {number}, not {said}"));
        }
    }
    Ok(())
}

/// Every call on words that may be no arena; `image` is one of the same length.
fn one(totals: &mut Totals, w: &[u64], image: &[u64]) -> Result<(), String> {
    let good = words::well_formed(w);
    let number = ours::check(w);
    totals.refusals += 1;
    totals.refused_arenas += u64::from(!good);
    if number != if good { 0 } else { 4 } {
        return Err(format!("check says {number}"));
    }
    if good {
        return Ok(());
    }
    let mut a = w.to_vec();
    for order in [[1, 2, 9], [1, 3, 9], [2, 2, 0], [3, 2, 0], [3, 3, 0], [4, 0, 0], [4, u64::MAX, 0]] {
        let said = [ours::single(&mut a, order), ours::order(&mut a, order)];
        if said != [(4, 0); 2] || a != w {
            return Err(format!("{order:?} says {said:?}"));
        }
    }
    // an unknown code comes after a bad arena
    let said = ours::order(&mut a, [9, 0, 0]);
    if said != (4, 0) || a != w {
        return Err(format!("code 9 says {said:?}"));
    }
    let (number, answers) = ours::batch(&mut a, &[[1, 2, 9], [3, 2, 0], [4, u64::MAX, 0]]);
    if number != 4 || a != w || answers != [(7, 7); 3] {
        return Err(format!("a batch says {number}"));
    }
    let mut out = [9; 8];
    // a bad range, and a kind of bound that is none, come after a bad arena
    for (start, end) in [((0, 0), (0, 0)), ((1, 6), (1, 5)), ((3, 0), (0, 0))] {
        let said = ours::list(w, start, end, &mut out);
        if said != (4, 0, 0) || out != [9; 8] {
            return Err(format!("a listing says {said:?}"));
        }
    }
    // a bad range comes after it here too
    for (start, end) in [((0, 0), (0, 0)), ((1, 6), (1, 5)), ((3, 0), (0, 0))] {
        let said = [ours::count(w, start, end), ours::rank(w, end.1)];
        let at = ours::at(w, start.1);
        if said != [(4, 0); 2] || at != (4, 0, 0) {
            return Err(format!("count and rank say {said:?}, the pair at a rank {at:?}"));
        }
    }
    two(w)?;
    cursor(w, 4)?;
    for word in [0, 1] {
        let number = ours::restore(&mut a, image, word);
        if number != 4 || a != w {
            return Err(format!("restore over it says {number}"));
        }
        if words::well_formed(image) {
            let mut whole = image.to_vec();
            let number = ours::restore(&mut whole, w, word);
            if number != 8 || whole != image {
                return Err(format!("restore of it says {number}"));
            }
        }
    }
    Ok(())
}

/// A cut of words that are no arena, and joins with them on either side; the second slice's length comes before them in a cut, the third's after
/// them in a join.
fn two(w: &[u64]) -> Result<(), String> {
    let mut a = w.to_vec();
    for (long, wanted) in [(48, 7), (49, 4), (50, 7)] {
        let mut upper = vec![7; long];
        let number = ours::cut(&mut a, &mut upper, 0);
        if number != wanted || a != w || upper.iter().any(|x| *x != 7) {
            return Err(format!("a cut into {long} words says {number}"));
        }
    }
    for long in [0, 100] {
        let (mut whole, mut run) = (words::formatted(1), vec![7; long]);
        let number = [ours::join(&mut a, &mut whole, &mut run), ours::join(&mut whole, &mut a, &mut run)];
        if number != [4; 2] || a != w || whole != words::formatted(1) || run.iter().any(|x| *x != 7) {
            return Err(format!("joins with it say {number:?}"));
        }
    }
    Ok(())
}

/// Cursor calls that are refused with this number, 4, or with 7 for a length: first and seek are left past the last pair, last before the first, a
/// step leaves the cursor.
fn cursor(w: &[u64], number: u64) -> Result<(), String> {
    for long in [0, 3, 4, 5] {
        let wanted = if long == 4 { number } else { 7 };
        let stand = |stand: u64| if long == 4 { vec![3, stand, 0, 0] } else { vec![9; long] };
        // a kind of bound that is none comes after a bad arena
        for (call, left) in [(0, stand(2)), (1, stand(0)), (2, stand(2)), (3, stand(2)), (4, vec![9; long]), (5, vec![9; long])] {
            let mut at = vec![9; long];
            let said = match call {
                0 => ours::first(w, 3, &mut at),
                1 => ours::last(w, 3, &mut at),
                2 => ours::seek(w, 3, (0, 0), &mut at),
                3 => ours::seek(w, 3, (3, 0), &mut at),
                4 => ours::next(w, 3, &mut at),
                _ => ours::previous(w, 3, &mut at),
            };
            if wanted != 0 && (said != (wanted, 0, 0) || at != left) {
                return Err(format!("cursor call {call} with {long} words says {said:?}, and leaves {at:?}"));
            }
        }
    }
    Ok(())
}

/// Steps from every place of an arena, and from beside them: 9 by request (i)'s rule, and then the cursor stays.
fn cursors(totals: &mut Totals, whole: &[u64]) -> Result<(), String> {
    cursor(whole, 0)?;
    let count = whole[words::NODES];
    for at in 0..=4 {
        for node in (0..count + 2).chain([words::NONE, u64::MAX]) {
            for place in (0..13).chain([u64::MAX]) {
                let pair = || node < count && words::node(whole, node)[words::STATE] != 0 && place < words::node(whole, node)[words::LEN];
                let stale = at > 2 || (at == 1 && !pair());
                for step in [ours::next, ours::previous] {
                    let mut cursor = [3, at, node, place];
                    let said = step(whole, 3, &mut cursor);
                    totals.strays += 1;
                    let right = if stale { said == (9, 0, 0) && cursor == [3, at, node, place] } else { said.0 == 1 || said.0 == 2 };
                    if !right {
                        return Err(format!("a step from {at} {node} {place}: {said:?}, then {cursor:?}"));
                    }
                }
            }
        }
    }
    Ok(())
}
