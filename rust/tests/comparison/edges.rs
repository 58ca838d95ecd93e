//! The edges that document 01 names, and the orders of the refusals.
use crate::compare::{Calls, Comparison, Same};
use crate::library::Library;
use steamacorn::model::parts::Parts;
use steamacorn::{record_bytes, words};

pub fn compare(library: &dyn Library) -> Same<u64> {
    let mut comparison = Comparison::new(library);
    for a in [0, 1, 2, 3, 2047, 2048, 2049, 65_536] {
        openings(&mut comparison, a)?;
        shapes(&mut comparison, a)?;
    }
    for a in [u32::MAX, 1 << 31, 715_827_883] {
        comparison.open(&mut [77; 20], a, &[1])?; // 6 * 715,827,883 is 2 more than 2^32
    }
    for a in [1, 2, 3, 7, 2047, 2048] {
        for used in [1, 2, a - 1, a] {
            if 1 <= used && used <= a {
                changes(&mut comparison, a, used)?;
                outputs(&mut comparison, a, used)?;
            }
        }
    }
    Ok(comparison.calls)
}

/// A run of the right length, one word short, one long, empty; no id, a ids, more; an id 0 or twice, and both.
fn openings(comparison: &mut Comparison, a: usize) -> Same<()> {
    let all: Vec<u32> = (1..=a as u32).collect();
    let more: Vec<u32> = (1..=a as u32 + 1).collect();
    let zero_last = [&all[..a - a.min(1)], &[0]].concat();
    let twice = [&all[..a - a.min(1)], &[1]].concat();
    let lists: [&[u32]; 9] = [&[], &[5], &[0], &[5, 5], &[5, 0, 5], &all, &more, &zero_last, &twice];
    for length in [words(a), words(a) - 1, words(a) + 1, words(a + 1), 1, 0] {
        for ids in lists {
            comparison.open(&mut vec![77; length], a as u32, ids)?;
        }
    }
    Ok(())
}

/// What opening would leave, also where a is none that it takes, lent one word short, one long, and as it is.
fn shapes(comparison: &mut Comparison, a: usize) -> Same<()> {
    let ids: Vec<u32> = (101..).take(a).collect();
    let whole = [Parts::opened(a as u32, &ids).words(), vec![0]].concat();
    for length in [words(a), words(a) - 1, words(a) + 1] {
        comparison.every_call(&whole[..length], &[0, 101, 7], &[0, u64::MAX])?;
    }
    Ok(())
}

fn opened(comparison: &mut Comparison, a: usize, used: usize) -> Same<Vec<u32>> {
    let ids: Vec<u32> = (101..).take(used).collect();
    let mut table = vec![77; words(a)];
    comparison.open(&mut table, a as u32, &ids)?;
    Ok(table)
}

/// Each change and its refusals, one after the other until no server more can be seated or taken out.
fn changes(comparison: &mut Comparison, a: usize, used: usize) -> Same<()> {
    let table = opened(comparison, a, used)?;
    let (first, last) = (101, 100 + used as u32);
    comparison.every_call(&table, &[0, 1, first, last, last + 1, u32::MAX], &[0, u64::MAX])?;
    let mut rising = table.clone();
    let mut falling = table;
    for id in [1, 2, 3] {
        comparison.seat(&mut rising, id)?;
        comparison.audit(&rising)?;
    }
    for id in [first, last, last.wrapping_sub(1)] {
        comparison.out(&mut falling, id)?;
        comparison.audit(&falling)?;
    }
    Ok(())
}

/// An output of the record's length, one byte short, one long, empty.
fn outputs(comparison: &mut Comparison, a: usize, used: usize) -> Same<()> {
    let table = opened(comparison, a, used)?;
    let bytes = record_bytes(a, used);
    for room in [bytes, bytes - 1, bytes + 1, 0] {
        comparison.save(&table, &mut vec![0xEE; room])?;
    }
    Ok(())
}
