//! Damaged tables: the calls answer as the model does, and leave them as they were.
use crate::compare::{Comparison, Same};
use crate::library::Library;
use crate::random::Random;
use steamacorn::model::parts::Parts;
use steamacorn::model::table::Table;

pub fn compare(library: &dyn Library) -> Same<u64> {
    let mut comparison = Comparison::new(library);
    let mut random = Random::new(2);
    for a in [1, 2, 3, 4, 5, 7, 12] {
        for _ in 0..4 {
            let table = random.table(a);
            lengths(&mut comparison, &table)?;
            heads(&mut comparison, &table)?;
            each_word(&mut comparison, &mut random, &table)?;
        }
    }
    for round in 0..4000 {
        let table = random.table(1 + round % 24);
        several_words(&mut comparison, &mut random, &table)?;
        circles(&mut comparison, &mut random, &table)?;
    }
    for a in [256, 2047, 2048] {
        let table = random.table(a);
        lengths(&mut comparison, &table)?;
        circles(&mut comparison, &mut random, &table)?;
        for _ in 0..4 {
            several_words(&mut comparison, &mut random, &table)?;
        }
    }
    Ok(comparison.calls)
}

fn all_calls(comparison: &mut Comparison, words: &[u32], table: &Table) -> Same<()> {
    let seated = table.servers.iter().copied().find(|id| *id != 0).unwrap_or(1);
    comparison.every_call(words, &[0, seated, 0x8000_0001], &[0, 1, 2, u64::MAX, 0x1234_5678_9abc_def0])
}

/// Runs one word short, long, empty, and of one word.
fn lengths(comparison: &mut Comparison, table: &Table) -> Same<()> {
    let words = table.words();
    let longer = [&words[..], &[0]].concat();
    for run in [&longer[..], &words[..words.len() - 1], &words[..2], &words[..1], &[]] {
        all_calls(comparison, run, table)?;
    }
    Ok(())
}

/// a and N as they should not be.
fn heads(comparison: &mut Comparison, table: &Table) -> Same<()> {
    let (a, used) = (table.seats(), table.used());
    for head in [0, 1, a - 1, a + 1, used - 1, used + 1, 2048, 2049, 65_536, 1 << 31, u32::MAX] {
        for place in [0, 1] {
            let mut words = table.words();
            words[place] = head;
            all_calls(comparison, &words, table)?;
        }
    }
    Ok(())
}

/// Single words changed, each to many values.
fn each_word(comparison: &mut Comparison, random: &mut Random, table: &Table) -> Same<()> {
    let words = table.words();
    for place in 0..words.len() {
        let old = words[place];
        let near = [old ^ 1, old.wrapping_add(1), old.wrapping_sub(1)];
        let wild = [u32::MAX, 1 << 31, random.word(), random.one_of(&words)];
        let small = 0..table.seats() + 2;
        for value in small.chain(near).chain(wild).filter(|value| *value != old) {
            let mut words = words.clone();
            words[place] = value;
            all_calls(comparison, &words, table)?;
        }
    }
    Ok(())
}

/// A few words changed, two words exchanged, or every word but a anew.
fn several_words(comparison: &mut Comparison, random: &mut Random, table: &Table) -> Same<()> {
    let mut words = table.words();
    let a = table.seats() as usize;
    match random.below(4) {
        0 => {
            let (one, other) = (1 + random.below(6 * a), 1 + random.below(6 * a));
            words.swap(one, other);
        }
        1 => words[1..].iter_mut().for_each(|word| *word = random.below(a + 1) as u32),
        _ => {
            for _ in 0..1 + random.below(4) {
                let place = 1 + random.below(6 * a + 1);
                words[place] = if random.below(8) == 0 { random.word() } else { random.below(a + 2) as u32 };
            }
        }
    }
    all_calls(comparison, &words, table)
}

/// Successors that lead in circles, and the old firmware's fault.
fn circles(comparison: &mut Comparison, random: &mut Random, table: &Table) -> Same<()> {
    let parts = Parts::of_words(&table.words()).expect("legal shape");
    let mut own = parts.clone();
    own.K = (0..own.a).collect();
    all_calls(comparison, &own.words(), table)?;
    let mut ring = parts.clone();
    for (b, next) in table.removals.iter().zip(table.removals.iter().cycle().skip(1)) {
        ring.K[*b as usize] = *next;
    }
    all_calls(comparison, &ring.words(), table)?;
    let mut mixed = parts.clone();
    random.shuffle(&mut mixed.K);
    mixed.A.iter_mut().for_each(|word| *word = random.below(3) as u32);
    all_calls(comparison, &mixed.words(), table)?;
    if !table.removals.is_empty() {
        let mut forgotten = parts.clone();
        forgotten.seat(0x8000_0000);
        let cut_off = parts.W[parts.N as usize] as usize;
        forgotten.L[cut_off] = parts.L[cut_off];
        all_calls(comparison, &forgotten.words(), table)?;
    }
    Ok(())
}
