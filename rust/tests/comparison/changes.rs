//! Long random histories: every word after every change, also against the changes made store by store.
use crate::compare::{Calls, Comparison, Same};
use crate::library::{Answer, Library};
use crate::random::Random;
use steamacorn::model::parts::Parts;
use steamacorn::words;

/// Seats, changes in a history, histories.
const SIZES: [(usize, usize, u64); 9] = [
    (1, 20, 10),
    (2, 100, 40),
    (3, 200, 40),
    (5, 300, 40),
    (7, 500, 40),
    (16, 500, 20),
    (64, 1000, 5),
    (300, 1000, 2),
    (2048, 150, 1),
];

pub fn compare(library: &dyn Library) -> Same<u64> {
    let mut comparison = Comparison::new(library);
    for (a, changes, histories) in SIZES {
        for seed in 0..histories {
            history(&mut comparison, &mut Random::new(seed * 4096 + a as u64), a, changes)?;
        }
    }
    Ok(comparison.calls)
}

fn history(comparison: &mut Comparison, random: &mut Random, a: usize, changes: usize) -> Same<()> {
    let mut table = random.garbage(words(a));
    let used = 1 + random.below(a);
    let ids = random.ids(used);
    comparison.open(&mut table, a as u32, &ids)?;
    let mut parts = Parts::opened(a as u32, &ids);
    let mut leaving = 50;
    for change in 0..changes {
        if random.below(a + 4) == 0 {
            leaving = random.one_of(&[10, 50, 90]); // a time of falling or of rising
        }
        let taking = random.below(100) < leaving;
        let id = some_id(random, &parts, taking);
        step(comparison, &mut table, &mut parts, taking, id)?;
        if change % 16 == 0 {
            look(comparison, random, &table)?;
        }
    }
    Ok(())
}

/// Most often an id that the change accepts.
fn some_id(random: &mut Random, parts: &Parts, seated: bool) -> u32 {
    match random.below(12) {
        0 => 0,
        1 => 1 + random.below(3 * parts.a as usize) as u32,
        _ if seated => parts.S[random.one_of(parts.line()) as usize],
        _ => random.word() | 1 << 31,
    }
}

fn step(comparison: &mut Comparison, table: &mut [u32], parts: &mut Parts, taking: bool, id: u32) -> Same<()> {
    let answer = if taking { comparison.out(table, id)? } else { comparison.seat(table, id)? };
    if answer.number == 0 {
        let seat = if taking {
            let seat = parts.S.iter().position(|server| *server == id).expect("its seat") as u32;
            parts.take_out(seat);
            seat
        } else {
            parts.seat(id)
        };
        assert_eq!(answer, Answer::fine(&[seat.into()]));
    }
    assert_eq!(table, parts.words(), "the model against the changes made store by store");
    Ok(())
}

fn look(comparison: &mut Comparison, random: &mut Random, table: &[u32]) -> Same<()> {
    comparison.audit(table)?;
    let keys: Vec<u64> = (0..16).map(|_| random.number()).collect();
    comparison.find(table, keys.into_iter(), |_| ())?;
    let mut record = vec![0xEE; 2 * table.len()];
    let bytes = comparison.save(table, &mut record)?.values[0] as usize;
    let mut loaded = random.garbage(table.len());
    comparison.load(&mut loaded, &record[..bytes])?;
    assert_eq!(loaded, table, "the model's loading undoes its saving");
    Ok(())
}
