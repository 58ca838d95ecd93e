//! Records, and bytes that are nearly records: compared with the model; and of the library alone, that saving and
//! loading are opposites, and the edges of a record with the number that each has to get.
use crate::compare::{same, same_run, Alone, Calls, Comparison, Same};
use crate::library::{Answer, Library};
use crate::played::{sizes, History};
use crate::random::Random;
use steamacorn::model::numbers::{FORM, SIZE};
use steamacorn::model::record::{self, WORKED};
use steamacorn::model::table::Table;
use steamacorn::{record_bytes, words};

pub fn compare(library: &dyn Library) -> Same<u64> {
    let mut comparison = Comparison::new(library);
    let mut random = Random::new(4);
    for a in [1, 2, 3, 7] {
        for _ in 0..3 {
            let bytes = record::of_table(&random.table(a));
            truncated(&mut comparison, &bytes)?;
            appended(&mut comparison, &bytes)?;
            each_byte(&mut comparison, &bytes)?;
        }
    }
    for round in 0..20_000 {
        let bytes = record::of_table(&random.table(1 + round % 20));
        mutated(&mut comparison, &mut random, bytes)?;
    }
    for a in [256, 257, 2047, 2048] {
        let bytes = record::of_table(&random.table(a));
        loaded(&mut comparison, &bytes)?;
        loaded(&mut comparison, &bytes[..bytes.len() - 1])?;
        for _ in 0..50 {
            mutated(&mut comparison, &mut random, bytes.clone())?;
        }
    }
    let ids: Vec<u32> = (1..=2049).collect();
    for (a, used) in [(0, 0), (1, 0), (5, 0), (2048, 0), (2048, 1), (2048, 2048), (2049, 1), (2049, 2049)] {
        loaded(&mut comparison, &record::of_table(&Table::opened(a, &ids[..used])))?;
    }
    Ok(comparison.calls)
}

/// Loads into the run that the bytes call for, and saves what was loaded; then into runs of other lengths.
fn loaded(comparison: &mut Comparison, bytes: &[u8]) -> Same<()> {
    let a = match bytes {
        [_, _, high, low, ..] => usize::from(*high) * 256 + usize::from(*low),
        _ => 0,
    };
    let a = a.min(bytes.len() / 4); // a seat has at least four bytes
    let mut table = vec![77; words(a)];
    if comparison.load(&mut table, bytes)?.number == 0 {
        let mut again = vec![0xEE; bytes.len() + 3];
        comparison.save(&table, &mut again)?;
        assert_eq!(again, [bytes, &[0xEE; 3]].concat(), "the model's saving undoes its loading");
        for length in [0, 1, words(a) - 1, words(a) + 1, words(a + 1)] {
            comparison.load(&mut vec![77; length], bytes)?;
        }
    }
    Ok(())
}

fn truncated(comparison: &mut Comparison, bytes: &[u8]) -> Same<()> {
    (0..=bytes.len()).try_for_each(|length| loaded(comparison, &bytes[..length]))
}

fn appended(comparison: &mut Comparison, bytes: &[u8]) -> Same<()> {
    (0..=255).try_for_each(|byte| loaded(comparison, &[bytes, &[byte]].concat()))
}

/// Every place with each other value.
fn each_byte(comparison: &mut Comparison, bytes: &[u8]) -> Same<()> {
    for place in 0..bytes.len() {
        for change in 1..=255 {
            let mut bytes = bytes.to_vec();
            bytes[place] ^= change;
            loaded(comparison, &bytes)?;
        }
    }
    Ok(())
}

/// Bytes changed, left out, put in, exchanged, or a piece said twice.
fn mutated(comparison: &mut Comparison, random: &mut Random, mut bytes: Vec<u8>) -> Same<()> {
    for _ in 0..1 + random.below(3) {
        let (one, other) = (random.below(bytes.len()), random.below(bytes.len()));
        match random.below(6) {
            0 => bytes[one] = random.word() as u8,
            1 => bytes[one] = bytes[other],
            2 => bytes.swap(one, other),
            3 => drop(bytes.remove(one)),
            4 => bytes.insert(one, random.word() as u8),
            _ => {
                let piece = random.one_of(&[2, 4, 8]);
                if one + piece <= bytes.len() && other + piece <= bytes.len() {
                    bytes.copy_within(one..one + piece, other);
                }
            }
        }
    }
    loaded(comparison, &bytes)
}

/// The tables that histories leave, saved, loaded and saved again.
pub fn opposites(library: &dyn Library) -> Same<u64> {
    let mut own = Alone::new(library);
    for (mut random, a) in sizes(6, 300) {
        let history = History::random(&mut own, &mut random, a, 2 * a)?;
        let used = history.seated().len();
        let mut saved = vec![0xEE; record_bytes(a, used)];
        same("save", own.save(&history.words, &mut saved)?, Answer::fine(&[saved.len() as u64]))?;
        let mut loaded = random.garbage(words(a));
        same("load", own.load(&mut loaded, &saved)?, Answer::fine(&[used as u64]))?;
        same_run("loaded", &loaded, &history.words)?;
        let mut again = vec![0; saved.len()];
        same("save", own.save(&loaded, &mut again)?, Answer::fine(&[saved.len() as u64]))?;
        same_run("saved again", &again, &saved)?;
    }
    Ok(own.calls)
}

fn head(a: u16, used: u16) -> Vec<u8> {
    [*b"AS", a.to_be_bytes(), used.to_be_bytes()].concat()
}

fn out(seat: u16) -> Vec<u8> {
    [*b"OU", seat.to_be_bytes()].concat()
}

fn used(seat: u16, server: u32) -> Vec<u8> {
    [&b"IN"[..], &seat.to_be_bytes(), &server.to_be_bytes()].concat()
}

/// The record of an opening.
fn opened(a: u16, ids: &[u32]) -> Vec<u8> {
    let count = ids.len() as u16;
    let outs = (count..a).rev().flat_map(out).collect();
    let uses = ids.iter().zip(0..).flat_map(|(id, seat)| used(seat, *id)).collect();
    [head(a, count), outs, uses].concat()
}

/// Bytes that are no record; a is what they say, where they say it.
fn no_records() -> Vec<(&'static str, usize, Vec<u8>)> {
    let mut no_records = vec![
        ("no byte", 7, vec![]),
        ("the head alone", 7, head(7, 4)),
        ("a is 0", 0, head(0, 0)),
        ("a is 0, N is 1", 0, [head(0, 1), used(0, 5)].concat()),
        ("a is 2,049", 2049, opened(2049, &[5])),
        ("N is 0", 2, [head(2, 0), out(1), out(0)].concat()),
        ("N is more than a", 1, [head(1, 2), used(0, 5), used(1, 6)].concat()),
        ("server 0", 2, [head(2, 2), used(0, 5), used(1, 0)].concat()),
        ("a server twice", 2, [head(2, 2), used(0, 5), used(1, 5)].concat()),
        ("a seat out twice", 3, [head(3, 1), out(2), out(2), used(0, 5)].concat()),
        ("a seat in use twice", 2, [head(2, 2), used(0, 5), used(0, 6)].concat()),
        ("a seat out and in use", 2, [head(2, 1), out(0), used(0, 5)].concat()),
        ("a seat out that is none", 2, [head(2, 1), out(2), used(0, 5)].concat()),
        ("a seat in use that is none", 2, [head(2, 1), out(1), used(2, 5)].concat()),
        ("seats in use descending", 2, [head(2, 2), used(1, 6), used(0, 5)].concat()),
        ("a seat in use before one out", 2, [head(2, 1), used(0, 5), out(1)].concat()),
        ("a byte short", 7, WORKED[..49].to_vec()),
        ("a byte long", 7, [&WORKED[..], &[0]].concat()),
    ];
    for mark in [0, 6, 10, 14, 18, 26, 34, 42] {
        for place in [mark, mark + 1] {
            let mut bytes = WORKED.to_vec();
            bytes[place] ^= 1;
            no_records.push(("a wrong mark", 7, bytes));
        }
    }
    no_records
}

/// FORM comes before SIZE, and each leaves the run as it was.
pub fn edges(library: &dyn Library) -> Same<u64> {
    let mut own = Alone::new(library);
    for (what, a, bytes) in no_records() {
        for length in [words(a), words(a) - 1, words(a) + 1, 0] {
            refused(&mut own, what, FORM, length, &bytes)?;
        }
    }
    let openings: [(u16, &[u32]); 6] =
        [(1, &[5]), (2, &[5]), (2, &[5, 6]), (7, &[5, 6, 7]), (2047, &[5]), (2048, &[5])];
    for (a, ids) in openings {
        let bytes = opened(a, ids);
        let a = usize::from(a);
        for length in [words(a) - 1, words(a) + 1, words(a + 1), 1, 0] {
            refused(&mut own, "a run of another length", SIZE, length, &bytes)?;
        }
        let mut loaded = vec![77; words(a)];
        same("load", own.load(&mut loaded, &bytes)?, Answer::fine(&[ids.len() as u64]))?;
        same_run("load", &loaded, &History::opened(&mut own, a, ids)?.words)?;
    }
    Ok(own.calls)
}

fn refused(own: &mut Alone, what: &str, number: u32, length: usize, bytes: &[u8]) -> Same<()> {
    let mut run = vec![77; length];
    same(what, own.load(&mut run, bytes)?, Answer::refused(number))?;
    same_run(what, &run, &vec![77; length])
}
