//! Document 02, "Seat 0 clumps": where the keys of seat 0 go once it is out, how many keys the rule moved, and a record
//! that was saved before it. The rule of before stands here, and nowhere else in `rust/`.
use crate::compare::{same, same_run, Alone, Calls, Comparison, Same};
use crate::library::{found, Answer, Library};
use crate::played::History;
use crate::random::Random;
use std::collections::{BTreeMap, BTreeSet};
use steamacorn::model::find::{by_arrays, first_of};
use steamacorn::model::parts::Parts;
use steamacorn::model::splitmix::output;

/// hash(b, k) mod n as it was: output b + 1, at seat 0 that of the first draw.
pub fn pick_before(k: u64, b: u32, n: u32) -> u32 {
    (output(u64::from(b) + 1, k) % u64::from(n)) as u32
}

/// What find answered before.
fn before(parts: &Parts, key: u64) -> Answer {
    found(by_arrays(parts, first_of(key, parts.a), |b, n| pick_before(key, b, n)))
}

/// All seats in use, seat b by the id 11 + b; then these taken out.
fn without(own: &mut Alone, a: usize, seats: &[u32]) -> Same<History> {
    let ids: Vec<u32> = (11..).take(a).collect();
    let mut history = History::opened(own, a, &ids)?;
    for seat in seats {
        history.take_out(own, 11 + seat)?;
    }
    Ok(history)
}

/// Seat 0 goes too, the last one out: A[0] is what is left.
fn zero_out(own: &mut Alone, history: &mut History) -> Same<Parts> {
    history.take_out(own, 11)?;
    let parts = history.parts()?;
    same("A[0]", parts.A[0], parts.N)?;
    Ok(parts)
}

/// Eight seats, A[0] = 4. Of 10^6 keys those that were on seat 0, each rule's own, and among them those that draw it
/// first: on which servers they are once it is out.
pub fn shares(library: &dyn Library) -> Same<u64> {
    let mut own = Alone::new(library);
    let mut comparison = Comparison::new(library);
    let mut random = Random::new(12);
    let keys: Vec<u64> = (0..1_000_000).map(|_| random.number()).collect();
    let mut history = without(&mut own, 8, &[7, 6, 5])?;
    let with_zero = history.parts()?;
    let of_before: Vec<u64> = keys.iter().copied().filter(|key| before(&with_zero, *key).values[0] == 0).collect();
    let of_now = with_answers(&mut comparison, &history, &keys)?.filter(|(_, answer)| answer.values[0] == 0);
    let of_now: Vec<u64> = of_now.map(|(key, _)| key).collect();

    let parts = zero_out(&mut own, &mut history)?;
    let then: Vec<_> = of_before.into_iter().map(|key| (key, before(&parts, key))).collect();
    let now: Vec<_> = with_answers(&mut comparison, &history, &of_now)?.collect();
    let all = counted("before", "of seat 0", then.iter());
    let first = counted("before", FIRST, then.iter().filter(draws_0_first));
    same("one server before", first.keys().copied().collect::<Vec<_>>(), vec![15])?;
    same("and the most of all", 2 * all[&15] > then.len(), true)?;
    for counts in [counted("now", "of seat 0", now.iter()), counted("now", FIRST, now.iter().filter(draws_0_first))] {
        let keys = counts.values().sum::<usize>();
        same("four servers now", counts.keys().copied().collect::<Vec<_>>(), vec![12, 13, 14, 15])?;
        let even = |count: &usize| (24 * keys..=26 * keys).contains(&(100 * count));
        same("24 to 26 of 100 keys each", counts.values().all(even), true)?;
    }
    Ok(own.calls + comparison.calls)
}

/// The keys with find's answers, compared.
fn with_answers<'k>(
    comparison: &mut Comparison,
    history: &History,
    keys: &'k [u64],
) -> Same<impl Iterator<Item = (u64, Answer)> + 'k> {
    let mut answers = Vec::new();
    comparison.find(&history.words, keys.iter().copied(), |answer| answers.push(answer))?;
    Ok(keys.iter().copied().zip(answers))
}

const FIRST: &str = "that draw seat 0 first";

fn draws_0_first((key, _): &&(u64, Answer)) -> bool {
    first_of(*key, 8) == 0
}

/// How many of these keys each server has, printed.
fn counted<'k>(when: &str, which: &str, keys: impl Iterator<Item = &'k (u64, Answer)>) -> BTreeMap<u64, usize> {
    let mut counts = BTreeMap::new();
    keys.for_each(|(_, answer)| *counts.entry(answer.values[1]).or_insert(0) += 1);
    let keys = counts.values().sum::<usize>();
    for (server, count) in &counts {
        println!("{}, server {}: {} of {} keys {}", when, server, count, keys, which);
    }
    counts
}

/// Seats, and an A[0] that has a divisor in common with their number.
const DIVIDED: [(usize, usize); 11] =
    [(8, 4), (8, 2), (8, 6), (12, 6), (12, 4), (12, 3), (12, 8), (64, 32), (64, 16), (64, 8), (2048, 1024)];

/// Seat 0 is the last one out, so that its keys come to the seat at the drawn position of today's line. Before, those
/// that draw seat 0 first came to each d-th position alone, d being the greatest divisor in common; now to every one.
pub fn positions(library: &dyn Library) -> Same<u64> {
    let mut own = Alone::new(library);
    let mut random = Random::new(13);
    for (a, left) in DIVIDED {
        let mut others: Vec<u32> = (1..a as u32).collect();
        random.shuffle(&mut others);
        let mut history = without(&mut own, a, &others[left..])?;
        let parts = zero_out(&mut own, &mut history)?;
        let position = |answer: Answer| parts.line().iter().position(|seat| u64::from(*seat) == answer.values[0]);
        let divisor = (1..=left).rev().find(|d| a % d == 0 && left % d == 0).expect("1 divides both");
        let some = std::iter::repeat_with(|| random.number());
        let keys: Vec<u64> = some.filter(|key| first_of(*key, parts.a) == 0).take(16 * left).collect();
        let mut drawn = BTreeSet::new();
        for (key, answer) in keys.iter().zip(own.find(&history.words, &keys)?) {
            same("draws of a key of seat 0", answer.values[2], 2)?;
            drawn.extend(position(answer));
            let was = position(before(&parts, *key)).expect("a seat of the line");
            same("each d-th position before", was % divisor, 0)?;
        }
        same("the positions drawn", drawn.into_iter().collect::<Vec<_>>(), (0..left).collect())?;
    }
    Ok(own.calls)
}

/// A thousand seats: the keys that have another server than before, with no seat out and with a hundred.
pub fn moved(library: &dyn Library) -> Same<u64> {
    let mut own = Alone::new(library);
    let mut comparison = Comparison::new(library);
    let mut random = Random::new(14);
    let mut ids: Vec<u32> = (1..=1000).collect();
    let mut history = History::opened(&mut own, 1000, &ids)?;
    same("moved with no seat out", elsewhere(&mut comparison, &mut random, &history, 10_000)?, 0)?;
    random.shuffle(&mut ids[1..]);
    for id in ids[..100].iter().rev() {
        history.take_out(&mut own, *id)?; // seat 0 is the last one
    }
    let moved = elsewhere(&mut comparison, &mut random, &history, 1_000_000)?;
    println!("moved by the rule: {} of 1000000 keys", moved);
    same("9 to 11 of 100 keys moved", (90_000..=110_000).contains(&moved), true)?;
    Ok(own.calls + comparison.calls)
}

/// How many of so many keys have another server than before. Those of one draw have none.
fn elsewhere(comparison: &mut Comparison, random: &mut Random, history: &History, count: usize) -> Same<u32> {
    let parts = history.parts()?;
    let keys: Vec<u64> = (0..count).map(|_| random.number()).collect();
    let mut moved = 0;
    for (key, now) in with_answers(comparison, history, &keys)? {
        let [_, server, draws, _] = now.values;
        let moves = before(&parts, key).values[1] != server;
        same("moved without a redraw", moves && draws == 1, false)?;
        moved += u32::from(moves);
    }
    Ok(moved)
}

/// Of version 0.3.0: a history, and the record and the words that it left there (tests/records/README.md).
const HISTORY: &str = include_str!("../records/0.3.0.txt");
const RECORD: &[u8] = include_bytes!("../records/0.3.0.bin");
const WORDS: &str = include_str!("../records/0.3.0.words");

/// A history leaves the words of before; their record loads as these words, and they are saved as the same bytes.
pub fn record(library: &dyn Library) -> Same<u64> {
    let mut own = Alone::new(library);
    let words: Vec<u32> = WORDS.split_whitespace().map(number).collect();
    same_run("played", &replayed(&mut own)?.words, &words)?;
    let mut loaded = vec![77; words.len()];
    same("load", own.load(&mut loaded, RECORD)?, Answer::fine(&[words[1].into()]))?;
    same_run("loaded", &loaded, &words)?;
    let mut saved = vec![0xEE; RECORD.len()];
    same("save", own.save(&words, &mut saved)?, Answer::fine(&[RECORD.len() as u64]))?;
    same_run("saved", &saved, RECORD)?;
    Ok(own.calls)
}

fn number(word: &str) -> u32 {
    word.parse().expect("a number")
}

/// The first line is `open A ID..`, the others are `out ID` or `seat ID`.
fn replayed(own: &mut Alone) -> Same<History> {
    let mut lines = HISTORY.lines();
    let opening: Vec<u32> = lines.next().expect("an opening").split(' ').skip(1).map(number).collect();
    let mut history = History::opened(own, opening[0] as usize, &opening[1..])?;
    for line in lines {
        match line.split_once(' ') {
            Some(("out", id)) => history.take_out(own, number(id))?,
            Some(("seat", id)) => history.seat(own, number(id))?,
            _ => panic!("no change: {}", line),
        };
    }
    Ok(history)
}
