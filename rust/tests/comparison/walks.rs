//! How far lookups walk: tables on which redraws follow K often, sound ones and others.
use crate::compare::{same, Comparison, Same};
use crate::library::{Answer, Library};
use crate::random::Random;
use steamacorn::model::find::{first_of, pick_of};
use steamacorn::model::numbers::DAMAGED;
use steamacorn::model::parts::Parts;
use steamacorn::model::table::Table;

pub fn compare(library: &dyn Library) -> Same<u64> {
    let mut comparison = Comparison::new(library);
    for a in [2, 3, 4, 7, 64, 2048] {
        sound(&mut comparison, a)?;
        one_redraw(&mut comparison, a)?;
        refused(&mut comparison, a)?;
    }
    every_redraw(&mut comparison)?;
    most_walks(&mut comparison)?;
    any_order(&mut comparison)?;
    Ok(comparison.calls)
}

/// The answers, which the model gives as well.
fn find(comparison: &mut Comparison, words: &[u32], keys: &[u64]) -> Same<Vec<Answer>> {
    let mut answers = Vec::new();
    comparison.find(words, keys.iter().copied(), |answer| answers.push(answer))?;
    Ok(answers)
}

fn key(draws: impl Fn(u64) -> bool) -> u64 {
    (0..).find(|key| draws(*key)).expect("one of some thousand")
}

/// The server of seat b is 11 + b.
fn ids(a: u32) -> Vec<u32> {
    (11..).take(a as usize).collect()
}

/// Out are 0, then the last of the line, and so on down to seat 2. Each takes position 0 in its turn: K leads from 0 to
/// the last seat and down to seat 1.
fn leading_down(a: u32) -> Vec<u32> {
    let mut table = Table::opened(a, &ids(a));
    for b in [0].into_iter().chain((2..a).rev()) {
        assert_eq!(table.take_out(11 + b), Ok(b));
    }
    table.words()
}

/// The longest redraw of a sound table is that of the seat taken out last: it follows K over all that are out.
fn sound(comparison: &mut Comparison, a: u32) -> Same<()> {
    let last = if a == 2 { 0 } else { 2 };
    let key = key(|key| first_of(key, a) == last);
    let answers = find(comparison, &leading_down(a), &[key])?;
    same("a redraw that follows K a - N times", answers[0], Answer::fine(&[1, 12, 2, u64::from(a) - 1]))
}

/// No sound table: K leads from seat to seat, and A is what is given, but 0 at the last seat.
fn leading_up(a: u32, out: impl Fn(u32) -> u32) -> Parts {
    let mut parts = Parts::opened(a, &ids(a));
    parts.A = (0..a - 1).map(out).chain([0]).collect();
    parts.K = (1..a).chain([a - 1]).collect();
    parts
}

/// The longest redraw of all, over every seat: each that is out draws position 0 of 1.
fn one_redraw(comparison: &mut Comparison, a: u32) -> Same<()> {
    let keys: Vec<u64> = (0..50).collect();
    let last = u64::from(a) - 1;
    for (key, answer) in keys.iter().zip(find(comparison, &leading_up(a, |_| 1).words(), &keys)?) {
        let drawn = if u64::from(first_of(*key, a)) == last { [1, 0] } else { [2, last] };
        same("a redraw over every seat", answer, Answer::fine(&[last, 11 + last, drawn[0], drawn[1]]))?;
    }
    Ok(())
}

/// The same walk, but at its end K leads back, or to no seat, or the last seat has no server.
fn refused(comparison: &mut Comparison, a: u32) -> Same<()> {
    let key = key(|key| first_of(key, a) == 0);
    let mut round = leading_up(a, |_| 1);
    let (mut astray, mut unserved) = (round.clone(), round.clone());
    round.K[a as usize - 2] = 0;
    astray.K[a as usize - 2] = a;
    unserved.S[a as usize - 1] = 0;
    for parts in [round, astray, unserved] {
        let answers = find(comparison, &parts.words(), &[key])?;
        same("a walk that leads to no server", answers[0], Answer::refused(DAMAGED))?;
    }
    Ok(())
}

/// Four seats, all redraws as long as they can be: from position 0, they follow K once, twice and three times.
fn every_redraw(comparison: &mut Comparison) -> Same<()> {
    let draws = |key, seats: [u32; 3]| {
        first_of(key, 4) == 0 && seats.into_iter().zip([3, 2, 1]).all(|(b, among)| pick_of(key, b, among) == 0)
    };
    let up = leading_up(4, |b| 3 - b).words();
    let answers = find(comparison, &up, &[key(|key| draws(key, [0, 1, 2]))])?;
    same("1 + 2 + 3, no sound table", answers[0], Answer::fine(&[3, 14, 4, 6]))?;
    let answers = find(comparison, &leading_down(4), &[key(|key| draws(key, [0, 3, 2]))])?;
    same("1 + 2 + 3, a sound table", answers[0], Answer::fine(&[1, 12, 4, 6]))
}

/// A million follows and more: from the midst of the seats on, each redraw begins far below its seat and ends one above.
fn most_walks(comparison: &mut Comparison) -> Same<()> {
    let keys: Vec<u64> = (0..12).collect();
    let answers = find(comparison, &leading_up(2048, |b| 2047 - b).words(), &keys)?;
    let far = |answer: &Answer| answer.number == 0 && answer.values[3] > 1_000_000;
    same("more than a million walks", answers.iter().any(far), true)
}

/// Seats that lead one to the next in any order, A falling from each to the next but for a few.
fn any_order(comparison: &mut Comparison) -> Same<()> {
    let mut random = Random::new(11);
    for round in 0..500 {
        let a = 2 + round % 40;
        let mut parts = Parts::opened(a, &ids(a));
        let mut order: Vec<u32> = (0..a).collect();
        random.shuffle(&mut order);
        for (place, pair) in order.windows(2).enumerate() {
            parts.A[pair[0] as usize] = a - 1 - place as u32;
            parts.K[pair[0] as usize] = pair[1];
        }
        for _ in 0..random.below(3) {
            parts.A[random.below(a as usize)] = random.below(a as usize) as u32;
        }
        let keys: Vec<u64> = (0..40).map(|_| random.number()).collect();
        find(comparison, &parts.words(), &keys)?;
    }
    Ok(())
}
