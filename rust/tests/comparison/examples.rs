//! Document 01's worked examples and its record, of the library alone, against words and bytes that are written out.
use crate::compare::{same, same_run, Alone, Calls, Same};
use crate::library::{Answer, Library};
use crate::played::{Change, History};
use steamacorn::model::find::{first_of, pick_of};
use steamacorn::model::numbers::ROOM;
use steamacorn::model::record::WORKED;

/// Every word but the ids: a and N, A, K, W, L, R.
#[rustfmt::skip]
const E1: [u32; 37] = [
    7, 4,
    0, 4, 0, 0, 0, 5, 6,
    0, 4, 2, 3, 4, 5, 6,
    0, 4, 2, 3, 4, 5, 6,
    0, 1, 2, 3, 1, 5, 6,
    6, 5, 1, 0, 0, 0, 0,
];

const E1_IDS: [u32; 7] = [11, 0, 13, 14, 15, 0, 0];

#[rustfmt::skip]
const E2: [u32; 37] = [
    7, 3,
    3, 4, 0, 0, 0, 5, 6,
    3, 4, 2, 3, 4, 5, 6,
    3, 4, 2, 3, 4, 5, 6,
    0, 1, 2, 0, 1, 5, 6,
    6, 5, 1, 0, 0, 0, 0,
];

#[rustfmt::skip]
const E3: [u32; 37] = [
    7, 2,
    3, 4, 0, 0, 2, 5, 6,
    3, 4, 2, 3, 2, 5, 6,
    3, 2, 2, 3, 4, 5, 6,
    0, 1, 1, 0, 1, 5, 6,
    6, 5, 1, 0, 4, 0, 0,
];

#[rustfmt::skip]
const E11: [u32; 17] = [
    3, 2,
    0, 0, 2,
    0, 1, 2,
    0, 1, 2,
    0, 1, 2,
    2, 0, 0,
];

pub fn compare(library: &dyn Library) -> Same<u64> {
    let mut own = Alone::new(library);
    seven_seats(&mut own)?;
    few_seats(&mut own)?;
    fifty_bytes(&mut own)?;
    Ok(own.calls)
}

/// All seats in use, seat b by the id 11 + b; then these seats taken out.
fn without(own: &mut Alone, a: usize, seats: &[u32]) -> Same<History> {
    let ids: Vec<u32> = (11..).take(a).collect();
    let mut history = History::opened(own, a, &ids)?;
    for seat in seats {
        let id = 11 + seat;
        same("out", history.take_out(own, id)?, Change::Taking { id, seat: *seat })?;
    }
    Ok(history)
}

/// E1 to E8. E4 to E6 are the redraws of E7: a key whose first pick is 5, 1 or 4 takes three, two or one of them. From
/// position 1, the redraw at seat 5 follows K not at all, the one at seat 1 once, to seat 4, and the one at seat 4 twice,
/// over seat 4 to seat 2.
fn seven_seats(own: &mut Alone) -> Same<()> {
    let e1 = without(own, 7, &[6, 5, 1])?;
    same_run("E1", &e1.words, &[&E1[..], &E1_IDS].concat())?;
    let e2 = without(own, 7, &[6, 5, 1, 0])?;
    same_run("E2", e2.bare(), &E2)?;
    let mut e3 = without(own, 7, &[6, 5, 1, 0, 4])?;
    same_run("E3", e3.bare(), &E3)?;
    let redraws = [(5, 5), (1, 4), (4, 2)].map(|(at, among)| Redraw { at, among, pick: 1 });
    for (place, (first, walks)) in [(5, 3), (1, 3), (4, 2)].into_iter().enumerate() {
        let answer = find(own, &e3, first, &redraws[place..])?;
        same("E4 to E7", answer, Answer::fine(&[2, 13, 4 - place as u64, walks]))?;
    }
    same("E8", e3.seat(own, 99)?, Change::Seating { id: 99, seat: 4 })?;
    same_run("E8", e3.bare(), &E2)
}

/// E9 to E11.
fn few_seats(own: &mut Alone) -> Same<()> {
    let e9 = without(own, 1, &[])?;
    same("E9", find(own, &e9, 0, &[])?, Answer::fine(&[0, 11, 1, 0]))?;
    let e10 = without(own, 2, &[0])?;
    same("E10", find(own, &e10, 0, &[Redraw { at: 0, among: 1, pick: 0 }])?, Answer::fine(&[1, 12, 2, 1]))?;
    let e11 = without(own, 3, &[2])?;
    same_run("E11", e11.bare(), &E11)
}

struct Redraw {
    at: u32,
    among: u32,
    pick: u32,
}

/// The answer for a key that draws so.
fn find(own: &mut Alone, history: &History, first: u32, redraws: &[Redraw]) -> Same<Answer> {
    let a = history.seats() as u32;
    let draws = |key: u64| {
        first_of(key, a) == first && redraws.iter().all(|redraw| pick_of(key, redraw.at, redraw.among) == redraw.pick)
    };
    let key = (0..).find(|key| draws(*key)).expect("one of some hundred");
    Ok(own.find(&history.words, &[key])?[0])
}

/// E1's table: its bytes, in an output of their length, one byte short, and longer; and its words again.
fn fifty_bytes(own: &mut Alone) -> Same<()> {
    let e1 = [&E1[..], &E1_IDS].concat();
    for (room, answer, written) in
        [(50, Answer::fine(&[50]), 50), (49, Answer::refused(ROOM), 0), (60, Answer::fine(&[50]), 50)]
    {
        let mut output = vec![0xEE; room];
        same("save", own.save(&e1, &mut output)?, answer)?;
        same_run("save", &output, &[&WORKED[..written], &vec![0xEE; room - written]].concat())?;
    }
    let mut loaded = vec![77; e1.len()];
    same("load", own.load(&mut loaded, &WORKED)?, Answer::fine(&[4]))?;
    same_run("load", &loaded, &e1)
}
