//! Demand 3 on the words, of the library alone: seating undoes taking out, and a history leaves what is left over of it
//! after striking.
use crate::compare::{same, same_run, Alone, Calls, Same};
use crate::library::{Answer, Library};
use crate::played::{accepted, id_word, sizes, taken_out, Change, History};

/// Every seated server taken out, then the same id seated, and another.
pub fn undo(library: &dyn Library) -> Same<u64> {
    let mut own = Alone::new(library);
    for (mut random, a) in sizes(1, 300) {
        let history = History::random(&mut own, &mut random, a, a)?;
        let seated = history.seated();
        for id in seated.iter().filter(|_| seated.len() >= 2) {
            for new in [*id, absent(&seated), random.word() | 1 << 31] {
                undone(&mut own, &history.words, *id, new)?;
            }
        }
    }
    Ok(own.calls)
}

fn absent(seated: &[u32]) -> u32 {
    (1..).find(|id| !seated.contains(id)).expect("fewer servers than ids")
}

fn undone(own: &mut Alone, before: &[u32], id: u32, new: u32) -> Same<()> {
    let mut after = before.to_vec();
    let left = taken_out(own, &mut after, id)?;
    let seat = own.seat(&mut after, new).and_then(|answer| accepted("seat", answer, before))?;
    same("undo: the seat", seat, left)?;
    let mut expected = before.to_vec();
    expected[id_word(before, seat)] = new;
    same_run("undo", &after, &expected)
}

/// Random accepted histories. They leave sound tables.
pub fn struck(library: &dyn Library) -> Same<u64> {
    let mut own = Alone::new(library);
    for (mut random, a) in sizes(2, 300) {
        let changes = random.below(6 * a);
        let history = History::random(&mut own, &mut random, a, changes)?;
        let made = reseated(&mut own, &history, &strike(&history.changes)?)?;
        same_run("what is left over", history.bare(), made.bare())?;
        last_given(&history)?;
        same("audit", own.audit(&history.words)?, Answer::fine(&[]))?;
    }
    Ok(own.calls)
}

/// The changes without each seating and the removal that it answers: the latest that is not yet answered.
fn strike(changes: &[Change]) -> Same<Vec<Change>> {
    let mut left: Vec<Change> = Vec::new();
    for change in changes {
        let latest = left.iter().rposition(|change| matches!(change, Change::Taking { .. }));
        match (change, latest) {
            (Change::Seating { seat, .. }, Some(latest)) => {
                same("strike: the seat", *seat, left.remove(latest).seat())?;
            }
            _ => left.push(*change),
        }
    }
    Ok(left)
}

/// The same opening and these changes of seats, with other ids in the seats that they fill.
fn reseated(own: &mut Alone, history: &History, changes: &[Change]) -> Same<History> {
    let mut made = History::opened(own, history.seats(), &history.ids)?;
    for (place, change) in changes.iter().enumerate() {
        match *change {
            Change::Taking { seat, .. } => {
                let id = made.words[id_word(&made.words, seat)];
                same("left over", made.take_out(own, id)?, Change::Taking { id, seat })?;
            }
            Change::Seating { seat, .. } => {
                let id = 1_000_000 + place as u32;
                same("left over", made.seat(own, id)?, Change::Seating { id, seat })?;
            }
        }
    }
    Ok(made)
}

/// Each seat in use holds the id last given to it; opening gave seat x id x of the list. The others hold none.
fn last_given(history: &History) -> Same<()> {
    let parts = history.parts()?;
    let mut given = history.ids.clone();
    given.resize(history.seats(), 0);
    for change in &history.changes {
        if let Change::Seating { id, seat } = change {
            given[*seat as usize] = *id;
        }
    }
    let held: Vec<u32> = given.iter().zip(&parts.A).map(|(id, out)| if *out == 0 { *id } else { 0 }).collect();
    same_run("the id last given", &parts.S, &held)
}
