//! Finding keys on sound tables: which keys a change moves, by the library's own answers; and that find answers as the
//! model's set rule does on the history that was played, and its array rule, which counts the walks, on the words.
use crate::compare::{same, Alone, Same};
use crate::library::{found, Answer, Library};
use crate::played::{sizes, Change, History};
use crate::random::Random;
use steamacorn::model::find::{by_arrays, first_of, pick_of, BySets, Drawn};
use steamacorn::model::table::Table;

fn some_keys(random: &mut Random, count: usize) -> Vec<u64> {
    (0..count).map(|_| random.number()).collect()
}

/// Each change of a history: taking out moves only keys that were on its seat, seating moves keys only to its seat.
pub fn moved(library: &dyn Library) -> Same<u64> {
    let mut own = Alone::new(library);
    for (mut random, a) in sizes(3, 200) {
        let mut history = History::random(&mut own, &mut random, a, a / 2)?;
        let keys = some_keys(&mut random, 100);
        let mut before = own.find(&history.words, &keys)?;
        for _ in 0..20 {
            let change = history.change(&mut own, &mut random)?;
            let after = own.find(&history.words, &keys)?;
            changed(change, &keys, &before, &after)?;
            before = after;
        }
    }
    Ok(own.calls)
}

/// Given find's whole answers before the change and after it.
fn changed(change: Change, keys: &[u64], before: &[Answer], after: &[Answer]) -> Same<()> {
    for ((key, old), new) in keys.iter().zip(before).zip(after) {
        let is_on_its_seat = |answer: &Answer| answer.values[0] == change.seat().into();
        let may = match change {
            Change::Taking { .. } if is_on_its_seat(old) => !is_on_its_seat(new),
            Change::Seating { .. } if is_on_its_seat(new) => true,
            _ => new == old,
        };
        if !may || new.number != 0 {
            return Err(format!("key {}, {:?}: {:?} before, {:?} after", key, change, old, new));
        }
    }
    Ok(())
}

/// find against both rules: by sets on the history, by the arrays on the words.
pub fn rules(library: &dyn Library) -> Same<u64> {
    let mut own = Alone::new(library);
    for (mut random, a) in sizes(4, 300) {
        let changes = random.below(3 * a);
        let history = History::random(&mut own, &mut random, a, changes)?;
        let parts = history.parts()?;
        let sets = BySets::new(told(&history)?);
        let keys = some_keys(&mut random, 300);
        for (key, answer) in keys.iter().zip(own.find(&history.words, &keys)?) {
            let (first, pick) = (first_of(*key, parts.a), |b, n| pick_of(*key, b, n));
            let Drawn { seat, server, draws } = sets.find(first, pick);
            same("by sets", answer.three(), Answer::fine(&[seat, server, draws].map(u64::from)))?;
            same("by the arrays", answer, found(by_arrays(&parts, first, pick)))?;
            let [seat, server, draws, walks] = answer.values;
            same("the server", server, parts.S[seat as usize].into())?;
            let out = u64::from(parts.a - parts.N);
            same("draws in their bounds", 1 <= draws && draws <= 1 + out, true)?;
            same("walks in their bounds", walks <= (draws - 1) * out, true)?; // of one redraw, where draws is 2
        }
    }
    Ok(own.calls)
}

/// The model's table after the same history.
fn told(history: &History) -> Same<Table> {
    let mut table = Table::opened(history.seats() as u32, &history.ids);
    for change in &history.changes {
        let (answered, seat) = match *change {
            Change::Taking { id, seat } => (table.take_out(id), seat),
            Change::Seating { id, seat } => (table.seat(id), seat),
        };
        same("the model's seat", Ok(seat), answered)?;
    }
    Ok(table)
}

/// Servers taken out, as many ids seated again: every key is on the seat it was on, by as many draws and walks.
pub fn again(library: &dyn Library) -> Same<u64> {
    let mut own = Alone::new(library);
    for (mut random, a) in sizes(5, 300) {
        let mut history = History::random(&mut own, &mut random, a, a)?;
        let keys = some_keys(&mut random, 100);
        let before = own.find(&history.words, &keys)?;
        let mut leaving = history.seated();
        random.shuffle(&mut leaving);
        leaving.truncate(random.below(leaving.len()));
        for id in &leaving {
            history.take_out(&mut own, *id)?;
        }
        for id in leaving {
            let new = if random.below(2) == 0 { id } else { random.word() | 1 << 31 };
            history.seat(&mut own, new)?;
        }
        for ((key, old), new) in keys.iter().zip(before).zip(own.find(&history.words, &keys)?) {
            let but_the_server = |answer: Answer| {
                let [seat, _, draws, walks] = answer.values;
                (answer.number, seat, draws, walks)
            };
            same(&format!("key {} again", key), but_the_server(new), but_the_server(old))?;
        }
    }
    Ok(own.calls)
}
