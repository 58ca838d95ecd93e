//! Replays a history through the library and through a copy of the rule that forgets one line, and prints for each
//! change what became of 100,000 keys. `docs/picture/draw` makes docs/picture.svg of it.
//!
//! 300 servers, each in its seat. The rack with the last 60 seats loses its power, server by server, and gets it back;
//! and once more, in another order. The rack and the seed are chosen so that the fault shows: docs/DECISIONS.md.
use steamacorn::model::find::{by_arrays, first_of, pick_of, BySets};
use steamacorn::model::parts::Parts;
use steamacorn::model::splitmix::output;
use steamacorn::model::table::Table;
use steamacorn::{find, open, seat, take_out, words};

const SERVERS: u32 = 300;
const RACK: u32 = 60;
const KEYS: u64 = 100_000;
const OUTAGES: u64 = 2;
const SEED: u64 = 2;

/// Seating without putting L[W[N]] back: what the old firmware did.
fn seat_and_forget(parts: &mut Parts, id: u32) {
    let end = (parts.a - parts.N - 1) as usize;
    let b = std::mem::take(&mut parts.R[end]);
    parts.A[b as usize] = 0;
    // here L[W[N]] := N is missing
    let place = parts.L[b as usize];
    parts.W[place as usize] = b;
    parts.K[b as usize] = b;
    parts.N += 1;
    parts.S[b as usize] = id;
}

enum Change {
    Out(u32),
    Seat(u32),
}

/// The server of seat b has the id b + 1. Those that fail last are back first.
fn history() -> Vec<Change> {
    let mut changes = Vec::new();
    for outage in 0..OUTAGES {
        let mut ids: Vec<u32> = (SERVERS - RACK + 1..=SERVERS).collect();
        ids.sort_by_key(|id| output(u64::from(*id), SEED + outage * 1000));
        changes.extend(ids.iter().map(|id| Change::Out(*id)));
        changes.extend(ids.iter().rev().map(|id| Change::Seat(*id)));
    }
    changes
}

/// The keys' servers, 0 for a lookup that does not end, as one of the two gives them.
struct Trace {
    began: Vec<u32>,
    are: Vec<u32>,
}

impl Trace {
    fn new(servers: Vec<u32>) -> Trace {
        Trace { began: servers.clone(), are: servers }
    }

    /// After a change of this id that gave the keys these servers: keys moved; of them, those that neither left the
    /// server taken out nor came to the one seated, or are not where document 01's set rule puts them; lookups that do
    /// not end; keys on the server that they began with.
    fn after(&mut self, out: bool, id: u32, now: Vec<u32>, rule: &[u32]) -> String {
        let (mut moved, mut wrongly) = (0, 0);
        for ((was, is), right) in self.are.iter().zip(&now).zip(rule).filter(|((was, is), _)| was != is) {
            let may = if out { *was == id } else { *is == id };
            moved += 1;
            wrongly += u32::from(!may || is != right);
        }
        let lost = now.iter().filter(|server| **server == 0).count();
        let home = now.iter().zip(&self.began).filter(|(is, began)| is == began).count();
        self.are = now;
        format!("{},{},{},{}", moved, wrongly, lost, home)
    }
}

fn main() {
    let ids: Vec<u32> = (1..=SERVERS).collect();
    let keys: Vec<u64> = (1..=KEYS).map(|n| output(n, SEED)).collect();
    let mut table = vec![0; words(SERVERS as usize)];
    open(&mut table, SERVERS, &ids).expect("accepted");
    let mut copy = Parts::opened(SERVERS, &ids);

    let by_library =
        |table: &[u32]| keys.iter().map(|key| find(table, *key).expect("sound").server).collect::<Vec<_>>();
    let by_copy = |copy: &Parts| {
        let at = |key| by_arrays(copy, first_of(key, SERVERS), |b, n| pick_of(key, b, n));
        keys.iter().map(|key| at(*key).map_or(0, |found| found.server)).collect::<Vec<_>>()
    };
    let by_sets = |table: &[u32]| {
        let sets = BySets::new(Table::of_words(table).expect("sound"));
        let at = |key| sets.find(first_of(key, SERVERS), |b, n| pick_of(key, b, n));
        keys.iter().map(|key| at(*key).server).collect::<Vec<_>>()
    };
    let mut library_trace = Trace::new(by_library(&table));
    let mut copy_trace = Trace::new(by_copy(&copy));

    println!("change,what,id,moved,wrongly,lost,home,copy moved,copy wrongly,copy lost,copy home");
    for (i, change) in history().iter().enumerate() {
        let (what, out, id) = match *change {
            Change::Out(id) => ("out", true, id),
            Change::Seat(id) => ("seat", false, id),
        };
        let answer = if out { take_out(&mut table, id) } else { seat(&mut table, id) };
        assert_eq!(answer, Ok(id - 1));
        if out {
            copy.take_out(id - 1);
        } else {
            seat_and_forget(&mut copy, id);
        }
        let rule = by_sets(&table);
        let library = library_trace.after(out, id, by_library(&table), &rule);
        let forgetful = copy_trace.after(out, id, by_copy(&copy), &rule);
        println!("{},{},{},{},{}", i + 1, what, id, library, forgetful);
    }
}
