//! The archive in the library's place.
use crate::compare::Same;
use crate::library::{Answer, Library, UNWRITTEN};
use crate::{changes, damage, edges, examples, histories, keys, lookups, packets, records, seat_zero, walks};
use std::sync::mpsc::{self, RecvTimeoutError};
use std::thread;
use std::time::Duration;
use steamacorn::ffi::*;
use steamacorn::{Found, Refusal};

/// The archive's functions as C calls them. A value that no call wrote is told as it was.
struct Archive;

const WORD: u32 = UNWRITTEN as u32;

/// Four values between two words that were not lent.
fn between_guards(number: u32, [before, values @ .., after]: [u32; 6]) -> Answer {
    assert_eq!((before, after), (WORD, WORD), "beside the values");
    Answer { number, ..Answer::fine(&values.map(u64::from)) }
}

// SAFETY, in all nine: pointers and lengths are those of slices, which are valid and do not overlap
impl Library for Archive {
    fn open(&self, table: &mut [u32], a: u32, ids: &mut [u32]) -> Answer {
        let mut n = WORD;
        let number =
            unsafe { steamacorn_open(table.as_mut_ptr(), table.len(), a, ids.as_mut_ptr(), ids.len(), &mut n) };
        Answer { number, ..Answer::fine(&[n.into()]) }
    }

    fn seat(&self, table: &mut [u32], id: u32) -> Answer {
        let mut seat = WORD;
        let number = unsafe { steamacorn_seat(table.as_mut_ptr(), table.len(), id, &mut seat) };
        Answer { number, ..Answer::fine(&[seat.into()]) }
    }

    fn out(&self, table: &mut [u32], id: u32) -> Answer {
        let mut seat = WORD;
        let number = unsafe { steamacorn_out(table.as_mut_ptr(), table.len(), id, &mut seat) };
        Answer { number, ..Answer::fine(&[seat.into()]) }
    }

    fn find(&self, table: &mut [u32], key: u64) -> Answer {
        let mut words = [WORD; 6]; // three are lent
        let [_, seat, server, draws, _, _] = &mut words;
        let number = unsafe { steamacorn_find(table.as_mut_ptr(), table.len(), key, seat, server, draws) };
        between_guards(number, words)
    }

    fn find_walks(&self, table: &mut [u32], key: u64) -> Answer {
        let mut words = [WORD; 6]; // four are lent
        let [_, seat, server, draws, walks, _] = &mut words;
        let number = unsafe { steamacorn_find_walks(table.as_mut_ptr(), table.len(), key, seat, server, draws, walks) };
        between_guards(number, words)
    }

    fn audit(&self, table: &mut [u32]) -> Answer {
        let number = unsafe { steamacorn_audit(table.as_mut_ptr(), table.len()) };
        Answer { number, ..Answer::fine(&[]) }
    }

    fn save(&self, table: &mut [u32], record: &mut [u8]) -> Answer {
        let mut bytes = UNWRITTEN as usize;
        let number =
            unsafe { steamacorn_save(table.as_mut_ptr(), table.len(), record.as_mut_ptr(), record.len(), &mut bytes) };
        Answer { number, ..Answer::fine(&[bytes as u64]) }
    }

    fn load(&self, table: &mut [u32], record: &mut [u8]) -> Answer {
        let mut n = WORD;
        let number =
            unsafe { steamacorn_load(table.as_mut_ptr(), table.len(), record.as_mut_ptr(), record.len(), &mut n) };
        Answer { number, ..Answer::fine(&[n.into()]) }
    }

    fn key(&self, packet: &mut [u8], key: &mut [u8]) -> Answer {
        let number = unsafe { steamacorn_key(packet.as_mut_ptr(), packet.len(), key.as_mut_ptr(), key.len()) };
        Answer { number, ..Answer::fine(&[]) }
    }
}

/// The calls in Rust's habits.
struct Wrapped;

fn answer(result: Result<impl Into<u64>, Refusal>) -> Answer {
    Answer::of(result.map_err(Refusal::number))
}

impl Library for Wrapped {
    fn open(&self, table: &mut [u32], a: u32, ids: &mut [u32]) -> Answer {
        answer(steamacorn::open(table, a, ids))
    }

    fn seat(&self, table: &mut [u32], id: u32) -> Answer {
        answer(steamacorn::seat(table, id))
    }

    fn out(&self, table: &mut [u32], id: u32) -> Answer {
        answer(steamacorn::take_out(table, id))
    }

    /// One call stands for both.
    fn find(&self, table: &mut [u32], key: u64) -> Answer {
        self.find_walks(table, key).three()
    }

    fn find_walks(&self, table: &mut [u32], key: u64) -> Answer {
        steamacorn::find(table, key).map_or_else(
            |refusal| Answer::refused(refusal.number()),
            |Found { seat, server, draws, walks }| Answer::fine(&[seat, server, draws, walks].map(u64::from)),
        )
    }

    fn audit(&self, table: &mut [u32]) -> Answer {
        Answer::bare(steamacorn::audit(table).map_err(Refusal::number))
    }

    fn save(&self, table: &mut [u32], record: &mut [u8]) -> Answer {
        answer(steamacorn::save(table, record).map(|bytes| bytes as u64))
    }

    fn load(&self, table: &mut [u32], record: &mut [u8]) -> Answer {
        answer(steamacorn::load(table, record))
    }

    /// By both calls, the bytes and the number, which have to agree.
    fn key(&self, packet: &mut [u8], key: &mut [u8]) -> Answer {
        let result = steamacorn::key(packet, key);
        if let Ok(bytes) = <[u8; 8]>::try_from(&*key) {
            assert_eq!(steamacorn::key_of(packet), result.map(|_| u64::from_be_bytes(bytes)));
        }
        Answer::bare(result.map_err(Refusal::number))
    }
}

const LIMIT: Duration = Duration::from_secs(600);

/// Compares on a thread of its own, so that a call that does not end is told as well.
fn passes(name: &'static str, compare: fn(&dyn Library) -> Same<u64>, library: &'static (dyn Library + Sync)) {
    let (sender, receiver) = mpsc::channel();
    thread::spawn(move || sender.send(compare(library)));
    match receiver.recv_timeout(LIMIT) {
        Ok(Ok(calls)) => println!("{}: {} calls compared", name, calls),
        Ok(Err(difference)) => panic!("{}: {}", name, difference),
        Err(RecvTimeoutError::Timeout) => panic!("{}: no end within {:?}", name, LIMIT),
        Err(RecvTimeoutError::Disconnected) => panic!("{}: broke off, as told above", name),
    }
}

#[test]
fn the_archive_changes() {
    passes("changes", changes::compare, &Archive);
}

#[test]
fn the_archive_damage() {
    passes("damage", damage::compare, &Archive);
}

#[test]
fn the_archive_lookups() {
    passes("lookups", lookups::compare, &Archive);
}

#[test]
fn the_archive_walks() {
    passes("walks", walks::compare, &Archive);
}

#[test]
fn the_archive_records() {
    passes("records", records::compare, &Archive);
}

#[test]
fn the_archive_edges() {
    passes("edges", edges::compare, &Archive);
}

#[test]
fn the_archive_undo() {
    passes("undo", histories::undo, &Archive);
}

#[test]
fn the_archive_histories() {
    passes("histories, struck", histories::struck, &Archive);
}

#[test]
fn the_archive_keys() {
    passes("keys before and after changes", keys::moved, &Archive);
    passes("keys by both rules", keys::rules, &Archive);
    passes("keys, again", keys::again, &Archive);
}

#[test]
fn the_archive_seat_zero() {
    passes("keys of seat 0", seat_zero::shares, &Archive);
    passes("positions drawn at seat 0", seat_zero::positions, &Archive);
    passes("keys moved by the rule", seat_zero::moved, &Archive);
    passes("a record of before", seat_zero::record, &Archive);
}

#[test]
fn the_archive_saves_and_loads() {
    passes("saving and loading", records::opposites, &Archive);
    passes("edges of the record", records::edges, &Archive);
}

#[test]
fn the_archive_examples() {
    passes("examples", examples::compare, &Archive);
}

#[test]
fn the_archive_packets() {
    passes("edges of the packet", packets::edges, &Archive);
    passes("packets, random", packets::random, &Archive);
    passes("packets, bit by bit", packets::bits, &Archive);
    passes("bits that count and do not", packets::counted, &Archive);
    passes("packets, captured", packets::captured, &Archive);
    passes("packets, worked out", packets::worked, &Archive);
}

#[test]
fn the_archive_fragments() {
    passes("fragments", packets::fragments, &Archive);
}

#[test]
fn the_archive_servers() {
    passes("servers for packets", packets::servers, &Archive);
}

#[test]
fn the_calls_in_rusts_habits() {
    passes("edges, in Rust's habits", edges::compare, &Wrapped);
    passes("walks, in Rust's habits", walks::compare, &Wrapped);
    passes("edges of the packet, in Rust's habits", packets::edges, &Wrapped);
}
