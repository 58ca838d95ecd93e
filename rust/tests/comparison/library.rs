//! What is compared: the nine calls. Every run is lent so that it could be written to, also one that a call has only
//! to read, so that such a write shows.
use steamacorn::model::calls;
use steamacorn::model::find::{by_arrays, first_of, pick_of, Found};
use steamacorn::model::numbers::SIZE;
use steamacorn::model::parts::Parts;

/// What a value holds that no call wrote.
pub const UNWRITTEN: u64 = 0xA5A5_A5A5;

/// A call's number, and its values in their order.
#[derive(Clone, Copy, Debug, PartialEq, Eq)]
pub struct Answer {
    pub number: u32,
    pub values: [u64; 4],
}

impl Answer {
    pub fn fine(values: &[u64]) -> Answer {
        let mut answer = Answer { number: 0, values: [UNWRITTEN; 4] };
        answer.values[..values.len()].copy_from_slice(values);
        answer
    }

    pub fn refused(number: u32) -> Answer {
        Answer { number, values: [UNWRITTEN; 4] }
    }

    pub fn of(result: Result<impl Into<u64>, u32>) -> Answer {
        result.map_or_else(Answer::refused, |value| Answer::fine(&[value.into()]))
    }

    /// Of a call that has no values.
    pub fn bare(result: Result<(), u32>) -> Answer {
        result.map_or_else(Answer::refused, |_| Answer::fine(&[]))
    }

    /// What `find` has to answer where `find_walks` has to answer this.
    pub fn three(self) -> Answer {
        let [seat, server, draws, _] = self.values;
        Answer { values: [seat, server, draws, UNWRITTEN], ..self }
    }
}

pub trait Library {
    fn open(&self, table: &mut [u32], a: u32, ids: &mut [u32]) -> Answer;
    fn seat(&self, table: &mut [u32], id: u32) -> Answer;
    fn out(&self, table: &mut [u32], id: u32) -> Answer;
    /// Seat, server and draws.
    fn find(&self, table: &mut [u32], key: u64) -> Answer;
    /// Seat, server, draws and walks.
    fn find_walks(&self, table: &mut [u32], key: u64) -> Answer;
    fn audit(&self, table: &mut [u32]) -> Answer;
    fn save(&self, table: &mut [u32], record: &mut [u8]) -> Answer;
    fn load(&self, table: &mut [u32], record: &mut [u8]) -> Answer;
    fn key(&self, packet: &mut [u8], key: &mut [u8]) -> Answer;
}

/// The model. It finds by the arrays, on sound tables too, where a comparison goes by sets: there both have to agree.
pub struct Model;

impl Library for Model {
    fn open(&self, table: &mut [u32], a: u32, ids: &mut [u32]) -> Answer {
        Answer::of(calls::open(table, a, ids))
    }

    fn seat(&self, table: &mut [u32], id: u32) -> Answer {
        Answer::of(calls::seat(table, id))
    }

    fn out(&self, table: &mut [u32], id: u32) -> Answer {
        Answer::of(calls::out(table, id))
    }

    fn find(&self, table: &mut [u32], key: u64) -> Answer {
        self.find_walks(table, key).three()
    }

    fn find_walks(&self, table: &mut [u32], key: u64) -> Answer {
        let parts = Parts::of_words(table).ok_or(SIZE);
        found(parts.and_then(|parts| by_arrays(&parts, first_of(key, parts.a), |b, n| pick_of(key, b, n))))
    }

    fn audit(&self, table: &mut [u32]) -> Answer {
        Answer::bare(calls::audit(table))
    }

    fn save(&self, table: &mut [u32], record: &mut [u8]) -> Answer {
        Answer::of(calls::save(table, record).map(|bytes| bytes as u64))
    }

    fn load(&self, table: &mut [u32], record: &mut [u8]) -> Answer {
        Answer::of(calls::load(table, record))
    }

    fn key(&self, packet: &mut [u8], key: &mut [u8]) -> Answer {
        Answer::bare(calls::key(packet, key))
    }
}

pub fn found(result: Result<Found, u32>) -> Answer {
    result.map_or_else(Answer::refused, |Found { seat, server, draws, walks }| {
        Answer::fine(&[seat, server, draws, walks].map(u64::from))
    })
}
