//! Accepted histories, played through the library's own calls: what is said of a history is said of the words that it
//! left, and the model is not asked.
use crate::compare::{same, Alone, Calls, Same};
use crate::library::Answer;
use crate::random::Random;
use steamacorn::model::parts::Parts;
use steamacorn::words;

/// An accepted change, with the seat that its call answered.
#[derive(Clone, Copy, Debug, PartialEq, Eq)]
pub enum Change {
    Taking { id: u32, seat: u32 },
    Seating { id: u32, seat: u32 },
}

impl Change {
    pub fn seat(self) -> u32 {
        match self {
            Change::Taking { seat, .. } | Change::Seating { seat, .. } => seat,
        }
    }
}

pub struct History {
    /// Those of the opening.
    pub ids: Vec<u32>,
    pub changes: Vec<Change>,
    pub words: Vec<u32>,
}

impl History {
    pub fn opened(own: &mut Alone, a: usize, ids: &[u32]) -> Same<History> {
        let mut words = vec![77; words(a)];
        let answer = own.open(&mut words, a as u32, ids)?;
        same("open", answer, Answer::fine(&[ids.len() as u64]))?;
        Ok(History { ids: ids.to_vec(), changes: Vec::new(), words })
    }

    /// An opening of two seats or more, and so many changes.
    pub fn random(own: &mut Alone, random: &mut Random, a: usize, changes: usize) -> Same<History> {
        let used = 1 + random.below(a);
        let mut history = History::opened(own, a, &random.ids(used))?;
        for _ in 0..changes {
            history.change(own, random)?;
        }
        Ok(history)
    }

    pub fn seats(&self) -> usize {
        (self.words.len() - 2) / 6
    }

    pub fn parts(&self) -> Same<Parts> {
        Parts::of_words(&self.words).ok_or_else(|| format!("{:?} is of no legal shape", self.words))
    }

    /// Every word but the ids.
    pub fn bare(&self) -> &[u32] {
        &self.words[..id_word(&self.words, 0)]
    }

    pub fn seated(&self) -> Vec<u32> {
        self.words[id_word(&self.words, 0)..].iter().copied().filter(|id| *id != 0).collect()
    }

    /// Takes a server out or seats an id, by chance: often one of the opening's, which may have been out.
    pub fn change(&mut self, own: &mut Alone, random: &mut Random) -> Same<Change> {
        let seated = self.seated();
        let full = seated.len() == self.seats();
        if seated.len() > 1 && (full || random.below(2) == 0) {
            return self.take_out(own, random.one_of(&seated));
        }
        let back = random.one_of(&self.ids);
        let id = if seated.contains(&back) { random.word() | 1 << 31 } else { back };
        self.seat(own, id)
    }

    pub fn take_out(&mut self, own: &mut Alone, id: u32) -> Same<Change> {
        let seat = taken_out(own, &mut self.words, id)?;
        self.note(Change::Taking { id, seat })
    }

    pub fn seat(&mut self, own: &mut Alone, id: u32) -> Same<Change> {
        let answer = own.seat(&mut self.words, id)?;
        let seat = accepted("seat", answer, &self.words)?;
        self.note(Change::Seating { id, seat })
    }

    fn note(&mut self, change: Change) -> Same<Change> {
        self.changes.push(change);
        Ok(change)
    }
}

/// Takes a server out: the seat answered is the one that held it, and holds none then.
pub fn taken_out(own: &mut Alone, words: &mut [u32], id: u32) -> Same<u32> {
    let before = words.to_vec();
    let answer = own.out(words, id)?;
    let seat = accepted("out", answer, words)?;
    let at = id_word(words, seat);
    same("out: the seat's server, before and after", (before[at], words[at]), (id, 0))?;
    Ok(seat)
}

/// Where the words have the id of a seat.
pub fn id_word(words: &[u32], seat: u32) -> usize {
    2 + 5 * (words.len() - 2) / 6 + seat as usize
}

/// The seat that an accepted change of these words answers.
pub fn accepted(call: &str, answer: Answer, words: &[u32]) -> Same<u32> {
    let seat = answer.values[0];
    same(call, answer, Answer::fine(&[seat]))?;
    same("answers a seat", 6 * seat < words.len() as u64 - 2, true)?;
    Ok(seat as u32)
}

/// Generators of random numbers, each with a number of seats: many small ones, and some of 200.
pub fn sizes(seed: u64, count: usize) -> impl Iterator<Item = (Random, usize)> {
    (0..count).map(move |round| {
        let a = if round % 50 == 49 { 200 } else { 2 + round % 20 };
        (Random::new(seed + 1000 * round as u64), a)
    })
}
