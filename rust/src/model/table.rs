//! Document 01, "Changes": a table as its history leaves it.
use super::numbers::{ABSENT, DAMAGED, FULL, ID, LAST, SIZE, TWICE};
use super::parts::Parts;
use std::collections::BTreeSet;

/// A sound table. Seating takes back the last removal, so a history comes down to the removals that are left over.
#[derive(Clone, Debug, PartialEq, Eq)]
pub struct Table {
    /// The seats out of use, oldest removal first.
    pub removals: Vec<u32>,
    /// The server in each of all a seats, 0 where it is out of use.
    pub servers: Vec<u32>,
}

/// Whether no number occurs twice.
pub fn distinct(numbers: &[u32]) -> bool {
    numbers.iter().collect::<BTreeSet<_>>().len() == numbers.len()
}

impl Table {
    /// An accepted opening: the seats that get no id count as taken out, the highest first.
    pub fn opened(a: u32, ids: &[u32]) -> Table {
        let mut servers = ids.to_vec();
        servers.resize(a as usize, 0);
        Table { removals: (ids.len() as u32..a).rev().collect(), servers }
    }

    /// a
    pub fn seats(&self) -> u32 {
        self.servers.len() as u32
    }

    /// N
    pub fn used(&self) -> u32 {
        self.seats() - self.removals.len() as u32
    }

    pub fn seat_of(&self, id: u32) -> Option<u32> {
        self.servers.iter().position(|server| *server == id).map(|b| b as u32)
    }

    pub fn seat(&mut self, id: u32) -> Result<u32, u32> {
        if id == 0 {
            return Err(ID);
        }
        if self.seat_of(id).is_some() {
            return Err(TWICE);
        }
        let b = self.removals.pop().ok_or(FULL)?;
        self.servers[b as usize] = id;
        Ok(b)
    }

    pub fn take_out(&mut self, id: u32) -> Result<u32, u32> {
        if id == 0 {
            return Err(ID);
        }
        let b = self.seat_of(id).ok_or(ABSENT)?;
        if self.used() == 1 {
            return Err(LAST);
        }
        self.removals.push(b);
        self.servers[b as usize] = 0;
        Ok(b)
    }

    /// What opening all seats and taking out the removals in order leaves.
    pub fn words(&self) -> Vec<u32> {
        let mut parts = Parts::opened(self.seats(), &self.servers);
        self.removals.iter().for_each(|b| parts.take_out(*b));
        parts.words()
    }

    /// For each seat out of use, the line just after it was last taken out. The line begins with all the seats; a seat
    /// that leaves it is replaced by the line's last.
    pub fn lines(&self) -> Vec<Option<Vec<u32>>> {
        let mut lines = vec![None; self.servers.len()];
        let mut line: Vec<u32> = (0..self.seats()).collect();
        for b in &self.removals {
            let position = line.iter().position(|seat| seat == b).expect("a seat is taken out of the line once");
            line.swap_remove(position);
            lines[*b as usize] = Some(line.clone());
        }
        lines
    }

    /// The table that has these words; else SIZE, or DAMAGED where they are not sound.
    pub fn of_words(words: &[u32]) -> Result<Table, u32> {
        let parts = Parts::of_words(words).ok_or(SIZE)?;
        if parts.N < 1 || parts.N > parts.a {
            return Err(DAMAGED);
        }
        let removals = parts.R[..(parts.a - parts.N) as usize].to_vec();
        let table = Table::of_removals(removals, parts.S).ok_or(DAMAGED)?;
        if table.words() == words {
            Ok(table)
        } else {
            Err(DAMAGED)
        }
    }

    /// A table, if at least one seat is in use, each removal is another seat, and the servers are distinct and not 0
    /// exactly where a seat is in use.
    pub fn of_removals(removals: Vec<u32>, servers: Vec<u32>) -> Option<Table> {
        let seats = 0..servers.len() as u32;
        if removals.len() >= servers.len() || !distinct(&removals) || !removals.iter().all(|b| seats.contains(b)) {
            return None;
        }
        let out: BTreeSet<u32> = removals.iter().copied().collect();
        let as_used = seats.clone().all(|b| (servers[b as usize] == 0) == out.contains(&b));
        let ids: Vec<u32> = servers.iter().copied().filter(|id| *id != 0).collect();
        if as_used && distinct(&ids) {
            Some(Table { removals, servers })
        } else {
            None
        }
    }
}

#[cfg(test)]
mod tests {
    use super::*;

    fn seven(out: &[u32]) -> Table {
        let mut table = Table::opened(7, &[11, 12, 13, 14, 15, 16, 17]);
        out.iter().for_each(|b| assert_eq!(table.take_out(b + 11), Ok(*b)));
        table
    }

    #[test]
    fn e1_to_e3_and_e8_by_the_history() {
        assert_eq!(seven(&[6, 5, 1]).words()[2..9], [0, 4, 0, 0, 0, 5, 6]);
        let e2 = seven(&[6, 5, 1, 0]);
        assert_eq!(e2.words()[9..16], [3, 4, 2, 3, 4, 5, 6]);
        let mut e8 = seven(&[6, 5, 1, 0, 4]);
        assert_eq!(e8.lines()[4], Some(vec![3, 2]));
        assert_eq!(e8.seat(15), Ok(4));
        assert_eq!(e8.words(), e2.words());
    }

    #[test]
    fn e4_to_e6() {
        let lines = seven(&[6, 5, 1, 0, 4]).lines();
        let stood = |b: usize| lines[b].as_ref().expect("out of use")[1];
        assert_eq!((stood(5), stood(1), stood(4)), (1, 4, 2));
    }

    #[test]
    fn words_are_read_back() {
        let table = seven(&[6, 5, 1, 0, 4]);
        assert_eq!(Table::of_words(&table.words()), Ok(table));
    }

    #[test]
    fn one_changed_word_is_damage_or_another_server() {
        let table = seven(&[6, 5, 1]);
        let words = table.words();
        for place in 1..words.len() {
            for value in (0..20).chain([u32::MAX]).filter(|value| *value != words[place]) {
                let mut changed = words.clone();
                changed[place] = value;
                let server = place >= 37 && words[place] != 0 && value != 0 && !words[37..].contains(&value);
                assert_eq!(Table::of_words(&changed).is_ok(), server, "word {} is {}", place, value);
            }
        }
    }
}
