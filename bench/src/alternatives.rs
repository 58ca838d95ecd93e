//! The paper's alternatives, all over the one hash: each gives a key a server, and takes servers out and in.
use crate::calls::{Calls, Library};
use crate::safe::output;

pub trait Balancer {
    fn find(&self, key: u64) -> u32;
    fn out(&mut self, id: u32);
    fn seat(&mut self, id: u32);
}

/// AnchorHash, by the calls of libsteamacorn.a.
pub struct Anchor(Vec<u32>);

impl Anchor {
    pub fn new(seats: u32, ids: &[u32]) -> Anchor {
        let mut table = vec![0; steamacorn::words(seats as usize)];
        steamacorn::open(&mut table, seats, ids).expect("accepted");
        Anchor(table)
    }
}

impl Balancer for Anchor {
    fn find(&self, key: u64) -> u32 {
        Library::find(&self.0, key).1
    }

    fn out(&mut self, id: u32) {
        Library::out(&mut self.0, id);
    }

    fn seat(&mut self, id: u32) {
        Library::seat(&mut self.0, id);
    }
}

/// Points, or entries of the table, for each server: the paper's choice for both.
const COPIES: usize = 100;

/// Maglev's table: the servers take turns, each with the first entry of its own order that is free.
pub struct Maglev {
    ids: Vec<u32>,
    table: Vec<u32>,
}

impl Maglev {
    pub fn new(ids: &[u32]) -> Maglev {
        let prime = |n: &usize| (2..).take_while(|d| d * d <= *n).all(|d| n % d != 0);
        let size = (COPIES * ids.len()..).find(prime).expect("a prime");
        let mut maglev = Maglev { ids: ids.to_vec(), table: vec![0; size] };
        maglev.fill();
        maglev
    }

    fn fill(&mut self) {
        let size = self.table.len() as u64;
        let steps = |id: u32| (output(1, u64::from(id)) % size, output(2, u64::from(id)) % (size - 1) + 1);
        let mut next: Vec<(u64, u64)> = self.ids.iter().map(|id| steps(*id)).collect();
        self.table.fill(0);
        let mut left = size;
        for turn in (0..self.ids.len()).cycle() {
            let (at, skip) = &mut next[turn];
            while self.table[*at as usize] != 0 {
                *at = (*at + *skip) % size;
            }
            self.table[*at as usize] = self.ids[turn];
            left -= 1;
            if left == 0 {
                return;
            }
        }
    }
}

impl Balancer for Maglev {
    fn find(&self, key: u64) -> u32 {
        self.table[(output(1, key) % self.table.len() as u64) as usize]
    }

    fn out(&mut self, id: u32) {
        self.ids.retain(|other| *other != id);
        self.fill();
    }

    fn seat(&mut self, id: u32) {
        let place = self.ids.partition_point(|other| *other < id);
        self.ids.insert(place, id);
        self.fill();
    }
}

/// A ring with 100 points for each server: a key's server has the first point from its hash on.
pub struct Ring(Vec<(u64, u32)>);

impl Ring {
    pub fn new(ids: &[u32]) -> Ring {
        let mut points: Vec<(u64, u32)> = ids.iter().flat_map(|id| Ring::points(*id)).collect();
        points.sort_unstable();
        Ring(points)
    }

    fn points(id: u32) -> impl Iterator<Item = (u64, u32)> {
        (1..=COPIES as u64).map(move |n| (output(n, output(1, u64::from(id))), id))
    }
}

impl Balancer for Ring {
    fn find(&self, key: u64) -> u32 {
        let hash = output(1, key);
        let place = self.0.partition_point(|(point, _)| *point < hash);
        self.0[if place == self.0.len() { 0 } else { place }].1
    }

    fn out(&mut self, id: u32) {
        self.0.retain(|(_, other)| *other != id);
    }

    fn seat(&mut self, id: u32) {
        self.0.extend(Ring::points(id));
        self.0.sort(); // it begins as one sorted run
    }
}

/// HRW: the server whose hash with the key is highest.
pub struct Hrw(Vec<u32>);

impl Hrw {
    pub fn new(ids: &[u32]) -> Hrw {
        Hrw(ids.to_vec())
    }
}

impl Balancer for Hrw {
    fn find(&self, key: u64) -> u32 {
        let mut best = (0, 0);
        for id in &self.0 {
            best = best.max((output(u64::from(*id), key), *id));
        }
        best.1
    }

    fn out(&mut self, id: u32) {
        self.0.retain(|other| *other != id);
    }

    fn seat(&mut self, id: u32) {
        self.0.push(id);
    }
}

/// Jump hash knows only the last of its list to leave: the last server takes the place of one that leaves elsewhere.
pub struct Jump(Vec<u32>);

impl Jump {
    pub fn new(ids: &[u32]) -> Jump {
        Jump(ids.to_vec())
    }
}

impl Balancer for Jump {
    fn find(&self, key: u64) -> u32 {
        let mut state = key;
        let (mut place, mut next) = (0, 0);
        while next < self.0.len() {
            place = next;
            state = state.wrapping_mul(2862933555777941757).wrapping_add(1);
            next = ((place + 1) as f64 * ((1u64 << 31) as f64 / ((state >> 33) + 1) as f64)) as usize;
        }
        self.0[place]
    }

    fn out(&mut self, id: u32) {
        let place = self.0.iter().position(|other| *other == id).expect("in the list");
        self.0.swap_remove(place);
    }

    fn seat(&mut self, id: u32) {
        self.0.push(id);
    }
}
