//! Document 01, "Finding a key", and document 02, "Show how far a lookup walked" and "Seat 0 clumps". The rules are
//! apart from the draws: `first` is the first seat drawn, and `pick(b, n)` the position drawn at seat b among n.
use super::numbers::{DAMAGED, SIZE};
use super::parts::Parts;
use super::splitmix::output;
use super::table::Table;

/// What find answers.
#[derive(Clone, Copy, Debug, PartialEq, Eq)]
pub struct Found {
    pub seat: u32,
    pub server: u32,
    pub draws: u32,
    /// How often the redraws followed K, all together.
    pub walks: u32,
}

/// What of it the set rule says: it knows no K.
#[derive(Clone, Copy, Debug, PartialEq, Eq)]
pub struct Drawn {
    pub seat: u32,
    pub server: u32,
    pub draws: u32,
}

/// hash(k) mod a
pub fn first_of(k: u64, a: u32) -> u32 {
    (output(1, k) % u64::from(a)) as u32
}

/// hash(b, k) mod n
pub fn pick_of(k: u64, b: u32, n: u32) -> u32 {
    (output(u64::from(b) + 2, k) % u64::from(n)) as u32
}

/// By sets: a table with its lines.
pub struct BySets {
    table: Table,
    lines: Vec<Option<Vec<u32>>>,
}

impl BySets {
    pub fn new(table: Table) -> BySets {
        let lines = table.lines();
        BySets { table, lines }
    }

    /// While seat b is out of use, the next seat is the one that stood at the drawn position of its line.
    pub fn find(&self, first: u32, pick: impl Fn(u32, u32) -> u32) -> Drawn {
        let mut b = first;
        let mut draws = 1;
        while let Some(line) = &self.lines[b as usize] {
            b = line[pick(b, line.len() as u32) as usize];
            draws += 1;
        }
        Drawn { seat: b, server: self.table.servers[b as usize], draws }
    }
}

/// By the arrays, for any table of legal shape.
pub fn by_arrays(parts: &Parts, first: u32, pick: impl Fn(u32, u32) -> u32) -> Result<Found, u32> {
    let mut b = first;
    let (mut draws, mut walks) = (1, 0);
    while parts.A[b as usize] != 0 {
        let (next, follows) = redraw(parts, b, pick(b, parts.A[b as usize]))?;
        b = next;
        draws += 1;
        walks += follows;
    }
    match parts.S[b as usize] {
        0 => Err(DAMAGED),
        server => Ok(Found { seat: b, server, draws, walks }),
    }
}

/// From the position drawn at seat b: while A[h] >= A[b], h becomes K[h]; it may do so a times. The answer is the next
/// seat, and how often K was followed.
pub fn redraw(parts: &Parts, b: u32, position: u32) -> Result<(u32, u32), u32> {
    let below = |h: u32| if h >= parts.a { Err(DAMAGED) } else { Ok(h as usize) };
    let mut h = below(position)?;
    let mut follows = 0;
    while parts.A[h] >= parts.A[b as usize] {
        if follows == parts.a {
            return Err(DAMAGED);
        }
        h = below(parts.K[h])?;
        follows += 1;
    }
    Ok((h as u32, follows))
}

/// A run of legal shape, made ready for many keys.
pub struct Finder {
    parts: Parts,
    /// Of a sound table.
    sets: Option<BySets>,
}

impl Finder {
    pub fn new(words: &[u32]) -> Result<Finder, u32> {
        let parts = Parts::of_words(words).ok_or(SIZE)?;
        Ok(Finder { parts, sets: Table::of_words(words).ok().map(BySets::new) })
    }

    /// Sound tables are looked up by sets, others by the arrays. The walks are the arrays' on both.
    pub fn find(&self, k: u64) -> Result<Found, u32> {
        let (first, pick) = (first_of(k, self.parts.a), |b, n| pick_of(k, b, n));
        let by_arrays = by_arrays(&self.parts, first, pick);
        match &self.sets {
            Some(sets) => {
                let Drawn { seat, server, draws } = sets.find(first, pick);
                let walks = by_arrays.expect("no sound table is DAMAGED").walks;
                Ok(Found { seat, server, draws, walks })
            }
            None => by_arrays,
        }
    }
}

#[cfg(test)]
mod tests {
    use super::*;

    /// Of the published outputs from 1234567, the first is that of the first draw, and the next three those of seats 0 to 2.
    #[test]
    fn each_draw_has_an_output_of_its_own() {
        let published: [u64; 4] = [6457827717110365317, 3203168211198807973, 9817491932198370423, 4593380528125082431];
        for n in [1, 7, 2048, u32::MAX] {
            let picks = [0, 1, 2].map(|b| pick_of(1234567, b, n));
            let reduced = published.map(|output| (output % u64::from(n)) as u32);
            assert_eq!((first_of(1234567, n), &picks[..]), (reduced[0], &reduced[1..]));
        }
    }

    /// A table of a seats after these were taken out. Seat b has the id 11 + b.
    fn without(a: u32, out: &[u32]) -> Table {
        let ids: Vec<u32> = (11..11 + a).collect();
        let mut table = Table::opened(a, &ids);
        out.iter().for_each(|b| assert_eq!(table.take_out(b + 11), Ok(*b)));
        table
    }

    /// The seat and the draws by both rules, and the walks, with given picks.
    fn both(table: Table, first: u32, pick: u32) -> ([(u32, u32); 2], u32) {
        let parts = Parts::of_words(&table.words()).expect("legal shape");
        let sets = BySets::new(table).find(first, |_, _| pick);
        let arrays = by_arrays(&parts, first, |_, _| pick).expect("sound");
        assert_eq!((sets.server, arrays.server), (sets.seat + 11, arrays.seat + 11));
        ([(sets.seat, sets.draws), (arrays.seat, arrays.draws)], arrays.walks)
    }

    /// A is 3 4 0 0 2 5 6, K[1] = 4 and K[4] = 2. From seat 5: position 1 has A = 4, below 5. From seat 1: position 1 has
    /// 4, not below 4; seat 4 has 2. From seat 4: position 1 has 4, seat 4 has 2, neither below 2; seat 2 has 0.
    #[test]
    fn e7() {
        let e3 = || without(7, &[6, 5, 1, 0, 4]);
        let parts = Parts::of_words(&e3().words()).expect("legal shape");
        assert_eq!([5, 1, 4].map(|b| redraw(&parts, b, 1)), [Ok((1, 0)), Ok((4, 1)), Ok((2, 2))]);
        assert_eq!(both(e3(), 5, 1), ([(2, 4), (2, 4)], 3));
        assert_eq!(both(e3(), 1, 1), ([(2, 3), (2, 3)], 3));
        assert_eq!(both(e3(), 4, 1), ([(2, 2), (2, 2)], 2));
    }

    #[test]
    fn e9() {
        assert_eq!(both(without(1, &[]), 0, 0), ([(0, 1), (0, 1)], 0));
    }

    /// A[0] = 1 and K[0] = 1: position 0 has A = 1, not below 1; seat 1 has 0.
    #[test]
    fn e10() {
        assert_eq!(both(without(2, &[0]), 0, 0), ([(1, 2), (1, 2)], 1));
    }

    /// Three seats, of which 2 and then 1 were taken out.
    fn three() -> Parts {
        let mut parts = Parts::opened(3, &[11, 12, 13]);
        parts.take_out(2);
        parts.take_out(1);
        parts
    }

    #[test]
    fn damaged_where_a_pick_or_a_successor_is_no_seat() {
        let mut parts = three();
        parts.A[2] = 9;
        assert_eq!(by_arrays(&parts, 2, |_, _| 3), Err(DAMAGED));
        parts.K[1] = 3;
        assert_eq!(by_arrays(&parts, 1, |_, _| 1), Err(DAMAGED));
    }

    #[test]
    fn damaged_where_a_redraw_would_follow_more_than_a_times() {
        let mut parts = three();
        parts.K = vec![0, 2, 1];
        assert_eq!(by_arrays(&parts, 1, |_, _| 1), Err(DAMAGED));
    }

    /// No walk that ends is longer: it meets no seat twice, or it would go round. From position 1, K leads over 2 and 3 to
    /// seat 0, whose A is the only one below 5.
    #[test]
    fn a_redraw_that_follows_a_less_1_times_ends() {
        let mut parts = Parts::opened(4, &[11, 12, 13, 14]);
        parts.A = vec![0, 5, 5, 5];
        parts.K = vec![0, 2, 3, 0];
        assert_eq!(by_arrays(&parts, 1, |_, _| 1), Ok(Found { seat: 0, server: 11, draws: 2, walks: 3 }));
    }

    /// A falls from seat to seat, and K leads to the next. From position 0, the redraw at seat 0 follows K once, the one
    /// at seat 1 twice, and the one at seat 2 three times.
    #[test]
    fn walks_are_the_follows_of_all_redraws() {
        let mut parts = Parts::opened(4, &[11, 12, 13, 14]);
        parts.A = vec![3, 2, 1, 0];
        parts.K = vec![1, 2, 3, 3];
        assert_eq!([0, 1, 2].map(|b| redraw(&parts, b, 0)), [Ok((1, 1)), Ok((2, 2)), Ok((3, 3))]);
        assert_eq!(by_arrays(&parts, 0, |_, _| 0), Ok(Found { seat: 3, server: 14, draws: 4, walks: 6 }));
    }

    #[test]
    fn damaged_where_the_final_seat_has_no_server() {
        let mut parts = three();
        parts.S[0] = 0;
        assert_eq!(by_arrays(&parts, 0, |_, _| 0), Err(DAMAGED));
    }
}
