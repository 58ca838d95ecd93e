//! Document 01, "The table" and "Changes": the six parts, and what each change does to them, store by store.
#![allow(non_snake_case)] // a part has the document's letter

/// The most seats of a table.
pub const MOST_SEATS: u32 = 2048;

/// A table's words, taken apart. A change here refuses nothing: that is for who calls it.
#[derive(Clone, Debug, PartialEq, Eq)]
pub struct Parts {
    pub a: u32,
    pub N: u32,
    pub A: Vec<u32>,
    pub K: Vec<u32>,
    pub W: Vec<u32>,
    pub L: Vec<u32>,
    pub R: Vec<u32>,
    pub S: Vec<u32>,
}

/// The words of a table of `a` seats.
pub fn run_length(a: u32) -> usize {
    2 + 6 * a as usize
}

impl Parts {
    /// Opening with a and a list of ids.
    pub fn opened(a: u32, ids: &[u32]) -> Parts {
        let w = ids.len() as u32;
        let each: Vec<u32> = (0..a).collect();
        let zeros = vec![0; a as usize];
        let mut parts =
            Parts { a, N: w, A: zeros.clone(), K: each.clone(), W: each.clone(), L: each, R: zeros.clone(), S: zeros };
        for (place, b) in (w..a).rev().enumerate() {
            parts.R[place] = b;
            parts.A[b as usize] = b;
        }
        for (i, id) in ids.iter().enumerate() {
            parts.S[i] = *id;
        }
        parts
    }

    /// Taking out the seat b.
    pub fn take_out(&mut self, b: u32) {
        let b_ = b as usize;
        self.R[(self.a - self.N) as usize] = b;
        self.N -= 1;
        self.A[b_] = self.N;
        let last = self.W[self.N as usize];
        let before = self.L[b_];
        self.K[b_] = last;
        self.W[before as usize] = last;
        self.L[last as usize] = before;
        self.S[b_] = 0;
    }

    /// Seating an id; the answer is its seat.
    pub fn seat(&mut self, id: u32) -> u32 {
        let end = (self.a - self.N - 1) as usize;
        let b = self.R[end];
        let b_ = b as usize;
        self.R[end] = 0;
        self.A[b_] = 0;
        let cut_off = self.W[self.N as usize];
        self.L[cut_off as usize] = self.N;
        self.W[self.L[b_] as usize] = b;
        self.K[b_] = b;
        self.N += 1;
        self.S[b_] = id;
        b
    }

    /// The first N positions of the working line.
    pub fn line(&self) -> &[u32] {
        &self.W[..self.N as usize]
    }

    /// One run: a, N, and the parts in their order.
    pub fn words(&self) -> Vec<u32> {
        let head = vec![self.a, self.N];
        [&head, &self.A, &self.K, &self.W, &self.L, &self.R, &self.S].into_iter().flatten().copied().collect()
    }

    /// A run of legal shape taken apart, whatever its words say; `None` is SIZE.
    pub fn of_words(words: &[u32]) -> Option<Parts> {
        let a = *words.first()?;
        let N = *words.get(1)?;
        if !(1..=MOST_SEATS).contains(&a) || words.len() != run_length(a) {
            return None;
        }
        let mut parts = words[2..].chunks(a as usize).map(<[u32]>::to_vec);
        let mut next = || parts.next();
        Some(Parts { a, N, A: next()?, K: next()?, W: next()?, L: next()?, R: next()?, S: next()? })
    }
}

#[cfg(test)]
mod tests {
    use super::*;

    /// Seven seats with ids 11 to 17, and these seats taken out.
    fn seven(out: &[u32]) -> Parts {
        let mut parts = Parts::opened(7, &[11, 12, 13, 14, 15, 16, 17]);
        out.iter().for_each(|b| parts.take_out(*b));
        parts
    }

    #[test]
    fn e1() {
        let e1 = seven(&[6, 5, 1]);
        assert_eq!(e1.A, [0, 4, 0, 0, 0, 5, 6]);
        assert_eq!(e1.line(), [0, 4, 2, 3]);
    }

    #[test]
    fn e2() {
        let e2 = seven(&[6, 5, 1, 0]);
        assert_eq!(e2.K, [3, 4, 2, 3, 4, 5, 6]);
        assert_eq!(e2.W, [3, 4, 2, 3, 4, 5, 6]);
        assert_eq!(e2.L, [0, 1, 2, 0, 1, 5, 6]);
        assert_eq!(e2.R, [6, 5, 1, 0, 0, 0, 0]);
        assert_eq!(e2.N, 3);
    }

    #[test]
    fn e3() {
        let e3 = seven(&[6, 5, 1, 0, 4]);
        assert_eq!(e3.K[4], 2);
        assert_eq!(e3.line(), [3, 2]);
    }

    #[test]
    fn e8() {
        let mut e8 = seven(&[6, 5, 1, 0, 4]);
        assert_eq!(e8.seat(99), 4);
        let mut e2 = seven(&[6, 5, 1, 0]);
        e2.S[4] = 99;
        assert_eq!(e8, e2);
    }

    #[test]
    fn e11() {
        let mut e11 = Parts::opened(3, &[1, 2, 3]);
        e11.take_out(2);
        assert_eq!((e11.A[2], e11.K[2], e11.L[2]), (2, 2, 2));
        assert_eq!(e11.line(), [0, 1]);
    }

    #[test]
    fn opening_with_unused_seats() {
        let parts = Parts::opened(5, &[21, 22]);
        assert_eq!(parts.A, [0, 0, 2, 3, 4]);
        assert_eq!(parts.K, [0, 1, 2, 3, 4]);
        assert_eq!(parts.R, [4, 3, 2, 0, 0]);
        assert_eq!(parts.S, [21, 22, 0, 0, 0]);
        assert_eq!(parts.line(), [0, 1]);
    }

    #[test]
    fn words_and_parts() {
        let parts = seven(&[6, 5, 1]);
        let words = parts.words();
        assert_eq!(words.len(), 44);
        assert_eq!(words[..2], [7, 4]);
        assert_eq!(words[2..9], [0, 4, 0, 0, 0, 5, 6]);
        assert_eq!(words[37..], [11, 0, 13, 14, 15, 0, 0]);
        assert_eq!(Parts::of_words(&words), Some(parts));
    }

    #[test]
    fn legal_shape() {
        for a in [1, 2, 2048] {
            let mut words = vec![0; run_length(a)];
            words[0] = a;
            assert!(Parts::of_words(&words).is_some());
            words.push(0);
            assert!(Parts::of_words(&words).is_none());
            words.truncate(run_length(a) - 1);
            assert!(Parts::of_words(&words).is_none());
        }
        for a in [0, 2049, u32::MAX] {
            let mut words = vec![0; run_length(a.min(2049))];
            words[0] = a;
            assert!(Parts::of_words(&words).is_none());
        }
        assert!(Parts::of_words(&[]).is_none());
        assert!(Parts::of_words(&[1]).is_none());
    }
}
