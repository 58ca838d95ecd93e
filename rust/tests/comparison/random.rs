//! Numbers that are the same in every run: xorshift64*.
use steamacorn::model::table::Table;

pub struct Random(u64);

impl Random {
    pub fn new(seed: u64) -> Random {
        Random(seed.wrapping_mul(0xd1342543de82ef95) | 1)
    }

    pub fn number(&mut self) -> u64 {
        self.0 ^= self.0 >> 12;
        self.0 ^= self.0 << 25;
        self.0 ^= self.0 >> 27;
        self.0.wrapping_mul(0x2545f4914f6cdd1d)
    }

    pub fn word(&mut self) -> u32 {
        (self.number() >> 32) as u32
    }

    pub fn below(&mut self, bound: usize) -> usize {
        ((u128::from(self.number()) * bound as u128) >> 64) as usize
    }

    pub fn one_of<T: Copy>(&mut self, choices: &[T]) -> T {
        choices[self.below(choices.len())]
    }

    /// Distinct ids, in no order, most of them small.
    pub fn ids(&mut self, count: usize) -> Vec<u32> {
        let mut ids: Vec<u32> = (1..=count as u32).collect();
        ids.iter_mut().for_each(|id| *id = *id * 3 - self.below(3) as u32);
        if let Some(id) = ids.last_mut() {
            *id = u32::MAX;
        }
        self.shuffle(&mut ids);
        ids
    }

    pub fn shuffle<T>(&mut self, list: &mut [T]) {
        for i in (1..list.len()).rev() {
            list.swap(i, self.below(i + 1));
        }
    }

    /// A sound table of a seats with `used` servers.
    pub fn table_with(&mut self, a: usize, used: usize) -> Table {
        let mut removals: Vec<u32> = (0..a as u32).collect();
        self.shuffle(&mut removals);
        removals.truncate(a - used);
        let mut servers = self.ids(a);
        removals.iter().for_each(|b| servers[*b as usize] = 0);
        Table { removals, servers }
    }

    pub fn table(&mut self, a: usize) -> Table {
        let used = 1 + self.below(a);
        self.table_with(a, used)
    }

    pub fn garbage(&mut self, length: usize) -> Vec<u32> {
        (0..length).map(|_| self.word()).collect()
    }

    pub fn bytes(&mut self, length: usize) -> Vec<u8> {
        (0..length).map(|_| self.word() as u8).collect()
    }
}
