//! Calls on lent runs, with guards on both sides of each run: to the library alone, or one to the library and the same
//! to the model.
use crate::library::{found, Answer, Library, Model};
use std::fmt::Debug;
use steamacorn::model::find::Finder;

const GUARD: usize = 16;
const GUARD_BYTE: u8 = 0xC3;

/// What a run is made of: words or bytes.
pub trait Item: Copy + PartialEq + Debug + From<u8> {}

impl Item for u8 {}
impl Item for u32 {}

/// A run in the midst of guards.
pub struct Lent<T>(Vec<T>);

impl<T: Item> Lent<T> {
    pub fn new(run: &[T]) -> Lent<T> {
        let guard = vec![T::from(GUARD_BYTE); GUARD];
        Lent([&guard, run, &guard].concat())
    }

    pub fn run(&mut self) -> &mut [T] {
        let end = self.0.len() - GUARD;
        &mut self.0[GUARD..end]
    }

    /// The guards are whole, and the run is this one.
    fn holds(&self, run: &[T]) -> Result<(), String> {
        let expected = Lent::new(run).0;
        if self.0 == expected {
            return Ok(());
        }
        let i = (0..expected.len()).find(|i| self.0[*i] != expected[*i]).expect("a difference");
        let place = i as isize - GUARD as isize;
        Err(format!("place {} of {}: {:?}, not {:?}", place, run.len(), self.0[i], expected[i]))
    }
}

/// A comparison ends at the first difference, and tells it.
pub type Same<T> = Result<T, String>;

/// What was told is what it had to be.
pub fn same<T: PartialEq + Debug>(what: &str, told: T, expected: T) -> Same<()> {
    if told == expected {
        return Ok(());
    }
    Err(format!("{}: {:?}, not {:?}", what, told, expected))
}

/// A run is what it had to be.
pub fn same_run<T: Item>(what: &str, told: &[T], expected: &[T]) -> Same<()> {
    same(what, told.len(), expected.len())?;
    Lent::new(told).holds(expected).map_err(|difference| format!("{}: {}", what, difference))
}

/// The calls that lend runs; who implements it says what becomes of one.
pub trait Calls {
    /// One call, its memory being two runs: a table and another, or a packet and its key.
    fn call<S: Item, T: Item>(
        &mut self,
        name: &str,
        first: &mut [S],
        second: &mut [T],
        call: impl Fn(&dyn Library, &mut [S], &mut [T]) -> Answer,
    ) -> Same<Answer>;

    fn open(&mut self, table: &mut [u32], a: u32, ids: &[u32]) -> Same<Answer> {
        self.call("open", table, &mut ids.to_vec(), |library, table, ids| library.open(table, a, ids))
    }

    fn seat(&mut self, table: &mut [u32], id: u32) -> Same<Answer> {
        self.call::<u32, u8>("seat", table, &mut [], |library, table, _| library.seat(table, id))
    }

    fn out(&mut self, table: &mut [u32], id: u32) -> Same<Answer> {
        self.call::<u32, u8>("out", table, &mut [], |library, table, _| library.out(table, id))
    }

    fn audit(&mut self, table: &[u32]) -> Same<Answer> {
        self.call::<u32, u8>("audit", &mut table.to_vec(), &mut [], |library, table, _| library.audit(table))
    }

    fn save(&mut self, table: &[u32], record: &mut [u8]) -> Same<Answer> {
        self.call("save", &mut table.to_vec(), record, |library, table, record| library.save(table, record))
    }

    fn load(&mut self, table: &mut [u32], record: &[u8]) -> Same<Answer> {
        self.call("load", table, &mut record.to_vec(), |library, table, record| library.load(table, record))
    }

    fn key(&mut self, packet: &[u8], key: &mut [u8]) -> Same<Answer> {
        self.call("key", &mut packet.to_vec(), key, |library, packet, key| library.key(packet, key))
    }
}

/// The library alone: answers, words and bytes are its own.
pub struct Alone<'l> {
    library: &'l dyn Library,
    pub calls: u64,
}

impl<'l> Alone<'l> {
    pub fn new(library: &'l dyn Library) -> Alone<'l> {
        Alone { library, calls: 0 }
    }

    /// By both calls, which have to agree; the answers are those with walks.
    pub fn find(&mut self, table: &[u32], keys: &[u64]) -> Same<Vec<Answer>> {
        self.calls += 2 * keys.len() as u64;
        let mut lent = Lent::new(table);
        let answers: Vec<_> = keys.iter().map(|key| self.library.find_walks(lent.run(), *key)).collect();
        for (key, answer) in keys.iter().zip(&answers) {
            same(&format!("find {}", key), self.library.find(lent.run(), *key), answer.three())?;
        }
        lent.holds(table).map_err(|difference| format!("find: {}", difference))?;
        Ok(answers)
    }
}

impl Calls for Alone<'_> {
    fn call<S: Item, T: Item>(
        &mut self,
        name: &str,
        first: &mut [S],
        second: &mut [T],
        call: impl Fn(&dyn Library, &mut [S], &mut [T]) -> Answer,
    ) -> Same<Answer> {
        self.calls += 1;
        let (mut lent, mut lent_second) = (Lent::new(first), Lent::new(second));
        let answer = call(self.library, lent.run(), lent_second.run());
        first.copy_from_slice(lent.run());
        second.copy_from_slice(lent_second.run());
        let whole = lent.holds(first).and_then(|_| lent_second.holds(second));
        whole.map(|_| answer).map_err(|difference| format!("{}: {}", name, difference))
    }
}

/// The library and the model.
pub struct Comparison<'l> {
    library: &'l dyn Library,
    pub calls: u64,
}

impl<'l> Comparison<'l> {
    pub fn new(library: &'l dyn Library) -> Comparison<'l> {
        Comparison { library, calls: 0 }
    }

    /// Many keys on one table, which the model reads once, by both calls. `each` is given every answer, with its walks.
    pub fn find(&mut self, table: &[u32], keys: impl Iterator<Item = u64>, mut each: impl FnMut(Answer)) -> Same<()> {
        let finder = Finder::new(table);
        let mut lent = Lent::new(table);
        for key in keys {
            self.calls += 2;
            let expected = match &finder {
                Ok(finder) => found(finder.find(key)),
                Err(number) => Answer::refused(*number),
            };
            let three = self.library.find(lent.run(), key);
            let told = self.library.find_walks(lent.run(), key);
            for (name, told, expected) in [("find", three, expected.three()), ("find_walks", told, expected)] {
                if told != expected {
                    let table = shown(table);
                    return Err(format!("{} {}: {:?}, not {:?} (table {:?})", name, key, told, expected, table));
                }
            }
            if told.number == 0 {
                bounded(table[0].into(), told)?;
            }
            each(told);
        }
        lent.holds(table).map_err(|difference| format!("find: {}", difference))
    }

    /// Each call that a table is lent to, with ids that are seated, absent and 0, a few keys, and two outputs.
    pub fn every_call(&mut self, table: &[u32], ids: &[u32], keys: &[u64]) -> Same<()> {
        self.audit(table)?;
        for id in ids {
            self.seat(&mut table.to_vec(), *id)?;
            self.out(&mut table.to_vec(), *id)?;
        }
        self.find(table, keys.iter().copied(), |_| ())?;
        self.save(table, &mut vec![0xEE; 8 + 2 * table.len()])?;
        self.save(table, &mut [0xEE; 5])?;
        Ok(())
    }
}

/// Both runs are left as the model leaves them.
impl Calls for Comparison<'_> {
    fn call<S: Item, T: Item>(
        &mut self,
        name: &str,
        first: &mut [S],
        second: &mut [T],
        call: impl Fn(&dyn Library, &mut [S], &mut [T]) -> Answer,
    ) -> Same<Answer> {
        self.calls += 1;
        let before = first.to_vec();
        let (mut lent, mut lent_second) = (Lent::new(first), Lent::new(second));
        let told = call(self.library, lent.run(), lent_second.run());
        let expected = call(&Model, first, second);
        let same = if told == expected {
            lent.holds(first).and_then(|_| lent_second.holds(second))
        } else {
            Err(format!("{:?}, not {:?}", told, expected))
        };
        same.map(|_| expected).map_err(|difference| {
            format!("{}: {} (first {:?}, second {:?})", name, difference, shown(&before), shown(second))
        })
    }
}

/// The draws and walks of a lookup that ends, on any table. A falls from draw to draw. A redraw passes no seat twice, or
/// it would go round, and none that is drawn later: the last one a - 1 seats at most, the one before it a - 2, and so on.
fn bounded(a: u64, answer: Answer) -> Same<()> {
    let [_, _, draws, walks] = answer.values;
    same("draws and walks in their bounds", 1 <= draws && draws <= a && walks <= a * (a - 1) / 2, true)
}

/// Enough of a run to see what went wrong.
fn shown<T>(run: &[T]) -> &[T] {
    &run[..run.len().min(64)]
}

#[cfg(test)]
mod tests {
    use super::*;

    #[test]
    fn guards_are_watched() {
        let mut lent = Lent::new(&[1u32, 2]);
        assert!(lent.holds(&[1, 2]).is_ok());
        for place in [0, GUARD - 1, GUARD, GUARD + 1, GUARD + 2, 2 * GUARD + 1] {
            let kept = std::mem::replace(&mut lent.0[place], 77);
            assert!(lent.holds(&[1, 2]).is_err());
            lent.0[place] = kept;
        }
        assert_eq!(lent.run(), [1, 2]);
    }
}
