//! Document 01, "Numbers a call can answer", and document 02's number for packets, for callers in Rust.
use std::error::Error;
use std::fmt;

/// Why a call was refused. A refusal leaves all lent memory as it was.
#[derive(Clone, Copy, Debug, PartialEq, Eq, Hash)]
#[non_exhaustive]
pub enum Refusal {
    /// The number of seats is outside 1 to 2,048, or the table is not 2 + 6a words.
    Size = 1,
    /// Opening with no id, or with more ids than seats.
    Count = 2,
    /// An id is 0.
    Id = 3,
    /// An id occurs twice in the list, or is seated already.
    Twice = 4,
    /// The table is not sound.
    Damaged = 5,
    /// Seating where all seats are in use.
    Full = 6,
    /// The id to take out is not seated.
    Absent = 7,
    /// Taking out the last server.
    Last = 8,
    /// The output is shorter than the record, or a key's room is not eight bytes.
    Room = 9,
    /// The bytes are no record of any sound table.
    Form = 10,
    /// The header breaks the rules for packets, or ports that are wanted are beyond the length it tells.
    Packet = 12,
}

impl Refusal {
    /// Every refusal, in the order of the numbers.
    pub const ALL: [Refusal; 11] = [
        Refusal::Size,
        Refusal::Count,
        Refusal::Id,
        Refusal::Twice,
        Refusal::Damaged,
        Refusal::Full,
        Refusal::Absent,
        Refusal::Last,
        Refusal::Room,
        Refusal::Form,
        Refusal::Packet,
    ];

    /// Its number.
    ///
    /// ```
    /// assert_eq!(steamacorn::Refusal::Damaged.number(), 5);
    /// ```
    pub fn number(self) -> u32 {
        self as u32
    }

    /// The refusal that has this number, if any has.
    ///
    /// ```
    /// use steamacorn::Refusal;
    /// assert_eq!(Refusal::of_number(8), Some(Refusal::Last));
    /// assert_eq!(Refusal::of_number(0), None);
    /// ```
    pub fn of_number(number: u32) -> Option<Refusal> {
        Refusal::ALL.into_iter().find(|refusal| refusal.number() == number)
    }

    fn text(self) -> &'static str {
        match self {
            Refusal::Size => "SIZE: the seats are not 1 to 2048, or the table's length does not fit them",
            Refusal::Count => "COUNT: no id, or more ids than seats",
            Refusal::Id => "ID: an id is 0",
            Refusal::Twice => "TWICE: an id occurs twice, or is seated already",
            Refusal::Damaged => "DAMAGED: the table is not sound",
            Refusal::Full => "FULL: all seats are in use",
            Refusal::Absent => "ABSENT: the id is not seated",
            Refusal::Last => "LAST: the last server stays",
            Refusal::Room => "ROOM: the output is shorter than the record, or a key's room is not eight bytes",
            Refusal::Form => "FORM: the bytes are no record of any sound table",
            Refusal::Packet => "PACKET: the header breaks the rules, or the ports are beyond its packet",
        }
    }
}

impl fmt::Display for Refusal {
    fn fmt(&self, f: &mut fmt::Formatter<'_>) -> fmt::Result {
        f.write_str(self.text())
    }
}

impl Error for Refusal {}

#[cfg(test)]
mod tests {
    use super::Refusal;
    use crate::model::numbers::*;

    #[test]
    fn numbers_and_names() {
        let numbers = [SIZE, COUNT, ID, TWICE, DAMAGED, FULL, ABSENT, LAST, ROOM, FORM, PACKET];
        for (refusal, number) in Refusal::ALL.into_iter().zip(numbers) {
            assert_eq!(refusal.number(), number);
            assert_eq!(Refusal::of_number(number), Some(refusal));
            let name = format!("{:?}:", refusal).to_uppercase();
            assert!(refusal.to_string().starts_with(&name));
        }
        assert_eq!((Refusal::of_number(0), Refusal::of_number(LINE)), (None, None));
    }
}
