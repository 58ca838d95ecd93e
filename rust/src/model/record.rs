//! Document 01, "The saved record".
use super::parts::MOST_SEATS;
use super::table::Table;

const HEAD: [u8; 2] = [0x41, 0x53];
const OUT: [u8; 2] = [0x4F, 0x55];
const IN: [u8; 2] = [0x49, 0x4E];

/// The worked record: seven seats with ids 11 to 17, after 17, 16 and 12 are taken out.
pub const WORKED: [u8; 50] = [
    0x41, 0x53, 0x00, 0x07, 0x00, 0x04, 0x4F, 0x55, 0x00, 0x06, 0x4F, 0x55, 0x00, 0x05, 0x4F, 0x55, 0x00, 0x01, 0x49,
    0x4E, 0x00, 0x00, 0x00, 0x00, 0x00, 0x0B, 0x49, 0x4E, 0x00, 0x02, 0x00, 0x00, 0x00, 0x0D, 0x49, 0x4E, 0x00, 0x03,
    0x00, 0x00, 0x00, 0x0E, 0x49, 0x4E, 0x00, 0x04, 0x00, 0x00, 0x00, 0x0F,
];

/// The one record of a table.
pub fn of_table(table: &Table) -> Vec<u8> {
    let two = |number: u32| (number as u16).to_be_bytes();
    let mut bytes = [HEAD, two(table.seats()), two(table.used())].concat();
    for b in &table.removals {
        bytes.extend([OUT, two(*b)].concat());
    }
    for (b, server) in table.servers.iter().enumerate().filter(|(_, server)| **server != 0) {
        bytes.extend([IN, two(b as u32)].concat());
        bytes.extend(server.to_be_bytes());
    }
    bytes
}

/// What is left to read.
struct Rest<'r>(&'r [u8]);

impl Rest<'_> {
    fn bytes(&mut self, count: usize) -> Option<&[u8]> {
        if self.0.len() < count {
            return None;
        }
        let (bytes, rest) = self.0.split_at(count);
        self.0 = rest;
        Some(bytes)
    }

    fn number(&mut self, count: usize) -> Option<u32> {
        Some(self.bytes(count)?.iter().fold(0, |number, byte| number * 256 + u32::from(*byte)))
    }

    fn mark(&mut self, mark: [u8; 2]) -> Option<()> {
        (self.bytes(2)? == mark).then_some(())
    }
}

/// The table whose record this is; `None` is FORM.
pub fn table_of(record: &[u8]) -> Option<Table> {
    let mut rest = Rest(record);
    rest.mark(HEAD)?;
    let a = rest.number(2)?;
    let used = rest.number(2)?;
    if a > MOST_SEATS || used > a {
        return None;
    }
    let mut removals = Vec::new();
    for _ in used..a {
        rest.mark(OUT)?;
        removals.push(rest.number(2)?);
    }
    let mut servers = vec![0; a as usize];
    let mut lowest = 0;
    for _ in 0..used {
        rest.mark(IN)?;
        let b = rest.number(2)?;
        if b < lowest {
            return None;
        }
        lowest = b + 1;
        *servers.get_mut(b as usize)? = rest.number(4)?;
    }
    if rest.0.is_empty() {
        Table::of_removals(removals, servers)
    } else {
        None
    }
}

#[cfg(test)]
mod tests {
    use super::*;

    #[test]
    fn the_worked_record() {
        let mut table = Table::opened(7, &[11, 12, 13, 14, 15, 16, 17]);
        for id in [17, 16, 12] {
            table.take_out(id).expect("seated");
        }
        assert_eq!(of_table(&table), WORKED);
        assert_eq!(table_of(&WORKED), Some(table));
    }

    /// Whatever bytes are a record are the record of the table that they give.
    #[test]
    fn one_changed_byte() {
        for place in 0..WORKED.len() {
            let others = (0..=255).filter(|byte| *byte != WORKED[place]);
            for byte in others {
                let mut record = WORKED;
                record[place] = byte;
                if let Some(table) = table_of(&record) {
                    assert_eq!(of_table(&table), record);
                }
            }
        }
    }

    #[test]
    fn shorter_and_longer() {
        for length in 0..WORKED.len() {
            assert_eq!(table_of(&WORKED[..length]), None);
        }
        for byte in 0..=255 {
            assert_eq!(table_of(&[&WORKED[..], &[byte]].concat()), None);
        }
    }

    #[test]
    fn no_seats_no_use_and_too_many() {
        let empty = [0x41, 0x53, 0, 0, 0, 0];
        assert_eq!(table_of(&empty), None);
        let none_used = [0x41, 0x53, 0, 1, 0, 0, 0x4F, 0x55, 0, 0];
        assert_eq!(table_of(&none_used), None);
        let ids: Vec<u32> = (1..=2049).collect();
        let most = Table::opened(2048, &ids[..2048]);
        assert_eq!(table_of(&of_table(&most)), Some(most));
        assert_eq!(table_of(&of_table(&Table::opened(2049, &ids))), None);
    }
}
