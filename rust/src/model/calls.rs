//! Document 01, "Numbers a call can answer", and document 02, "Keys from packets": the calls on lent runs, each with its
//! refusals in their order. A refusal answers its number and leaves the run as it was.
use super::find::{Finder, Found};
use super::key;
use super::numbers::{COUNT, FORM, ID, PACKET, ROOM, SIZE, TWICE};
use super::parts::{run_length, MOST_SEATS};
use super::record;
use super::table::{distinct, Table};

/// Answers N.
pub fn open(run: &mut [u32], a: u32, ids: &[u32]) -> Result<u32, u32> {
    if !(1..=MOST_SEATS).contains(&a) || run.len() != run_length(a) {
        return Err(SIZE);
    }
    if ids.is_empty() || ids.len() > a as usize {
        return Err(COUNT);
    }
    if ids.contains(&0) {
        return Err(ID);
    }
    if !distinct(ids) {
        return Err(TWICE);
    }
    let table = Table::opened(a, ids);
    run.copy_from_slice(&table.words());
    Ok(table.used())
}

/// Answers the seat.
pub fn seat(run: &mut [u32], id: u32) -> Result<u32, u32> {
    let mut table = Table::of_words(run)?;
    let b = table.seat(id)?;
    run.copy_from_slice(&table.words());
    Ok(b)
}

/// Answers the seat.
pub fn out(run: &mut [u32], id: u32) -> Result<u32, u32> {
    let mut table = Table::of_words(run)?;
    let b = table.take_out(id)?;
    run.copy_from_slice(&table.words());
    Ok(b)
}

/// Answers seat, server, draws and walks.
pub fn find(run: &[u32], key: u64) -> Result<Found, u32> {
    Finder::new(run)?.find(key)
}

pub fn audit(run: &[u32]) -> Result<(), u32> {
    Table::of_words(run).map(|_| ())
}

/// Answers the bytes written; the rest of the output keeps what it held.
pub fn save(run: &[u32], output: &mut [u8]) -> Result<usize, u32> {
    let record = record::of_table(&Table::of_words(run)?);
    output.get_mut(..record.len()).ok_or(ROOM)?.copy_from_slice(&record);
    Ok(record.len())
}

/// Answers N.
pub fn load(run: &mut [u32], bytes: &[u8]) -> Result<u32, u32> {
    let table = record::table_of(bytes).ok_or(FORM)?;
    if run.len() != run_length(table.seats()) {
        return Err(SIZE);
    }
    run.copy_from_slice(&table.words());
    Ok(table.used())
}

/// Writes the key's eight bytes, the highest first.
pub fn key(packet: &[u8], output: &mut [u8]) -> Result<(), u32> {
    if output.len() != 8 {
        return Err(ROOM);
    }
    let number = key::of_packet(packet).ok_or(PACKET)?;
    output.copy_from_slice(&number.to_be_bytes());
    Ok(())
}

#[cfg(test)]
mod tests {
    use super::super::numbers::{ABSENT, DAMAGED, FULL, LAST};
    use super::*;

    fn opened(a: u32, ids: &[u32]) -> Vec<u32> {
        let mut run = vec![77; run_length(a)];
        assert_eq!(open(&mut run, a, ids), Ok(ids.len() as u32));
        run
    }

    /// The call's answer, which has to be a refusal, on a run that has to stay as it is.
    fn refused(run: &[u32], call: impl Fn(&mut [u32]) -> Result<u32, u32>) -> u32 {
        let mut lent = run.to_vec();
        let number = call(&mut lent).expect_err("a refusal");
        assert_eq!(lent, run);
        number
    }

    #[test]
    fn open_refuses_in_order() {
        let run = vec![77; run_length(2)];
        assert_eq!(refused(&run, |r| open(r, 0, &[])), SIZE);
        assert_eq!(refused(&run, |r| open(r, 1, &[])), SIZE);
        assert_eq!(refused(&run, |r| open(r, 2049, &[0, 0, 0])), SIZE);
        assert_eq!(refused(&run, |r| open(r, 2, &[])), COUNT);
        assert_eq!(refused(&run, |r| open(r, 2, &[0, 5, 5])), COUNT);
        assert_eq!(refused(&run, |r| open(r, 2, &[0, 0])), ID);
        assert_eq!(refused(&run, |r| open(r, 2, &[5, 5])), TWICE);
    }

    #[test]
    fn open_at_the_edges() {
        for a in [1, 2048] {
            for length in [run_length(a) - 1, run_length(a) + 1] {
                assert_eq!(refused(&vec![77; length], |r| open(r, a, &[1])), SIZE);
            }
            opened(a, &[u32::MAX]);
        }
        for a in [0, 2049] {
            assert_eq!(refused(&vec![77; run_length(a)], |r| open(r, a, &[1])), SIZE);
        }
    }

    #[test]
    fn seat_refuses_in_order() {
        assert_eq!(refused(&[], |r| seat(r, 0)), SIZE);
        assert_eq!(refused(&[1], |r| seat(r, 0)), SIZE);
        let full = opened(2, &[5, 6]);
        let mut damaged = full.clone();
        damaged[3] = 1;
        assert_eq!(refused(&damaged, |r| seat(r, 0)), DAMAGED);
        assert_eq!(refused(&full, |r| seat(r, 0)), ID);
        assert_eq!(refused(&full, |r| seat(r, 6)), TWICE);
        assert_eq!(refused(&full, |r| seat(r, 7)), FULL);
        assert_eq!(seat(&mut opened(2, &[5]), 7), Ok(1));
    }

    #[test]
    fn out_refuses_in_order() {
        assert_eq!(refused(&[1], |r| out(r, 0)), SIZE);
        let one = opened(2, &[5]);
        let mut damaged = one.clone();
        damaged[1] = 0;
        assert_eq!(refused(&damaged, |r| out(r, 0)), DAMAGED);
        assert_eq!(refused(&one, |r| out(r, 0)), ID);
        assert_eq!(refused(&one, |r| out(r, 6)), ABSENT);
        assert_eq!(refused(&one, |r| out(r, 5)), LAST);
        assert_eq!(out(&mut opened(2, &[5, 6]), 5), Ok(0));
    }

    #[test]
    fn save_refuses_in_order_and_keeps_the_rest() {
        let run = opened(3, &[5, 6]);
        let mut output = [0xEE; 28];
        assert_eq!(save(&[1], &mut output), Err(SIZE));
        let mut damaged = run.clone();
        damaged[1] = 3;
        assert_eq!(save(&damaged, &mut []), Err(DAMAGED));
        assert_eq!(save(&run, &mut output[..25]), Err(ROOM));
        assert_eq!(output, [0xEE; 28]);
        assert_eq!(save(&run, &mut output), Ok(26));
        assert_eq!(output[26..], [0xEE; 2]);
        assert_eq!(save(&run, &mut output[..26]), Ok(26));
    }

    #[test]
    fn load_refuses_in_order() {
        let run = opened(3, &[5, 6]);
        let mut record = [0; 26];
        save(&run, &mut record).expect("room");
        assert_eq!(refused(&[], |r| load(r, &record[..25])), FORM);
        assert_eq!(refused(&[], |r| load(r, &record)), SIZE);
        assert_eq!(refused(&opened(2, &[1]), |r| load(r, &record)), SIZE);
        let mut loaded = vec![77; run_length(3)];
        assert_eq!(load(&mut loaded, &record), Ok(2));
        assert_eq!(loaded, run);
    }

    #[test]
    fn key_refuses_in_order() {
        let packet = [0x45, 0, 0, 20, 0, 0, 0, 0, 64, 1, 0, 0, 192, 0, 2, 1, 198, 51, 100, 2];
        let mut output = [0xEE; 16];
        for room in [0, 7, 9, 16] {
            assert_eq!(key(&packet, &mut output[..room]), Err(ROOM));
            assert_eq!(key(&[], &mut output[..room]), Err(ROOM));
        }
        assert_eq!(key(&packet[..19], &mut output[..8]), Err(PACKET));
        assert_eq!(output, [0xEE; 16]);
        assert_eq!(key(&packet, &mut output[..8]), Ok(()));
        let number = key::of_packet(&packet).expect("a packet");
        assert_eq!((u64::from(output[0]), u64::from(output[7])), (number >> 56, number % 256));
        assert_eq!(output[8..], [0xEE; 8]);
    }

    #[test]
    fn find_and_audit_refuse() {
        assert_eq!(find(&[1], 0), Err(SIZE));
        assert_eq!(audit(&[1]), Err(SIZE));
        let mut run = opened(1, &[5]);
        assert_eq!(find(&run, 9), Ok(Found { seat: 0, server: 5, draws: 1, walks: 0 }));
        assert_eq!(audit(&run), Ok(()));
        run[1] = 2;
        assert_eq!(audit(&run), Err(DAMAGED));
        // find does not read N
        assert_eq!(find(&run, 9), Ok(Found { seat: 0, server: 5, draws: 1, walks: 0 }));
        run[7] = 0;
        assert_eq!(find(&run, 9), Err(DAMAGED));
    }
}
