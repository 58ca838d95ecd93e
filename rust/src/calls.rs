//! The archive's functions in Rust's habits. A slice gives its own length, and a `&mut` to it overlaps nothing else.
use crate::ffi;
use crate::Refusal;

/// What [`find`] answers.
#[derive(Clone, Copy, Debug, PartialEq, Eq)]
pub struct Found {
    pub seat: u32,
    pub server: u32,
    /// The hashes taken: at most 1 + (a - N) on a sound table.
    pub draws: u32,
    /// How often the redraws followed K, all together: at most a - N times each on a sound table.
    pub walks: u32,
}

/// The values, where the number is 0.
fn answer<T>(number: u32, values: T) -> Result<T, Refusal> {
    match number {
        0 => Ok(values),
        _ => Err(Refusal::of_number(number).expect("a call answers a number of its list")),
    }
}

/// Opens a table of `a` seats with a list of ids, seat i for id i, whatever the run held. Answers the seats in use.
///
/// ```
/// use steamacorn::{find, open, seat, take_out, words, Refusal};
///
/// # fn main() -> Result<(), Refusal> {
/// let mut table = vec![0; words(7)];
/// assert_eq!(open(&mut table, 7, &[11, 12, 13, 14, 15])?, 5);
/// assert_eq!(take_out(&mut table, 12)?, 1);
/// assert_eq!(seat(&mut table, 22)?, 1);
/// assert_eq!(seat(&mut table, 22), Err(Refusal::Twice));
/// assert_ne!(find(&table, 0x1234)?.server, 12);
/// # Ok(())
/// # }
/// ```
pub fn open(table: &mut [u32], a: u32, ids: &[u32]) -> Result<u32, Refusal> {
    let mut n = 0;
    // SAFETY: pointers and lengths are those of slices, which are valid and do not overlap; so below
    let number = unsafe { ffi::steamacorn_open(table.as_mut_ptr(), table.len(), a, ids.as_ptr(), ids.len(), &mut n) };
    answer(number, n)
}

/// Seats an id in the seat that was taken out last, and answers that seat.
pub fn seat(table: &mut [u32], id: u32) -> Result<u32, Refusal> {
    let mut seat = 0;
    let number = unsafe { ffi::steamacorn_seat(table.as_mut_ptr(), table.len(), id, &mut seat) };
    answer(number, seat)
}

/// Takes an id out of its seat, and answers that seat.
pub fn take_out(table: &mut [u32], id: u32) -> Result<u32, Refusal> {
    let mut seat = 0;
    let number = unsafe { ffi::steamacorn_out(table.as_mut_ptr(), table.len(), id, &mut seat) };
    answer(number, seat)
}

/// Writes the key of a packet, which begins with its IPv4 or IPv6 header: eight bytes, the highest first. They are one
/// number on every machine, but only where they are read so.
///
/// ```
/// use steamacorn::{find, key, open, words, Refusal};
///
/// # fn main() -> Result<(), Refusal> {
/// // UDP from port 53 of 192.0.2.1 to port 4660 of 198.51.100.2, with no data
/// let packet = [
///     0x45, 0, 0, 28, 0, 0, 0, 0, 64, 17, 0, 0, 192, 0, 2, 1, 198, 51, 100, 2, // IPv4
///     0, 53, 0x12, 0x34, 0, 8, 0, 0, // UDP
/// ];
/// let mut bytes = [0; 8];
/// key(&packet, &mut bytes)?;
/// let mut table = vec![0; words(7)];
/// open(&mut table, 7, &[11, 12, 13])?;
/// assert!((11..=13).contains(&find(&table, u64::from_be_bytes(bytes))?.server));
/// assert_eq!(key(&packet[..27], &mut bytes), Err(Refusal::Packet));
/// assert_eq!(key(&packet, &mut bytes[..7]), Err(Refusal::Room));
/// # Ok(())
/// # }
/// ```
pub fn key(packet: &[u8], key: &mut [u8]) -> Result<(), Refusal> {
    let number = unsafe { ffi::steamacorn_key(packet.as_ptr(), packet.len(), key.as_mut_ptr(), key.len()) };
    answer(number, ())
}

/// The key of a packet as the number that [`find`] takes.
///
/// ```
/// use steamacorn::{find, key_of, open, words, Refusal};
///
/// # fn main() -> Result<(), Refusal> {
/// let mut table = vec![0; words(7)];
/// open(&mut table, 7, &[11, 12, 13])?;
/// // the second fragment of a UDP datagram, and the first, which carries its ports and has lived longer
/// let second = [0x45, 0, 0, 24, 0, 9, 0, 1, 64, 17, 0, 0, 192, 0, 2, 1, 198, 51, 100, 2, 5, 6, 7, 8];
/// let first = [0x45, 0, 0, 28, 0, 9, 32, 0, 63, 17, 0, 0, 192, 0, 2, 1, 198, 51, 100, 2, 0, 53, 4, 0, 0, 12, 0, 0];
/// assert_eq!(find(&table, key_of(&second)?)?, find(&table, key_of(&first)?)?);
/// assert_eq!(key_of(&[]), Err(Refusal::Packet));
/// # Ok(())
/// # }
/// ```
pub fn key_of(packet: &[u8]) -> Result<u64, Refusal> {
    let mut bytes = [0; 8];
    key(packet, &mut bytes)?;
    Ok(u64::from_be_bytes(bytes))
}

/// Finds the server for a key, and tells how far the lookup went. The first seat is by output 1 of SplitMix64 started at
/// the key, and at a seat b that is out of use the key goes on by output b + 2 (b + 1 before version 0.4.0).
///
/// ```
/// use steamacorn::{find, open, take_out, words, Found, Refusal};
///
/// # fn main() -> Result<(), Refusal> {
/// let mut table = vec![0; words(2)];
/// open(&mut table, 2, &[5, 6])?;
/// take_out(&mut table, 5)?;
/// // one key draws seat 1, the other seat 0: its redraw begins there, and follows K to seat 1
/// assert_eq!(find(&table, 1)?, Found { seat: 1, server: 6, draws: 1, walks: 0 });
/// assert_eq!(find(&table, 2)?, Found { seat: 1, server: 6, draws: 2, walks: 1 });
/// # Ok(())
/// # }
/// ```
pub fn find(table: &[u32], key: u64) -> Result<Found, Refusal> {
    let mut found = Found { seat: 0, server: 0, draws: 0, walks: 0 };
    let Found { seat, server, draws, walks } = &mut found;
    let number = unsafe { ffi::steamacorn_find_walks(table.as_ptr(), table.len(), key, seat, server, draws, walks) };
    answer(number, found)
}

/// Whether the table is sound: what some opening and some accepted changes leave.
pub fn audit(table: &[u32]) -> Result<(), Refusal> {
    let number = unsafe { ffi::steamacorn_audit(table.as_ptr(), table.len()) };
    answer(number, ())
}

/// Writes the table's record, [`record_bytes`](crate::record_bytes) long, and answers that length. What follows it in
/// `record` keeps what it held.
///
/// ```
/// use steamacorn::{load, open, record_bytes, save, words, Refusal};
///
/// # fn main() -> Result<(), Refusal> {
/// let mut table = vec![0; words(3)];
/// open(&mut table, 3, &[5, 6])?;
/// let mut record = vec![0; record_bytes(3, 2)];
/// assert_eq!(save(&table, &mut record)?, 26);
/// let mut loaded = vec![0; words(3)];
/// assert_eq!(load(&mut loaded, &record)?, 2);
/// assert_eq!(loaded, table);
/// # Ok(())
/// # }
/// ```
pub fn save(table: &[u32], record: &mut [u8]) -> Result<usize, Refusal> {
    let mut bytes = 0;
    let number =
        unsafe { ffi::steamacorn_save(table.as_ptr(), table.len(), record.as_mut_ptr(), record.len(), &mut bytes) };
    answer(number, bytes)
}

/// Makes the table that has this record, whatever the run held, and answers the seats in use.
pub fn load(table: &mut [u32], record: &[u8]) -> Result<u32, Refusal> {
    let mut n = 0;
    let number =
        unsafe { ffi::steamacorn_load(table.as_mut_ptr(), table.len(), record.as_ptr(), record.len(), &mut n) };
    answer(number, n)
}
