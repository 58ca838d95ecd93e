//! The table of a load balancer (AnchorHash): it gives every 64-bit key a server.
//!
//! A table of a seats is one run of `u32`, [`words`]`(a)` long, that the caller lends to each call. An id is 1 to
//! 4,294,967,295. Each call ends and answers for every table it is given, sound or damaged, and for all bytes; a
//! [`Refusal`] leaves all lent memory as it was.
//!
//! A key is any number of the caller's. `key_of` makes one from a packet's addresses, protocol and ports, the same in
//! every build, and `key` writes it as eight bytes.
//!
//! The calls are those of the verified library, libsteamacorn.a. They need the feature `archive`, and the variable
//! `STEAMACORN_LIB` to name the archive's directory while this crate is built. [`model`] is the independent second
//! program that the library is compared with.
pub mod model;
mod refusal;

#[cfg(feature = "archive")]
mod calls;
#[cfg(feature = "archive")]
pub mod ffi;

#[cfg(feature = "archive")]
pub use calls::{audit, find, key, key_of, load, open, save, seat, take_out, Found};
pub use refusal::Refusal;

/// The length of a table of `a` seats.
///
/// ```
/// assert_eq!(steamacorn::words(7), 44);
/// ```
pub const fn words(a: usize) -> usize {
    2 + 6 * a
}

/// The length of the record of a table of `a` seats with `n` servers.
///
/// ```
/// assert_eq!(steamacorn::record_bytes(7, 4), 50);
/// ```
pub const fn record_bytes(a: usize, n: usize) -> usize {
    6 + 4 * (a - n) + 8 * n
}
