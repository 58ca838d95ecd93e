//! The repository's one independent implementation of document 01, and of document 02 so far as it is done. It is
//! written from the documents' text alone, for clarity and not for speed.
//!
//! A sound table is kept as its history leaves it: the removals that no seating has answered, in order, and the
//! servers. Its words are made from that whenever they are wanted, by opening a table of all its seats and taking those
//! out again. That a run of words is sound is seen in the same way: read its removals and its servers, and make the
//! words anew.
pub mod calls;
pub mod find;
pub mod key;
pub mod numbers;
pub mod parts;
pub mod record;
pub mod seats;
pub mod splitmix;
pub mod table;
