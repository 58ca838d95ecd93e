//! The library compared with the model, call by call and word by word; and held by itself to what the demands and the
//! worked examples say. All is written against the trait [`library::Library`]: the archive stands behind it with the
//! feature `archive`, the model itself and models with a known fault always do, so that each run shows that a fault
//! would be seen.
mod compare;
mod library;
mod made;
mod played;
mod random;

mod changes;
mod damage;
mod edges;
mod examples;
mod histories;
mod keys;
mod lookups;
mod packets;
mod records;
mod seat_zero;
mod walks;

#[cfg(feature = "archive")]
mod archive;
mod faults;
mod key_faults;
mod model;
mod self_check;
