//! Those that are compared, called alike.
use crate::safe;
use steamacorn::ffi;

/// Each call answers its values; a refusal ends the run, as all that is measured is accepted.
pub trait Calls {
    fn find(table: &[u32], key: u64) -> (u32, u32, u32);
    fn find_walks(table: &[u32], key: u64) -> (u32, u32, u32, u32);
    fn out(table: &mut [u32], id: u32) -> u32;
    fn seat(table: &mut [u32], id: u32) -> u32;
    fn audit(table: &[u32]);
    fn save(table: &[u32], record: &mut [u8]) -> usize;
    fn load(table: &mut [u32], record: &[u8]) -> u32;
    fn key(packet: &[u8], key: &mut [u8; 8]);
}

/// libsteamacorn.a
pub struct Library;

/// The same rules in C, baseline.c, as gcc makes it
pub struct InGcc;

/// The same text as clang makes it
pub struct InClang;

/// The same rules in safe Rust
pub struct InRust;

/// What C has beside the calls.
pub trait Bare {
    /// A lookup that tests nothing: a damaged table can hold it for ever.
    fn bare_find(table: &[u32], key: u64) -> (u32, u32, u32);
    /// A removal and a seating that look at nothing: the stores alone, of a table that is believed to be sound.
    fn bare_out_and_seat(table: &mut [u32], id: u32);
}

fn fine(number: u32) {
    assert_eq!(number, 0, "all that is measured is accepted");
}

/// Calls over C's signatures: pointers and lengths are those of slices, which are valid and do not overlap.
macro_rules! over_pointers {
    ($who:ty, $find:path, $find_walks:path, $out:path, $seat:path, $audit:path, $save:path, $load:path, $key:path) => {
        impl Calls for $who {
            fn find(table: &[u32], key: u64) -> (u32, u32, u32) {
                let (mut seat, mut server, mut draws) = (0, 0, 0);
                fine(unsafe { $find(table.as_ptr(), table.len(), key, &mut seat, &mut server, &mut draws) });
                (seat, server, draws)
            }

            fn find_walks(table: &[u32], key: u64) -> (u32, u32, u32, u32) {
                let (mut seat, mut server, mut draws, mut walks) = (0, 0, 0, 0);
                let (t, words) = (table.as_ptr(), table.len());
                fine(unsafe { $find_walks(t, words, key, &mut seat, &mut server, &mut draws, &mut walks) });
                (seat, server, draws, walks)
            }

            fn out(table: &mut [u32], id: u32) -> u32 {
                let mut seat = 0;
                fine(unsafe { $out(table.as_mut_ptr(), table.len(), id, &mut seat) });
                seat
            }

            fn seat(table: &mut [u32], id: u32) -> u32 {
                let mut seat = 0;
                fine(unsafe { $seat(table.as_mut_ptr(), table.len(), id, &mut seat) });
                seat
            }

            fn audit(table: &[u32]) {
                fine(unsafe { $audit(table.as_ptr(), table.len()) });
            }

            fn save(table: &[u32], record: &mut [u8]) -> usize {
                let mut bytes = 0;
                fine(unsafe { $save(table.as_ptr(), table.len(), record.as_mut_ptr(), record.len(), &mut bytes) });
                bytes
            }

            fn load(table: &mut [u32], record: &[u8]) -> u32 {
                let mut n = 0;
                fine(unsafe { $load(table.as_mut_ptr(), table.len(), record.as_ptr(), record.len(), &mut n) });
                n
            }

            fn key(packet: &[u8], key: &mut [u8; 8]) {
                fine(unsafe { $key(packet.as_ptr(), packet.len(), key.as_mut_ptr(), key.len()) });
            }
        }
    };
}

over_pointers!(
    Library,
    ffi::steamacorn_find,
    ffi::steamacorn_find_walks,
    ffi::steamacorn_out,
    ffi::steamacorn_seat,
    ffi::steamacorn_audit,
    ffi::steamacorn_save,
    ffi::steamacorn_load,
    ffi::steamacorn_key
);

/// A compiler's baseline.c: its functions, by its names for them.
macro_rules! baseline {
    ($who:ty, $find:ident, $find_walks:ident, $bare_find:ident, $out:ident, $seat:ident, $bare_out:ident, $bare_seat:ident, $audit:ident, $save:ident, $load:ident, $key:ident) => {
        extern "C" {
            fn $find(t: *const u32, words: usize, key: u64, seat: *mut u32, server: *mut u32, draws: *mut u32) -> u32;
            fn $find_walks(
                t: *const u32,
                words: usize,
                key: u64,
                seat: *mut u32,
                server: *mut u32,
                draws: *mut u32,
                walks: *mut u32,
            ) -> u32;
            fn $bare_find(t: *const u32, n: usize, key: u64, seat: *mut u32, server: *mut u32, draws: *mut u32) -> u32;
            fn $out(table: *mut u32, words: usize, id: u32, seat: *mut u32) -> u32;
            fn $seat(table: *mut u32, words: usize, id: u32, seat: *mut u32) -> u32;
            fn $bare_out(table: *mut u32, words: usize, id: u32, seat: *mut u32) -> u32;
            fn $bare_seat(table: *mut u32, words: usize, id: u32, seat: *mut u32) -> u32;
            fn $audit(table: *const u32, words: usize) -> u32;
            fn $save(table: *const u32, words: usize, record: *mut u8, room: usize, bytes: *mut usize) -> u32;
            fn $load(table: *mut u32, words: usize, record: *const u8, bytes: usize, n: *mut u32) -> u32;
            fn $key(packet: *const u8, bytes: usize, key: *mut u8, key_bytes: usize) -> u32;
        }

        over_pointers!($who, $find, $find_walks, $out, $seat, $audit, $save, $load, $key);

        impl Bare for $who {
            fn bare_find(table: &[u32], key: u64) -> (u32, u32, u32) {
                let (mut seat, mut server, mut draws) = (0, 0, 0);
                fine(unsafe { $bare_find(table.as_ptr(), table.len(), key, &mut seat, &mut server, &mut draws) });
                (seat, server, draws)
            }

            fn bare_out_and_seat(table: &mut [u32], id: u32) {
                let (mut left, mut got) = (0, 0);
                fine(unsafe { $bare_out(table.as_mut_ptr(), table.len(), id, &mut left) });
                fine(unsafe { $bare_seat(table.as_mut_ptr(), table.len(), id, &mut got) });
                assert_eq!(left, got);
            }
        }
    };
}

baseline!(
    InGcc,
    gcc_find,
    gcc_find_walks,
    gcc_bare_find,
    gcc_out,
    gcc_seat,
    gcc_bare_out,
    gcc_bare_seat,
    gcc_audit,
    gcc_save,
    gcc_load,
    gcc_key
);

baseline!(
    InClang,
    clang_find,
    clang_find_walks,
    clang_bare_find,
    clang_out,
    clang_seat,
    clang_bare_out,
    clang_bare_seat,
    clang_audit,
    clang_save,
    clang_load,
    clang_key
);

impl Calls for InRust {
    fn find(table: &[u32], key: u64) -> (u32, u32, u32) {
        safe::find(table, key).expect("accepted")
    }

    fn find_walks(table: &[u32], key: u64) -> (u32, u32, u32, u32) {
        safe::find_walks(table, key).expect("accepted")
    }

    fn out(table: &mut [u32], id: u32) -> u32 {
        safe::out(table, id).expect("accepted")
    }

    fn seat(table: &mut [u32], id: u32) -> u32 {
        safe::seat(table, id).expect("accepted")
    }

    fn audit(table: &[u32]) {
        safe::audit(table).expect("accepted");
    }

    fn save(table: &[u32], record: &mut [u8]) -> usize {
        safe::save(table, record).expect("accepted")
    }

    fn load(table: &mut [u32], record: &[u8]) -> u32 {
        safe::load(table, record).expect("accepted")
    }

    fn key(packet: &[u8], key: &mut [u8; 8]) {
        safe::key(packet, key).expect("accepted")
    }
}
