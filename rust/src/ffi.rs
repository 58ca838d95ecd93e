//! The functions of libsteamacorn.a, as include/steamacorn.h declares them for C.
//!
//! Each answers a number of document 01's table, or the 12 of document 02: 0 fine, else the refusal. Values go out
//! through the last parameters, and are written only where the answer is 0. A slice passes as a pointer and then its
//! length in elements. Pointers are valid, aligned for their type and do not overlap; an empty slice's pointer may be
//! anything.
extern "C" {
    pub fn steamacorn_open(table: *mut u32, words: usize, a: u32, ids: *const u32, count: usize, n: *mut u32) -> u32;
    pub fn steamacorn_seat(table: *mut u32, words: usize, id: u32, seat: *mut u32) -> u32;
    pub fn steamacorn_out(table: *mut u32, words: usize, id: u32, seat: *mut u32) -> u32;
    pub fn steamacorn_find(
        table: *const u32,
        words: usize,
        key: u64,
        seat: *mut u32,
        server: *mut u32,
        draws: *mut u32,
    ) -> u32;
    pub fn steamacorn_find_walks(
        table: *const u32,
        words: usize,
        key: u64,
        seat: *mut u32,
        server: *mut u32,
        draws: *mut u32,
        walks: *mut u32,
    ) -> u32;
    pub fn steamacorn_audit(table: *const u32, words: usize) -> u32;
    pub fn steamacorn_save(table: *const u32, words: usize, record: *mut u8, room: usize, bytes: *mut usize) -> u32;
    pub fn steamacorn_load(table: *mut u32, words: usize, record: *const u8, bytes: usize, n: *mut u32) -> u32;
    pub fn steamacorn_key(packet: *const u8, bytes: usize, key: *mut u8, key_bytes: usize) -> u32;
}
