//! Document 01, "Numbers a call can answer"; PACKET is document 02's.
pub const SIZE: u32 = 1;
pub const COUNT: u32 = 2;
pub const ID: u32 = 3;
pub const TWICE: u32 = 4;
pub const DAMAGED: u32 = 5;
pub const FULL: u32 = 6;
pub const ABSENT: u32 = 7;
pub const LAST: u32 = 8;
pub const ROOM: u32 = 9;
pub const FORM: u32 = 10;
pub const LINE: u32 = 11;
pub const PACKET: u32 = 12;
