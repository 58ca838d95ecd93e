//! Packets made field by field: well-formed ones, and what is written over them.
use crate::random::Random;

pub const TCP: u8 = 6;
pub const UDP: u8 = 17;

pub const RESERVED: u16 = 1 << 15;
pub const DO_NOT_FRAGMENT: u16 = 1 << 14;
pub const MORE_FRAGMENTS: u16 = 1 << 13;

pub fn has_ports(protocol: u8) -> bool {
    [TCP, UDP].contains(&protocol)
}

/// IPv4. Both lengths are told as they are.
pub struct V4 {
    pub service: u8,
    pub identification: u16,
    /// The flags, and the fragment's offset in eights of bytes.
    pub place: u16,
    pub life: u8,
    pub protocol: u8,
    pub checksum: u16,
    pub source: u32,
    pub destination: u32,
    /// Whole words.
    pub options: Vec<u8>,
    pub payload: Vec<u8>,
}

impl V4 {
    pub fn new(protocol: u8, payload: &[u8]) -> V4 {
        V4 {
            service: 0x28,
            identification: 0x1234,
            place: 0,
            life: 64,
            protocol,
            checksum: 0xBEEF,
            source: 0xC000_0221,
            destination: 0xC633_6407,
            options: Vec::new(),
            payload: payload.to_vec(),
        }
    }

    pub fn random(random: &mut Random) -> V4 {
        let place = random.word() as u16;
        V4 {
            service: random.word() as u8,
            identification: random.word() as u16,
            place: random.one_of(&[0, 0, DO_NOT_FRAGMENT, RESERVED, MORE_FRAGMENTS, place]),
            life: random.word() as u8,
            protocol: some_protocol(random),
            checksum: random.word() as u16,
            source: random.word(),
            destination: random.word(),
            options: some_options(random),
            payload: some_payload(random),
        }
    }

    pub fn bytes(&self) -> Vec<u8> {
        let header = 20 + self.options.len();
        let total = (header + self.payload.len()) as u16;
        [
            &[0x40 | (header / 4) as u8, self.service][..],
            &total.to_be_bytes(),
            &self.identification.to_be_bytes(),
            &self.place.to_be_bytes(),
            &[self.life, self.protocol],
            &self.checksum.to_be_bytes(),
            &self.source.to_be_bytes(),
            &self.destination.to_be_bytes(),
            &self.options,
            &self.payload,
        ]
        .concat()
    }

    /// The words of its key, with these ports.
    pub fn words(&self, ports: u64) -> [u64; 2] {
        [u64::from(self.source) << 32 | u64::from(self.destination), u64::from(self.protocol) << 32 | ports]
    }
}

/// IPv6. The payload's length is told as it is.
pub struct V6 {
    /// The traffic class and the flow label, 28 bits.
    pub class_and_flow: u32,
    pub next: u8,
    pub hops: u8,
    pub source: u128,
    pub destination: u128,
    pub payload: Vec<u8>,
}

impl V6 {
    pub fn new(next: u8, payload: &[u8]) -> V6 {
        V6 {
            class_and_flow: 0x0ABC_DEF5,
            next,
            hops: 64,
            source: 0x2001_0DB8_0001_0002_000A_000B_000C_000D,
            destination: 0x2001_0DB8_FFFF_0000_0000_0000_0000_0080,
            payload: payload.to_vec(),
        }
    }

    pub fn random(random: &mut Random) -> V6 {
        let mut address = || u128::from(random.number()) << 64 | u128::from(random.number());
        let (source, destination) = (address(), address());
        V6 {
            class_and_flow: random.word() >> 4,
            next: some_protocol(random),
            hops: random.word() as u8,
            source,
            destination,
            payload: some_payload(random),
        }
    }

    pub fn bytes(&self) -> Vec<u8> {
        [
            &(6 << 28 | self.class_and_flow).to_be_bytes()[..],
            &(self.payload.len() as u16).to_be_bytes(),
            &[self.next, self.hops],
            &self.source.to_be_bytes(),
            &self.destination.to_be_bytes(),
            &self.payload,
        ]
        .concat()
    }
}

fn some_protocol(random: &mut Random) -> u8 {
    let any = random.word() as u8;
    random.one_of(&[TCP, TCP, UDP, UDP, 0, 1, 44, any])
}

fn some_options(random: &mut Random) -> Vec<u8> {
    let words = random.one_of(&[0, 0, 1, 2, 9, 10]);
    random.bytes(4 * words)
}

/// Most often with room for ports.
fn some_payload(random: &mut Random) -> Vec<u8> {
    let length = random.below(24);
    random.bytes(length)
}

/// The packet with these bytes from some place on.
pub fn over(packet: &[u8], place: usize, bytes: &[u8]) -> Vec<u8> {
    let mut packet = packet.to_vec();
    packet[place..place + bytes.len()].copy_from_slice(bytes);
    packet
}

/// The packet with another number of two bytes: IPv4's total length at 2, IPv6's payload length at 4.
pub fn told(packet: &[u8], place: usize, length: usize) -> Vec<u8> {
    over(packet, place, &(length as u16).to_be_bytes())
}
