//! Models with a known fault in making keys.
use crate::library::{Answer, Library, Model};
use crate::made::{told, DO_NOT_FRAGMENT, MORE_FRAGMENTS, TCP};
use steamacorn::model::calls;
use steamacorn::model::numbers::PACKET;

/// The model's answer where a well-formed packet is taken for another.
fn misread(packet: &[u8], key: &mut [u8], misread: impl Fn(&mut Vec<u8>)) -> Answer {
    let mut taken = packet.to_vec();
    if calls::key(packet, &mut [0; 8]).is_ok() {
        misread(&mut taken);
    }
    Model.key(&mut taken, key)
}

fn is_v4(packet: &[u8]) -> bool {
    packet[0] >> 4 == 4
}

/// Where the payload of an IPv4 packet begins.
fn header(packet: &[u8]) -> usize {
    4 * usize::from(packet[0] & 15)
}

fn two(packet: &[u8], place: usize) -> usize {
    usize::from(packet[place]) * 256 + usize::from(packet[place + 1])
}

/// The flags and the offset of an IPv4 packet, changed.
fn replaced(packet: &[u8], key: &mut [u8], place: fn(u16) -> u16) -> Answer {
    misread(packet, key, |packet| {
        if is_v4(packet) && two(packet, 2) >= header(packet) + 4 {
            *packet = told(packet, 6, place(two(packet, 6) as u16).into());
        }
    })
}

/// Ports of a first fragment that carries them.
pub fn ports_of_first_fragment(packet: &mut [u8], key: &mut [u8]) -> Answer {
    replaced(packet, key, |place| if place & 0x1FFF == 0 { place & !MORE_FRAGMENTS } else { place })
}

/// Ports of a last fragment, whose flag is not set.
pub fn ports_of_last_fragment(packet: &mut [u8], key: &mut [u8]) -> Answer {
    replaced(packet, key, |place| if place & MORE_FRAGMENTS == 0 { 0 } else { place })
}

/// A packet that must not become fragments taken for one.
pub fn any_flag(packet: &mut [u8], key: &mut [u8]) -> Answer {
    replaced(packet, key, |place| if place & DO_NOT_FRAGMENT == 0 { place } else { place | MORE_FRAGMENTS })
}

/// Ports at byte 20, where options may be.
pub fn ports_among_options(packet: &mut [u8], key: &mut [u8]) -> Answer {
    misread(packet, key, |packet| {
        if is_v4(packet) && packet.len() >= header(packet) + 4 {
            let ports = header(packet);
            packet.copy_within(20..24, ports);
        }
    })
}

/// Ports beyond the total, so long as bytes are given there.
pub fn ports_beyond_total(packet: &mut [u8], key: &mut [u8]) -> Answer {
    let within = |total| header(packet) <= total && total <= packet.len();
    if packet.len() >= 24 && is_v4(packet) && within(two(packet, 2)) && within(header(packet) + 4) {
        let total = two(packet, 2).max(header(packet) + 4);
        return Model.key(&mut told(packet, 2, total), key);
    }
    Model.key(packet, key)
}

/// A packet of which less is given than its total, where its ports are.
pub fn easy_key(packet: &mut [u8], key: &mut [u8]) -> Answer {
    if packet.len() >= 24 && is_v4(packet) && two(packet, 2) > packet.len() {
        return Model.key(&mut told(packet, 2, packet.len()), key);
    }
    Model.key(packet, key)
}

/// The header that follows an IPv6 header's first extension, where that is hop by hop.
pub fn walked_extension(packet: &mut [u8], key: &mut [u8]) -> Answer {
    misread(packet, key, |packet| {
        if !is_v4(packet) && packet[6] == 0 && two(packet, 4) >= 12 && packet[41] == 0 {
            packet[6] = packet[40];
            packet.copy_within(48..52, 40);
        }
    })
}

pub fn no_ports_of_tcp(packet: &mut [u8], key: &mut [u8]) -> Answer {
    misread(packet, key, |packet| {
        let (protocol, ports) = if is_v4(packet) { (packet[9], header(packet)) } else { (packet[6], 40) };
        if protocol == TCP {
            packet.iter_mut().skip(ports).for_each(|byte| *byte = 0);
        }
    })
}

/// IPv6's address words in another order.
pub fn exchanged_words(packet: &mut [u8], key: &mut [u8]) -> Answer {
    misread(packet, key, |packet| {
        if !is_v4(packet) {
            packet[24..40].rotate_left(8);
        }
    })
}

/// IPv6's ports beyond the payload, so long as bytes are given there.
pub fn ports_beyond_payload(packet: &mut [u8], key: &mut [u8]) -> Answer {
    if packet.len() >= 44 && !is_v4(packet) && two(packet, 4) < 4 {
        return Model.key(&mut told(packet, 4, 4), key);
    }
    Model.key(packet, key)
}

/// Source port 0 taken for none.
pub fn no_source_port_0(packet: &mut [u8], key: &mut [u8]) -> Answer {
    let answer = Model.key(packet, &mut key.to_vec());
    let ports = packet.first().map_or(0, |_| if is_v4(packet) { header(packet) } else { 40 });
    if answer.number == 0 && packet.get(ports..ports + 4).map_or(false, |ports| ports == [0, 0, 0, 80]) {
        return Answer::refused(PACKET);
    }
    Model.key(packet, key)
}

/// The room's length kept in a byte.
pub fn byte_of_room(packet: &mut [u8], key: &mut [u8]) -> Answer {
    let room = if key.len() % 256 == 8 { 8 } else { key.len() };
    Model.key(packet, &mut key[..room])
}

/// PACKET before ROOM.
pub fn hasty_key(packet: &mut [u8], key: &mut [u8]) -> Answer {
    let answer = Model.key(packet, &mut [0; 8]);
    if answer.number == PACKET {
        return answer;
    }
    Model.key(packet, key)
}

/// A key in any room that is long enough.
pub fn roomy_key(packet: &mut [u8], key: &mut [u8]) -> Answer {
    let room = if key.len() > 8 { 8 } else { key.len() };
    Model.key(packet, &mut key[..room])
}

pub fn little_endian_key(packet: &mut [u8], key: &mut [u8]) -> Answer {
    let answer = Model.key(packet, key);
    if answer.number == 0 {
        key.reverse();
    }
    answer
}

pub fn key_beside_refusal(packet: &mut [u8], key: &mut [u8]) -> Answer {
    let answer = Model.key(packet, key);
    if answer.number == PACKET {
        key.fill(0);
    }
    answer
}

/// A forwarder's habit: one hop less.
pub fn forwarding_key(packet: &mut [u8], key: &mut [u8]) -> Answer {
    let answer = Model.key(packet, key);
    if answer.number == 0 {
        let hops = if is_v4(packet) { 8 } else { 7 };
        packet[hops] = packet[hops].saturating_sub(1);
    }
    answer
}
