//! Keys from packets: compared with the model; and of the library alone, what a key depends on and what not, that all
//! fragments of a datagram have one, and the keys of packets that another tool made and took apart.
use crate::compare::{same, Alone, Calls, Comparison, Same};
use crate::library::{found, Library};
use crate::made::*;
use crate::random::Random;
use std::ops::Range;
use steamacorn::model::calls;
use steamacorn::model::key;
use steamacorn::model::numbers::{PACKET, ROOM};

/// What any room holds before a call.
const HELD: u8 = 0xEE;

/// The key of these words, as it is written.
fn written(words: &[u64]) -> [u8; 8] {
    key::of_words(words.iter().copied()).to_be_bytes()
}

/// The library's key of a well-formed packet.
fn key_of(own: &mut Alone, what: &str, packet: &[u8]) -> Same<[u8; 8]> {
    let mut key = [HELD; 8];
    same(what, own.key(packet, &mut key)?.number, 0)?;
    Ok(key)
}

/// A packet that is well-formed or not, with rooms of all lengths.
fn asked(comparison: &mut Comparison, what: &str, packet: &[u8], well_formed: bool) -> Same<()> {
    for room in [0, 7, 8, 9, 16, 256 + 8] {
        let number = match room {
            8 if well_formed => 0,
            8 => PACKET,
            _ => ROOM,
        };
        same(what, comparison.key(packet, &mut vec![HELD; room])?.number, number)?;
    }
    Ok(())
}

pub fn edges(library: &dyn Library) -> Same<u64> {
    let mut comparison = Comparison::new(library);
    asked(&mut comparison, "no byte", &[], false)?;
    versions(&mut comparison)?;
    header_lengths(&mut comparison)?;
    totals(&mut comparison)?;
    places(&mut comparison)?;
    payload_lengths(&mut comparison)?;
    longest(&mut comparison)?;
    ports(&mut comparison)?;
    for sample in samples() {
        for length in 0..=sample.packet.len() {
            asked(&mut comparison, "a packet cut short", &sample.packet[..length], length >= sample.length)?;
        }
    }
    Ok(comparison.calls)
}

/// A packet that both headers take, but for the version.
fn versions(comparison: &mut Comparison) -> Same<()> {
    let packet = V6 { class_and_flow: 0x0500_0000 | 60, ..V6::new(UDP, &[9; 20]) }.bytes();
    for version in 0..16 {
        let packet = over(&packet, 0, &[version << 4 | 5]);
        asked(comparison, "a version", &packet, [4, 6].contains(&version))?;
    }
    Ok(())
}

/// A byte less than a packet of this length, all its bytes, and more.
fn around(length: usize) -> [usize; 4] {
    [length.saturating_sub(1), length, length + 1, length + 8]
}

/// Each header length, and none to five bytes from there to the total, with and without more given behind.
fn header_lengths(comparison: &mut Comparison) -> Same<()> {
    let bytes: Vec<u8> = (1..=60).collect();
    for protocol in [TCP, UDP, 0, 1, 5, 7, 16, 18, 33, 50, 132, 136, 255] {
        let packet = V4::new(protocol, &bytes).bytes();
        for words in 0..=15 {
            for behind in 0..=5 {
                let total = 4 * words + behind;
                let packet = told(&over(&packet, 0, &[0x40 | words as u8]), 2, total);
                for given in around(total) {
                    let right = words >= 5 && given >= total && (behind >= 4 || !has_ports(protocol));
                    asked(comparison, "a header length", &packet[..given], right)?;
                }
            }
        }
    }
    Ok(())
}

/// Totals that are less than the header, the header and its ports, what is given, and more, with fragments too.
fn totals(comparison: &mut Comparison) -> Same<()> {
    for (protocol, place, least) in [(TCP, 0, 36), (1, 0, 32), (TCP, MORE_FRAGMENTS, 32), (UDP, 1, 32)] {
        let packet = V4 { place, options: vec![1; 12], ..V4::new(protocol, &[7; 10]) }.bytes();
        for total in (0..=50).chain([256, 32_768, 65_535]) {
            let right = (least..=packet.len()).contains(&total);
            asked(comparison, "a total", &told(&packet, 2, total), right)?;
        }
    }
    Ok(())
}

/// No fragment but by its flag or its offset, each bit of it alone, and then with no need of ports.
fn places(comparison: &mut Comparison) -> Same<()> {
    let whole = [0, RESERVED, DO_NOT_FRAGMENT, RESERVED | DO_NOT_FRAGMENT];
    let parts = (0..14).map(|bit| 1 << bit).chain([0x1FFF, 0x3FFF, DO_NOT_FRAGMENT | 1, u16::MAX]);
    let places: Vec<(u16, bool)> =
        whole.map(|place| (place, false)).into_iter().chain(parts.map(|p| (p, true))).collect();
    for protocol in [TCP, UDP, 1] {
        for (place, fragment) in &places {
            for length in 0..=8 {
                let packet = V4 { place: *place, ..V4::new(protocol, &[5, 6, 7, 8, 9, 10, 11, 12][..length]) }.bytes();
                let right = *fragment || length >= 4 || !has_ports(protocol);
                asked(comparison, "a fragment or none", &packet, right)?;
            }
        }
    }
    Ok(())
}

/// Each next header that says there is an extension, and others, with no payload to six bytes of it.
fn payload_lengths(comparison: &mut Comparison) -> Same<()> {
    for next in [TCP, UDP, 0, 43, 44, 50, 51, 60, 59, 135, 1, 33, 58, 132, 136, 255] {
        let packet = V6::new(next, &[TCP, 0, 1, 4, 0, 0, TCP, 0, 0, 0, 0, 0, 13, 14, 15, 16]).bytes();
        for payload in 0..=6 {
            let packet = told(&packet, 4, payload);
            for given in around(40 + payload) {
                let right = given >= 40 + payload && (payload >= 4 || !has_ports(next));
                asked(comparison, "a payload length", &packet[..given], right)?;
            }
        }
        for payload in [16, 17, 256 + 16, 65_535] {
            asked(comparison, "a payload length", &told(&packet, 4, payload), payload == 16)?;
        }
    }
    Ok(())
}

/// Ports of which a byte is 0, or all are.
fn ports(comparison: &mut Comparison) -> Same<()> {
    for ports in [[0; 4], [0, 0, 0, 80], [4, 0, 0, 0], [0, 1, 0, 1], [1, 0, 1, 0], [255; 4]] {
        for protocol in [TCP, UDP] {
            asked(comparison, "ports", &V4::new(protocol, &ports).bytes(), true)?;
            asked(comparison, "ports", &V6::new(protocol, &ports).bytes(), true)?;
        }
    }
    Ok(())
}

/// The longest packets that there are.
fn longest(comparison: &mut Comparison) -> Same<()> {
    let v4 = V4::new(TCP, &[3; 65_515]).bytes();
    let v6 = V6::new(TCP, &[3; 65_535]).bytes();
    for packet in [v4, v6] {
        let length = packet.len();
        let given = [packet, vec![0; 9]].concat();
        for bytes in around(length) {
            asked(comparison, "the longest packet", &given[..bytes], bytes >= length)?;
        }
    }
    Ok(())
}

/// Packets as they may come, and with some damage.
pub fn random(library: &dyn Library) -> Same<u64> {
    let mut comparison = Comparison::new(library);
    let mut random = Random::new(7);
    let mut refused = 0;
    for _ in 0..30_000 {
        let packet = some_packet(&mut random);
        let damaged = damaged(&mut random, packet.clone());
        for packet in [packet, damaged] {
            refused += u64::from(comparison.key(&packet, &mut [HELD; 8])?.number != 0);
        }
    }
    for _ in 0..10_000 {
        let length = random.below(90);
        let mut packet = random.bytes(length);
        if let Some(first) = packet.first_mut() {
            *first = random.one_of(&[0x45, 0x46, 0x4F, 0x60, *first]);
        }
        comparison.key(&packet, &mut [HELD; 8])?;
    }
    assert!((15_000..45_000).contains(&refused), "the model refuses {} of 60000", refused);
    Ok(comparison.calls)
}

fn some_packet(random: &mut Random) -> Vec<u8> {
    let packet = if random.below(2) == 0 { V4::random(random).bytes() } else { V6::random(random).bytes() };
    let behind = random.one_of(&[0, 0, 1, 18]);
    [packet, random.bytes(behind)].concat()
}

/// A bit of the first words changed, a length told wrong by a little or told anew, or bytes left out.
fn damaged(random: &mut Random, mut packet: Vec<u8>) -> Vec<u8> {
    let place = random.one_of(&[2, 4]);
    let length = usize::from(packet[place]) * 256 + usize::from(packet[place + 1]);
    match random.below(5) {
        0 => packet[random.below(10)] ^= 1 << random.below(8),
        1 => packet = told(&packet, place, (length + 5).saturating_sub(random.below(11))),
        2 => packet = told(&packet, place, random.below(80)),
        3 => packet[0] = packet[0] & 0xF0 | random.below(16) as u8,
        _ => packet.truncate(random.below(packet.len())),
    }
    packet
}

/// A well-formed packet with bytes given behind it. Some bits of it do not count, some are the key's, and the others
/// say where those are.
struct Sample {
    packet: Vec<u8>,
    /// Without what is behind.
    length: usize,
    uncounted: Vec<Range<usize>>,
    counted: Vec<Range<usize>>,
}

impl Sample {
    /// The bits' places; `open` is from where on none counts.
    fn new(packet: Vec<u8>, uncounted: &[Range<usize>], open: usize, counted: &[Range<usize>]) -> Sample {
        let length = packet.len();
        let packet = [packet, vec![0x5A; 6]].concat();
        let rest = open..8 * packet.len();
        Sample { length, uncounted: [uncounted, &[rest]].concat(), counted: counted.to_vec(), packet }
    }
}

// the bits of IPv4's header, and of IPv6's
const SERVICE: Range<usize> = 8..16;
const IDENTIFICATION: Range<usize> = 32..48;
const OTHER_FLAGS: Range<usize> = 48..50;
const FRAGMENT: Range<usize> = 50..64;
const LIFE: Range<usize> = 64..72;
const PROTOCOL: Range<usize> = 72..80;
const CHECKSUM: Range<usize> = 80..96;
const ADDRESSES: Range<usize> = 96..160;
const OPTIONS: Range<usize> = 160..224; // where there are two words
const CLASS_AND_FLOW: Range<usize> = 4..32;
const NEXT: Range<usize> = 48..56;
const HOPS: Range<usize> = 56..64;
const V6_ADDRESSES: Range<usize> = 64..320;

/// IPv4 with options; a fragment, so by its flag and by two bits of its offset, which one bit does not undo;
/// IPv6 with ports, and with a fragment header, which is not walked.
fn samples() -> [Sample; 4] {
    let bytes: Vec<u8> = (0xA1..=0xB5).collect();
    let options = V4 { options: (7..=14).collect(), ..V4::new(TCP, &bytes) }.bytes();
    let fragment = V4 { place: MORE_FRAGMENTS | 5, ..V4::new(UDP, &bytes) }.bytes();
    let (ports, extension) = (V6::new(UDP, &bytes).bytes(), V6::new(44, &bytes).bytes());
    [
        Sample::new(
            options,
            &[SERVICE, IDENTIFICATION, OTHER_FLAGS, LIFE, CHECKSUM, OPTIONS],
            256,
            &[PROTOCOL, ADDRESSES, 224..256],
        ),
        Sample::new(
            fragment,
            &[SERVICE, IDENTIFICATION, OTHER_FLAGS, FRAGMENT, LIFE, CHECKSUM],
            160,
            &[PROTOCOL, ADDRESSES],
        ),
        Sample::new(ports, &[CLASS_AND_FLOW, HOPS], 352, &[NEXT, V6_ADDRESSES, 320..352]),
        Sample::new(extension, &[CLASS_AND_FLOW, HOPS], 320, &[NEXT, V6_ADDRESSES]),
    ]
}

/// The packet with each single bit changed.
fn changed(packet: &[u8]) -> impl Iterator<Item = (usize, Vec<u8>)> + '_ {
    (0..8 * packet.len()).map(move |bit| (bit, over(packet, bit / 8, &[packet[bit / 8] ^ 0x80 >> (bit % 8)])))
}

pub fn bits(library: &dyn Library) -> Same<u64> {
    let mut comparison = Comparison::new(library);
    for sample in samples() {
        for (_, packet) in changed(&sample.packet) {
            comparison.key(&packet, &mut [HELD; 8])?;
        }
    }
    Ok(comparison.calls)
}

/// The key is another one where a bit counts, and the same where it does not.
pub fn counted(library: &dyn Library) -> Same<u64> {
    let mut own = Alone::new(library);
    for sample in samples() {
        let key = key_of(&mut own, "a sample", &sample.packet)?;
        for (bit, packet) in changed(&sample.packet) {
            let among = |places: &[Range<usize>]| places.iter().any(|places| places.contains(&bit));
            if among(&sample.uncounted) {
                let what = format!("bit {}, which does not count", bit);
                same(&what, key_of(&mut own, &what, &packet)?, key)?;
            }
            if among(&sample.counted) {
                let what = format!("bit {}, which counts", bit);
                same(&what, key_of(&mut own, &what, &packet)? == key, false)?;
            }
        }
    }
    Ok(own.calls)
}

/// Datagrams cut in every way that RFC 791 allows: all pieces have one key, that of the datagram's addresses and
/// protocol with no ports. Whatever else may differ from piece to piece does.
pub fn fragments(library: &dyn Library) -> Same<u64> {
    let mut own = Alone::new(library);
    let mut random = Random::new(8);
    for protocol in [TCP, UDP, 1, 50] {
        for length in [9, 16, 64, 77] {
            let datagram = V4 { place: 0, protocol, payload: random.bytes(length), ..V4::random(&mut random) };
            let ports = if has_ports(protocol) { first_four(&datagram.payload) } else { 0 };
            same("the whole", key_of(&mut own, "the whole", &datagram.bytes())?, written(&datagram.words(ports)))?;
            for from in (0..length).step_by(8) {
                let ends = (from + 8..length).step_by(8).chain([length]);
                for end in ends.filter(|end| end - from < length) {
                    piece(&mut own, &mut random, &datagram, from..end)?;
                }
            }
        }
        let longest = V4 { protocol, payload: random.bytes(65_515), ..V4::random(&mut random) };
        for from in (0..65_515).step_by(8) {
            piece(&mut own, &mut random, &longest, from..65_515.min(from + 8))?;
        }
    }
    Ok(own.calls)
}

fn first_four(payload: &[u8]) -> u64 {
    payload[..4].iter().fold(0, |number, byte| number << 8 | u64::from(*byte))
}

fn piece(own: &mut Alone, random: &mut Random, datagram: &V4, bytes: Range<usize>) -> Same<()> {
    let more = if bytes.end < datagram.payload.len() { MORE_FRAGMENTS } else { 0 };
    let piece = V4 {
        place: more | (bytes.start / 8) as u16,
        protocol: datagram.protocol,
        identification: datagram.identification,
        source: datagram.source,
        destination: datagram.destination,
        payload: datagram.payload[bytes.clone()].to_vec(),
        ..V4::random(random)
    };
    let what = format!("the fragment of bytes {:?}", bytes);
    same(&what, key_of(own, &what, &piece.bytes())?, written(&datagram.words(0)))
}

/// From a packet to its server: the eight bytes are read the highest first. Read the other way round, most keys would
/// be on another server.
pub fn servers(library: &dyn Library) -> Same<u64> {
    let mut own = Alone::new(library);
    let mut random = Random::new(9);
    let table = random.table_with(64, 20).words();
    let mut elsewhere = 0;
    for _ in 0..1000 {
        let datagram = V4 { place: 0, protocol: TCP, payload: random.bytes(20), ..V4::random(&mut random) };
        let key = key_of(&mut own, "a packet", &datagram.bytes())?;
        let answers = own.find(&table, &[u64::from_be_bytes(key), u64::from_le_bytes(key)])?;
        let number = u64::from_be_bytes(written(&datagram.words(first_four(&datagram.payload))));
        same("the server", answers[0], found(calls::find(&table, number)))?;
        elsewhere += u32::from(answers[1].values[1] != answers[0].values[1]);
    }
    same("other servers, the other way round", elsewhere > 900, true)?;
    Ok(own.calls)
}

/// From 192.0.2.1 to 198.51.100.2, TCP; and from 2001:db8::1 to 2001:db8::2, UDP. What is behind the header follows.
const WORKED_4: [u8; 20] = [0x45, 0, 0, 24, 0, 0, 0, 0, 64, 6, 0, 0, 192, 0, 2, 1, 198, 51, 100, 2];
const WORKED_6: [u8; 40] = [
    0x60, 0, 0, 0, 0, 4, 17, 64, 0x20, 1, 0x0D, 0xB8, 0, 0, 0, 0, 0, 0, 0, 0, 0, 0, 0, 1, 0x20, 1, 0x0D, 0xB8, 0, 0, 0,
    0, 0, 0, 0, 0, 0, 0, 0, 2,
];

/// The packets that crate `packet` works out, and their keys: some bytes of one changed, and what they make of it.
pub fn worked(library: &dyn Library) -> Same<u64> {
    let mut own = Alone::new(library);
    let tcp = [&WORKED_4[..], &[4, 0, 0, 80]].concat();
    let optioned = over(&over(&[&WORKED_4[..], &[1, 1, 1, 0, 4, 0, 0, 80]].concat(), 0, &[0x46]), 3, &[28]);
    let later = over(&over(&[&WORKED_4[..], &[0x61]].concat(), 3, &[21]), 7, &[3]);
    let udp = [&WORKED_6[..], &[4, 0, 0, 53]].concat();
    for (packet, key) in [
        (tcp.clone(), 0x1DA5_D05E_1161_9584),
        (optioned, 0x1DA5_D05E_1161_9584),
        (over(&tcp, 6, &[0x20]), 0x4C7A_8E9D_8D1C_25A0),
        (later, 0x4C7A_8E9D_8D1C_25A0),
        (over(&tcp, 15, &[2]), 0xFCE0_99CE_9F44_746E),
        (over(&tcp, 19, &[3]), 0x39F4_F9E6_6813_9E97),
        (over(&tcp, 9, &[17]), 0xE626_E606_7FFD_4BF0),
        (over(&tcp, 21, &[1]), 0xB479_F125_26BA_7DA7),
        (over(&tcp, 23, &[81]), 0xEA7A_9A9C_0579_C7D6),
        (udp.clone(), 0xC264_9669_1F05_6A76),
        (over(&udp, 15, &[1]), 0x306E_A391_88E4_C2CD),
        (over(&udp, 23, &[2]), 0x606A_F33C_5D4B_DF04),
        (over(&udp, 31, &[1]), 0xD139_6D24_99A1_9BDE),
        (over(&udp, 39, &[3]), 0xA1D4_6E40_A777_472A),
        (over(&udp, 6, &[6]), 0x04A3_249D_3F18_F174),
        (over(&udp, 41, &[1]), 0xC380_FC63_F279_09E7),
        (over(&udp, 43, &[54]), 0x88C4_8932_869C_4624),
    ] {
        let what = format!("the packet {:?}", packet);
        same(&what, key_of(&mut own, &what, &packet)?, u64::to_be_bytes(key))?;
    }
    let mut room = [HELD; 8];
    same("ports cut short", own.key(&told(&tcp, 2, 23), &mut room)?.number, PACKET)?;
    same("no bytes into none", own.key(&[], &mut [])?.number, ROOM)?;
    same("what the room holds", room, [HELD; 8])?;
    Ok(own.calls)
}

/// Made and taken apart by another tool: tests/packets/README.md.
const FRAMES: &[u8] = include_bytes!("../packets/frames.pcap");
const FIELDS: &str = include_str!("../packets/frames.csv");

/// Each frame from its IP header on, with what Ethernet put behind it.
pub fn captured(library: &dyn Library) -> Same<u64> {
    let mut comparison = Comparison::new(library);
    let mut own = Alone::new(library);
    let frames = frames();
    let lines: Vec<&str> = FIELDS.lines().skip(1).collect();
    same("frames", frames.len(), lines.len())?;
    for (frame, line) in frames.iter().zip(lines) {
        let packet = &frame[14..];
        same(line, key_of(&mut own, line, packet)?, written(&words_of(line)))?;
        comparison.key(packet, &mut [HELD; 8])?;
    }
    Ok(comparison.calls + own.calls)
}

/// A head of 24 bytes; then each frame behind sixteen, of which the third four are its length, the lowest first.
fn frames() -> Vec<&'static [u8]> {
    let mut frames = Vec::new();
    let mut rest = &FRAMES[24..];
    while !rest.is_empty() {
        let length = rest[8..12].iter().rev().fold(0, |length, byte| length * 256 + usize::from(*byte));
        let (frame, behind) = rest[16..].split_at(length);
        frames.push(frame);
        rest = behind;
    }
    frames
}

/// Two addresses of eight hexadecimal digits are one word, of 32 are four.
fn words_of(line: &str) -> Vec<u64> {
    let fields: Vec<&str> = line.split(';').collect();
    let addresses = [fields[1], fields[2]].concat();
    let [protocol, source, destination] = [3, 5, 6].map(|place| fields[place].parse::<u64>().expect("a number"));
    let words = (0..addresses.len()).step_by(16).map(|place| &addresses[place..place + 16]);
    let words = words.map(|digits| u64::from_str_radix(digits, 16).expect("digits"));
    words.chain([protocol << 32 | source << 16 | destination]).collect()
}
