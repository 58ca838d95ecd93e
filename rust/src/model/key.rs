//! Document 02, "Keys from packets". The headers are read as RFC 791, section 3.1, and RFC 8200, section 3, draw them:
//! fields of so many bits, one behind the other.
use super::splitmix::output;

const TCP: u64 = 6;
const UDP: u64 = 17;

/// What is left to read, from some bit on.
struct Bits<'p> {
    packet: &'p [u8],
    next: usize,
}

impl Bits<'_> {
    /// The next field, its highest bit first; `None` where the packet ends before it does.
    fn field(&mut self, width: usize) -> Option<u64> {
        let end = self.next + width;
        if end > 8 * self.packet.len() {
            return None;
        }
        let bit = |place: usize| u64::from(self.packet[place / 8] >> (7 - place % 8) & 1);
        let field = (self.next..end).fold(0, |field, place| 2 * field + bit(place));
        self.next = end;
        Some(field)
    }
}

/// RFC 791's header, field by field; the options follow it.
struct V4 {
    version: u64,
    header_words: u64,
    _type_of_service: u64,
    total_length: u64,
    _identification: u64,
    _reserved: u64,
    _do_not_fragment: u64,
    more_fragments: u64,
    fragment_offset: u64,
    _time_to_live: u64,
    protocol: u64,
    _checksum: u64,
    source: u64,
    destination: u64,
}

impl V4 {
    fn of_packet(packet: &[u8]) -> Option<V4> {
        let mut bits = Bits { packet, next: 0 };
        Some(V4 {
            version: bits.field(4)?,
            header_words: bits.field(4)?,
            _type_of_service: bits.field(8)?,
            total_length: bits.field(16)?,
            _identification: bits.field(16)?,
            _reserved: bits.field(1)?,
            _do_not_fragment: bits.field(1)?,
            more_fragments: bits.field(1)?,
            fragment_offset: bits.field(13)?,
            _time_to_live: bits.field(8)?,
            protocol: bits.field(8)?,
            _checksum: bits.field(16)?,
            source: bits.field(32)?,
            destination: bits.field(32)?,
        })
    }
}

/// RFC 8200's header, field by field; an address is two words.
struct V6 {
    version: u64,
    _traffic_class: u64,
    _flow_label: u64,
    payload_length: u64,
    next_header: u64,
    _hop_limit: u64,
    source: [u64; 2],
    destination: [u64; 2],
}

impl V6 {
    fn of_packet(packet: &[u8]) -> Option<V6> {
        let mut bits = Bits { packet, next: 0 };
        Some(V6 {
            version: bits.field(4)?,
            _traffic_class: bits.field(8)?,
            _flow_label: bits.field(20)?,
            payload_length: bits.field(16)?,
            next_header: bits.field(8)?,
            _hop_limit: bits.field(8)?,
            source: [bits.field(64)?, bits.field(64)?],
            destination: [bits.field(64)?, bits.field(64)?],
        })
    }
}

/// What both headers come down to.
struct Datagram<'p> {
    addresses: Vec<u64>,
    protocol: u64,
    fragment: bool,
    /// The bytes behind the header and its options, as far as the header's length goes.
    payload: &'p [u8],
}

impl Datagram<'_> {
    fn v4(packet: &[u8]) -> Option<Datagram<'_>> {
        let header = V4::of_packet(packet)?;
        if header.version != 4 || header.header_words < 5 {
            return None;
        }
        let total = packet.get(..header.total_length as usize)?;
        Some(Datagram {
            addresses: vec![(header.source << 32) + header.destination],
            protocol: header.protocol,
            fragment: header.more_fragments == 1 || header.fragment_offset != 0,
            payload: total.get(4 * header.header_words as usize..)?,
        })
    }

    /// Extension headers are payload.
    fn v6(packet: &[u8]) -> Option<Datagram<'_>> {
        let header = V6::of_packet(packet)?;
        if header.version != 6 {
            return None;
        }
        Some(Datagram {
            addresses: [header.source, header.destination].concat(),
            protocol: header.next_header,
            fragment: false,
            payload: packet.split_at(40).1.get(..header.payload_length as usize)?,
        })
    }

    /// The source's and the destination's, as one number. No fragment has any, since only the first carries them.
    fn ports(&self) -> Option<u64> {
        if self.fragment || ![TCP, UDP].contains(&self.protocol) {
            return Some(0);
        }
        Bits { packet: self.payload, next: 0 }.field(32)
    }
}

/// A packet is of one version, so at most one of the two readings takes it. `None` is PACKET.
pub fn of_packet(packet: &[u8]) -> Option<u64> {
    let datagram = Datagram::v4(packet).or_else(|| Datagram::v6(packet))?;
    let last = (datagram.protocol << 32) + datagram.ports()?;
    Some(of_words(datagram.addresses.into_iter().chain([last])))
}

pub fn of_words(words: impl Iterator<Item = u64>) -> u64 {
    words.fold(0, |key, word| output(1, key ^ word))
}

#[cfg(test)]
mod tests {
    use super::*;

    /// Its words: 0xC0000201C6336402 and 0x11_0035_1234. The protocol and the total are given.
    fn v4(protocol: u8, total: u8) -> Vec<u8> {
        vec![
            0x45, 0, 0, total, 0xAB, 0xCD, 0, 0, 64, protocol, 0xEE, 0xEE, 192, 0, 2, 1, 198, 51, 100, 2, 0, 0x35,
            0x12, 0x34, 0, 8, 0, 0,
        ]
    }

    /// From 2001:db8::1 to 2001:db8::2. The next header and the payload length are given.
    fn v6(next: u8, payload: u8) -> Vec<u8> {
        let address = |last| [0x20, 0x01, 0x0D, 0xB8, 0, 0, 0, 0, 0, 0, 0, 0, 0, 0, 0, last];
        let head = [0x6A, 0xBC, 0xDE, 0xF0, 0, payload, next, 64];
        [&head[..], &address(1), &address(2), &[0, 0x35, 0x12, 0x34, 0, 8, 0, 0]].concat()
    }

    fn with(mut packet: Vec<u8>, place: usize, byte: u8) -> Vec<u8> {
        packet[place] = byte;
        packet
    }

    const V4_ADDRESSES: u64 = 0xC000_0201_C633_6402;
    const V6_ADDRESSES: [u64; 4] = [0x2001_0DB8_0000_0000, 1, 0x2001_0DB8_0000_0000, 2];
    const PORTS: u64 = 0x0035_1234;

    fn v4_key(protocol: u64, ports: u64) -> Option<u64> {
        Some(output(1, output(1, V4_ADDRESSES) ^ (protocol << 32 | ports)))
    }

    fn v6_key(next: u64, ports: u64) -> Option<u64> {
        let addresses = V6_ADDRESSES.into_iter().fold(0, |key, word| output(1, key ^ word));
        Some(output(1, addresses ^ (next << 32 | ports)))
    }

    #[test]
    fn fields_of_any_width() {
        let mut bits = Bits { packet: &[0x45, 0xFF, 0x00, 0x81], next: 0 };
        assert_eq!((bits.field(4), bits.field(4)), (Some(4), Some(5)));
        assert_eq!((bits.field(3), bits.field(13)), (Some(7), Some(0x1F00)));
        assert_eq!((bits.field(0), bits.field(9), bits.field(8)), (Some(0), None, Some(0x81)));
        assert_eq!((bits.field(0), bits.field(1)), (Some(0), None));
        assert_eq!(Bits { packet: &[0xFF; 8], next: 0 }.field(64), Some(u64::MAX));
    }

    #[test]
    fn words_of_a_key() {
        assert_eq!(of_words([].into_iter()), 0);
        assert_eq!(of_words([1234567].into_iter()), 6457827717110365317);
        assert_eq!(of_words([1234567, 6457827717110365317].into_iter()), 0xe220a8397b1dcdaf);
    }

    #[test]
    fn protocols() {
        for protocol in 0..=255 {
            let ports = if [6, 17].contains(&protocol) { PORTS } else { 0 };
            assert_eq!(of_packet(&v4(protocol, 28)), v4_key(protocol.into(), ports));
            assert_eq!(of_packet(&v6(protocol, 8)), v6_key(protocol.into(), ports));
        }
    }

    #[test]
    fn versions() {
        for version in 0..16 {
            assert_eq!(of_packet(&with(v4(17, 28), 0, version << 4 | 5)).is_some(), version == 4);
            assert_eq!(of_packet(&with(v6(17, 8), 0, version << 4)).is_some(), version == 6);
        }
    }

    #[test]
    fn every_shorter_run_of_bytes() {
        for packet in [v4(17, 28), v4(1, 28), v6(17, 8), v6(58, 8)] {
            for length in 0..packet.len() {
                assert_eq!(of_packet(&packet[..length]), None);
            }
            assert_eq!(of_packet(&[&packet[..], &[0xFF; 9]].concat()), of_packet(&packet));
        }
    }

    #[test]
    fn headers_of_0_to_15_words() {
        let packet = [v4(17, 64), vec![0; 36]].concat();
        let ports = |words: u8| match words {
            5 => PORTS,
            6 => 0x0008_0000,
            _ => 0,
        };
        for words in 0..16 {
            let key = if words < 5 { None } else { v4_key(17, ports(words)) };
            assert_eq!(of_packet(&with(packet.clone(), 0, 0x40 | words)), key);
        }
    }

    #[test]
    fn the_header_within_the_total() {
        for (protocol, words, totals) in [(1, 5, 20..=28), (1, 7, 28..=28), (17, 5, 24..=28), (17, 6, 28..=28)] {
            for total in 0..=28 {
                let packet = with(v4(protocol, total), 0, 0x40 | words);
                assert_eq!(of_packet(&packet).is_some(), totals.contains(&total), "{} {} {}", protocol, words, total);
            }
        }
        assert_eq!(of_packet(&v4(1, 29)), None);
        assert_eq!(of_packet(&with(v4(1, 28), 2, 1)), None);
    }

    #[test]
    fn fragments_have_no_ports() {
        for bit in 0..16 {
            let [high, low] = (1u16 << bit).to_be_bytes();
            for total in 20..=28 {
                let packet = with(with(v4(6, total), 6, high), 7, low);
                let key = match bit {
                    14 | 15 if total < 24 => None,
                    14 | 15 => v4_key(6, PORTS),
                    _ => v4_key(6, 0),
                };
                assert_eq!(of_packet(&packet), key, "bit {}, total {}", bit, total);
            }
        }
        assert_eq!(of_packet(&with(v4(6, 19), 6, 0x20)), None);
        assert_eq!(of_packet(&with(v4(6, 29), 6, 0x20)), None);
    }

    #[test]
    fn the_payload_of_version_6() {
        for payload in 0..=9 {
            let fits = payload <= 8;
            assert_eq!(of_packet(&v6(17, payload)).is_some(), fits && payload >= 4);
            assert_eq!(of_packet(&v6(59, payload)).is_some(), fits);
        }
        assert_eq!(of_packet(&with(v6(59, 8), 4, 1)), None);
        assert_eq!(of_packet(&v6(59, 0)[..40]), v6_key(59, 0));
        assert_eq!(of_packet(&v6(59, 0)[..39]), None);
    }

    /// 0 is hop by hop, 43 routing, 44 fragment, 50 and 51 the security headers, 60 destination, 135 mobility.
    #[test]
    fn extension_headers_are_not_walked() {
        for next in [0, 43, 44, 50, 51, 60, 135] {
            let header = [17, 0, 0, 0, 0, 0, 0, 0, 0, 0x35, 0x12, 0x34];
            assert_eq!(of_packet(&[&v6(next, 12)[..40], &header].concat()), v6_key(next.into(), 0));
        }
    }
}
