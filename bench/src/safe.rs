//! The same rules in safe Rust, written for speed: what is not proved is checked when it runs.
#![forbid(unsafe_code)]
#![allow(non_snake_case)] // a part has the document's letter
use steamacorn::model::numbers::{ABSENT, DAMAGED, FORM, FULL, ID, LAST, PACKET, ROOM, SIZE, TWICE};
use steamacorn::model::parts::MOST_SEATS;
use steamacorn::words;

/// Output `n` of SplitMix64 started at `k`.
#[inline]
pub fn output(n: u64, k: u64) -> u64 {
    let mut z = k.wrapping_add(n.wrapping_mul(0x9e3779b97f4a7c15));
    z = (z ^ (z >> 30)).wrapping_mul(0xbf58476d1ce4e5b9);
    z = (z ^ (z >> 27)).wrapping_mul(0x94d049bb133111eb);
    z ^ (z >> 31)
}

/// A table of legal shape: N and the six parts, all of length a.
struct Parts<'t> {
    N: usize,
    A: &'t [u32],
    K: &'t [u32],
    W: &'t [u32],
    L: &'t [u32],
    R: &'t [u32],
    S: &'t [u32],
}

/// a, where the shape is legal.
#[inline]
fn seats(table: &[u32]) -> Result<usize, u32> {
    match table {
        [a, _, ..] if (1..=MOST_SEATS).contains(a) && table.len() == words(*a as usize) => Ok(*a as usize),
        _ => Err(SIZE),
    }
}

impl<'t> Parts<'t> {
    fn of(table: &'t [u32]) -> Result<Parts<'t>, u32> {
        let a = seats(table)?;
        let N = table[1] as usize;
        let (A, rest) = table[2..].split_at(a);
        let (K, rest) = rest.split_at(a);
        let (W, rest) = rest.split_at(a);
        let (L, rest) = rest.split_at(a);
        let (R, S) = rest.split_at(a);
        Ok(Parts { N, A, K, W, L, R, S })
    }

    /// Did seat x stand at position q?
    #[inline]
    fn stood(&self, x: usize, q: usize) -> bool {
        let left = self.A[x] as usize;
        if left == 0 || left < q {
            self.W[q] as usize == x && (self.N <= q || self.L[x] as usize == q)
        } else {
            self.L[x] as usize == q
        }
    }

    #[inline]
    fn seat_passes(&self, x: usize) -> bool {
        let left = self.A[x] as usize;
        if left == 0 {
            return self.S[x] != 0 && self.K[x] as usize == x && self.stood(x, x);
        }
        let a = self.A.len();
        self.S[x] == 0 && left >= self.N && left < a && self.R[a - 1 - left] as usize == x && self.stood(x, x)
    }

    #[inline]
    fn removal_passes(&self, i: usize) -> bool {
        let a = self.A.len();
        let b = self.R[i] as usize;
        if i >= a - self.N {
            return b == 0;
        }
        let p = a - 1 - i;
        let last = self.W[p] as usize;
        if b >= a || self.A[b] as usize != p || self.K[b] as usize != last {
            return false;
        }
        let q = self.L[b] as usize;
        last == b || (last < a && q < p && self.stood(last, q))
    }
}

fn repeats(ids: &[u32]) -> bool {
    ids.iter().enumerate().fold(false, |hit, (i, id)| {
        hit | (*id != 0 && ids[i + 1..].iter().fold(false, |again, other| again | (other == id)))
    })
}

#[inline(never)]
pub fn find(table: &[u32], key: u64) -> Result<(u32, u32, u32), u32> {
    found(table, key).map(|(seat, server, draws, _)| (seat, server, draws))
}

#[inline(never)]
pub fn find_walks(table: &[u32], key: u64) -> Result<(u32, u32, u32, u32), u32> {
    found(table, key)
}

#[inline(always)]
fn found(table: &[u32], key: u64) -> Result<(u32, u32, u32, u32), u32> {
    let a = seats(table)?;
    let A = &table[2..2 + a];
    let K = &table[2 + a..2 + 2 * a];
    let mut b = (output(1, key) % a as u64) as usize;
    let (mut draws, mut walks) = (1, 0);
    while A[b] != 0 {
        let bound = A[b];
        let mut h = (output(b as u64 + 2, key) % u64::from(bound)) as usize;
        let mut left = a;
        while *A.get(h).ok_or(DAMAGED)? >= bound {
            if left == 0 {
                return Err(DAMAGED);
            }
            left -= 1;
            h = K[h] as usize;
        }
        b = h;
        draws += 1;
        walks += (a - left) as u32;
    }
    match table[2 + 5 * a + b] {
        0 => Err(DAMAGED),
        server => Ok((b as u32, server, draws, walks)),
    }
}

#[inline(never)]
pub fn audit(table: &[u32]) -> Result<(), u32> {
    let parts = Parts::of(table)?;
    let a = parts.A.len();
    if parts.N < 1 || parts.N > a {
        return Err(DAMAGED);
    }
    let passes = (0..a).fold(true, |ok, i| ok & parts.seat_passes(i) & parts.removal_passes(i));
    if passes && !repeats(parts.S) {
        Ok(())
    } else {
        Err(DAMAGED)
    }
}

/// The stores of taking out the seat b, in a table of a seats.
fn take_out_seat(table: &mut [u32], a: usize, b: usize) {
    let N = table[1] as usize - 1;
    let (head, parts) = table.split_at_mut(2);
    let (A, rest) = parts.split_at_mut(a);
    let (K, rest) = rest.split_at_mut(a);
    let (W, rest) = rest.split_at_mut(a);
    let (L, rest) = rest.split_at_mut(a);
    let (R, S) = rest.split_at_mut(a);
    head[1] = N as u32;
    R[a - N - 1] = b as u32;
    A[b] = N as u32;
    let (last, place) = (W[N], L[b]);
    K[b] = last;
    W[place as usize] = last;
    L[last as usize] = place;
    S[b] = 0;
}

#[inline(never)]
pub fn out(table: &mut [u32], id: u32) -> Result<u32, u32> {
    audit(table)?;
    if id == 0 {
        return Err(ID);
    }
    let a = table[0] as usize;
    let b = table[2 + 5 * a..].iter().position(|server| *server == id).ok_or(ABSENT)?;
    if table[1] == 1 {
        return Err(LAST);
    }
    take_out_seat(table, a, b);
    Ok(b as u32)
}

/// Takes out an id that is seated in a table that is sound.
pub fn out_unaudited(table: &mut [u32], id: u32) {
    let a = table[0] as usize;
    let b = table[2 + 5 * a..].iter().position(|server| *server == id).expect("seated");
    take_out_seat(table, a, b);
}

#[inline(never)]
pub fn seat(table: &mut [u32], id: u32) -> Result<u32, u32> {
    audit(table)?;
    if id == 0 {
        return Err(ID);
    }
    let a = table[0] as usize;
    let N = table[1] as usize;
    if table[2 + 5 * a..].contains(&id) {
        return Err(TWICE);
    }
    if N == a {
        return Err(FULL);
    }
    let (head, parts) = table.split_at_mut(2);
    let (A, rest) = parts.split_at_mut(a);
    let (K, rest) = rest.split_at_mut(a);
    let (W, rest) = rest.split_at_mut(a);
    let (L, rest) = rest.split_at_mut(a);
    let (R, S) = rest.split_at_mut(a);
    let b = std::mem::take(&mut R[a - N - 1]) as usize;
    A[b] = 0;
    L[W[N] as usize] = N as u32;
    W[L[b] as usize] = b as u32;
    K[b] = b as u32;
    head[1] += 1;
    S[b] = id;
    Ok(b as u32)
}

const HEAD: [u8; 2] = [0x41, 0x53];
const OUT: [u8; 2] = [0x4F, 0x55];
const IN: [u8; 2] = [0x49, 0x4E];

fn record_of(parts: &Parts, record: &mut [u8]) {
    let removals = parts.A.len() - parts.N;
    let (head, rest) = record.split_at_mut(6);
    head[..2].copy_from_slice(&HEAD);
    head[2..4].copy_from_slice(&(parts.A.len() as u16).to_be_bytes());
    head[4..].copy_from_slice(&(parts.N as u16).to_be_bytes());
    let (outs, ins) = rest.split_at_mut(4 * removals);
    for (bytes, b) in outs.chunks_exact_mut(4).zip(parts.R) {
        bytes[..2].copy_from_slice(&OUT);
        bytes[2..].copy_from_slice(&(*b as u16).to_be_bytes());
    }
    let used = parts.S.iter().enumerate().filter(|(_, server)| **server != 0);
    for (bytes, (b, server)) in ins.chunks_exact_mut(8).zip(used) {
        bytes[..2].copy_from_slice(&IN);
        bytes[2..4].copy_from_slice(&(b as u16).to_be_bytes());
        bytes[4..].copy_from_slice(&server.to_be_bytes());
    }
}

#[inline(never)]
pub fn save(table: &[u32], record: &mut [u8]) -> Result<usize, u32> {
    audit(table)?;
    let parts = Parts::of(table)?;
    let length = steamacorn::record_bytes(parts.A.len(), parts.N);
    record_of(&parts, record.get_mut(..length).ok_or(ROOM)?);
    Ok(length)
}

fn two(bytes: &[u8]) -> usize {
    usize::from(u16::from_be_bytes([bytes[0], bytes[1]]))
}

fn four(bytes: &[u8]) -> u32 {
    u32::from_be_bytes([bytes[0], bytes[1], bytes[2], bytes[3]])
}

/// The removals and the seats in use of a record, if it is one: every seat once, those in use ascending, the ids other
/// than 0 and distinct.
fn record_parts(record: &[u8]) -> Option<(usize, &[u8], &[u8])> {
    if record.len() < 6 || record[..2] != HEAD {
        return None;
    }
    let (a, N) = (two(&record[2..]), two(&record[4..]));
    let most = MOST_SEATS as usize;
    if a < 1 || a > most || N < 1 || N > a || record.len() != steamacorn::record_bytes(a, N) {
        return None;
    }
    let (outs, ins) = record[6..].split_at(4 * (a - N));
    let mut seen = [false; MOST_SEATS as usize];
    for bytes in outs.chunks_exact(4) {
        let b = two(&bytes[2..]);
        if bytes[..2] != OUT || b >= a || std::mem::replace(&mut seen[b], true) {
            return None;
        }
    }
    let mut ids = Vec::with_capacity(N);
    let mut next = 0;
    for bytes in ins.chunks_exact(8) {
        let b = two(&bytes[2..]);
        let id = four(&bytes[4..]);
        if bytes[..2] != IN || b >= a || b < next || seen[b] || id == 0 {
            return None;
        }
        next = b + 1;
        ids.push(id);
    }
    if repeats(&ids) {
        None
    } else {
        Some((a, outs, ins))
    }
}

#[inline(never)]
pub fn load(table: &mut [u32], record: &[u8]) -> Result<u32, u32> {
    let (a, outs, ins) = record_parts(record).ok_or(FORM)?;
    if table.len() != words(a) {
        return Err(SIZE);
    }
    let (head, parts) = table.split_at_mut(2);
    head.fill(a as u32);
    parts.fill(0);
    parts[a..4 * a].chunks_exact_mut(a).for_each(|part| (0..).zip(part).for_each(|(b, word)| *word = b));
    outs.chunks_exact(4).for_each(|bytes| take_out_seat(table, a, two(&bytes[2..])));
    let S = &mut table[2 + 5 * a..];
    ins.chunks_exact(8).for_each(|bytes| S[two(&bytes[2..])] = four(&bytes[4..]));
    Ok((ins.len() / 8) as u32)
}

/// So many bytes from `at` on.
#[inline]
fn bytes_at<const N: usize>(packet: &[u8], at: usize) -> Option<[u8; N]> {
    packet.get(at..at + N)?.try_into().ok()
}

/// The key of a packet, where it keeps the rules.
#[inline]
fn made(packet: &[u8]) -> Option<u64> {
    let two_at = |at| bytes_at(packet, at).map(|bytes| usize::from(u16::from_be_bytes(bytes)));
    let after = |key: u64, at| Some(output(1, key ^ u64::from_be_bytes(bytes_at(packet, at)?)));
    let (key, protocol, header, total, fragment) = match packet.first()? >> 4 {
        4 => {
            let fixed: [u8; 20] = bytes_at(packet, 0)?;
            let header = usize::from(fixed[0] % 16) * 4;
            if header < 20 || two_at(2)? < header {
                return None;
            }
            (after(0, 12)?, fixed[9], header, two_at(2)?, two_at(6)? % 0x4000 != 0)
        }
        6 => {
            let fixed: [u8; 40] = bytes_at(packet, 0)?;
            let source = after(after(0, 8)?, 16)?;
            (after(after(source, 24)?, 32)?, fixed[6], 40, 40 + two_at(4)?, false)
        }
        _ => return None,
    };
    let packet = packet.get(..total)?;
    let ports = match protocol {
        6 | 17 if !fragment => u32::from_be_bytes(bytes_at(packet, header)?),
        _ => 0,
    };
    Some(output(1, key ^ (u64::from(protocol) << 32 | u64::from(ports))))
}

pub fn key(packet: &[u8], key: &mut [u8]) -> Result<(), u32> {
    let key: &mut [u8; 8] = key.try_into().map_err(|_| ROOM)?;
    *key = made(packet).ok_or(PACKET)?.to_be_bytes();
    Ok(())
}
