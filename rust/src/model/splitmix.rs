//! Document 01, "Finding a key", its first paragraph.

/// Output `n` of SplitMix64 started at `k`. Each number is below 2^64, so no product of two overflows 128 bits.
pub fn output(n: u64, k: u64) -> u64 {
    let modulus = 1u128 << 64;
    let mut z = (k as u128 + n as u128 * 0x9e3779b97f4a7c15) % modulus;
    z = (z ^ (z / (1 << 30))) * 0xbf58476d1ce4e5b9 % modulus;
    z = (z ^ (z / (1 << 27))) * 0x94d049bb133111eb % modulus;
    (z ^ (z / (1 << 31))) as u64
}

#[cfg(test)]
mod tests {
    use super::output;

    fn first_five(k: u64) -> Vec<u64> {
        (1..=5).map(|n| output(n, k)).collect()
    }

    #[test]
    fn published_outputs_from_1234567() {
        let published =
            [6457827717110365317, 3203168211198807973, 9817491932198370423, 4593380528125082431, 16408922859458223821];
        assert_eq!(first_five(1234567), published);
    }

    #[test]
    fn published_outputs_from_0() {
        let published =
            [0xe220a8397b1dcdaf, 0x6e789e6aa1b965f4, 0x06c45d188009454f, 0xf88bb8a8724c81ec, 0x1b39896a51a8749b];
        assert_eq!(first_five(0), published);
    }
}
