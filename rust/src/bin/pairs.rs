//! Prints what `crates/vectors` has to print: a line `k n output` for the published outputs and for each pair of edges,
//! then a line `block sum xor` for each of 128 blocks of 1,024 pairs.
use steamacorn::model::splitmix::output;

/// The numbers within 1 of 0, 1, 2^32 - 1, 2^32, 2^63 and 2^64 - 1, in order, none twice.
fn edges() -> Vec<u64> {
    let middles: [i128; 6] = [0, 1, (1 << 32) - 1, 1 << 32, 1 << 63, (1 << 64) - 1];
    let near = middles.iter().flat_map(|m| [m - 1, *m, m + 1]);
    let mut edges: Vec<u64> = near.filter_map(|x| u64::try_from(x).ok()).collect();
    edges.sort_unstable();
    edges.dedup();
    edges
}

/// The numbers that follow `start` in Knuth's MMIX generator.
fn followers(start: u64) -> impl Iterator<Item = u64> {
    let next = |x: &u64| Some(((*x as u128 * 6364136223846793005 + 1442695040888963407) % (1 << 64)) as u64);
    std::iter::successors(Some(start), next).skip(1)
}

/// The outputs of a block: k and n are neighbours in its numbers, and n is divided by 2^(block mod 64).
fn outputs(block: u64) -> Vec<u64> {
    let numbers: Vec<u64> = followers(block).take(2 * 1024).collect();
    numbers.chunks(2).map(|pair| output(pair[1] / (1 << (block % 64)), pair[0])).collect()
}

fn main() {
    for k in [1234567, 0] {
        for n in 1..=5 {
            println!("{} {} {}", k, n, output(n, k));
        }
    }
    for k in edges() {
        for n in edges() {
            println!("{} {} {}", k, n, output(n, k));
        }
    }
    for block in 0..128 {
        let outputs = outputs(block);
        let sum = outputs.iter().map(|z| *z as u128).sum::<u128>() % (1 << 64);
        let xor = outputs.iter().fold(0, |x, z| x ^ z);
        println!("{} {} {}", block, sum, xor);
    }
}
