//! Millions of keys, on sound tables and on damaged ones.
use crate::compare::{Comparison, Same};
use crate::library::Library;
use crate::random::Random;
use std::collections::BTreeMap;

/// Seats, servers, keys.
const SOUND: [(usize, usize, u64); 9] = [
    (1, 1, 10_000),
    (2, 1, 10_000),
    (7, 2, 100_000),
    (8, 7, 100_000),
    (64, 10, 200_000),
    (64, 63, 100_000),
    (2048, 1, 50_000),
    (2048, 1000, 100_000),
    (2048, 2048, 100_000),
];

pub fn compare(library: &dyn Library) -> Same<u64> {
    let mut comparison = Comparison::new(library);
    let mut random = Random::new(3);
    shares(&mut comparison, &mut random)?;
    for (a, used, keys) in SOUND {
        let table = random.table_with(a, used);
        let out = table.removals.len() as u64;
        let small = 0..keys / 2;
        let large = (0..keys / 2).map(|_| random.number());
        comparison.find(&table.words(), small.chain(large).chain([u64::MAX, 1 << 63]), |answer| {
            let [_, _, draws, walks] = answer.values;
            assert!(answer.number == 0 && draws <= 1 + out, "the model's draws are 1 to {}", 1 + out);
            assert!(walks <= (draws - 1) * out, "the model's walks are at most {} a redraw", out);
        })?;
    }
    damaged(&mut comparison, &mut random)?;
    Ok(comparison.calls)
}

/// 10^6 keys on sixteen seats with ten servers: how many each server gets.
fn shares(comparison: &mut Comparison, random: &mut Random) -> Same<()> {
    let table = random.table_with(16, 10);
    let keys: Vec<u64> = (0..1_000_000).map(|_| random.number()).collect();
    let mut shares = BTreeMap::new();
    comparison.find(&table.words(), keys.into_iter(), |answer| *shares.entry(answer.values[1]).or_insert(0u32) += 1)?;
    for (server, keys) in &shares {
        println!("server {}: {} of 1000000 keys", server, keys);
    }
    assert_eq!(shares.len(), 10);
    Ok(())
}

/// Tables with a few wild words in A, K and S, where a lookup may go astray or round.
fn damaged(comparison: &mut Comparison, random: &mut Random) -> Same<()> {
    for round in 0..3000 {
        let a = 1 + round % 60;
        let mut words = random.table(a).words();
        for _ in 0..1 + random.below(2 * a) {
            let part = random.one_of(&[0, 0, 1, 1, 1, 5]);
            let place = 2 + part * a + random.below(a);
            words[place] = if random.below(20) == 0 { random.word() } else { random.below(a + 1) as u32 };
        }
        let keys: Vec<u64> = (0..200).map(|_| random.number()).collect();
        comparison.find(&words, keys.into_iter(), |_| ())?;
    }
    // the longest walks: every seat leads to the next one, and each is out of use
    let mut words = random.table(2048).words();
    for b in 0..2048 {
        words[2 + b] = 1 + (b as u32 * 7) % 2048;
        words[2 + 2048 + b] = (b as u32 + 1) % 2048;
    }
    comparison.find(&words, 0..2000, |_| ())
}
