//! Times in one run, side by side: the candidates take turns, and each one's shortest time counts.
use std::time::{Duration, Instant};

const ONE_TURN: Duration = Duration::from_millis(2);
const FEWEST_TURNS: u32 = 5;

/// The nanoseconds that one call of each candidate takes. A unit makes one or more calls, as many for each candidate.
pub fn side_by_side(units: &mut [&mut dyn FnMut()], calls: u32, budget: Duration) -> Vec<f64> {
    let began = Instant::now();
    let repeats: Vec<u32> = units.iter_mut().map(|unit| repeats_of(unit)).collect();
    let mut shortest = vec![f64::INFINITY; units.len()];
    let mut turns = 0;
    while turns < FEWEST_TURNS || began.elapsed() < budget {
        for ((unit, repeats), least) in units.iter_mut().zip(&repeats).zip(&mut shortest) {
            let turn = Instant::now();
            (0..*repeats).for_each(|_| unit());
            let each = turn.elapsed().as_nanos() as f64 / f64::from(*repeats) / f64::from(calls);
            *least = least.min(each);
        }
        turns += 1;
    }
    shortest
}

/// How often a unit is repeated, so that a turn is long enough for the clock.
fn repeats_of(unit: &mut dyn FnMut()) -> u32 {
    unit();
    let once = Instant::now();
    unit();
    (ONE_TURN.as_nanos() / once.elapsed().as_nanos().max(1)).clamp(1, 100_000) as u32
}

/// Three digits and a unit.
pub fn time(nanoseconds: f64) -> String {
    let (number, unit) = match nanoseconds {
        n if n < 1e3 => (n, "ns"),
        n if n < 1e6 => (n / 1e3, "µs"),
        n => (n / 1e6, "ms"),
    };
    let digits = if number < 10.0 {
        2
    } else if number < 100.0 {
        1
    } else {
        0
    };
    format!("{:.*} {}", digits, number, unit)
}
