//! Tariffs for the cases (docs/RULES.md, "The charge and the shares"): rates, good and bad, and lists of steps whose totals lie
//! where the rounding changes.

use crate::bytes::*;
use crate::gen::{Memories, Plan, Rng};
use crate::rooms;

/// So many cycles cost the rate, in cents; the highest rate is as much.
pub const MILLION: u32 = 1_000_000;

const GOOD: [u32; 5] = [1, 2, 307, MILLION - 1, MILLION];
const BAD: [u32; 4] = [0, MILLION + 1, 1 << 31, u32::MAX];

/// Rates that divide a million, so that every cent is met exactly.
const DIVISORS: [u32; 8] = [4, 10, 64, 625, 15_625, 125_000, 250_000, 500_000];

pub fn good_rate(rng: &mut Rng) -> u32 {
    match rng.below(10) {
        0..=4 => rng.pick(&GOOD),
        5 | 6 => rng.pick(&DIVISORS),
        _ => 1 + rng.below(MILLION as usize) as u32,
    }
}

pub fn bad_rate(rng: &mut Rng) -> u32 {
    match rng.below(4) {
        0..=2 => rng.pick(&BAD),
        _ => rng.u32().max(MILLION + 1),
    }
}

/// The tariff for a case that has none of its own; it follows from the case's name. One in five is refused, if the run isn't.
pub fn of_name(name: &str, case: &Case) -> Tariff {
    let mut rng = Rng::new(rooms::seed_of(name));
    let rate = if rng.percent(10) { bad_rate(&mut rng) } else { good_rate(&mut rng) };
    let len = rooms::any(&mut rng, SHARE, rooms::steps_of(case));
    Tariff { shares: rng.bytes(len), rate }
}

// ---- lists at the edges of the rounding ----

/// A random list of IDLE steps under a tariff, with steps of no cycles between.
pub fn random(seed: u64) -> (Plan, Case) {
    let mut rng = Rng::new(seed);
    let n = if rng.percent(2) { rng.below(MOST_RECORDS + 1) } else { rng.below(61) };
    let rate = good_rate(&mut rng);
    let records = edges(&mut rng, rate, n);
    let none = Memories { lengths: [0; 7], bios: 0, rom: 0 };
    let plan = Plan::accepted(Board::default(), &none, &records).billed(rooms::enough(&mut rng, SHARE * n), rate, 0);
    let case = plan.random_case(&mut rng);
    (plan, case)
}

/// n steps, most of which carry the total to the last cycle that a whole number of cents pays for, or to one before or after.
pub fn edges(rng: &mut Rng, rate: u32, n: usize) -> Vec<Record> {
    let (rate, million) = (u128::from(rate), u128::from(MILLION));
    let mut total = 0u128;
    let mut step = || {
        if rng.percent(10) {
            return Record::new(LATCH, 0, 0, rng.u32());
        }
        let most = u128::from(u32::MAX) * rate / million;
        let cents = total * rate / million + u128::from(rng.next()) % 3.max(rng.pick(&[3, 3, 100, most]));
        let edge = cents * million / rate + rng.below(3) as u128;
        let cycles = edge.saturating_sub(total + 1).min(u32::MAX.into());
        total += cycles;
        Record::new(IDLE, 0, 0, cycles as u32)
    };
    (0..n).map(|_| step()).collect()
}
