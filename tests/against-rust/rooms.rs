//! Lengths of the second buffer, which is lent for what is told of each step: shares or grounds.

use crate::bytes::*;
use crate::gen::Rng;

/// A length that does for what is needed.
pub fn enough(rng: &mut Rng, need: usize) -> usize {
    need + if rng.percent(50) { 0 } else { 1 + rng.below(40) }
}

/// A length that doesn't do for n steps of so many bytes each; there must be a step.
pub fn too_few(rng: &mut Rng, each: usize, n: usize) -> usize {
    let need = each * n;
    match rng.below(4) {
        0 => 0,
        1 => need - each,
        2 => rng.below(need),
        _ => need - 1,
    }
}

/// One in ten is too short.
pub fn any(rng: &mut Rng, each: usize, n: usize) -> usize {
    if n > 0 && rng.percent(10) { too_few(rng, each, n) } else { enough(rng, each * n) }
}

/// The number of records that a case is lent bytes for, whatever its header says.
pub fn steps_of(case: &Case) -> usize {
    case.sheet.len().saturating_sub(HEADER) / RECORD
}

pub fn seed_of(name: &str) -> u64 {
    name.bytes().fold(0, |sum: u64, byte| sum.wrapping_mul(257).wrapping_add(byte.into()))
}

/// What is lent for the grounds of a case that has nothing of its own for them; it follows from the case's name.
pub fn grounds_of_name(name: &str, case: &Case) -> Vec<u8> {
    let mut rng = Rng::new(!seed_of(name));
    let len = any(&mut rng, GROUNDS, steps_of(case));
    rng.bytes(len)
}
