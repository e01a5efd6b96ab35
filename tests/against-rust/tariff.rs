//! What a tariff makes of a run: a second reading of the rule (docs/RULES.md, "The charge and the shares"), apart from the
//! library. The Rust has no tariff, so the run itself is the Rust's as it is without one (machine.rs), and this adds charge,
//! shares and refusals.

use crate::bytes::*;
use crate::machine::{refusal_with_second, refused};

/// The rate is in cents per so many cycles; it is also the highest rate.
const MILLION: u128 = 1_000_000;

/// What the case gives under the tariff, from what it gives without one.
pub fn under(case: &Case, tariff: &Tariff, plain: &Outcome) -> Outcome {
    if let Some(refusal) = refusal(case, tariff, &plain.report) {
        return refused(case, refusal, &tariff.shares);
    }
    let mut shares = tariff.shares.clone();
    let (mut cycles, mut charge) = (0, 0);
    for (k, answer) in answers_of(case, plain).enumerate() {
        cycles += u128::from(answer.cycles);
        let before = charge;
        charge = charge_of(cycles, tariff.rate);
        shares[SHARE * k..SHARE * (k + 1)].copy_from_slice(&(charge - before).to_le_bytes());
    }
    Outcome { report: Bill { charge, ..plain.report }, second: shares, ..plain.clone() }
}

/// The first condition that is met, as (number, index): a run's in their order, short shares beside short answers, and the
/// rate after them all (RULES, "What a run under a tariff is refused with").
fn refusal(case: &Case, tariff: &Tariff, plain: &Bill) -> Option<(u32, u32)> {
    let rate = u128::from(tariff.rate);
    let bad_rate = (rate == 0 || rate > MILLION).then_some((8, 0));
    refusal_with_second(case, plain, &tariff.shares, SHARE).or(bad_rate)
}

/// The answers of an accepted run.
fn answers_of<'a>(case: &Case, outcome: &'a Outcome) -> impl Iterator<Item = Answer> + 'a {
    outcome.answers.chunks_exact(ANSWER).map(Answer::of).take(record_count(&case.sheet))
}

/// Cycles × rate / 1,000,000 rounded up: the least number of cents that pays for so many cycles. It is sought, not divided out.
fn charge_of(cycles: u128, rate: u32) -> u64 {
    let pays = |cents: u128| cents * MILLION >= cycles * u128::from(rate);
    // a cycle costs at most a cent, so that this pays
    let (mut least, mut enough) = (0, cycles);
    while least < enough {
        let middle = (least + enough) / 2;
        if pays(middle) {
            enough = middle;
        } else {
            least = middle + 1;
        }
    }
    least as u64
}

// ---- what must hold of the library's bill by itself ----

/// What is wrong with an accepted run's bill, whatever the second reading says: the shares don't add up to the charge, or a step
/// pays a whole cent more or less than its cycles cost.
pub fn unfair(case: &Case, tariff: &Tariff, outcome: &Outcome) -> Option<String> {
    if outcome.report.number != 0 {
        return None;
    }
    let rate = u128::from(tariff.rate);
    let mut sum = 0;
    for (k, (answer, share)) in answers_of(case, outcome).zip(shares_of(&outcome.second)).enumerate() {
        let (paid, cost) = (u128::from(share) * MILLION, u128::from(answer.cycles) * rate);
        if paid >= cost + MILLION || cost >= paid + MILLION {
            return Some(format!("step {k} has {} cycles at rate {rate}, and its share is {share}", answer.cycles));
        }
        sum += u128::from(share);
    }
    let charge = u128::from(outcome.report.charge);
    (sum != charge).then(|| format!("the shares add up to {sum}, and the charge is {charge}"))
}

/// The shares in a buffer, as many as it holds whole.
pub fn shares_of(bytes: &[u8]) -> impl Iterator<Item = u64> + '_ {
    bytes.chunks_exact(SHARE).map(|share| u64_at(share, 0))
}
