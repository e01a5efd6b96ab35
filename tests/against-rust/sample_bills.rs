//! The sample's cases under a tariff, which stand behind all other version 1 runs without grounds.

use crate::bills::{self, MILLION};
use crate::bytes::*;
use crate::gen::{Memories, Plan, Rng};
use crate::notation;
use crate::refusals::{self, Short};
use crate::rooms;
use crate::sample::{few, prefetch_on, random_list, small_enough};
use crate::sweeps::one_of_each;
use crate::tariffs::TARIFFS;

pub fn add(plans: &mut Vec<Plan>) {
    by_hand(plans);
    rates(plans);
    lengths(plans);
    lists(plans);
    refused(plans);
    longest(plans);
}

/// The lists of tariffs.rs, but for those of 4,096 steps, which take much room; of those of one step two rates stand for all.
fn by_hand(plans: &mut Vec<Plan>) {
    for (input, _) in TARIFFS {
        let case = notation::case_of(input).unwrap();
        let records = records_of(&case.sheet);
        let rate = case.tariff.unwrap().rate;
        let taken = if records.len() == 1 { [1, 307].contains(&rate) } else { records.len() < 10 };
        if taken {
            let memories = Memories { lengths: case.lengths, bios: 0, rom: 0 };
            plans.push(Plan::accepted(Board::default(), &memories, &records).billed(SHARE * records.len(), rate, 0));
        }
    }
}

/// Rates at and past both ends, on a list of all kinds and on none.
fn rates(plans: &mut Vec<Plan>) {
    for rate in [0, 1, MILLION - 1, MILLION, MILLION + 1, u32::MAX] {
        let number = if (1..=MILLION).contains(&rate) { 0 } else { 8 };
        let records = one_of_each();
        plans.push(Plan::accepted(prefetch_on(), &few(), &records).billed(SHARE * records.len(), rate, number));
    }
    for rate in [0, MILLION, MILLION + 1] {
        let number = if rate == MILLION { 0 } else { 8 };
        plans.push(Plan::accepted(prefetch_on(), &few(), &[]).billed(3, rate, number));
    }
}

/// Shares around the length that they need, for no step, for one and for three; then answers too short beside good shares.
fn lengths(plans: &mut Vec<Plan>) {
    let each = one_of_each();
    let plan = |n: usize| Plan::accepted(prefetch_on(), &few(), &each[6..6 + n]);
    plans.push(plan(0).billed(0, 307, 0));
    for (n, length) in [(1, 0), (1, 7), (1, 8), (1, 9), (3, 16), (3, 23), (3, 24), (3, 25)] {
        plans.push(plan(n).billed(length, 307, if length < SHARE * n { 6 } else { 0 }));
    }
    let mut short = plan(3).billed(24, 307, 6);
    short.answers_len -= 1;
    short.meant = Some(6);
    plans.push(short);
}

/// Random lists, at any place, along code and of rows of accesses, and some at the edges of the rounding.
fn lists(plans: &mut Vec<Plan>) {
    for seed in 0..9 {
        let mut rng = Rng::new(30_000 + seed);
        let plan = random_list(&mut rng, seed / 3, 40);
        let (rate, length) = (bills::good_rate(&mut rng), rooms::enough(&mut rng, SHARE * 40));
        plans.push(plan.billed(length, rate, 0));
    }
    for rate in [1, 307, 333_333, MILLION - 1] {
        let records = bills::edges(&mut Rng::new(rate.into()), rate, 60);
        plans.push(Plan::accepted(Board::default(), &few(), &records).billed(SHARE * 60 + 5, rate, 0));
    }
}

/// Each refusal alone and each two of them, 6 by short answers and by short shares.
fn refused(plans: &mut Vec<Plan>) {
    let mut push = |numbers: &[u32], short: Short| {
        let seed = numbers.iter().fold(40_000, |sum, &number| 10 * sum + u64::from(number));
        plans.push(small_enough(300, seed, |rng| refusals::under_tariff(rng, Version::One, numbers, short)));
    };
    for first in 1..=8 {
        push(&[first], Short::Second);
        for second in first + 1..=8 {
            push(&[first, second], Short::Second);
        }
    }
    push(&[6], Short::Both);
    push(&[6, 7], Short::Answers);
    push(&[6, 8], Short::Answers);
    push(&[6, 7, 8], Short::Second);
}

/// Sheets of 4,096 records: the highest total there is, at the highest rate but one; and all kinds, with the longest shares lent.
fn longest(plans: &mut Vec<Plan>) {
    let idle = vec![Record::new(IDLE, 0, 0, u32::MAX); MOST_RECORDS];
    plans.push(Plan::accepted(Board::default(), &few(), &idle).billed(SHARE * MOST_RECORDS, MILLION - 1, 0));
    let each: Vec<Record> = one_of_each().into_iter().cycle().take(MOST_RECORDS).collect();
    plans.push(Plan::accepted(prefetch_on(), &few(), &each).billed(SHARE * (MOST_RECORDS + 1), 98_765, 0));
}
