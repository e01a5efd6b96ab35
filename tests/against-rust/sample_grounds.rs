//! The sample's version 1 runs with grounds, which stand behind all other cases of that version.

use crate::boards::CODE_EDGES;
use crate::bytes::*;
use crate::gen::{Plan, Rng};
use crate::ground_lists::{self, LISTS};
use crate::ground_sweeps::{buffer, fetch_plan, length_plan};
use crate::notation;
use crate::refusals::{self, Short};
use crate::rooms;
use crate::sample::{few, prefetch_on, random_list, small_enough};
use crate::sweeps::one_of_each;

pub fn plans() -> Vec<Plan> {
    let mut plans = Vec::new();
    by_hand(&mut plans);
    lists(&mut plans);
    fetches(&mut plans);
    lengths(&mut plans);
    refused(&mut plans);
    longest(&mut plans);
    plans
}

/// The accepted lists of ground_lists.rs, but for that of 4,096 steps, which takes much room.
fn by_hand(plans: &mut Vec<Plan>) {
    for (list, claims) in LISTS {
        let case = notation::case_of(&ground_lists::input(list)).unwrap();
        let records = records_of(&case.sheet);
        if !claims.starts_with("refused") && records.len() < MOST_RECORDS {
            let plan = Plan::accepted(Board::of(&case.board), &few(), &records);
            plans.push(plan.grounded(case.grounds.unwrap().len(), 0));
        }
    }
}

/// Random lists, at any place, along code and of rows of accesses.
fn lists(plans: &mut Vec<Plan>) {
    for seed in 0..9 {
        let mut rng = Rng::new(60_000 + seed);
        let plan = random_list(&mut rng, seed / 3, 30);
        plans.push(plan.grounded(rooms::enough(&mut rng, GROUNDS * 30), 0));
    }
}

/// ARM code across each edge, with the flag and without by turns: over two halfwords that begin with it, and over one at the
/// edge.
fn fetches(plans: &mut Vec<Plan>) {
    for (i, edge) in CODE_EDGES.into_iter().enumerate() {
        let (waitcnt, force) = ([0x4000, 0x4240, 0x4008][i % 3], i as u8 % 2);
        let boards = [buffer(waitcnt, edge - 2, 2), buffer(waitcnt, edge, 1)];
        let sound = boards.into_iter().filter(Board::sound);
        plans.extend(sound.map(|board| fetch_plan(Board { force, ..board }, (4, 0xE591_0000), edge - 2)));
    }
}

/// What is lent around the length that is needed, for no step, for one and for three; then answers too short beside it.
fn lengths(plans: &mut Vec<Plan>) {
    let each = one_of_each();
    for (n, length) in [(0, 0), (0, 5), (1, 0), (1, 31), (1, 32), (1, 33), (3, 64), (3, 95), (3, 96), (3, 97)] {
        plans.push(length_plan(&each[9..9 + n], length, 0));
    }
    plans.push(length_plan(&each[9..12], 3 * GROUNDS, 1));
}

/// Each refusal alone and each two of them, 6 by short grounds, by short answers and by both.
fn refused(plans: &mut Vec<Plan>) {
    let mut push = |numbers: &[u32], short: Short| {
        let seed = numbers.iter().fold(70_000, |sum, &number| 10 * sum + u64::from(number));
        plans.push(small_enough(200, seed, |rng| refusals::with_grounds(rng, Version::One, numbers, short)));
    };
    for first in 1..=7 {
        push(&[first], Short::Second);
        for second in first + 1..=7 {
            push(&[first, second], Short::Second);
        }
    }
    push(&[6], Short::Both);
    push(&[6, 7], Short::Answers);
}

/// A sheet of 4,096 records of all kinds, with the most lent for its grounds.
fn longest(plans: &mut Vec<Plan>) {
    let each: Vec<Record> = one_of_each().into_iter().cycle().take(MOST_RECORDS).collect();
    plans.push(Plan::accepted(prefetch_on(), &few(), &each).grounded(GROUNDS * (MOST_RECORDS + 1), 0));
}
