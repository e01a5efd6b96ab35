//! The sample's previews, which stand behind the version 1 runs. They lend no memories.

use crate::boards;
use crate::bytes::*;
use crate::gen::{Plan, Rng};
use crate::notation;
use crate::previews::PREVIEWS;
use crate::refusals;
use crate::sample::{few, prefetch_on, random_list, small_enough};
use crate::steps::Steps;
use crate::sweeps::one_of_each;

pub fn plans() -> Vec<Plan> {
    let mut plans = Vec::new();
    by_hand(&mut plans);
    lists(&mut plans);
    single_boards(&mut plans);
    refused(&mut plans);
    boards_refused(&mut plans);
    list_lengths(&mut plans);
    plans.into_iter().map(Plan::without_memories).collect()
}

/// The lists of previews.rs that the run accepts, but for that of 4,096 steps, which takes much room.
fn by_hand(plans: &mut Vec<Plan>) {
    for (input, run, _) in PREVIEWS {
        let case = notation::case_of(input).unwrap();
        let records = records_of(&case.sheet);
        if !run.starts_with("refused") && records.len() < MOST_RECORDS {
            let mut plan = Plan::accepted(Board::of(&case.board), &few(), &records);
            plan.answers_len = case.answers.len();
            plans.push(plan);
        }
    }
}

/// Random lists, at any place, along code and of rows of accesses, with answers lent a little longer at times.
fn lists(plans: &mut Vec<Plan>) {
    for seed in 0..9 {
        let mut rng = Rng::new(50_000 + seed);
        let mut plan = random_list(&mut rng, seed / 3, 40);
        plan.answers_len += rng.below(14);
        plans.push(plan);
    }
}

/// Sound boards that no list of steps leads to, and some with a previous access, with few steps each.
fn single_boards(plans: &mut Vec<Plan>) {
    for (i, board) in [boards::unreached(), boards::accessed()].concat().into_iter().enumerate() {
        let mut rng = Rng::new(51_000 + i as u64);
        let mut records = vec![Record::new(READ, 2, board.prev_end().unwrap_or(0), 0)];
        records.push(Record::new(IDLE, 0, 0, rng.below(12) as u32));
        records.extend(Steps::new(&mut rng, &few()).code_run(8, &board));
        plans.push(Plan::accepted(board, &few(), &records));
    }
}

/// Each of the six refusals alone and each two of them.
fn refused(plans: &mut Vec<Plan>) {
    const SIX: [u32; 6] = [1, 2, 3, 5, 6, 7];
    let mut push = |numbers: &[u32]| {
        let seed = numbers.iter().fold(52_000, |sum, &number| 10 * sum + u64::from(number));
        plans.push(small_enough(300, seed, |rng| refusals::with(rng, Version::One, numbers)));
    };
    for (i, &first) in SIX.iter().enumerate() {
        push(&[first]);
        SIX[i + 1..].iter().for_each(|&second| push(&[first, second]));
    }
}

/// Boards that aren't sound, in each of the ways, and boards of two other lengths.
fn boards_refused(plans: &mut Vec<Plan>) {
    let mut push = |board: Board, length: usize| {
        let mut plan = Plan::accepted(board, &few(), &one_of_each()[..1]);
        plan.board.resize(length, 0);
        plan.meant = Some(5);
        plans.push(plan);
    };
    for way in 0..boards::WAYS_TO_BREAK {
        push(boards::broken(&mut Rng::new(53_000 + way as u64), way), BOARD);
    }
    push(prefetch_on(), BOARD - 1);
    push(prefetch_on(), BOARD + 1);
}

/// No record, one, and 4,096 of all kinds.
fn list_lengths(plans: &mut Vec<Plan>) {
    for n in [0, 1, MOST_RECORDS] {
        let records: Vec<Record> = one_of_each().into_iter().cycle().take(n).collect();
        plans.push(Plan::accepted(prefetch_on(), &few(), &records));
    }
}
