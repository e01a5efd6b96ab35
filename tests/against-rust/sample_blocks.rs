//! The sample's version 2 sheets, which stand behind all others: runs, runs under a tariff, runs with grounds, and then
//! previews.

use crate::bills;
use crate::block_lists::{self, LISTS};
use crate::block_sweeps::{edge_plan, edges, one_of_eleven, plan_of, BLOCKS};
use crate::boards::{self, ROW_EDGES};
use crate::bytes::*;
use crate::gen::{Memories, Plan, Rng};
use crate::machine::{BIOS_SIZE, SIZES};
use crate::notation;
use crate::refusals::{self, Short, NO_WORDS};
use crate::rooms;
use crate::sample::{few, prefetch_on, random_list_in, small_enough};
use crate::steps::Steps;
use crate::sweeps::{ENDS, STARTS};

const TWO: Version = Version::Two;

/// Those of runs, at last the ones under a tariff and then those with grounds.
pub fn runs() -> Vec<Plan> {
    let mut plans = Vec::new();
    lists(&mut plans);
    single_boards(&mut plans);
    over_edges(&mut plans);
    over_ends(&mut plans);
    opcodes(&mut plans);
    versions(&mut plans);
    faulty_blocks(&mut plans);
    refused(&mut plans);
    longest(&mut plans);
    bills(&mut plans);
    with_grounds(&mut plans);
    plans
}

/// Random lists of the three sorts: so many of each, with so many steps.
fn random_lists(seed: u64, each: u64, steps: usize) -> impl Iterator<Item = (Plan, Rng)> {
    (0..3 * each).map(move |i| {
        let mut rng = Rng::new(seed + i);
        (random_list_in(TWO, &mut rng, i / each, steps), rng)
    })
}

fn lists(plans: &mut Vec<Plan>) {
    plans.extend(random_lists(80_000, 16, 40).map(|(plan, mut rng)| {
        let more = rng.below(14);
        Plan { answers_len: plan.answers_len + more, ..plan }
    }));
}

/// Sound boards that no list of steps leads to or that bring a previous access, with blocks of both kinds where it ended.
fn single_boards(plans: &mut Vec<Plan>) {
    for (i, board) in [boards::unreached(), boards::accessed()].concat().into_iter().enumerate() {
        let at = board.prev_end().unwrap_or(0x0600_0001);
        let mut records = vec![Record::new(BLOCK_READ, 4, at, 3), Record::new(BLOCK_WRITE, 4, at.wrapping_add(12), 16)];
        let mut rng = Rng::new(81_000 + i as u64);
        records.extend(Steps::in_version(TWO, &mut rng, &few()).code_run(6, &board));
        records.push(Record::new(BLOCK_WRITE, 4, 0x0500_0000, 1));
        records.push(Record::new(BLOCK_WRITE, 4, 0x0700_0000, 2));
        plans.push(plan_of(board, &few(), &records));
    }
}

/// Blocks over the edges of rows, of each number of words; and a short one over every edge, over full memories.
fn over_edges(plans: &mut Vec<Plan>) {
    for (i, edge) in ROW_EDGES.into_iter().enumerate() {
        let waitcnt = [0x0240, 0x0490][i % 2];
        plans.push(edge_plan(Board { waitcnt, ..Board::default() }, &few(), BLOCKS[i % 2], edge, 21));
    }
    let full = Memories { lengths: SIZES, bios: BIOS_SIZE, rom: 0x20040 };
    for kind in BLOCKS {
        let blocks = edges().into_iter().map(|edge| Record::new(kind, 4, edge.wrapping_sub(5), 3));
        plans.push(plan_of(Board::default(), &full, &blocks.collect::<Vec<_>>()));
    }
}

/// Blocks that store across the end of each memory, which is of each length modulo 4.
fn over_ends(plans: &mut Vec<Plan>) {
    for more in 0..4 {
        let lengths = ENDS[more % 3].map(|length| length + more);
        let memories = Memories { lengths, bios: 3 + more, rom: 5 + more };
        let counters = Board { vram: u64::MAX - 20, oam: u64::MAX - 21, palette: u64::MAX - 22, ..Board::default() };
        let blocks = STARTS.into_iter().flat_map(|(which, start)| {
            let end = start + lengths[which] as u32;
            [(9, 2), (13, 5), (2, 1)].map(|(below, words)| Record::new(BLOCK_WRITE, 4, end.wrapping_sub(below), words))
        });
        plans.push(plan_of(counters, &memories, &blocks.collect::<Vec<_>>()));
    }
}

/// Thumb opcodes around those by which the versions differ, in both versions: in ROM with the prefetch off and on, in IWRAM and in
/// EWRAM, with the pc changed and not.
fn opcodes(plans: &mut Vec<Plan>) {
    let off = Board::default();
    for (board, address) in [(off, 0x0800_0100), (prefetch_on(), 0x0800_0100), (off, 0x0300_0000), (off, 0x0200_0000)] {
        let opcodes = (0xB8..=0xBF).flat_map(|high: u32| [0x00, 0x01, 0xFF].map(|low| high << 8 | low));
        let records: Vec<Record> = opcodes
            .flat_map(|opcode| [0, 1].map(|flag| Record { flag, ..Record::new(INSTRUCTION, 2, address, opcode) }))
            .collect();
        plans.extend(VERSIONS.map(|version| Plan::accepted_in(version, board, &few(), &records)));
    }
}

/// Versions that there are and that there aren't, on a sheet with a block, which is a faulty record in version 1.
fn versions(plans: &mut Vec<Plan>) {
    for version in [0, 1, 2, 3, 4, 0x0100, 0x0101, 0x0102, 0x0200, 0x0201, 0x0202, 0x8002, 0xFFFF_u16] {
        let mut plan = plan_of(prefetch_on(), &few(), &one_of_eleven()[13..]);
        plan.sheet[3..5].copy_from_slice(&version.to_le_bytes());
        plan.meant = Some(match version {
            1 => 7,
            2 => 0,
            _ => 2,
        });
        plans.push(plan);
    }
}

/// A block of either kind with each of its fields wrong, and kinds that aren't there, as the third record of four; in version 1 a
/// good block too.
fn faulty_blocks(plans: &mut Vec<Plan>) {
    for kind in BLOCKS {
        let block = Record::new(kind, 4, 0x0200_0003, 16);
        plans.push(third_record(Version::One, block));
        plans.push(third_record(TWO, block));
        plans.extend([0, 1, 2, 3, 8, 255].map(|size| third_record(TWO, Record { size, ..block })));
        plans.extend([1, 2].map(|flag| third_record(TWO, Record { flag, ..block })));
        plans.push(third_record(TWO, Record { zero: 1, ..block }));
        plans.extend(NO_WORDS.map(|value| third_record(TWO, Record { value, ..block })));
        plans.extend([0, 12, 99, 255].map(|kind| third_record(TWO, Record { kind, ..block })));
    }
}

fn third_record(version: Version, record: Record) -> Plan {
    let idle = Record::new(IDLE, 0, 0, 1);
    let plan = Plan::accepted_in(version, prefetch_on(), &few(), &[idle, idle, record, idle]);
    Plan { meant: Some(if record.faulty_in(version) { 7 } else { 0 }), ..plan }
}

/// Each of some refusals alone and each two of them.
fn alone_and_two(numbers: &[u32]) -> Vec<Vec<u32>> {
    let mut sets = Vec::new();
    for (i, &first) in numbers.iter().enumerate() {
        sets.push(vec![first]);
        sets.extend(numbers[i + 1..].iter().map(|&second| vec![first, second]));
    }
    sets
}

/// A small plan for each set of refusals, with seeds from this one on.
fn refusal_plans(seed: u64, numbers: &[u32], make: impl Fn(&mut Rng, &[u32]) -> Plan) -> Vec<Plan> {
    let plan = |set: Vec<u32>| {
        let seed = set.iter().fold(seed, |sum, &number| 10 * sum + u64::from(number));
        small_enough(300, seed, |rng| make(rng, &set))
    };
    alone_and_two(numbers).into_iter().map(plan).collect()
}

/// Each refusal alone, each two of them, random damage.
fn refused(plans: &mut Vec<Plan>) {
    plans.extend(refusal_plans(82_000, &[1, 2, 3, 4, 5, 6, 7], |rng, set| refusals::with(rng, TWO, set)));
    plans.extend((0..12).map(|seed| small_enough(600, 83_000 + seed, |rng| refusals::damaged(rng, TWO))));
}

/// 4,096 records of all kinds.
fn longest(plans: &mut Vec<Plan>) {
    let records: Vec<Record> = one_of_eleven().into_iter().cycle().take(MOST_RECORDS).collect();
    plans.push(plan_of(prefetch_on(), &few(), &records));
}

/// Under a tariff: random lists, and each refusal alone and each two of them.
fn bills(plans: &mut Vec<Plan>) {
    plans.extend(random_lists(84_000, 4, 30).map(|(plan, mut rng)| {
        let (rate, length) = (bills::good_rate(&mut rng), rooms::enough(&mut rng, SHARE * 30));
        plan.billed(length, rate, 0)
    }));
    plans.extend(refusal_plans(85_000, &[1, 2, 3, 4, 5, 6, 7, 8], |rng, set| {
        refusals::under_tariff(rng, TWO, set, Short::Second)
    }));
}

/// With grounds: the lists of block_lists.rs, random ones, blocks of each number of words over the edges of rows, and each refusal
/// alone and each two of them.
fn with_grounds(plans: &mut Vec<Plan>) {
    plans.extend(by_hand(|run, _| run).into_iter().map(|plan| {
        let len = GROUNDS * record_count(&plan.sheet);
        plan.grounded(len, 0)
    }));
    plans.extend(random_lists(86_000, 4, 30).map(|(plan, mut rng)| plan.grounded(rooms::enough(&mut rng, GROUNDS * 30), 0)));
    for (i, edge) in ROW_EDGES.into_iter().enumerate() {
        let blocks = (1..=MOST_WORDS).map(|words| Record::new(BLOCKS[i % 2], 4, edge.wrapping_sub(4 * (words / 2)), words));
        let board = Board { waitcnt: 0x4240, force: 1, ..Board::default() };
        plans.push(plan_of(board, &few(), &blocks.collect::<Vec<_>>()).grounded(GROUNDS * 16 + i, 0));
    }
    plans.extend(refusal_plans(87_000, &[1, 2, 3, 4, 5, 6, 7], |rng, set| {
        refusals::with_grounds(rng, TWO, set, Short::Second)
    }));
}

/// The lists of block_lists.rs that are accepted by what is claimed of the one or of the other, but for that of 4,096 steps, which
/// takes much room.
fn by_hand(claims: fn(&'static str, &'static str) -> &'static str) -> Vec<Plan> {
    let accepted = LISTS.iter().filter(|(_, run, preview)| !claims(run, preview).starts_with("refused"));
    let cases = accepted.map(|(list, _, _)| notation::case_of(&block_lists::input(list)).unwrap());
    cases
        .filter(|case| record_count(&case.sheet) < MOST_RECORDS)
        .map(|case| {
            let memories = Memories { lengths: case.lengths, bios: case.bios.len(), rom: case.rom.len() };
            let plan = plan_of(Board::of(&case.board), &memories, &[]);
            Plan { sheet: case.sheet, answers_len: case.answers.len(), ..plan }
        })
        .collect()
}

/// The lists of block_lists.rs, random ones, boards with a previous access, and each of the six refusals alone and each two of
/// them. They lend no memories.
pub fn previews() -> Vec<Plan> {
    let mut plans = by_hand(|_, preview| preview);
    plans.extend(random_lists(88_000, 6, 40).map(|(plan, _)| plan));
    single_boards(&mut plans);
    plans.extend(refusal_plans(89_000, &[1, 2, 3, 5, 6, 7], |rng, set| refusals::with(rng, TWO, set)));
    plans.extend([Version::One, TWO].map(|version| third_record(version, Record::new(BLOCK_WRITE, 4, 0x0200_0003, 16))));
    plans.into_iter().map(Plan::without_memories).collect()
}
