//! A fixed sample of cases with the Rust's answers, for a program that has no Rust at hand.
//! Contents before a run follow from a fill seed by a rule (`gen::rule_byte`), so the file stays small.

use crate::boards::{self, CODE_EDGES, ROW_EDGES};
use crate::bytes::*;
use crate::compare::Call;
use crate::figures::FIGURES;
use crate::gen::{Memories, Plan, Rng};
use crate::machine::{BIOS_SIZE, SIZES};
use crate::notation;
use crate::refusals;
use crate::rows::ROWS;
use crate::sample_bills;
use crate::sample_blocks;
use crate::sample_grounds;
use crate::sample_previews;
use crate::steps::Steps;
use crate::sweeps::{edge_plan, end_plan, faulty_plan, fill, one_of_each, row_plan, ENDS};

/// The most that a case of the sample lends, so that a replaying program can have fixed buffers:
/// sheet, board, store, BIOS, ROM, answers, and the second buffer, which the grounds need the longest.
pub const MOST: [usize; 7] = [
    HEADER + RECORD * (MOST_RECORDS + 1),
    144,
    462_852 + 1,
    BIOS_SIZE + 1,
    0x20040,
    ANSWER * (MOST_RECORDS + 1),
    GROUNDS * (MOST_RECORDS + 1),
];

/// A case of the sample: its plan, and whether it is recorded as a preview; else it is a run, under its tariff or with grounds if
/// it has either.
pub struct Entry {
    pub plan: Plan,
    preview: bool,
}

impl Entry {
    /// The case; its place in the sample is its fill seed.
    pub fn case(&self, place: usize) -> Case {
        self.plan.rule_case(place as u32)
    }

    /// The function that the case is recorded of.
    pub fn call<'a>(&self, case: &'a Case) -> Call<'a> {
        match (&case.tariff, &case.grounds) {
            (Some(tariff), _) => Call::RunTariff(tariff),
            (None, Some(lent)) => Call::RunGrounds(lent),
            (None, None) if self.preview => Call::Preview,
            (None, None) => Call::Run,
        }
    }
}

/// The cases of the sample in order. New ones go to the end, so that those that stand keep their places.
pub fn entries() -> Vec<Entry> {
    let runs = runs().into_iter().map(|plan| Entry { plan, preview: false });
    let previews = sample_previews::plans().into_iter().map(|plan| Entry { plan, preview: true });
    let grounds = sample_grounds::plans().into_iter().map(|plan| Entry { plan, preview: false });
    let two = sample_blocks::runs().into_iter().map(|plan| Entry { plan, preview: false });
    let two_previews = sample_blocks::previews().into_iter().map(|plan| Entry { plan, preview: true });
    runs.chain(previews).chain(grounds).chain(two).chain(two_previews).collect()
}

/// Those of version 1 runs without grounds, at last the ones under a tariff.
fn runs() -> Vec<Plan> {
    let mut plans = Vec::new();
    figures(&mut plans);
    lists(&mut plans);
    single_boards(&mut plans);
    window_edges(&mut plans);
    fills(&mut plans);
    row_edges(&mut plans);
    previous_accesses(&mut plans);
    refused(&mut plans);
    boards_refused(&mut plans);
    faulty_records(&mut plans);
    fault_order(&mut plans);
    list_lengths(&mut plans);
    full_memories(&mut plans);
    memory_ends(&mut plans);
    sample_bills::add(&mut plans);
    plans
}

pub fn few() -> Memories {
    Memories { lengths: [40, 33, 8, 16, 24, 5, 7], bios: 32, rom: 0x140 }
}

pub fn prefetch_on() -> Board {
    Board { waitcnt: 0x4000, ..Board::default() }
}

/// The lists of steps of figures.rs and of the rows worked out by hand, over filled memories.
fn figures(plans: &mut Vec<Plan>) {
    for (input, _) in FIGURES.iter().chain(ROWS) {
        let case = notation::case_of(input).unwrap();
        let memories = Memories { lengths: case.lengths, bios: case.bios.len(), rom: case.rom.len() };
        plans.push(Plan::accepted(Board::of(&case.board), &memories, &records_of(&case.sheet)));
    }
}

/// A random list from a sound board over small memories: by its sort at any place (0), along code (1) or in rows of accesses.
pub fn random_list(rng: &mut Rng, sort: u64, count: usize) -> Plan {
    random_list_in(Version::One, rng, sort, count)
}

/// The same on a sheet of a version.
pub fn random_list_in(version: Version, rng: &mut Rng, sort: u64, count: usize) -> Plan {
    let memories = Memories::random(rng, 0);
    let board = boards::any_sound(rng);
    let steps = Steps::in_version(version, rng, &memories);
    let records = match sort {
        0 => steps.mixed(count),
        1 => steps.code_run(count, &board),
        _ => steps.rows(count, &board),
    };
    Plan::accepted_in(version, board, &memories, &records)
}

/// Random lists of steps, 60 of each of the first two sorts and 30 rows of accesses.
fn lists(plans: &mut Vec<Plan>) {
    for seed in 0..150 {
        let mut rng = Rng::new(seed);
        let mut plan = random_list(&mut rng, seed / 60, 45);
        plan.answers_len += rng.below(14);
        plans.push(plan);
    }
}

/// Sound boards, most of which no list of steps leads to, with few steps each and a store to each counter.
fn single_boards(plans: &mut Vec<Plan>) {
    for seed in 0..60 {
        let mut rng = Rng::new(9000 + seed);
        let board = match boards::unreached().get(seed as usize) {
            Some(board) => *board,
            None => boards::any_sound(&mut rng),
        };
        let memories = Memories::random(&mut rng, 0);
        let mut records = vec![Record::new(IDLE, 0, 0, rng.below(12) as u32)];
        records.extend(Steps::new(&mut rng, &memories).code_run(8, &board));
        records.push(Record::new(WRITE, 4, 0x0600_0000, 0x1122_3344));
        records.push(Record::new(WRITE, 2, 0x0700_0000, 0x5566));
        records.push(Record::new(WRITE, 1, 0x0500_0001, 0x77));
        plans.push(Plan::accepted(board, &memories, &records));
    }
}

/// Fills that begin just below each window and block edge, with hits and misses.
fn window_edges(plans: &mut Vec<Plan>) {
    for (i, edge) in CODE_EDGES.into_iter().enumerate() {
        let start = edge - 6 + i as u32 % 2;
        let mut records = vec![Record::new(RESTART, 0, start, 0)];
        for half in 0..6 {
            records.extend([Record::new(IDLE, 0, 0, 3), Record::new(IDLE, 0, 0, 11)]);
            records.push(Record::new(FETCH, 0, start + 2 * half, 0));
        }
        records.push(Record::new(INSTRUCTION, 4, start + 12, 0xE591_0000));
        records.push(Record::new(IDLE, 0, 0, 100));
        records.push(Record::new(INSTRUCTION, 2, start + 16, 0x6808));
        let waitcnt = [0x4000, 0x4317, 0x4060, 0x5FFF][i % 4];
        let memories = Memories { rom: 0x20040, ..few() };
        plans.push(Plan::accepted(Board { waitcnt, ..Board::default() }, &memories, &records));
    }
}

/// A fill stopped after each number of cycles.
fn fills(plans: &mut Vec<Plan>) {
    for cycles in 0..=30 {
        plans.push(Plan::accepted(prefetch_on(), &few(), &fill(0x0800_0100, cycles)));
    }
}

/// WAITCNT values for rows: by either, S and N differ in each window. By the first S is the dearer in two of them.
const N_NOT_S: [u16; 2] = [0x0240, 0x0490];

/// Each two accesses around each edge, the first of one size.
fn row_edges(plans: &mut Vec<Plan>) {
    for (i, edge) in ROW_EDGES.into_iter().enumerate() {
        plans.push(row_plan(N_NOT_S[i % 2], edge, [1, 2, 4][i % 3], 3));
    }
}

/// Boards whose previous access ends at an edge, with a row behind it.
fn previous_accesses(plans: &mut Vec<Plan>) {
    for (i, edge) in ROW_EDGES.into_iter().enumerate() {
        for prev_size in [1, 2, 4] {
            let (waitcnt, prev_addr) = (N_NOT_S[i % 2], edge.wrapping_sub(prev_size.into()));
            let board = Board { waitcnt, prev_addr, prev_size, ..Board::default() };
            let mut rng = Rng::new(u64::from(prev_addr));
            let records = Steps::new(&mut rng, &few()).rows(6, &board);
            plans.push(Plan::accepted(board, &few(), &records));
        }
    }
}

/// Each refusal alone, each two of them, random damage.
fn refused(plans: &mut Vec<Plan>) {
    for first in 1..=7 {
        for turn in 0..5 {
            plans.push(small_enough(1500, 100 * u64::from(first) + turn, |rng| refusals::with(rng, Version::One, &[first])));
        }
        for second in first + 1..=7 {
            let seed = u64::from(10 * first + second);
            plans.push(small_enough(1500, seed, |rng| refusals::with(rng, Version::One, &[first, second])));
        }
    }
    for seed in 0..20 {
        plans.push(small_enough(1500, 5000 + seed, |rng| refusals::damaged(rng, Version::One)));
    }
}

/// Boards that aren't sound, in each of the ways and by each field of the previous access, and boards of other lengths.
fn boards_refused(plans: &mut Vec<Plan>) {
    let mut push = |board: Board, length: usize| {
        let mut plan = Plan::accepted(board, &few(), &one_of_each()[..3]);
        plan.board.resize(length, 0);
        plan.meant = Some(5);
        plans.push(plan);
    };
    for way in 0..2 * boards::WAYS_TO_BREAK {
        push(boards::broken(&mut Rng::new(7000 + way as u64), way % boards::WAYS_TO_BREAK), BOARD);
    }
    for board in boards::previous_wrong() {
        push(board, BOARD);
    }
    for length in [0, 71, 72, 73, 79, 81, 144] {
        push(prefetch_on(), length);
    }
}

/// The first plan from this seed on that keeps to the sample's limits, and whose sheet and answers have at most so many bytes.
pub fn small_enough(most: usize, seed: u64, make: impl Fn(&mut Rng) -> Plan) -> Plan {
    let fits = |plan: &Plan| {
        plan.sheet.len() <= most
            && plan.store_len <= 300_000
            && plan.bios_len <= BIOS_SIZE + 1
            && plan.rom_len <= 0x20040
            && plan.answers_len <= most
            && plan.lengths.iter().all(|&length| length < 1 << 32)
    };
    (0..).map(|turn| make(&mut Rng::new(seed + 1_000_000 * turn))).find(fits).unwrap()
}

/// Each kind with each of its fields one off, as the third record of five.
fn faulty_records(plans: &mut Vec<Plan>) {
    let each = one_of_each();
    for kind in READ..=LATCH {
        let good = *each.iter().find(|r| r.kind == kind).unwrap();
        plans.push(third_record(Record { size: good.size + 3, ..good }));
        plans.push(third_record(Record { flag: good.flag + 1, ..good }));
        plans.push(third_record(Record { flag: 2, ..good }));
        plans.push(third_record(Record { zero: 1, ..good }));
        plans.push(third_record(Record { address: good.address ^ 0x0001_0000, ..good }));
        plans.push(third_record(Record { value: good.value ^ 0x0001_0000, ..good }));
    }
    for kind in [0, 10, 11, 255] {
        plans.push(third_record(Record { kind, ..each[0] }));
    }
}

/// A fourth record is faulty too; the third is reported where it is.
fn third_record(record: Record) -> Plan {
    let each = one_of_each();
    let mut records = vec![each[7], each[8], record];
    if record.faulty() {
        records.push(Record { kind: 99, ..each[0] });
    }
    records.push(each[9]);
    let mut plan = Plan::accepted(prefetch_on(), &few(), &records);
    plan.meant = Some(if record.faulty() { 7 } else { 0 });
    plan
}

/// Each two faults, in either order; and a fault of the size and one of a field in the last of 4,096 records.
fn fault_order(plans: &mut Vec<Plan>) {
    let faults = refusals::faults();
    for early in faults {
        for late in faults.into_iter().filter(|&late| late != early) {
            plans.push(faulty_plan(5, &[(2, early), (3, late)]));
        }
    }
    for last in [faults[1], faults[4]] {
        plans.push(faulty_plan(MOST_RECORDS, &[(MOST_RECORDS - 1, last)]));
    }
}

/// No record, one, 4,096; and 4,097, which is refused.
fn list_lengths(plans: &mut Vec<Plan>) {
    for n in [0, 1, MOST_RECORDS, MOST_RECORDS + 1] {
        let records: Vec<Record> = one_of_each().into_iter().cycle().take(n).collect();
        let mut plan = Plan::accepted(prefetch_on(), &few(), &records);
        plan.meant = Some(if n > MOST_RECORDS { 3 } else { 0 });
        plans.push(plan);
    }
}

/// Full memories: every edge in two display modes, and some lists; and each memory one byte too long.
fn full_memories(plans: &mut Vec<Plan>) {
    let full = Memories { lengths: SIZES, bios: BIOS_SIZE, rom: 0x20040 };
    plans.push(edge_plan(0, &full));
    plans.push(edge_plan(3, &full));
    for seed in 0..12 {
        let mut rng = Rng::new(20_000 + seed);
        let board = boards::any_sound(&mut rng);
        let records = Steps::new(&mut rng, &full).mixed(120);
        plans.push(Plan::accepted(board, &full, &records));
    }
    for which in 0..8 {
        let mut plan = Plan::accepted(Board::default(), &full, &one_of_each());
        if which == 7 {
            plan.bios_len += 1;
        } else {
            plan.lengths[which] += 1;
            plan.store_len += 1;
        }
        plan.meant = Some(4);
        plans.push(plan);
    }
}

/// Stores across the end of each memory, of each length modulo 4, in modes 0–3 and 7, 4, 5, 2: what of them lands.
fn memory_ends(plans: &mut Vec<Plan>) {
    for (more, [mode, with_objects]) in [[0, 7], [1, 4], [2, 5], [3, 2]].into_iter().enumerate() {
        plans.push(end_plan(mode, ENDS[0], more));
        plans.push(end_plan(with_objects, ENDS[1 + more % 2], more));
    }
}

// ---- the file ----

/// One case: its head, sheet, board, and what the Rust gives; under a tariff, what tariff.rs makes of that, with grounds, what
/// grounds.rs does, and of a preview, what preview.rs does.
pub fn encode(case: &Case, call: Call, fill_seed: u32, rust: &Outcome) -> Vec<u8> {
    let mut out = head(case, call, fill_seed);
    out.extend(&case.sheet);
    out.extend(&case.board);
    out.extend(rust.report.number.to_le_bytes());
    out.extend(rust.report.index.to_le_bytes());
    out.extend(rust.report.total.to_le_bytes());
    out.extend(rust.report.charge.to_le_bytes());
    out.extend(&rust.board);
    out.extend(&rust.answers);
    out.extend(&rust.second);
    let changed: Vec<usize> = (0..case.store.len()).filter(|&i| case.store[i] != rust.store[i]).collect();
    out.extend((changed.len() as u32).to_le_bytes());
    for i in changed {
        out.extend((i as u32).to_le_bytes());
        out.push(rust.store[i]);
    }
    out
}

/// The functions of the library, as the head numbers them.
const RUN: usize = 0;
const RUN_TARIFF: usize = 1;
const PREVIEW: usize = 2;
const RUN_GROUNDS: usize = 3;

/// The 17 numbers before the bytes of a case: what is lent is told by its length.
fn head(case: &Case, call: Call, fill_seed: u32) -> Vec<u8> {
    let (second, function, rate) = match call {
        Call::Run => (0, RUN, 0),
        Call::RunTariff(tariff) => (tariff.shares.len(), RUN_TARIFF, tariff.rate),
        Call::RunGrounds(lent) => (lent.len(), RUN_GROUNDS, 0),
        Call::Preview => (0, PREVIEW, 0),
    };
    let lent = [&case.sheet, &case.board, &case.store, &case.bios, &case.rom, &case.answers].map(Vec::len);
    assert!(lent.into_iter().chain([second]).zip(MOST).all(|(length, most)| length <= most));
    let mut numbers = lent.to_vec();
    numbers.extend(case.lengths);
    numbers.extend([fill_seed as usize, second, function, rate as usize]);
    numbers.into_iter().flat_map(|n| u32::try_from(n).unwrap().to_le_bytes()).collect()
}
