//! Inputs gone through one by one: header, record and board bytes, opcodes, WAITCNT, regions, lengths, rates, rows of accesses;
//! those for the grounds are in ground_sweeps.rs, and those for version 2 in block_sweeps.rs.

use crate::bills::{self, MILLION};
use crate::block_sweeps;
use crate::boards::{self, CODE_EDGES, ROW_EDGES};
use crate::bytes::*;
use crate::gen::{Memories, Plan, Rng};
use crate::ground_sweeps;
use crate::machine::{BIOS_SIZE, ROM_WINDOW_SIZE, SIZES};
use crate::refusals::{self, SHORT};
use crate::steps::{load_or_store, EDGES, ROW_WAITS};

pub fn for_each(visit: &mut dyn FnMut(Plan)) {
    refusal_sets(visit);
    list_lengths(visit);
    sheet_bytes(visit);
    fault_pairs(visit);
    fault_places(visit);
    board_bytes(visit);
    board_lengths(visit);
    board_fields(visit);
    thumb_opcodes(visit);
    arm_opcodes(visit);
    waitcnt_values(visit);
    prefetch_runs(visit);
    fills(visit);
    regions(visit);
    edges(visit);
    memory_lengths(visit);
    ends(visit);
    rates(visit);
    share_lengths(visit);
    rounding(visit);
    rows(visit);
    previous_accesses(visit);
    previous_fields(visit);
    steps_between(visit);
    ground_sweeps::for_each(visit);
    block_sweeps::for_each(visit);
}

pub fn small() -> Memories {
    Memories { lengths: [40, 33, 8, 16, 24, 5, 7], bios: 32, rom: 0x140 }
}

pub fn full() -> Memories {
    Memories { lengths: SIZES, bios: BIOS_SIZE, rom: 0x20010 }
}

pub fn prefetch_on() -> Board {
    Board { waitcnt: 0x4000, ..Board::default() }
}

/// One record of each kind at each of its sizes.
pub fn one_of_each() -> Vec<Record> {
    let code = 0x0800_0100;
    vec![
        Record::new(READ, 1, 0x0300_0001, 0),
        Record::new(READ, 2, 0x0200_0002, 0),
        Record::new(READ, 4, 0x0800_0004, 0),
        Record::new(WRITE, 1, 0x0600_0003, 0x1234_5678),
        Record::new(WRITE, 2, 0x0E00_0001, 0x9ABC_DEF0),
        Record::new(WRITE, 4, 0x0200_0004, 0x0FED_CBA9),
        Record::new(WAITCNT, 0, 0, 0x4317),
        Record::new(RESTART, 0, code, 0),
        Record::new(IDLE, 0, 0, 27),
        Record::new(FETCH, 0, code, 0),
        Record::new(INSTRUCTION, 2, code + 2, 0x6808),
        Record { flag: 1, ..Record::new(INSTRUCTION, 4, code + 4, 0xE591_0000) },
        Record::new(PC, 0, 0x0800_0000, 0),
        Record::new(LATCH, 0, 0, 0xE129_F000),
    ]
}

/// Every set of the eight refusals under a tariff, 6 by either buffer and by both, eight times, on sheets of both versions by
/// turns. Without the tariff they are the sets of the seven, and for the preview those of the six without 4; some are accepted.
fn refusal_sets(visit: &mut dyn FnMut(Plan)) {
    for set in 1..256 {
        let numbers = refusals::set_of(set);
        let ways = if numbers.contains(&6) { &SHORT[..] } else { &SHORT[..1] };
        for (way, &short) in ways.iter().enumerate() {
            for turn in 0..8 {
                let version = VERSIONS[turn % 2];
                let seed = 1000 * set + 10 * way + turn;
                visit(refusals::under_tariff(&mut Rng::new(seed as u64), version, &numbers, short));
            }
        }
    }
}

/// No record, one, 4,095, 4,096; and 4,097, which is refused.
fn list_lengths(visit: &mut dyn FnMut(Plan)) {
    for n in [0, 1, 2, MOST_RECORDS - 1, MOST_RECORDS, MOST_RECORDS + 1] {
        let records: Vec<Record> = one_of_each().into_iter().cycle().take(n).collect();
        for more in [0, 1, 11, 12, 13] {
            let mut plan = Plan::accepted(prefetch_on(), &small(), &records);
            plan.answers_len += more;
            plan.meant = Some(if n > MOST_RECORDS { 3 } else { 0 });
            visit(plan);
        }
    }
}

/// Each byte of a sheet with one record of each kind and size, at all its 256 values.
fn sheet_bytes(visit: &mut dyn FnMut(Plan)) {
    let records = one_of_each();
    for at in 0..HEADER + RECORD * records.len() {
        for byte in 0..=255 {
            let mut plan = Plan::accepted(prefetch_on(), &small(), &records);
            plan.sheet[at] = byte;
            plan.meant = None;
            visit(plan);
        }
    }
}

/// Each two faults, at each two of four records.
fn fault_pairs(visit: &mut dyn FnMut(Plan)) {
    for early in refusals::faults() {
        for late in refusals::faults() {
            for (i, j) in [(0, 1), (0, 2), (0, 3), (1, 2), (1, 3), (2, 3)] {
                visit(faulty_plan(4, &[(i, early), (j, late)]));
            }
        }
    }
}

/// Each fault at both ends and in the middle of short and long sheets, alone and with another one in the last record.
fn fault_places(visit: &mut dyn FnMut(Plan)) {
    let [of_kind, .., of_field] = refusals::faults();
    for n in [1, 2, 3, MOST_RECORDS - 1, MOST_RECORDS] {
        for fault in refusals::faults() {
            for place in [0, n / 2, n - 1] {
                visit(faulty_plan(n, &[(place, fault)]));
                visit(faulty_plan(n, &[(n - 1, of_kind), (place, fault)]));
                visit(faulty_plan(n, &[(n - 1, of_field), (place, fault)]));
            }
        }
    }
}

/// A sheet of n records with some faulty ones put in their places.
pub fn faulty_plan(n: usize, faults: &[(usize, Record)]) -> Plan {
    let mut records: Vec<Record> = one_of_each().into_iter().cycle().take(n).collect();
    for &(place, fault) in faults {
        records[place] = fault;
    }
    let mut plan = Plan::accepted(prefetch_on(), &small(), &records);
    plan.meant = Some(7);
    plan
}

/// What can be seen of a prefetch: where it stands, what it holds, how it goes on.
fn prefetch_look(board: &Board) -> Vec<Record> {
    let head = if board.count == 0 { board.next } else { board.head_addr };
    vec![
        Record::new(IDLE, 0, 0, 2),
        Record::new(FETCH, 0, head, 0),
        Record::new(IDLE, 0, 0, 11),
        Record::new(INSTRUCTION, 2, head.wrapping_add(2), 0x6808),
        Record::new(INSTRUCTION, 4, head.wrapping_add(4), 0xE1A0_0000),
        Record::new(IDLE, 0, 0, 40),
    ]
}

/// Each byte of some sound boards, at all its 256 values.
fn board_bytes(visit: &mut dyn FnMut(Plan)) {
    let mut rng = Rng::new(72);
    let random = (0..8).map(|_| boards::any_sound(&mut rng));
    let made = [boards::unreached(), boards::accessed()].concat();
    for board in [Board::default()].into_iter().chain(made).chain(random) {
        // the access goes first, since the others clear what it shows
        let mut look = vec![Record::new(READ, 2, board.prev_end().unwrap_or(0), 0)];
        look.extend(prefetch_look(&board));
        for at in 0..BOARD {
            for byte in 0..=255 {
                let mut plan = Plan::accepted(board, &small(), &look);
                plan.board[at] = byte;
                plan.meant = None;
                visit(plan);
            }
        }
    }
}

/// Boards of each length up to twice their own and a little more: sound ones cut off, or with zeros behind them.
fn board_lengths(visit: &mut dyn FnMut(Plan)) {
    for board in [vec![Board::default()], boards::accessed()].concat() {
        for length in 0..2 * BOARD + 3 {
            let mut plan = Plan::accepted(board, &small(), &one_of_each()[..3]);
            plan.board.resize(length, 0);
            plan.meant = Some(if length == BOARD { 0 } else { 5 });
            visit(plan);
        }
    }
}

/// Boards with the prefetch's fields set to every mixture of values at and over their ends.
fn board_fields(visit: &mut dyn FnMut(Plan)) {
    const NEXT: [u32; 12] = [
        0, 2, 0x07FF_FFFE, 0x0800_0000, 0x0800_0002, 0x0802_0000, 0x0A00_0000, 0x0BFF_FFFE,
        0x0DFF_FFFE, 0x0E00_0000, 0x0E00_0002, 0xFFFF_FFFE,
    ];
    for next in NEXT {
        for count in 0..10 {
            for wait_left in [0, 1, 5, 9, 10] {
                for bits in 0..8 {
                    boards_with(visit, next, count, wait_left, bits);
                }
            }
        }
    }
}

/// Filling, first beat and the switch by `bits`; head address 0, right, and one halfword too low.
fn boards_with(visit: &mut dyn FnMut(Plan), next: u32, count: u8, wait_left: u32, bits: u8) {
    let right = next.wrapping_sub(2 * u32::from(count));
    for head_addr in [0, right, right.wrapping_sub(2)] {
        let board = Board {
            waitcnt: if bits & 4 == 0 { 0x4000 } else { 0 },
            head: (count + 5) % 8,
            count,
            filling: bits & 1,
            first_beat: bits >> 1 & 1,
            wait_left,
            next,
            head_addr,
            ..Board::default()
        };
        let mut plan = Plan::accepted(board, &small(), &prefetch_look(&board));
        plan.meant = None;
        visit(plan);
    }
}

/// All Thumb opcodes, in ROM with the prefetch off and in IWRAM with it on.
fn thumb_opcodes(visit: &mut dyn FnMut(Plan)) {
    for (board, address) in [(Board::default(), 0x0800_0100), (prefetch_on(), 0x0300_0000)] {
        for high in 0..16u32 {
            let opcodes = (0..4096u32).map(|low| high << 12 | low);
            let records: Vec<Record> =
                opcodes.map(|opcode| Record::new(INSTRUCTION, 2, address, opcode)).collect();
            visit(Plan::accepted(board, &small(), &records));
        }
    }
}

/// All mixtures of the bits 20–27 and 4–7 of an ARM opcode, the others random.
fn arm_opcodes(visit: &mut dyn FnMut(Plan)) {
    let mut rng = Rng::new(32);
    for turn in 0..16 {
        let address = if turn % 2 == 0 { 0x0800_0100 } else { 0x0300_0000 };
        let records: Vec<Record> = (0..4096u32)
            .map(|bits| {
                let opcode = (bits >> 4) << 20 | (bits & 15) << 4 | rng.u32() & 0xF00F_FF0F;
                Record::new(INSTRUCTION, 4, address, opcode)
            })
            .collect();
        visit(Plan::accepted(Board::default(), &small(), &records));
    }
}

/// All WAITCNT values, each with every price that it sets.
fn waitcnt_values(visit: &mut dyn FnMut(Plan)) {
    for high in 0..256u32 {
        let mut records = Vec::new();
        for low in 0..256 {
            records.push(Record::new(WAITCNT, 0, 0, high << 8 | low));
            for window in [0x0800_0000, 0x0A00_0000, 0x0C00_0000] {
                records.push(Record::new(READ, 2, window, 0));
                records.push(Record::new(READ, 4, window, 0));
                records.push(Record::new(READ, 2, window + 4, 0));
            }
            records.push(Record::new(READ, 1, 0x0E00_0000, 0));
        }
        let waitcnt = if high % 2 == 0 { 0 } else { 0x8000 };
        visit(Plan::accepted(Board { waitcnt, ..Board::default() }, &small(), &records));
    }
}

/// A restart near every window and block edge, watched cycle by cycle, then taken empty.
fn prefetch_runs(visit: &mut dyn FnMut(Plan)) {
    for waitcnt in [0x4000, 0x4317, 0x4060, 0x5FFF, 0x4490, 0x4294] {
        for edge in CODE_EDGES {
            for by in 0..20u32 {
                let start = (edge - 16).wrapping_add(by);
                let mut records = vec![Record::new(RESTART, 0, start, 0)];
                records.extend([Record::new(IDLE, 0, 0, 1); 80]);
                records.extend((0..10).map(|i| Record::new(FETCH, 0, start.wrapping_add(2 * i), 0)));
                records.push(Record::new(IDLE, 0, 0, 7));
                let memories = Memories { rom: 0x20040, ..small() };
                visit(Plan::accepted(Board { waitcnt, ..Board::default() }, &memories, &records));
            }
        }
    }
}

/// The same, stopped after each number of cycles, so that the whole board is seen there.
fn fills(visit: &mut dyn FnMut(Plan)) {
    for waitcnt in [0x4000, 0x4317, 0x4060, 0x5FFF] {
        for edge in CODE_EDGES {
            for by in [0, 2, 6, 10, 14] {
                for cycles in 0..76 {
                    let board = Board { waitcnt, ..Board::default() };
                    visit(Plan::accepted(board, &small(), &fill(edge - by, cycles)));
                }
            }
        }
    }
}

/// A restart and so many cycles.
pub fn fill(start: u32, cycles: u32) -> Vec<Record> {
    vec![Record::new(RESTART, 0, start, 0), Record::new(IDLE, 0, 0, cycles)]
}

/// Loads and stores at 32 offsets of each of the 256 top bytes, over full memories.
fn regions(visit: &mut dyn FnMut(Plan)) {
    const OFFSETS: [u32; 32] = [
        0, 1, 2, 3, 0x204, 0x3FE, 0x3FF, 0x400, 0x7FE, 0x7FF, 0x800, 0x803, 0x804, 0x3FFE, 0x3FFF,
        0x4000, 0x7FFF, 0x8000, 0xFFFE, 0xFFFF, 0x1_0000, 0x1_0800, 0x1_3FFF, 0x1_4000, 0x1_7FFF,
        0x1_8000, 0x1_FFFF, 0x2_0000, 0x3_FFFF, 0x4_0000, 0xFF_FFFE, 0xFF_FFFF,
    ];
    let mut rng = Rng::new(256);
    for tops in 0..16u32 {
        let mut records = Vec::new();
        for top in 16 * tops..16 * tops + 16 {
            for offset in OFFSETS {
                for size in [1, 2, 4] {
                    let address = top << 24 | offset;
                    records.push(Record::new(WRITE, size, address, rng.u32()));
                    records.push(Record::new(READ, size, address, 0));
                }
            }
        }
        visit(Plan::accepted(Board::default(), &full(), &records));
    }
}

/// Stores and loads from 4 below to 3 above each edge, in each display mode, over full memories.
pub fn edges(visit: &mut dyn FnMut(Plan)) {
    for mode in 0..8 {
        visit(edge_plan(mode, &full()));
    }
}

pub fn edge_plan(mode: u32, memories: &Memories) -> Plan {
    let mut rng = Rng::new(u64::from(mode));
    let mut records = vec![Record::new(PC, 0, 0x4000 - mode % 2, 0)];
    for edge in EDGES {
        for by in 0..8 {
            let address = edge.wrapping_sub(4).wrapping_add(by);
            records.push(Record::new(WRITE, 1, 0x0400_0000, mode));
            for size in [1, 2, 4] {
                records.push(Record::new(WRITE, size, address, rng.u32()));
                records.push(Record::new(READ, size, address, 0));
            }
        }
    }
    Plan::accepted(Board::default(), memories, &records)
}

/// Each memory alone at lengths around 0, half and full, looked at around its end and its mirrors' ends.
fn memory_lengths(visit: &mut dyn FnMut(Plan)) {
    const BASES: [u32; 9] = [
        0x0200_0000, 0x0300_0000, 0x0400_0000, 0x0500_0000, 0x0600_0000, 0x0700_0000, 0x0E00_0000,
        0x0000_0000, 0x0A00_0000,
    ];
    for (which, base) in BASES.into_iter().enumerate() {
        let size = *SIZES.get(which).unwrap_or(if which == 7 { &BIOS_SIZE } else { &ROM_WINDOW_SIZE });
        for length in [0, 1, 2, 3, 5, size / 2, size / 2 + 1, size - 1, size, size + 1] {
            let mut memories = Memories { lengths: [0; 7], bios: 0, rom: 0 };
            match which {
                7 => memories.bios = length,
                8 => memories.rom = length,
                _ => memories.lengths[which] = length,
            }
            let mut plan = Plan::accepted(Board::default(), &memories, &around(base, length, size));
            plan.meant = Some(if length > size { 4 } else { 0 });
            visit(plan);
        }
    }
}

fn around(base: u32, length: usize, size: usize) -> Vec<Record> {
    let mut records = Vec::new();
    for end in [0, length, size, 2 * length, size + length] {
        for by in 0..8 {
            let address = base.wrapping_add(end as u32).wrapping_add(by).wrapping_sub(4);
            for size in [1, 2, 4] {
                records.push(Record::new(WRITE, size, address, 0x8765_4321 ^ address));
                records.push(Record::new(READ, size, address, 0));
            }
        }
    }
    records
}

/// Stores of all sizes across the end of each memory, which is of each length modulo 4, in each display mode.
fn ends(visit: &mut dyn FnMut(Plan)) {
    for mode in 0..8 {
        for more in 0..4 {
            ENDS.iter().for_each(|&lengths| visit(end_plan(mode, lengths, more)));
            visit(end_plan(mode, SIZES.map(|size| size - 4), more + 1));
        }
    }
}

/// Lengths to which 0 to 3 are added: all short; then VRAM up to where the objects begin, in modes 0–2 and in the others, and
/// I/O up to the end of its registers and to that of the word at 0x800.
pub const ENDS: [[usize; 7]; 3] = [
    [40, 32, 8, 16, 24, 8, 12],
    [4, 0, 0x3FC, 0, 0x1_0000, 4, 0x2000],
    [0, 4, 0x800, 0x3FC, 0x1_4000, 0x3FC, 0x8000],
];

/// The start of each memory, by its number in the store, and of a mirror of it; VRAM's last 32 KiB are there twice.
pub const STARTS: [(usize, u32); 15] = [
    (0, 0x0200_0000), (0, 0x02FC_0000), (1, 0x0300_0000), (1, 0x03FF_8000), (2, 0x0400_0000), (2, 0x04FF_0000),
    (3, 0x0500_0000), (3, 0x05FF_FC00), (4, 0x0600_0000), (4, 0x0600_8000), (4, 0x06FE_0000),
    (5, 0x0700_0000), (5, 0x07FF_FC00), (6, 0x0E00_0000), (6, 0x0FFF_0000),
];

/// Stores from 4 below to 3 above the end of each memory and of a mirror of it.
pub fn end_plan(mode: u32, lengths: [usize; 7], more: usize) -> Plan {
    let memories = Memories { lengths: lengths.map(|length| length + more), bios: 3 + more, rom: 5 + more };
    let mut rng = Rng::new(u64::from(mode));
    let mut records = Vec::new();
    for (which, start) in STARTS {
        for by in 0..8 {
            let address = (start + memories.lengths[which] as u32 + by).wrapping_sub(4);
            records.push(Record::new(WRITE, 1, 0x0400_0000, mode));
            records.extend([1, 2, 4].map(|size| Record::new(WRITE, size, address, rng.u32())));
        }
    }
    Plan::accepted(Board::default(), &memories, &records)
}

// ---- tariffs ----

/// Rates around both ends and around each power of two, and those that are a good rate but for one bit.
fn rates(visit: &mut dyn FnMut(Plan)) {
    let around = |rate: u32| (0..=6).map(move |by| (rate + by).saturating_sub(3));
    let powers = (0..32).map(|bit| 1u32 << bit);
    let mut rates: Vec<u32> = around(0).chain(around(MILLION)).collect();
    rates.extend(powers.clone().flat_map(|power| [power - 1, power, power + 1]));
    rates.extend(powers.flat_map(|power| [MILLION ^ power, 307 ^ power]));
    rates.push(u32::MAX);
    for rate in rates {
        let number = if (1..=MILLION).contains(&rate) { 0 } else { 8 };
        for records in [vec![], one_of_each(), vec![Record::new(IDLE, 0, 0, u32::MAX); 3]] {
            let plan = Plan::accepted(prefetch_on(), &small(), &records);
            visit(plan.billed(SHARE * records.len() + 1, rate, number));
        }
    }
}

/// Shares around the length that they need, and of a few others, beside good and short answers, at good and bad rates.
fn share_lengths(visit: &mut dyn FnMut(Plan)) {
    for n in [0, 1, 2, MOST_RECORDS] {
        let records: Vec<Record> = one_of_each().into_iter().cycle().take(n).collect();
        let need = SHARE * n;
        for length in (need.saturating_sub(9)..need + 10).chain([0, need / 2, ANSWER * n]) {
            for (less, rate) in [(0, 307), (0, 0), (1, 307), (1, MILLION + 1)] {
                visit(share_plan(&records, length, less.min(n), rate));
            }
        }
    }
}

/// The answers are so many bytes too short. 307 is the good rate.
fn share_plan(records: &[Record], length: usize, less: usize, rate: u32) -> Plan {
    let mut plan = Plan::accepted(prefetch_on(), &small(), records);
    plan.answers_len -= less;
    plan.meant = Some(if less > 0 { 6 } else { 0 });
    let short = less > 0 || length < SHARE * records.len();
    plan.billed(length, rate, if short { 6 } else if rate == 307 { 0 } else { 8 })
}

/// Lists of 4,096 steps at several rates: a cycle at a time, past each cent, at any edges of the rounding, and the longest.
fn rounding(visit: &mut dyn FnMut(Plan)) {
    const RATES: [u32; 20] = [
        1, 2, 3, 7, 10, 64, 307, 999, 15_625, 100_000, 250_000, 333_333, 333_334, 500_000, 500_001, 600_000, 999_998,
        999_999, 1_000_000, 123_456,
    ];
    for rate in RATES {
        let lists = [
            vec![Record::new(IDLE, 0, 0, 1); MOST_RECORDS],
            each_cent(rate),
            bills::edges(&mut Rng::new(rate.into()), rate, MOST_RECORDS),
            vec![Record::new(IDLE, 0, 0, u32::MAX); MOST_RECORDS],
        ];
        for records in lists {
            let plan = Plan::accepted(Board::default(), &small(), &records);
            visit(plan.billed(SHARE * MOST_RECORDS + rate as usize % 3, rate, 0));
        }
    }
}

/// The total goes to one cycle before the most that 1 cent pays for, there, and one past it; then 2 cents, and so on.
fn each_cent(rate: u32) -> Vec<Record> {
    let edges = (1..).map(|cents| cents * u64::from(MILLION) / u64::from(rate));
    let totals = edges.flat_map(|edge| [edge - 1, edge, edge + 1]);
    let mut total = 0;
    let steps = totals.map(|next| {
        let cycles = next.saturating_sub(total);
        total += cycles;
        Record::new(IDLE, 0, 0, cycles as u32)
    });
    steps.take(MOST_RECORDS).collect()
}

// ---- rows of data accesses ----

/// Each access after each other one: the places and sizes of both around each edge, by each of the waits.
fn rows(visit: &mut dyn FnMut(Plan)) {
    for waitcnt in ROW_WAITS {
        for edge in ROW_EDGES {
            for size in [1, 2, 4] {
                visit(row_plan(waitcnt, edge, size, 8));
            }
        }
    }
}

/// Each two accesses from so many bytes below an edge to as many above it, of which the first has this size.
pub fn row_plan(waitcnt: u16, edge: u32, size: u8, reach: u32) -> Plan {
    let mut rng = Rng::new(u64::from(edge) + u64::from(size));
    let mut records = Vec::new();
    for first in near(edge, reach) {
        for second in near(edge, reach) {
            for next in [1, 2, 4] {
                records.push(load_or_store(&mut rng, size, first));
                records.push(load_or_store(&mut rng, next, second));
            }
        }
    }
    Plan::accepted(Board { waitcnt, ..Board::default() }, &small(), &records)
}

/// The places from so many bytes below an edge to as many above it, modulo 2^32.
pub fn near(edge: u32, reach: u32) -> impl Iterator<Item = u32> {
    (0..2 * reach).map(move |by| edge.wrapping_sub(reach).wrapping_add(by))
}

/// An access of each size at each place around each edge, from boards with each previous access there and with none.
fn previous_accesses(visit: &mut dyn FnMut(Plan)) {
    let mut rng = Rng::new(80);
    for edge in ROW_EDGES {
        for board in boards_before(edge) {
            for place in near(edge, 8) {
                for size in [1, 2, 4] {
                    for waitcnt in [0x0000, 0x0240, 0x0490] {
                        let record = load_or_store(&mut rng, size, place);
                        visit(Plan::accepted(Board { waitcnt, ..board }, &small(), &[record]));
                    }
                }
            }
        }
    }
}

/// Boards with no previous access, and with each one around an edge.
fn boards_before(edge: u32) -> Vec<Board> {
    let mut boards = vec![Board::default()];
    for prev_size in [1, 2, 4] {
        let places = near(edge, 8).filter(|&place| lowered(place, prev_size) == place);
        boards.extend(places.map(|prev_addr| Board { prev_addr, prev_size, ..Board::default() }));
    }
    boards
}

/// Boards with all values of the previous access's size, at addresses of each residue, and an access where it would end.
fn previous_fields(visit: &mut dyn FnMut(Plan)) {
    for prev_size in 0..=255 {
        for edge in [0, 8, 0x0800_0104, 0x0802_0000, 0x8000_0000] {
            for prev_addr in near(edge, 4) {
                let board = Board { prev_addr, prev_size, ..Board::default() };
                let record = Record::new(READ, 2, prev_addr.wrapping_add(prev_size.into()), 0);
                let mut plan = Plan::accepted(board, &small(), &[record]);
                plan.meant = None;
                visit(plan);
            }
        }
    }
}

/// Each step between two accesses of a row, and each two steps; S is dearer than N in two windows.
fn steps_between(visit: &mut dyn FnMut(Plan)) {
    let steps = any_step();
    for place in [0x0800_0204, 0x0A00_0204, 0x0C00_0204, 0x0802_0000, 0x0200_0204] {
        for (first, second) in [1, 2, 4].into_iter().flat_map(|first| [1, 2, 4].map(|second| (first, second))) {
            for &step in &steps {
                between_plans(visit, place, [first, second], &[step]);
            }
        }
    }
    for &early in &steps {
        for &late in &steps {
            between_plans(visit, 0x0C00_0204, [2, 2], &[early, late]);
        }
    }
}

/// Every kind of step: fetches and instructions that hit, that miss and outside ROM, accesses that are dropped or meet no memory.
fn any_step() -> Vec<Record> {
    let mut steps = one_of_each();
    steps.extend([
        Record::new(IDLE, 0, 0, 0),
        Record::new(WAITCNT, 0, 0, 0x4240),
        Record::new(FETCH, 0, 0x0800_0300, 0),
        Record::new(RESTART, 0, 0x0000_0000, 0),
        Record::new(INSTRUCTION, 2, 0x0800_0100, 0x1C00),
        Record::new(INSTRUCTION, 2, 0x0300_0000, 0x1C00),
        Record::new(INSTRUCTION, 4, 0x0200_0000, 0xE1A0_0000),
        Record::new(WRITE, 2, 0x0800_0000, 0x1234),
        Record::new(READ, 1, 0x1000_0000, 0),
    ]);
    steps
}

/// Two accesses of these sizes that meet at a place, with steps between, over a full prefetch buffer. Once it ends before the
/// second, so that the board is seen there.
fn between_plans(visit: &mut dyn FnMut(Plan), place: u32, [first, second]: [u8; 2], between: &[Record]) {
    let mut records = fill(0x0800_0100, 100);
    records.push(Record::new(READ, first, place - u32::from(first), 0));
    records.extend(between);
    let board = Board { waitcnt: 0x4240, ..Board::default() };
    visit(Plan::accepted(board, &small(), &records));
    records.push(Record::new(READ, second, place, 0));
    visit(Plan::accepted(board, &small(), &records));
}
