//! Inputs gone through one by one for the grounds (docs/RULES.md, "The ground of a beat"): lengths of what is lent for them,
//! refusals, code around each edge with the force flag and the buffer, code in each page and by each WAITCNT, accesses under flag
//! and buffer.

use crate::boards::{CODE_EDGES, ROW_EDGES};
use crate::bytes::*;
use crate::gen::{Plan, Rng};
use crate::refusals::{self, SHORT};
use crate::sweeps::{near, one_of_each, prefetch_on, row_plan, small};

pub fn for_each(visit: &mut dyn FnMut(Plan)) {
    lengths(visit);
    refusal_sets(visit);
    fetches(visit);
    code_pages(visit);
    code_waits(visit);
    accesses(visit);
}

/// An instruction with an internal cycle, in either size, and one without.
const LOAD: [(u8, u32); 2] = [(2, 0x6808), (4, 0xE591_0000)];
const MOVE: [(u8, u32); 2] = [(2, 0x1C00), (4, 0xE1A0_0000)];

fn code((size, opcode): (u8, u32), address: u32) -> Record {
    Record::new(INSTRUCTION, size, address, opcode)
}

/// Lengths around the one that is needed, and a few others, beside good and short answers.
fn lengths(visit: &mut dyn FnMut(Plan)) {
    for n in [0, 1, 2, MOST_RECORDS] {
        let records: Vec<Record> = one_of_each().into_iter().cycle().take(n).collect();
        let need = GROUNDS * n;
        for length in (need.saturating_sub(34)..need + 35).chain([0, need / 2, ANSWER * n, SHARE * n]) {
            for less in [0, 1.min(n)] {
                visit(length_plan(&records, length, less));
            }
        }
    }
}

/// So many bytes are lent for the grounds; the answers are so many bytes too short.
pub fn length_plan(records: &[Record], length: usize, less: usize) -> Plan {
    let mut plan = Plan::accepted(prefetch_on(), &small(), records);
    plan.answers_len -= less;
    plan.meant = Some(if less > 0 { 6 } else { 0 });
    let short = less > 0 || length < GROUNDS * records.len();
    plan.grounded(length, if short { 6 } else { 0 })
}

/// Every set of the seven refusals, 6 by either buffer and by both, four times, on sheets of both versions by turns.
fn refusal_sets(visit: &mut dyn FnMut(Plan)) {
    for set in 1..128 {
        let numbers = refusals::set_of(set);
        let ways = if numbers.contains(&6) { &SHORT[..] } else { &SHORT[..1] };
        for (way, &short) in ways.iter().enumerate() {
            for turn in 0..4 {
                let seed = 1_000_000 + 1000 * set + 10 * way + turn;
                let version = VERSIONS[turn % 2];
                visit(refusals::with_grounds(&mut Rng::new(seed as u64), version, &numbers, short));
            }
        }
    }
}

/// Code at each place around each edge, with and without the flag, over no buffer and over buffers that begin around it. What
/// comes behind it shows the flag that it leaves.
fn fetches(visit: &mut dyn FnMut(Plan)) {
    for waitcnt in [0x0000, 0x4000, 0x4240, 0x4008] {
        for edge in CODE_EDGES {
            for board in buffers_around(waitcnt, edge) {
                for place in near(edge, 5) {
                    for load in LOAD {
                        visit(fetch_plan(board, load, place));
                        visit(fetch_plan(Board { force: 1, ..board }, load, place));
                    }
                }
            }
        }
    }
}

pub fn fetch_plan(board: Board, instruction: (u8, u32), place: u32) -> Plan {
    let after = place.wrapping_add(instruction.0.into());
    Plan::accepted(board, &small(), &[code(instruction, place), code(MOVE[0], after)]).grounded(2 * GROUNDS, 0)
}

/// The sound boards by these waits with no halfword, or 1, 2 or 8 from 4 below to 6 above an edge.
fn buffers_around(waitcnt: u16, edge: u32) -> Vec<Board> {
    let starts = (0..6).map(|by| edge - 4 + 2 * by);
    let standing = starts.flat_map(|start| [1, 2, 8].map(|count| buffer(waitcnt, start, count)));
    [Board { waitcnt, ..Board::default() }].into_iter().chain(standing).filter(Board::sound).collect()
}

/// So many halfwords that stand from a place on.
pub fn buffer(waitcnt: u16, start: u32, count: u8) -> Board {
    Board { waitcnt, head: 5, count, head_addr: start, next: start + 2 * u32::from(count), ..Board::default() }
}

/// Code at 12 offsets of each of the 256 top bytes, without the flag and with it.
fn code_pages(visit: &mut dyn FnMut(Plan)) {
    const OFFSETS: [u32; 12] = [
        0, 1, 2, 0xFE, 0x3FFE, 0x4000, 0x1_FFFE, 0x1_FFFF, 0x2_0000, 0x2_0001, 0xFF_FFFE, 0xFF_FFFF,
    ];
    for tops in 0..16u32 {
        let places = (16 * tops..16 * tops + 16).flat_map(|top| OFFSETS.map(|offset| top << 24 | offset));
        let records: Vec<Record> = places
            .flat_map(|place| MOVE.map(|instruction| code(instruction, place)))
            .flat_map(|record| [record, code(LOAD[0], 0x0800_0100), record])
            .collect();
        visit(Plan::accepted(Board::default(), &small(), &records).grounded(GROUNDS * records.len(), 0));
    }
}

/// Code in each window by all WAITCNT values: S, N by the flag where the prefetch is off, and N by the block.
fn code_waits(visit: &mut dyn FnMut(Plan)) {
    for high in 0..256u32 {
        let mut records = Vec::new();
        for low in 0..256 {
            records.push(Record::new(WAITCNT, 0, 0, high << 8 | low));
            for window in [0x0800_0000, 0x0A00_0000, 0x0C00_0000] {
                records.push(code(LOAD[0], window + 0x100));
                records.push(code(MOVE[0], window + 0x102));
                records.push(code(MOVE[1], window + 0x1_FFFE));
            }
        }
        visit(Plan::accepted(Board::default(), &small(), &records).grounded(GROUNDS * records.len(), 0));
    }
}

/// Each two accesses around each edge with the flag set, over a full buffer that begins there where there is ROM: neither is an
/// access's.
fn accesses(visit: &mut dyn FnMut(Plan)) {
    for edge in ROW_EDGES {
        let there = buffer(0x4240, edge, 8);
        let board = if there.sound() { there } else { buffer(0x4240, 0x0800_0100, 8) };
        for size in [1, 2, 4] {
            let plan = row_plan(0x4240, edge, size, 4);
            let len = GROUNDS * record_count(&plan.sheet);
            visit(Plan { board: Board { force: 1, ..board }.bytes(), ..plan }.grounded(len, 0));
        }
    }
}
