//! Inputs gone through one by one for version 2 (docs/RULES.md, "The two versions"): versions, kinds and the fields of a
//! block, opcodes, and blocks of each length over the ends of regions, windows, 0x20000 blocks and memories.

use crate::boards::{CODE_EDGES, ROW_EDGES};
use crate::bytes::*;
use crate::gen::{Memories, Plan};
use crate::ground_sweeps::buffer;
use crate::machine::SIZES;
use crate::refusals::{self, NO_WORDS};
use crate::steps::{block_end, EDGES};
use crate::sweeps::{full, one_of_each, prefetch_on, small, ENDS, STARTS};

pub fn for_each(visit: &mut dyn FnMut(Plan)) {
    versions(visit);
    sheet_bytes(visit);
    kinds(visit);
    fields(visit);
    fault_pairs(visit);
    thumb_opcodes(visit);
    list_lengths(visit);
    blocks_over_edges(visit);
    blocks_over_buffers(visit);
    blocks_over_ends(visit);
}

pub const BLOCKS: [u8; 2] = [BLOCK_READ, BLOCK_WRITE];

/// One record of each of the eleven kinds, at each of its sizes, with a POP where version 1 doesn't look for it.
pub fn one_of_eleven() -> Vec<Record> {
    let mut records = one_of_each();
    records.extend([
        Record::new(BLOCK_READ, 4, 0x0800_0002, 3),
        Record::new(BLOCK_WRITE, 4, 0x0200_0005, 2),
        Record::new(BLOCK_WRITE, 4, 0x05FF_FFF3, 16),
        Record::new(INSTRUCTION, 2, 0x0800_0108, 0xBD01),
        Record::new(BLOCK_READ, 4, 0xFFFF_FFFC, 1),
    ]);
    records
}

pub fn plan_of(board: Board, memories: &Memories, records: &[Record]) -> Plan {
    Plan::accepted_in(Version::Two, board, memories, records)
}

fn refused_with(number: u32, plan: Plan) -> Plan {
    Plan { meant: Some(number), ..plan }
}

/// Versions from 0 to 600 and those around each power of two, on a sheet that both have and on one with a block, which is a
/// faulty record in version 1 alone.
fn versions(visit: &mut dyn FnMut(Plan)) {
    let around = (9..16).flat_map(|bit| [(1u16 << bit) - 1, 1 << bit, (1 << bit) + 1, (1 << bit) + 2]);
    for version in (0..=600).chain(around).chain([0xFFFE, 0xFFFF]) {
        for records in [one_of_each(), one_of_eleven()] {
            let mut plan = plan_of(prefetch_on(), &small(), &records);
            plan.sheet[3..5].copy_from_slice(&version.to_le_bytes());
            plan.meant = Some(match version {
                1 if records.iter().any(Record::is_block) => 7,
                1 | 2 => 0,
                _ => 2,
            });
            visit(plan);
        }
    }
}

/// Each byte of a version 2 sheet with all kinds, at all its 256 values.
fn sheet_bytes(visit: &mut dyn FnMut(Plan)) {
    let records = one_of_eleven();
    for at in 0..HEADER + RECORD * records.len() {
        for byte in 0..=255 {
            let mut plan = plan_of(prefetch_on(), &small(), &records);
            plan.sheet[at] = byte;
            plan.meant = None;
            visit(plan);
        }
    }
}

/// The second of three records, in both versions.
fn second_record(visit: &mut dyn FnMut(Plan), record: Record, good: impl Fn(Version) -> bool) {
    for version in VERSIONS {
        let records = [Record::new(IDLE, 0, 0, 1), record, Record::new(READ, 4, 0x0800_0104, 0)];
        let plan = Plan::accepted_in(version, Board::default(), &small(), &records);
        visit(refused_with(if good(version) { 0 } else { 7 }, plan));
    }
}

/// All 256 kinds on a record that is a good block but for the kind, and on one that is a good LATCH but for it.
fn kinds(visit: &mut dyn FnMut(Plan)) {
    for kind in 0..=255 {
        let word = |version| version == Version::Two && BLOCKS.contains(&kind) || [WRITE, INSTRUCTION].contains(&kind);
        second_record(visit, Record::new(kind, 4, 0x0800_0100, 4), word);
        second_record(visit, Record::new(kind, 0, 0, 4), |_| [WAITCNT, IDLE, LATCH].contains(&kind));
    }
}

/// A block with all sizes, flags and zero bytes, and with numbers of words up to 40, around each power of two, and at the end.
fn fields(visit: &mut dyn FnMut(Plan)) {
    for kind in BLOCKS {
        let block = Record::new(kind, 4, 0x0200_0003, 5);
        let two = |version| version == Version::Two;
        for byte in 0..=255 {
            second_record(visit, Record { size: byte, ..block }, |version| two(version) && byte == 4);
            second_record(visit, Record { flag: byte, ..block }, |version| two(version) && byte == 0);
            second_record(visit, Record { zero: byte, ..block }, |version| two(version) && byte == 0);
        }
        let powers = (0..32).map(|bit| 1u32 << bit);
        let numbers = (0..=40).chain(powers.flat_map(|power| [power - 1, power, power + 1, power + 16])).chain(NO_WORDS);
        for value in numbers {
            let good = |version| two(version) && (1..=16).contains(&value);
            second_record(visit, Record { value, ..block }, good);
        }
    }
}

/// Each two faults, at each two of four records: those of version 1, and a block's.
fn fault_pairs(visit: &mut dyn FnMut(Plan)) {
    let block = Record::new(BLOCK_WRITE, 4, 0x0200_0000, 1);
    let mut faults = refusals::faults().to_vec();
    faults.extend([
        Record { kind: 12, ..block },
        Record { size: 2, ..block },
        Record { flag: 1, ..block },
        Record { value: 0, ..block },
        Record { value: 17, ..block },
    ]);
    for &early in &faults {
        for &late in &faults {
            for (i, j) in [(0, 1), (0, 2), (0, 3), (1, 2), (1, 3), (2, 3)] {
                let mut records = [block; 4];
                (records[i], records[j]) = (early, late);
                visit(refused_with(7, plan_of(prefetch_on(), &small(), &records)));
            }
        }
    }
}

/// All Thumb opcodes: in ROM with the prefetch off and on, in IWRAM and in EWRAM; with the pc changed and not.
fn thumb_opcodes(visit: &mut dyn FnMut(Plan)) {
    let off = Board::default();
    let places = [(off, 0x0800_0100), (prefetch_on(), 0x0800_0100), (off, 0x0300_0000), (prefetch_on(), 0x0200_0000)];
    for (board, address) in places {
        for flag in 0..2 {
            for high in 0..16u32 {
                let opcodes = (0..4096u32).map(|low| high << 12 | low);
                let records: Vec<Record> =
                    opcodes.map(|opcode| Record { flag, ..Record::new(INSTRUCTION, 2, address, opcode) }).collect();
                visit(plan_of(board, &small(), &records));
            }
        }
    }
}

/// No record, one, 4,095, 4,096 of all kinds, and 4,096 of the longest block; and 4,097, which is refused.
fn list_lengths(visit: &mut dyn FnMut(Plan)) {
    for n in [0, 1, 2, MOST_RECORDS - 1, MOST_RECORDS, MOST_RECORDS + 1] {
        let records: Vec<Record> = one_of_eleven().into_iter().cycle().take(n).collect();
        let number = if n > MOST_RECORDS { 3 } else { 0 };
        visit(refused_with(number, plan_of(prefetch_on(), &small(), &records)));
    }
    let longest = (0..MOST_RECORDS as u32).map(|i| Record::new(BLOCK_READ, 4, 0x0C00_0000 + 64 * i, 16)).collect::<Vec<_>>();
    visit(plan_of(Board::default(), &small(), &longest));
}

/// Blocks of 1 to 16 words from 67 below to 4 above each edge, which so lies before, between and behind their words: over short
/// memories by waits at which N and S differ in each window, and over full ones.
fn blocks_over_edges(visit: &mut dyn FnMut(Plan)) {
    for edge in edges() {
        for kind in BLOCKS {
            for waitcnt in [0x0240, 0x0490] {
                visit(edge_plan(Board { waitcnt, ..Board::default() }, &small(), kind, edge, 1));
            }
            visit(edge_plan(Board::default(), &full(), kind, edge, 5));
        }
    }
}

/// Every edge that the other sweeps have, each once.
pub fn edges() -> Vec<u32> {
    let mut edges = [&EDGES[..], &ROW_EDGES, &CODE_EDGES, &[0x0100_0000, 0x03FF_FFFC, 0x0B00_0000, 0x0D00_0000]].concat();
    edges.sort_unstable();
    edges.dedup();
    edges
}

/// Blocks that begin at each place, or at each of so many, around an edge: of each number of words, by turns right behind an
/// access and not, and with an access right behind them that goes on from the last word, or would from another one.
pub fn edge_plan(board: Board, memories: &Memories, kind: u8, edge: u32, apart: usize) -> Plan {
    let mut records = Vec::new();
    for by in (0..72).step_by(apart) {
        let start = edge.wrapping_sub(67).wrapping_add(by);
        for words in 1..=MOST_WORDS {
            let block = Record::new(kind, 4, start, words);
            match (by / 4 + words) % 4 {
                0 => records.push(Record::new(READ, 2, lowered(start, 4).wrapping_sub(2), 0)),
                1 => records.push(Record::new(WRITE, 1, 0x0400_0000, 3)),
                _ => {}
            }
            records.push(block);
            match (by / 4 + words) % 3 {
                0 => records.push(Record::new(READ, 4, block_end(&block), 0)),
                1 => records.push(Record::new(READ, 4, lowered(start, 4).wrapping_add(4), 0)),
                _ => records.push(Record::new(WRITE, 1, 0x0601_0001, 0x5A)),
            }
        }
    }
    assert!(records.len() <= MOST_RECORDS);
    plan_of(board, memories, &records)
}

/// Blocks under the force flag and over a full buffer that begins where they do: neither is theirs, and both stay.
fn blocks_over_buffers(visit: &mut dyn FnMut(Plan)) {
    for edge in ROW_EDGES {
        let there = buffer(0x4240, edge, 8);
        let board = if there.sound() { there } else { buffer(0x4240, 0x0800_0100, 8) };
        for kind in BLOCKS {
            let board = Board { force: 1, ..board };
            let blocks = (1..=MOST_WORDS).map(|words| Record::new(kind, 4, edge.wrapping_sub(4 * (words / 2)), words));
            let records: Vec<Record> = blocks.collect();
            visit(plan_of(board, &small(), &records).grounded(GROUNDS * records.len(), 0));
        }
    }
}

/// Blocks that store, over the end of each memory, which is of each length modulo 4.
fn blocks_over_ends(visit: &mut dyn FnMut(Plan)) {
    for more in 0..4 {
        ENDS.iter().for_each(|&lengths| visit(end_plan(lengths, more)));
        visit(end_plan(SIZES.map(|size| size - 4), more + 1));
    }
}

/// Of 1, 2, 5 and 16 words, from 66 below to 5 above the end of each memory and of a mirror of it; what they clear was set before.
pub fn end_plan(lengths: [usize; 7], more: usize) -> Plan {
    let memories = Memories { lengths: lengths.map(|length| length + more), bios: 3 + more, rom: 5 + more };
    let counters = Board { vram: u64::MAX - 900, oam: u64::MAX - 201, palette: u64::MAX - 202, ..Board::default() };
    let mut records = Vec::new();
    for (which, start) in STARTS {
        let end = start + memories.lengths[which] as u32;
        for by in (0..72).step_by(3) {
            for words in [1, 2, 5, 16] {
                records.push(Record::new(WRITE, 4, end.wrapping_sub(4), 0x1234_5678));
                records.push(Record::new(BLOCK_WRITE, 4, end.wrapping_sub(66).wrapping_add(by), words));
            }
        }
    }
    plan_of(counters, &memories, &records)
}
