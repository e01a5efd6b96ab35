//! The sheets that are timed, made from fixed seeds: each is the same at every run.

use crate::bytes::*;
use crate::rng::Rng;

pub const RECORDS: usize = MOST_RECORDS;

/// The ROM that the sheets are made for.
pub const ROM_LEN: usize = 1 << 20;

/// WAITCNT as most cartridges set it (the Rust's `COMMERCIAL_COMMON`): prefetch on.
const COMMON: u32 = 0x4317;

/// WAITCNT's switch of the prefetch, and the bits of all waits: SRAM's and the three windows'.
const PREFETCH_ON: u32 = 0x4000;
const ALL_WAITS: u32 = 0x07FF;

const ENTRY: u32 = 0x0800_0100;

/// Sheet `number` of a sort has a seed of its own.
fn seeded(sort: u64, number: u64) -> Rng {
    Rng::new(sort + 1000 * number)
}

/// True once in n times.
fn one_in(rng: &mut Rng, n: usize) -> bool {
    rng.below(n) == 0
}

// ---- places ----

/// Top bytes and the offsets in use behind them: every memory of the map, ROM by each window.
const PLACES: [(u32, usize); 11] = [
    (0x00, 0x4000), (0x02, 0x4_0000), (0x03, 0x8000), (0x04, 0x400), (0x05, 0x400), (0x06, 0x1_8000),
    (0x07, 0x400), (0x08, ROM_LEN), (0x0A, ROM_LEN), (0x0C, ROM_LEN), (0x0E, 0x1_0000),
];

/// An address of any memory, and one in 32 times of none; most are aligned to the access.
fn data_address(rng: &mut Rng, size: u8) -> u32 {
    if one_in(rng, 32) {
        return rng.pick(&[0x0000_4000, 0x0100_0000, 0x0400_0400, 0x1000_0000, 0xFFFF_FFFC]);
    }
    let (top, span) = rng.pick(&PLACES);
    let address = top << 24 | rng.below(span) as u32;
    if one_in(rng, 8) {
        return address;
    }
    lowered(address, size)
}

/// The start of a piece of code in ROM, mostly in the first window.
fn rom_code(rng: &mut Rng) -> u32 {
    let window = rng.pick(&[0x0800_0000, 0x0800_0000, 0x0800_0000, 0x0A00_0000, 0x0C00_0000]);
    window + (rng.below(ROM_LEN) as u32 & !3)
}

// ---- records ----

fn read(rng: &mut Rng) -> Record {
    let size = rng.pick(&[1, 2, 4]);
    Record::new(READ, size, data_address(rng, size), 0)
}

fn write(rng: &mut Rng) -> Record {
    let size = rng.pick(&[1, 2, 4]);
    Record::new(WRITE, size, data_address(rng, size), rng.u32())
}

/// A block of so many words, at such a place as a READ or a WRITE of a word has.
fn block(rng: &mut Rng, kind: u8, words: u32) -> Record {
    Record::new(kind, 4, data_address(rng, 4), words)
}

/// Code that goes on from instruction to instruction, Thumb or ARM for a while, with jumps.
struct Code {
    at: u32,
    size: u8,
}

impl Code {
    fn instruction(&mut self, rng: &mut Rng, places: fn(&mut Rng) -> u32) -> Record {
        let jump = one_in(rng, 10);
        let mut record = Record::new(INSTRUCTION, self.size, self.at, rng.u32());
        record.flag = u8::from(jump);
        self.at = self.at.wrapping_add(u32::from(self.size));
        if jump {
            self.at = places(rng);
        }
        if jump && one_in(rng, 4) {
            self.size = 6 - self.size;
        }
        record
    }
}

/// Mostly ROM, at times IWRAM or EWRAM, as programs put their inner loops.
fn any_code(rng: &mut Rng) -> u32 {
    match rng.below(8) {
        0 => 0x0300_0000 + (rng.below(0x8000) as u32 & !3),
        1 => 0x0200_0000 + (rng.below(0x4_0000) as u32 & !3),
        _ => rom_code(rng),
    }
}

/// One record of a kind; fetches, restarts and instructions follow the same code.
fn of_kind(kind: u8, rng: &mut Rng, code: &mut Code) -> Record {
    match kind {
        READ => read(rng),
        WRITE => write(rng),
        WAITCNT => Record::new(WAITCNT, 0, 0, rng.pick(&[COMMON, COMMON, 0x4000, 0x0000, 0x4014, 0x5FFF])),
        IDLE => Record::new(IDLE, 0, 0, rng.below(33) as u32),
        FETCH => {
            code.at = code.at.wrapping_add(2);
            Record::new(FETCH, 0, code.at.wrapping_sub(2), 0)
        }
        RESTART => {
            if one_in(rng, 4) {
                code.at = rom_code(rng);
            }
            Record::new(RESTART, 0, code.at, 0)
        }
        INSTRUCTION => code.instruction(rng, any_code),
        PC => {
            let place = rng.pick(&[0x0000_0100, ENTRY, 0x0300_0000]);
            Record::new(PC, 0, place, 0)
        }
        _ => Record::new(LATCH, 0, 0, rng.u32()),
    }
}

// ---- sorts ----

/// A sort of sheets that both sides run.
pub struct Sort {
    pub name: &'static str,
    /// The name in the lines for programs.
    pub word: &'static str,
    /// Whether the library must not be slower here.
    pub judged: bool,
    pub version: Version,
    /// The records of the sheet with a number; `RECORDS` of them, or blocks of so many words together.
    pub records: fn(u64) -> Vec<Record>,
}

pub static SORTS: [Sort; 5] = [
    in_one("mixed kinds", "mixed", true, |number| mixed(RECORDS, number)),
    in_one("INSTRUCTION in ROM, prefetch on", "instruction", true, instructions),
    in_one("READ and WRITE", "access", true, reads_and_writes),
    in_one("IDLE 1", "idle", true, idle_1),
    in_one("IDLE 1, always filling (not judged)", "filling", false, idle_1_filling),
];

/// In none of the sorts above does an access to ROM go on where the one before it ended. This one has a
/// table of its own, since one sheet more between those of the first makes all of them slower.
pub static ROWS: Sort = in_one("READ and WRITE in rows (not judged)", "rows", false, copies);

/// Blocks have tables of their own for the same reason.
pub static BLOCKS: Sort = blocks_of("BLOCK READ and BLOCK WRITE", "blocks", blocks);

/// Blocks of the most words, of one kind a sheet and at the same places, to be held against a record for each word.
pub static LONG_BLOCKS: [Sort; 2] = [
    blocks_of("BLOCK READ 16 and READ 4", "read", |number| long_blocks(BLOCK_READ, number)),
    blocks_of("BLOCK WRITE 16 and WRITE 4", "write", |number| long_blocks(BLOCK_WRITE, number)),
];

/// A sort of version 1 sheets.
const fn in_one(name: &'static str, word: &'static str, judged: bool, records: fn(u64) -> Vec<Record>) -> Sort {
    Sort { name, word, judged, version: Version::One, records }
}

/// A sort of sheets of blocks, which are of version 2.
const fn blocks_of(name: &'static str, word: &'static str, records: fn(u64) -> Vec<Record>) -> Sort {
    Sort { name, word, judged: true, version: Version::Two, records }
}

/// Prefetch on, and filling from a place in ROM.
fn opening(waitcnt: u32, place: u32) -> Vec<Record> {
    vec![Record::new(WAITCNT, 0, 0, waitcnt), Record::new(RESTART, 0, place, 0)]
}

/// n records, each of the nine kinds equally often, in random order.
pub fn mixed(n: usize, number: u64) -> Vec<Record> {
    let mut rng = seeded(1, number);
    let mut code = Code { at: ENTRY, size: 2 };
    (0..n)
        .map(|_| {
            let kind = 1 + rng.below(9) as u8;
            of_kind(kind, &mut rng, &mut code)
        })
        .collect()
}

/// INSTRUCTION in ROM with prefetch on, Thumb and ARM.
fn instructions(number: u64) -> Vec<Record> {
    let mut rng = seeded(2, number);
    let mut code = Code { at: ENTRY, size: 2 };
    let mut records = opening(COMMON, ENTRY);
    records.resize_with(RECORDS, || code.instruction(&mut rng, rom_code));
    records
}

/// READ and WRITE of all sizes in all regions.
fn reads_and_writes(number: u64) -> Vec<Record> {
    let mut rng = seeded(3, number);
    (0..RECORDS).map(|_| if one_in(&mut rng, 2) { read(&mut rng) } else { write(&mut rng) }).collect()
}

/// IDLE 1 with prefetch on. After the opening all its sheets are alike, so only that differs: sheet 0 has the usual one, whose
/// buffer is full after some twenty IDLE 1, the others any waits and any place of the code.
fn idle_1(number: u64) -> Vec<Record> {
    let mut rng = seeded(5, number);
    let mut records = match number {
        0 => opening(COMMON, ENTRY),
        _ => opening(PREFETCH_ON | rng.u32() & ALL_WAITS, rom_code(&mut rng)),
    };
    records.resize(RECORDS, Record::new(IDLE, 0, 0, 1));
    records
}

/// IDLE 1 with prefetch on and a RESTART as soon as the buffer is full, so that it is always filling. There is one sheet.
fn idle_1_filling(_: u64) -> Vec<Record> {
    let idle = Record::new(IDLE, 0, 0, 1);
    let mut records = opening(COMMON, ENTRY);
    while records.len() + 21 <= RECORDS {
        records.extend([idle; 20]);
        records.push(Record::new(RESTART, 0, ENTRY + 16 * records.len() as u32, 0));
    }
    records.resize(RECORDS, idle);
    records
}

/// Tables copied from ROM to EWRAM, one to 16 accesses at a time: a row of READ, then one of WRITE, in one size.
fn copies(number: u64) -> Vec<Record> {
    let mut rng = seeded(6, number);
    let mut records = Vec::new();
    while records.len() < RECORDS {
        let size: u8 = rng.pick(&[1, 2, 4, 4, 4]);
        let (from, to) = (rom_code(&mut rng), 0x0200_0000 + lowered(rng.below(0x3_FF00) as u32, 4));
        let places = (0..1 + rng.below(16) as u32).map(|i| i * u32::from(size));
        records.extend(places.clone().map(|by| Record::new(READ, size, from + by, 0)));
        records.extend(places.map(|by| Record::new(WRITE, size, to + by, from)));
    }
    records.truncate(RECORDS);
    records
}

/// Blocks of one to 16 words.
fn blocks(number: u64) -> Vec<Record> {
    let mut rng = seeded(12, number);
    let mut one = || {
        let kind = rng.pick(&[BLOCK_READ, BLOCK_WRITE]);
        let words = 1 + rng.below(MOST_WORDS as usize) as u32;
        block(&mut rng, kind, words)
    };
    (0..RECORDS).map(|_| one()).collect()
}

/// As many blocks as have `RECORDS` words together.
fn long_blocks(kind: u8, number: u64) -> Vec<Record> {
    let mut rng = seeded(13, number);
    (0..RECORDS / MOST_WORDS as usize).map(|_| block(&mut rng, kind, MOST_WORDS)).collect()
}

/// A record for each word of blocks.
pub fn written_out(blocks: &[Record]) -> Vec<Record> {
    blocks.iter().flat_map(accesses).collect()
}

/// READ 4 for the words of a BLOCK READ, WRITE 4 of 0 for those of a BLOCK WRITE.
fn accesses(block: &Record) -> Vec<Record> {
    let kind = if block.kind == BLOCK_READ { READ } else { WRITE };
    block.words().map(|address| Record::new(kind, 4, address, 0)).collect()
}

// ---- sheets for the growth of a step ----

/// IDLE of a value, each after a RESTART: the buffer is filled from nothing every time, as far as the value goes.
pub fn restart_and_idle(value: u32) -> Vec<Record> {
    let mut records = vec![Record::new(WAITCNT, 0, 0, PREFETCH_ON)];
    while records.len() + 2 <= RECORDS {
        records.push(Record::new(RESTART, 0, ENTRY, 0));
        records.push(Record::new(IDLE, 0, 0, value));
    }
    records
}

/// READ and WRITE within the first `span` bytes of each memory, which the shortest memories have too.
pub fn low_reads_and_writes(span: usize) -> Vec<Record> {
    let mut rng = Rng::new(4);
    let mut one = || {
        let size: u8 = rng.pick(&[1, 2, 4]);
        let address = rng.pick(&PLACES).0 << 24 | lowered(rng.below(span) as u32, size);
        match rng.below(2) {
            0 => Record::new(READ, size, address, 0),
            _ => Record::new(WRITE, size, address, rng.u32()),
        }
    };
    (0..RECORDS).map(|_| one()).collect()
}
