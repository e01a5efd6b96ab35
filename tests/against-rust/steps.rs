//! Lists of steps over the places where a rule changes.

use crate::boards::{program_counter, row_place, CODE_EDGES, ROW_EDGES};
use crate::bytes::*;
use crate::gen::{Memories, Rng};

/// Where regions, windows, mirrors and parts of regions begin; the generator goes 4 below to 3 above.
pub const EDGES: [u32; 58] = [
    // BIOS, unused
    0x0000_0000, 0x0000_0010, 0x0000_4000, 0x0100_0000,
    // EWRAM and its mirrors, IWRAM and its mirrors
    0x0200_0000, 0x0204_0000, 0x02FC_0000, 0x0300_0000, 0x0300_8000, 0x03FF_8000,
    // I/O: the mode, WAITCNT's place, the ends, the word at 0x800 in several pages
    0x0400_0000, 0x0400_0204, 0x0400_0400, 0x0400_0800, 0x0400_0804, 0x0401_0000, 0x0401_0204,
    0x0401_0400, 0x0401_0800, 0x0401_0804, 0x0480_0800, 0x0480_0804, 0x04FF_0800, 0x04FF_0804,
    // palette
    0x0500_0000, 0x0500_0400, 0x05FF_FC00,
    // VRAM: background, objects, the doubled 32 KiB, mirrors
    0x0600_0000, 0x0601_0000, 0x0601_4000, 0x0601_8000, 0x0601_C000, 0x0602_0000, 0x0603_0000,
    0x0603_4000, 0x0603_8000, 0x06FF_8000,
    // OAM
    0x0700_0000, 0x0700_0400, 0x07FF_FC00,
    // ROM windows and blocks
    0x0800_0000, 0x0800_0100, 0x0802_0000, 0x0900_0000, 0x0A00_0000, 0x0A02_0000, 0x0C00_0000,
    0x0C04_0000, 0x0DFE_0000,
    // SRAM and its mirrors
    0x0E00_0000, 0x0E00_2000, 0x0E00_8000, 0x0E01_0000, 0x0F00_0000, 0x0FFF_0000,
    // the end of the map, the top bit, and with what is below 0 the end of all addresses
    0x1000_0000, 0x8000_0000, 0xFFFF_FFFC,
];

/// Where each memory is seen, and how far apart its mirrors are: EWRAM to SRAM, then BIOS, then ROM.
const BASES: [(u32, u32); 9] = [
    (0x0200_0000, 0x0004_0000), (0x0300_0000, 0x8000), (0x0400_0000, 0x0001_0000),
    (0x0500_0000, 0x400), (0x0600_0000, 0x0002_0000), (0x0700_0000, 0x400),
    (0x0E00_0000, 0x0001_0000), (0x0000_0000, 0), (0x0800_0000, 0x0200_0000),
];

/// WAITCNT values for rows of accesses: as at power on; S dearer than N in window 1, in window 2 and in both; S cheaper in all
/// three; what most cartridges set; and all bits.
pub const ROW_WAITS: [u16; 7] = [0x0000, 0x0040, 0x0200, 0x0240, 0x0490, 0x4317, 0x5FFF];

const IDLES: [u32; 16] = [0, 1, 1, 2, 3, 3, 4, 5, 6, 9, 10, 14, 27, 28, 100, u32::MAX];

/// The patterns of the opcode tests (value, bits that the test looks at), and some they must miss.
const ARM: [(u32, u32); 9] = [
    (0x0000_0090, 0x0FC0_00F0), (0x0410_0000, 0x0C50_0000), (0x0810_0000, 0x0E10_0000),
    (0x0100_0090, 0x0FB0_0FF0), (0x0000_0010, 0x0E00_0090), (0xE1A0_0000, 0xFFFF_FFFF),
    (0xE12F_FF1E, 0xFFFF_FFF0), (0x0080_0090, 0x0F80_00F0), (0x0010_0090, 0x0E10_0090),
];
const THUMB: [u32; 12] =
    [0x48, 0x4F, 0x68, 0x6F, 0x98, 0x9F, 0xC8, 0xCF, 0xBA, 0xBB, 0xBC, 0x1C];

/// The opcode bytes by which the versions differ (docs/RULES.md, "Internal cycles").
const POPS: [u32; 4] = [0xBA, 0xBB, 0xBC, 0xBD];

/// Where a block may change something that others look at: I/O byte 0, which has the display mode, and the video memories.
const SEEN_AGAIN: [u32; 5] = [0x0400_0000, 0x0500_0000, 0x0600_0000, 0x0601_0000, 0x0700_0000];

/// A READ or a WRITE, which go on from each other by one rule (RULES, "Sequential accesses").
pub fn load_or_store(rng: &mut Rng, size: u8, address: u32) -> Record {
    if rng.percent(60) { Record::new(READ, size, address, 0) } else { Record::new(WRITE, size, address, rng.u32()) }
}

/// Where a block's last word ends.
pub fn block_end(block: &Record) -> u32 {
    lowered(block.address, 4).wrapping_add(4 * block.value)
}

pub struct Steps<'a> {
    version: Version,
    rng: &'a mut Rng,
    memories: &'a Memories,
    /// The last address used: stores are worth reading back, and neighbours worth a look.
    recent: u32,
}

impl<'a> Steps<'a> {
    /// Those of version 1.
    pub fn new(rng: &'a mut Rng, memories: &'a Memories) -> Steps<'a> {
        Steps::in_version(Version::One, rng, memories)
    }

    pub fn in_version(version: Version, rng: &'a mut Rng, memories: &'a Memories) -> Steps<'a> {
        Steps { version, rng, memories, recent: 0x0200_0000 }
    }

    /// True p times in a hundred, in version 2 alone: version 1 lists stay what they were.
    fn in_two(&mut self, p: usize) -> bool {
        self.version == Version::Two && self.rng.percent(p)
    }

    /// Steps of all kinds at any place.
    pub fn mixed(mut self, n: usize) -> Vec<Record> {
        (0..n).map(|_| self.any()).collect()
    }

    /// Code that mostly goes on from where the prefetch stands, with idle time between.
    pub fn code_run(mut self, n: usize, board: &Board) -> Vec<Record> {
        let mut at = match (board.count, board.next) {
            (0, 0) => self.code_edge(),
            (0, next) => next,
            _ => board.head_addr,
        };
        let mut records = Vec::with_capacity(n);
        for i in 0..n {
            let record = if i < 2 && !board.prefetch_on() && self.rng.percent(80) {
                Record::new(WAITCNT, 0, 0, self.waitcnt() | 0x4000)
            } else {
                self.code_step(&mut at)
            };
            records.push(record);
        }
        records
    }

    /// Rows of data accesses at rising addresses over the places where one may break off, the first where the board's previous
    /// access ended; steps of all other kinds between.
    pub fn rows(mut self, n: usize, board: &Board) -> Vec<Record> {
        let mut at = board.prev_end().unwrap_or_else(|| row_place(self.rng));
        (0..n).map(|_| self.row_step(&mut at)).collect()
    }

    /// One step among rows; `at` is where the last access ended.
    fn row_step(&mut self, at: &mut u32) -> Record {
        if self.in_two(25) {
            return self.row_block(at);
        }
        match self.rng.below(100) {
            0..=71 => self.row_access(at),
            72..=77 => {
                *at = row_place(self.rng);
                self.row_access(at)
            }
            78..=81 => {
                *at = self.rng.near(*at, 5, 5);
                self.row_access(at)
            }
            82..=84 => Record::new(WAITCNT, 0, 0, self.rng.pick(&ROW_WAITS).into()),
            _ => self.between(),
        }
    }

    /// A load or store that mostly goes on at a place; its address may lie above it by less than its size. `at` moves to its end.
    fn row_access(&mut self, at: &mut u32) -> Record {
        let mut size: u8 = self.rng.pick(&[1, 2, 2, 4, 4]);
        while *at % u32::from(size) != 0 && self.rng.percent(85) {
            size /= 2;
        }
        let start = lowered(*at, size);
        let above = if self.rng.percent(25) { self.rng.below(usize::from(size)) as u32 } else { 0 };
        *at = start.wrapping_add(size.into());
        load_or_store(self.rng, size, start + above)
    }

    /// A block that goes on at a place, or begins a row near an edge. `at` moves to its end.
    fn row_block(&mut self, at: &mut u32) -> Record {
        if self.rng.percent(20) {
            *at = self.block_address();
        }
        let block = self.block_at(*at);
        *at = block_end(&block);
        block
    }

    /// A step that may break a row off or not: all other kinds, and an access elsewhere.
    fn between(&mut self) -> Record {
        match self.rng.below(10) {
            0 => Record::new(WAITCNT, 0, 0, self.waitcnt()),
            1 | 2 => Record::new(IDLE, 0, 0, self.idle()),
            3 => Record::new(FETCH, 0, self.code_address(), 0),
            4 => Record::new(RESTART, 0, self.code_address(), 0),
            5 => self.instruction_anywhere(2),
            6 => self.instruction_anywhere(4),
            7 => Record::new(PC, 0, program_counter(self.rng), 0),
            8 => Record::new(LATCH, 0, 0, self.rng.u32()),
            _ => self.read(),
        }
    }

    /// One step of a code run; `at` moves on.
    fn code_step(&mut self, at: &mut u32) -> Record {
        if self.in_two(8) {
            let address = self.block_address();
            return self.block_at(address);
        }
        let odd = u32::from(self.rng.percent(8));
        let here = *at | odd;
        match self.rng.below(100) {
            0..=22 => {
                *at = at.wrapping_add(2);
                self.instruction(2, here)
            }
            23..=37 => {
                *at = at.wrapping_add(4);
                self.instruction(4, here)
            }
            38..=49 => {
                *at = at.wrapping_add(2);
                Record::new(FETCH, 0, here, 0)
            }
            50..=75 => Record::new(IDLE, 0, 0, self.idle()),
            76..=79 => Record::new(WAITCNT, 0, 0, self.waitcnt() | 0x4000),
            80 => Record::new(WAITCNT, 0, 0, self.waitcnt()),
            81..=85 => Record::new(RESTART, 0, here, 0),
            86..=88 => {
                *at = self.code_edge();
                Record::new(RESTART, 0, *at | odd, 0)
            }
            89..=91 => self.instruction(4, here.wrapping_sub(2)),
            92..=93 => Record::new(FETCH, 0, here.wrapping_add(2), 0),
            94..=95 => self.instruction(2, 0x0300_0000),
            _ => self.any(),
        }
    }

    fn any(&mut self) -> Record {
        if self.in_two(20) {
            let address = self.block_address();
            return self.block_at(address);
        }
        match self.rng.below(100) {
            0..=21 => self.read(),
            22..=47 => self.write(),
            48..=50 => Record::new(WRITE, 1, 0x0400_0000, self.rng.below(8) as u32), // the mode
            51..=55 => Record::new(WAITCNT, 0, 0, self.waitcnt()),
            56..=64 => Record::new(IDLE, 0, 0, self.idle()),
            65..=69 => Record::new(FETCH, 0, self.code_address(), 0),
            70..=74 => Record::new(RESTART, 0, self.code_address(), 0),
            75..=84 => self.instruction_anywhere(2),
            85..=92 => self.instruction_anywhere(4),
            93..=96 => Record::new(PC, 0, program_counter(self.rng), 0),
            _ => Record::new(LATCH, 0, 0, self.rng.u32()),
        }
    }

    fn read(&mut self) -> Record {
        let size = self.rng.pick(&[1, 2, 4]);
        Record::new(READ, size, self.address(), 0)
    }

    /// The value has high bits that its size ignores.
    fn write(&mut self) -> Record {
        let size = self.rng.pick(&[1, 2, 4]);
        Record::new(WRITE, size, self.address(), self.rng.u32())
    }

    /// A block of 1 to 16 words, most often of 1, 2 or 16; what comes behind it is often near its end.
    fn block_at(&mut self, address: u32) -> Record {
        let words = if self.rng.percent(40) { self.rng.pick(&[1, 2, 16]) } else { 1 + self.rng.below(16) as u32 };
        let block = Record::new(self.rng.pick(&[BLOCK_READ, BLOCK_WRITE]), 4, address, words);
        self.recent = block_end(&block);
        block
    }

    /// Mostly so far below a place where a rule changes that a block of 16 words just reaches it, or less far; at any residue.
    fn block_address(&mut self) -> u32 {
        match self.rng.below(100) {
            0..=24 => self.below(&EDGES),
            25..=44 => self.below(&ROW_EDGES),
            45..=54 => self.below(&SEEN_AGAIN),
            55..=74 => {
                let end = self.memory_end();
                self.rng.near(end, 64, 4)
            }
            _ => self.address(),
        }
    }

    fn below(&mut self, edges: &[u32]) -> u32 {
        let edge = self.rng.pick(edges);
        self.rng.near(edge, 67, 4)
    }

    fn instruction_anywhere(&mut self, size: u8) -> Record {
        let address = self.code_address();
        self.instruction(size, address)
    }

    fn instruction(&mut self, size: u8, address: u32) -> Record {
        let opcode = if size == 2 { self.thumb() } else { self.arm() };
        let flag = u8::from(self.rng.percent(25));
        Record { flag, ..Record::new(INSTRUCTION, size, address, opcode) }
    }

    /// A test's pattern with all other bits random, in a third of the cases off by one bit.
    fn arm(&mut self) -> u32 {
        let (value, looked_at) = self.rng.pick(&ARM);
        let opcode = value | self.rng.u32() & !looked_at;
        if self.rng.percent(33) { opcode ^ 1 << self.rng.below(32) } else { opcode }
    }

    fn thumb(&mut self) -> u32 {
        let high = if self.in_two(30) { self.rng.pick(&POPS) } else { self.rng.pick(&THUMB) };
        let opcode = high << 8 | self.rng.u32() & 0xFF;
        let opcode = if self.rng.percent(33) { opcode ^ 1 << self.rng.below(16) } else { opcode };
        if self.rng.percent(30) { opcode | self.rng.u32() << 16 } else { opcode }
    }

    fn waitcnt(&mut self) -> u32 {
        let value = self.rng.u32() & 0xFFFF;
        if self.rng.percent(20) { self.rng.pick(&[0, 0x4000, 0x4317, 0xFFFF, 0x2000, 0x8000]) } else { value }
    }

    fn idle(&mut self) -> u32 {
        if self.rng.percent(3) { self.rng.u32() } else { self.rng.pick(&IDLES) }
    }

    // ---- addresses ----

    fn address(&mut self) -> u32 {
        self.recent = match self.rng.below(100) {
            0..=34 => self.edge(),
            35..=57 => self.memory_end(),
            58..=74 => self.rng.near(self.recent, 4, 4),
            _ => self.somewhere(),
        };
        self.recent
    }

    fn edge(&mut self) -> u32 {
        let edge = self.rng.pick(&EDGES);
        self.rng.near(edge, 4, 3)
    }

    /// Around the end of a memory as lent, in one of its mirrors; SRAM at multiples of its length.
    fn memory_end(&mut self) -> u32 {
        let which = self.rng.below(9);
        let (base, apart) = BASES[which];
        let length = match which {
            6 => self.memories.lengths[6] * self.rng.below(4),
            7 => self.memories.bios,
            8 => self.memories.rom,
            _ => self.memories.lengths[which],
        };
        let mirror = if self.rng.percent(60) { 0 } else { self.rng.below(3) as u32 };
        let end = base.wrapping_add(apart * mirror).wrapping_add(length as u32);
        self.rng.near(end, 4, 3)
    }

    fn somewhere(&mut self) -> u32 {
        let tops = if self.rng.percent(95) { 0x11 } else { 0x100 };
        let offsets = if self.rng.percent(60) { 64 } else { 0x100_0000 };
        (self.rng.below(tops) << 24 | self.rng.below(offsets)) as u32
    }

    fn code_edge(&mut self) -> u32 {
        let edge = self.rng.pick(&CODE_EDGES);
        self.rng.near(edge, 4, 3) & !1
    }

    fn code_address(&mut self) -> u32 {
        match self.rng.below(100) {
            0..=54 => {
                let edge = self.rng.pick(&CODE_EDGES);
                self.rng.near(edge, 4, 3)
            }
            55..=69 => self.rng.pick(&[0x0200_0000, 0x0300_0000, 0x0600_0000, 0x0E00_0000, 0x0000_0100]),
            _ => self.address(),
        }
    }
}
