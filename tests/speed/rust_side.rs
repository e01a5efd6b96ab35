//! The Rust's side: a run (docs/RULES.md, "How a run goes") done by the Rust's own functions, as leanly as it can be called.
//! Nothing is allocated or copied in a run but the 80 bytes of the board: the memories are the bus's own `Vec`s, set up before.
//! It does the same work as `bts_run`: it examines header, board and records, runs, counts the bytes that each store writes,
//! keeps the previous data access, and writes answers and board.
//! Of version 2 it has the blocks, and not the other opcodes of Thumb's POP: no version 2 sheet here has an
//! INSTRUCTION, and the four sorts of version 1 would pay for it.

use crate::bus::mirror::{io_offset, vram_offset};
use crate::bus::prefetch::PrefetchParts;
use crate::bus::region::{decode, Region};
use crate::bus::video::obj_vram_base;
use crate::bus::wait::{classify_access, AccessKind, AccessSize, RomWindow, WaitTables};
use crate::bus::{Bus, CpuMem, OpenBusState, PrefetchBuffer, WaitCnt};
use crate::bytes::*;
use crate::cpu::timing::{price_insn, TimingInput};
use crate::cpu::IsaState;
use crate::memories::{Memories, SIZES};

/// The bus; beside it the prefetch, so that `tick_idle` can have it and the bus's read at once without a copy; WAITCNT and the
/// previous data access, its address as lowered and its size, which the bus doesn't hold; and what stores land, by the address's
/// top byte, the last for all from 16 on.
pub struct Machine {
    bus: Bus,
    prefetch: PrefetchBuffer,
    waitcnt: WaitCnt,
    previous: Option<(u32, AccessSize)>,
    landings: [Landing; 17],
}

/// What a step gives, but for the count and the force flag, which are read off afterwards; and its idle cycles, so that the
/// prefetch is ticked at one place, which is quicker.
struct Done {
    value: u32,
    cycles: u32,
    hits: u8,
    idle: u32,
}

const NOTHING: Done = Done { value: 0, cycles: 0, hits: 0, idle: 0 };

impl Machine {
    pub fn new(m: &Memories) -> Machine {
        let mut parts = m.parts().into_iter().map(<[u8]>::to_vec);
        let mut part = || parts.next().unwrap();
        let bus = Bus {
            ewram: part(),
            iwram: part(),
            io: part(),
            palette: part(),
            vram: part(),
            oam: part(),
            sram: part(),
            bios: m.bios.clone(),
            rom: m.rom.clone(),
            ..Bus::new()
        };
        Machine {
            landings: landings(m.lengths),
            bus,
            prefetch: PrefetchBuffer::new(),
            waitcnt: WaitCnt::power_on(),
            previous: None,
        }
    }

    /// The seven memories of the store, in its order.
    pub fn parts(&self) -> [&[u8]; 7] {
        let b = &self.bus;
        [&b.ewram, &b.iwram, &b.io, &b.palette, &b.vram, &b.oam, &b.sram]
    }

    /// The run. Never inlined, as the library's isn't.
    #[inline(never)]
    pub fn run(&mut self, sheet: &[u8], board: &mut [u8], answers: &mut [u8]) -> Report {
        if let Some((number, index)) = self.refusal(sheet, board, answers) {
            return Report { number, index, total: 0 };
        }
        self.load_board(board);
        let mut total = 0u64;
        let records = sheet[HEADER..].chunks_exact(RECORD);
        let index = records.len() as u32;
        for (record, out) in records.zip(answers.chunks_exact_mut(ANSWER)) {
            let done = self.step(&Fields::of(record));
            self.tick_idle(done.idle);
            total += u64::from(done.cycles);
            out[0..4].copy_from_slice(&done.value.to_le_bytes());
            out[4..8].copy_from_slice(&done.cycles.to_le_bytes());
            out[8] = done.hits;
            out[9] = self.prefetch.len() as u8;
            out[10] = u8::from(self.bus.force_next_fetch_n);
            out[11] = 0;
        }
        self.store_board(board);
        Report { number: 0, index, total }
    }

    // ---- the examination ----

    /// The first row that holds of the table of RULES, "What a run is refused with", as (number, index).
    fn refusal(&self, sheet: &[u8], board: &[u8], answers: &[u8]) -> Option<(u32, u32)> {
        if sheet.len() < HEADER || sheet[0..3] != *b"BTS" {
            return Some((1, 0));
        }
        let Some(version) = Version::of(sheet) else {
            return Some((2, 0));
        };
        let n = usize::from(u16_at(sheet, 6));
        if sheet[5] != 0 || n > MOST_RECORDS || sheet.len() != HEADER + RECORD * n {
            return Some((3, 0));
        }
        // the bus has its memories in `Vec`s of their own, so that there is no sum to test
        let over = self.parts().iter().zip(SIZES).any(|(part, size)| part.len() > size);
        if over {
            return Some((4, 0));
        }
        if board.len() != BOARD || !Board::of(board).sound() {
            return Some((5, 0));
        }
        if answers.len() < ANSWER * n {
            return Some((6, 0));
        }
        let rules = match version {
            Version::One => &RULES,
            Version::Two => &RULES_WITH_BLOCKS,
        };
        let mut records = sheet[HEADER..].chunks_exact(RECORD);
        let least = records.position(|record| Fields::of(record).faulty(rules))?;
        Some((7, least as u32))
    }

    // ---- the board ----

    fn load_board(&mut self, bytes: &[u8]) {
        let b = Board::of(bytes);
        self.waitcnt = WaitCnt::from_u16(b.waitcnt);
        self.bus.wait_tables = self.waitcnt.to_tables();
        self.bus.force_next_fetch_n = b.force == 1;
        self.bus.cpu_pc = b.pc;
        self.bus.open_bus = OpenBusState { last_bios_opcode: b.latch };
        self.bus.vram_write_count = b.vram;
        self.bus.oam_write_count = b.oam;
        self.bus.palette_write_count = b.palette;
        self.previous = (b.prev_size > 0).then(|| (b.prev_addr, access_size(b.prev_size)));
        self.prefetch = PrefetchBuffer::from_parts(PrefetchParts {
            enabled: b.prefetch_on(),
            buf: b.halfwords,
            head: usize::from(b.head),
            count: usize::from(b.count),
            next_addr: b.next,
            wait_left: b.wait_left,
            filling: b.filling == 1,
            head_addr: b.head_addr,
            first_beat: b.first_beat == 1,
        });
    }

    fn store_board(&self, out: &mut [u8]) {
        let p = self.prefetch.parts();
        out[0..2].copy_from_slice(&self.waitcnt.raw().to_le_bytes());
        out[2] = u8::from(self.bus.force_next_fetch_n);
        out[3] = p.head as u8;
        out[4] = p.count as u8;
        out[5] = u8::from(p.filling);
        out[6] = u8::from(p.first_beat);
        out[8..12].copy_from_slice(&p.wait_left.to_le_bytes());
        out[12..16].copy_from_slice(&p.next_addr.to_le_bytes());
        out[16..20].copy_from_slice(&p.head_addr.to_le_bytes());
        for (out, half) in out[20..36].chunks_exact_mut(2).zip(p.buf) {
            out.copy_from_slice(&half.to_le_bytes());
        }
        out[36..40].copy_from_slice(&self.bus.cpu_pc.to_le_bytes());
        out[40..44].copy_from_slice(&self.bus.open_bus.last_bios_opcode.to_le_bytes());
        out[44..52].copy_from_slice(&self.bus.vram_write_count.to_le_bytes());
        out[52..60].copy_from_slice(&self.bus.oam_write_count.to_le_bytes());
        out[60..68].copy_from_slice(&self.bus.palette_write_count.to_le_bytes());
        out[68..72].copy_from_slice(&self.previous.map_or(0, |(address, _)| address).to_le_bytes());
        out[72] = self.previous.map_or(0, |(_, size)| size.bytes() as u8);
    }

    // ---- a step ----

    #[inline(always)]
    fn step(&mut self, r: &Fields) -> Done {
        match r.kind() {
            READ => {
                let value = self.read(r.size(), r.address);
                Done { value, cycles: self.data_price(r.size(), r.address), hits: 0, idle: 0 }
            }
            WRITE => {
                // before the store, which is quicker than after it; the mode by which a byte lands in VRAM isn't in VRAM
                let hits = self.landed(r.size(), r.address);
                self.write(r.size(), r.address, r.value);
                Done { value: 0, cycles: self.data_price(r.size(), r.address), hits, idle: 0 }
            }
            WAITCNT => {
                self.previous = None;
                self.waitcnt.write(r.value as u16);
                self.bus.wait_tables.apply_waitcnt(self.waitcnt);
                self.prefetch.set_enabled(self.waitcnt.prefetch_enable());
                NOTHING
            }
            IDLE => Done { value: 0, cycles: r.value, hits: 0, idle: r.value },
            FETCH => self.fetch(r.address),
            RESTART => {
                self.previous = None;
                self.prefetch.restart(r.address, self.bus.wait_tables);
                NOTHING
            }
            INSTRUCTION => self.instruction(r),
            PC => {
                self.bus.cpu_pc = r.address;
                NOTHING
            }
            BLOCK_READ => {
                let (value, cycles) = self.block_read(r.address, r.value);
                Done { value, cycles, hits: 0, idle: 0 }
            }
            BLOCK_WRITE => {
                let (hits, cycles) = self.block_write(r.address, r.value);
                Done { value: 0, cycles, hits, idle: 0 }
            }
            _ => {
                self.bus.open_bus.last_bios_opcode = r.value;
                NOTHING
            }
        }
    }

    /// The Rust's load once a word: the last word, and the price of all. Never inlined, nor is the other block, and neither is
    /// handed the record itself: the steps that version 1 has too would be slower.
    #[inline(never)]
    fn block_read(&mut self, address: u32, words: u32) -> (u32, u32) {
        let (mut value, mut cycles) = (0, 0);
        for at in words_from(address, words) {
            value = self.read(4, at);
            cycles += self.data_price(4, at);
        }
        (value, cycles)
    }

    /// The Rust's store of 0 once a word: the bytes that landed, counted as those of a WRITE, and the price of all.
    #[inline(never)]
    fn block_write(&mut self, address: u32, words: u32) -> (u8, u32) {
        let (mut hits, mut cycles) = (0, 0);
        for at in words_from(address, words) {
            hits += self.landed(4, at);
            self.write(4, at, 0);
            cycles += self.data_price(4, at);
        }
        (hits, cycles)
    }

    #[inline(always)]
    fn read(&mut self, size: u8, address: u32) -> u32 {
        match size {
            1 => u32::from(self.bus.read8(address)),
            2 => u32::from(self.bus.read16(address)),
            _ => self.bus.read32(address),
        }
    }

    #[inline(always)]
    fn write(&mut self, size: u8, address: u32, value: u32) {
        match size {
            1 => self.bus.write8(address, value as u8),
            2 => self.bus.write16(address, value as u16),
            _ => self.bus.write32(address, value),
        }
    }

    /// The number of memory bytes that a store writes (RULES, "Did a store land"), which the Rust's store doesn't tell: those
    /// from the lowered place up to the memory's end, but no more than the store's width there.
    #[inline(always)]
    fn landed(&self, size: u8, address: u32) -> u8 {
        let top = (address >> 24).min(16);
        let landing = &self.landings[top as usize];
        let width = landing.widths[usize::from(size & 7)];
        let place = match top {
            4 => io_offset(address).map_or(NOWHERE, |place| place as u32),
            6 => {
                let place = vram_offset(address) as u32;
                let mode = self.bus.io.first().copied().unwrap_or(0) & 7;
                if size == 1 && place >= obj_vram_base(mode) { NOWHERE } else { place }
            }
            _ => address & landing.mask,
        };
        landing.end.saturating_sub(place & 0u32.wrapping_sub(width)).min(width) as u8
    }

    #[inline(always)]
    fn fetch(&mut self, address: u32) -> Done {
        self.previous = None;
        match self.prefetch.try_fetch_half(address) {
            Some(half) => Done { value: u32::from(half), cycles: 0, hits: 1, idle: 0 },
            None => NOTHING,
        }
    }

    /// `tick_idle`, its reader being the bus's halfword read.
    fn tick_idle(&mut self, cycles: u32) {
        let Machine { bus, prefetch, .. } = self;
        prefetch.tick_idle(cycles, bus.wait_tables, |address| bus.read16(address));
    }

    /// Kind 7 up to its idle cycles; the force flag that it leaves has no part in them.
    fn instruction(&mut self, r: &Fields) -> Done {
        self.previous = None;
        let (isa, halves, opcode) = match r.size() {
            2 => (IsaState::Thumb, 1, r.value & 0xFFFF),
            _ => (IsaState::Arm, 2, r.value),
        };
        let input = TimingInput {
            isa,
            code_addr: r.address,
            opcode_raw: opcode,
            pc_changed: r.flag() == 1,
            prefetch_enabled: self.waitcnt.prefetch_enable(),
            force_fetch_n: self.bus.force_next_fetch_n,
        };
        let price = price_insn(input, self.bus.wait_tables, &self.prefetch);
        let hits = match RomWindow::from_addr(r.address) {
            Some(_) => self.fetch_code(r.address, halves),
            None => 0,
        };
        self.bus.force_next_fetch_n = price.latch_disable_bug;
        Done { value: price.cart_idle, cycles: price.total, hits, idle: price.cart_idle }
    }

    /// `try_fetch_half` for each halfword; on any miss `restart` after the last one. The hits.
    fn fetch_code(&mut self, address: u32, halves: u32) -> u8 {
        let mut hits = 0;
        for i in 0..halves {
            if self.prefetch.try_fetch_half(address.wrapping_add(2 * i)).is_some() {
                hits += 1;
            }
        }
        if u32::from(hits) < halves {
            let after = address.wrapping_add(2 * halves);
            self.prefetch.restart(after, self.bus.wait_tables);
        }
        hits
    }

    /// The price of a data access: by the region of its address, and in ROM by the previous one too, which it is itself from now
    /// on (RULES, "Sequential accesses").
    #[inline(always)]
    fn data_price(&mut self, size: u8, address: u32) -> u32 {
        let tables = self.bus.wait_tables;
        let access = access_size(size);
        let at = lowered(address, size);
        let previous = self.previous.replace((at, access));
        let rom = |window| {
            let kind = match previous {
                // in ROM one region is one window: to decode both addresses once more is slower
                Some((prev_addr, prev_size)) => {
                    classify_access(prev_addr, prev_size, at, RomWindow::from_addr(prev_addr) == Some(window))
                }
                None => AccessKind::Nonseq,
            };
            let first = tables.rom_half_cycles_at(at, window, kind);
            match access {
                AccessSize::Word => first + tables.rom_half_cycles(window, AccessKind::Seq),
                _ => first,
            }
        };
        match decode(address) {
            Region::GamePakRomWs0 => rom(RomWindow::Ws0),
            Region::GamePakRomWs1 => rom(RomWindow::Ws1),
            Region::GamePakRomWs2 => rom(RomWindow::Ws2),
            Region::Ewram => tables.ewram_cycles(access),
            Region::Palette | Region::Vram => WaitTables::video_ram_cycles(access),
            Region::GamePakSram => tables.sram_byte_cycles(),
            _ => WaitTables::fixed_fast_cycles(access),
        }
    }
}

/// The addresses of a block's words: upwards from its own lowered to a multiple of 4, modulo 2^32.
#[inline(always)]
fn words_from(address: u32, words: u32) -> impl Iterator<Item = u32> {
    let first = lowered(address, 4);
    (0..words).map(move |i| first.wrapping_add(4 * i))
}

#[inline(always)]
fn access_size(bytes: u8) -> AccessSize {
    match bytes {
        1 => AccessSize::Byte,
        2 => AccessSize::Half,
        _ => AccessSize::Word,
    }
}

// ---- what stores land ----

/// What the stores of a top byte land: looked up, since another jump by the region costs more.
#[derive(Clone, Copy, Default)]
struct Landing {
    /// The bits of the address that are the place. I/O and VRAM have rules of their own.
    mask: u32,
    /// The memory's length.
    end: u32,
    /// By size, how many bytes a store writes inside the memory.
    widths: [u32; 8],
}

/// A place past the end of every memory.
const NOWHERE: u32 = u32::MAX;

/// Those of the memories, ROM and BIOS having none: a byte fills its halfword in palette and VRAM and is dropped in OAM, and SRAM
/// takes one byte of each store.
fn landings(lengths: [usize; 7]) -> [Landing; 17] {
    let mut landings = [Landing::default(); 17];
    let tops: [(usize, usize, [u32; 3]); 8] = [
        (2, 0, [1, 2, 4]), (3, 1, [1, 2, 4]), (4, 2, [1, 2, 4]), (5, 3, [2, 2, 4]), (6, 4, [2, 2, 4]), (7, 5, [0, 2, 4]),
        (14, 6, [1, 1, 1]), (15, 6, [1, 1, 1]),
    ];
    for (top, which, [byte, half, word]) in tops {
        let widths = [0, byte, half, 0, word, 0, 0, 0];
        landings[top] = Landing { mask: SIZES[which] as u32 - 1, end: lengths[which] as u32, widths };
    }
    landings
}

// ---- records, read by words ----

/// A record: its first four bytes as one number, then address and value.
struct Fields {
    head: u32,
    address: u32,
    value: u32,
}

impl Fields {
    #[inline(always)]
    fn of(bytes: &[u8]) -> Fields {
        let b: &[u8; RECORD] = bytes.try_into().unwrap();
        Fields {
            head: u32::from_le_bytes([b[0], b[1], b[2], b[3]]),
            address: u32::from_le_bytes([b[4], b[5], b[6], b[7]]),
            value: u32::from_le_bytes([b[8], b[9], b[10], b[11]]),
        }
    }

    #[inline(always)]
    fn kind(&self) -> u8 {
        self.head as u8
    }

    #[inline(always)]
    fn size(&self) -> u8 {
        (self.head >> 8) as u8
    }

    #[inline(always)]
    fn flag(&self) -> u8 {
        (self.head >> 16) as u8
    }

    /// Without a jump on the kind: what a kind allows is looked up.
    #[inline(always)]
    fn faulty(&self, rules: &[Rule; 16]) -> bool {
        let rule = &rules[(self.head & 15) as usize];
        let size_and_flag = (self.head >> 8 & 7) | (self.head >> 13 & 8);
        (self.head & !(15 | 7 << 8 | 1 << 16) != 0)
            | (rule.sizes_and_flags >> size_and_flag & 1 == 0)
            | (self.address & rule.no_address != 0)
            | (self.value.wrapping_sub(rule.least_value) & rule.no_value != 0)
    }
}

/// What a kind allows: the sizes (bits 0 to 7, or 8 to 15 with flag 1); the bits that the address must not have, and those that
/// the value must not have above the least one.
#[derive(Clone, Copy)]
struct Rule {
    sizes_and_flags: u32,
    no_address: u32,
    no_value: u32,
    least_value: u32,
}

const ALL: u32 = u32::MAX;
const NO_SIZE: u32 = 1 << 0;
const ANY_SIZE: u32 = 1 << 1 | 1 << 2 | 1 << 4;
const CODE_SIZE: u32 = (1 << 2 | 1 << 4) * 0x101;
const WORD_SIZE: u32 = 1 << 4;

const fn rule(sizes_and_flags: u32, no_address: u32, no_value: u32) -> Rule {
    Rule { sizes_and_flags, no_address, no_value, least_value: 0 }
}

/// By kind, in version 1; those outside the table allow no size.
const RULES: [Rule; 16] = {
    let mut rules = [rule(0, 0, 0); 16];
    rules[READ as usize] = rule(ANY_SIZE, 0, ALL);
    rules[WRITE as usize] = rule(ANY_SIZE, 0, 0);
    rules[WAITCNT as usize] = rule(NO_SIZE, ALL, !0xFFFF);
    rules[IDLE as usize] = rule(NO_SIZE, ALL, 0);
    rules[FETCH as usize] = rule(NO_SIZE, 0, ALL);
    rules[RESTART as usize] = rule(NO_SIZE, 0, ALL);
    rules[INSTRUCTION as usize] = rule(CODE_SIZE, 0, 0);
    rules[PC as usize] = rule(NO_SIZE, 0, ALL);
    rules[LATCH as usize] = rule(NO_SIZE, ALL, 0);
    rules
};

/// In version 2: a block has one word or up to 15 more.
const RULES_WITH_BLOCKS: [Rule; 16] = {
    let mut rules = RULES;
    let block = Rule { least_value: 1, ..rule(WORD_SIZE, 0, !(MOST_WORDS - 1)) };
    rules[BLOCK_READ as usize] = block;
    rules[BLOCK_WRITE as usize] = block;
    rules
};
