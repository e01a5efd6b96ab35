//! A run by the rules (docs/RULES.md), done by calling the unchanged Rust: this is what the library is held against.
//! The refusals, the order of a step's calls and the data price are added rules, so written here; the hits of a WRITE, the
//! bytes that landed, are added too, and landed.rs has them from the Rust's store. Which access is the previous one, and which
//! steps forget it, is written here by RULES, "Sequential accesses"; what follows for the price is told by the Rust. Why each
//! step has the price that it has is told by grounds.rs, which is shown the machine before each. A block is the Rust's access
//! once a word; where version 2 looks for Thumb's POP is an added rule, and what follows from that is the Rust's.

use crate::bytes::*;
use crate::grounds::{self, Ground, Moment};
use crate::landed::Probes;
use graycart::bus::prefetch::PrefetchParts;
use graycart::bus::region::{
    decode, Region, EWRAM_SIZE, IO_SIZE, IWRAM_SIZE, OAM_SIZE, PALETTE_SIZE, SRAM_WINDOW_SIZE,
    VRAM_SIZE,
};
pub use graycart::bus::region::{BIOS_SIZE, ROM_WINDOW_SIZE};
use graycart::bus::wait::{classify_access, AccessKind, AccessSize, RomWindow, WaitTables};
use graycart::bus::{Bus, CpuMem, OpenBusState, PrefetchBuffer, WaitCnt};
use graycart::cpu::timing::{price_insn, TimingInput};
use graycart::cpu::IsaState;

/// The sizes of the seven memories of the store, in its order.
pub const SIZES: [usize; 7] =
    [EWRAM_SIZE, IWRAM_SIZE, IO_SIZE, PALETTE_SIZE, VRAM_SIZE, OAM_SIZE, SRAM_WINDOW_SIZE];

// ---- the run ----

/// What a run of the Rust gives.
pub struct Ran {
    pub outcome: Outcome,
    /// Of each step; of a refused run there are none.
    pub grounds: Vec<Vec<Ground>>,
}

/// The whole run: a refusal that leaves every byte, or all records in order. Of a tariff the Rust has nothing (tariff.rs).
pub fn run(case: &Case) -> Ran {
    if let Some((number, index)) = refusal(case) {
        return Ran { outcome: refused(case, (number, index), &[]), grounds: Vec::new() };
    }
    let mut machine = Machine::new(case);
    let mut answers = case.answers.clone();
    let records = records_of(&case.sheet);
    let mut total = 0u64;
    let mut grounds = Vec::with_capacity(records.len());
    for (k, record) in records.iter().enumerate() {
        grounds.push(grounds::of(&machine.moment(), record));
        let answer = machine.step(record);
        total += u64::from(answer.cycles);
        answers[ANSWER * k..ANSWER * (k + 1)].copy_from_slice(&answer.bytes());
    }
    if let Some(probes) = machine.probes.take() {
        probes.check_rest();
    }
    let outcome = Outcome {
        report: Report { number: 0, index: records.len() as u32, total }.into(),
        board: machine.board().bytes(),
        store: machine.store(),
        answers,
        second: Vec::new(),
    };
    Ran { outcome, grounds }
}

/// The outcome of a refusal, as (number, index): every byte is as lent, those of the second buffer too.
pub fn refused(case: &Case, (number, index): (u32, u32), second: &[u8]) -> Outcome {
    Outcome {
        report: Report { number, index, total: 0 }.into(),
        board: case.board.clone(),
        store: case.store.clone(),
        answers: case.answers.clone(),
        second: second.to_vec(),
    }
}

/// The first row that holds of the table of RULES, "What a run is refused with", as (number, index).
pub fn refusal(case: &Case) -> Option<(u32, u32)> {
    let sheet = &case.sheet;
    if sheet.len() < HEADER || sheet[0..3] != *b"BTS" {
        return Some((1, 0));
    }
    let Some(version) = Version::of(sheet) else {
        return Some((2, 0));
    };
    let n = record_count(sheet);
    if sheet[5] != 0 || n > MOST_RECORDS || sheet.len() != HEADER + RECORD * n {
        return Some((3, 0));
    }
    if lengths_refused(case) {
        return Some((4, 0));
    }
    if case.board.len() != BOARD || !Board::of(&case.board).sound() {
        return Some((5, 0));
    }
    if case.answers.len() < ANSWER * n {
        return Some((6, 0));
    }
    // in two passes, where the library has one: the lowest record faulty in either
    let records = records_of(sheet);
    let by_kind = records.iter().position(|r| r.kind_or_size_faulty(version));
    let by_fields = records.iter().position(Record::fields_faulty);
    let least = by_kind.into_iter().chain(by_fields).min()?;
    Some((7, least as u32))
}

/// The same with a second buffer that needs so many bytes a step, from what the run gives without it: it is looked at beside the
/// answers.
pub fn refusal_with_second(case: &Case, plain: &Bill, second: &[u8], each: usize) -> Option<(u32, u32)> {
    match plain.number {
        1..=6 => Some((plain.number, 0)),
        _ if second.len() < each * record_count(&case.sheet) => Some((6, 0)),
        7 => Some((7, plain.index)),
        _ => None,
    }
}

/// A length over its size, or seven lengths that don't add up to the store (added wide: no wrap).
fn lengths_refused(case: &Case) -> bool {
    let over = case.lengths.iter().zip(SIZES).any(|(&length, size)| length > size);
    let sum: u128 = case.lengths.iter().map(|&length| length as u128).sum();
    case.bios.len() > BIOS_SIZE
        || case.rom.len() > ROM_WINDOW_SIZE
        || over
        || sum != case.store.len() as u128
}

// ---- the machine: the Rust's bus; its WAITCNT and the previous data access, which the bus doesn't hold ----

struct Machine {
    version: Version,
    bus: Bus,
    waitcnt: WaitCnt,
    previous: Option<Access>,
    /// Made at the first WRITE, since many cases have none.
    probes: Option<Probes>,
}

impl Machine {
    /// From the bytes of an accepted case.
    fn new(case: &Case) -> Machine {
        let version = Version::of(&case.sheet).unwrap();
        let board = Board::of(&case.board);
        let waitcnt = WaitCnt::from_u16(board.waitcnt);
        let mut memories = parts_of(&case.store, case.lengths).into_iter().map(<[u8]>::to_vec);
        let mut memory = || memories.next().unwrap();
        let bus = Bus {
            ewram: memory(),
            iwram: memory(),
            io: memory(),
            palette: memory(),
            vram: memory(),
            oam: memory(),
            sram: memory(),
            bios: case.bios.clone(),
            rom: case.rom.clone(),
            open_bus: OpenBusState { last_bios_opcode: board.latch },
            cpu_pc: board.pc,
            prefetch: prefetch_of(&board),
            wait_tables: waitcnt.to_tables(),
            force_next_fetch_n: board.force == 1,
            vram_write_count: board.vram,
            oam_write_count: board.oam,
            palette_write_count: board.palette,
        };
        let previous = (board.prev_size > 0).then(|| (board.prev_addr, access_size(board.prev_size)));
        Machine { version, bus, waitcnt, previous, probes: None }
    }

    fn board(&self) -> Board {
        let p = self.bus.prefetch.parts();
        assert_eq!(p.enabled, self.waitcnt.prefetch_enable());
        assert_eq!(self.bus.wait_tables, self.waitcnt.to_tables());
        Board {
            waitcnt: self.waitcnt.raw(),
            force: u8::from(self.bus.force_next_fetch_n),
            head: p.head as u8,
            count: p.count as u8,
            filling: u8::from(p.filling),
            first_beat: u8::from(p.first_beat),
            zero_7: 0,
            wait_left: p.wait_left,
            next: p.next_addr,
            head_addr: p.head_addr,
            halfwords: p.buf,
            pc: self.bus.cpu_pc,
            latch: self.bus.open_bus.last_bios_opcode,
            vram: self.bus.vram_write_count,
            oam: self.bus.oam_write_count,
            palette: self.bus.palette_write_count,
            prev_addr: self.previous.map_or(0, |(address, _)| address),
            prev_size: self.previous.map_or(0, |(_, size)| size.bytes() as u8),
            zeros_73: [0; 7],
        }
    }

    /// What decides the grounds of the step that comes next.
    fn moment(&self) -> Moment<'_> {
        Moment { prefetch: &self.bus.prefetch, forced: self.bus.force_next_fetch_n, previous: self.previous }
    }

    fn store(&self) -> Vec<u8> {
        let b = &self.bus;
        [&b.ewram[..], &b.iwram, &b.io, &b.palette, &b.vram, &b.oam, &b.sram].concat()
    }

    // ---- one step ----

    fn step(&mut self, r: &Record) -> Answer {
        let (mut value, mut cycles, mut hits) = (0, 0, 0);
        match r.kind {
            READ => {
                value = self.read(r.size, r.address);
                cycles = self.access(r.size, r.address);
            }
            WRITE => {
                hits = self.write(r.size, r.address, r.value);
                cycles = self.access(r.size, r.address);
            }
            WAITCNT => {
                self.waitcnt.write(r.value as u16);
                self.bus.apply_waitcnt(self.waitcnt);
            }
            IDLE => {
                self.tick_idle(r.value);
                cycles = r.value;
            }
            FETCH => (value, hits) = self.fetch(r.address),
            RESTART => self.bus.prefetch.restart(r.address, self.bus.wait_tables),
            INSTRUCTION => (value, cycles, hits) = self.instruction(r),
            PC => self.bus.cpu_pc = r.address,
            LATCH => self.bus.open_bus.last_bios_opcode = r.value,
            BLOCK_READ => {
                for word in r.words() {
                    value = self.read(4, word);
                    cycles += self.access(4, word);
                }
            }
            BLOCK_WRITE => {
                for word in r.words() {
                    hits += self.write(4, word, 0);
                    cycles += self.access(4, word);
                }
            }
            kind => unreachable!("kind {kind} in an accepted sheet"),
        }
        if matches!(r.kind, INSTRUCTION | FETCH | RESTART | WAITCNT) {
            self.previous = None;
        }
        Answer {
            value,
            cycles,
            hits,
            count: self.bus.prefetch.len() as u8,
            force: u8::from(self.bus.force_next_fetch_n),
        }
    }

    fn read(&mut self, size: u8, address: u32) -> u32 {
        match size {
            1 => u32::from(self.bus.read8(address)),
            2 => u32::from(self.bus.read16(address)),
            _ => self.bus.read32(address),
        }
    }

    /// The store; the number of memory bytes that it wrote.
    fn write(&mut self, size: u8, address: u32, value: u32) -> u8 {
        let probes = self.probes.get_or_insert_with(|| Probes::of(&self.bus));
        probes.store(&mut self.bus, size, address, value)
    }

    /// `try_fetch_half`: the halfword, 0 on a miss, and the hits.
    fn fetch(&mut self, address: u32) -> (u32, u8) {
        match self.bus.prefetch.try_fetch_half(address) {
            Some(halfword) => (u32::from(halfword), 1),
            None => (0, 0),
        }
    }

    /// `tick_idle`, its reader being the bus's halfword read.
    fn tick_idle(&mut self, cycles: u32) {
        let mut prefetch = std::mem::take(&mut self.bus.prefetch);
        let tables = self.bus.wait_tables;
        prefetch.tick_idle(cycles, tables, |address| self.bus.read16(address));
        self.bus.prefetch = prefetch;
    }

    /// Kind 7: (`cart_idle`, cycles, hits).
    fn instruction(&mut self, r: &Record) -> (u32, u32, u8) {
        let (isa, halves, opcode) = match r.size {
            2 => (IsaState::Thumb, 1, r.value & 0xFFFF),
            _ => (IsaState::Arm, 2, r.value),
        };
        let input = TimingInput {
            isa,
            code_addr: r.address,
            opcode_raw: opcode_for_rust(self.version, r.size, opcode),
            pc_changed: r.flag == 1,
            prefetch_enabled: self.waitcnt.prefetch_enable(),
            force_fetch_n: self.bus.force_next_fetch_n,
        };
        let price = price_insn(input, self.bus.wait_tables, &self.bus.prefetch);
        let hits = match RomWindow::from_addr(r.address) {
            Some(_) => self.fetch_code(r.address, halves),
            None => 0,
        };
        self.tick_idle(price.cart_idle);
        self.bus.force_next_fetch_n = price.latch_disable_bug;
        (price.cart_idle, price.total, hits)
    }

    /// `try_fetch_half` for each halfword; on any miss `restart` after the last one. The hits.
    fn fetch_code(&mut self, address: u32, halves: u32) -> u8 {
        let mut hits = 0;
        for i in 0..halves {
            if self.bus.prefetch.try_fetch_half(address.wrapping_add(2 * i)).is_some() {
                hits += 1;
            }
        }
        if u32::from(hits) < halves {
            let after = address.wrapping_add(2 * halves);
            self.bus.prefetch.restart(after, self.bus.wait_tables);
        }
        hits
    }

    /// The price of a data access after the previous one, which it is itself from now on.
    fn access(&mut self, size: u8, address: u32) -> u32 {
        let price = data_price(self.bus.wait_tables, self.previous, size, address);
        self.previous = Some((lowered(address, size), access_size(size)));
        price
    }
}

// ---- the test for an internal cycle ----

/// The opcode that the Rust is asked about. In version 2 Thumb POP is found at 0xBC and 0xBD and no longer at 0xBA and 0xBB
/// (RULES, "Internal cycles"), where the Rust has it the other way round: for each of these four it is asked about the one that
/// differs in the two bits 0x06. No price looks at the opcode but for this test.
pub fn opcode_for_rust(version: Version, size: u8, opcode: u32) -> u32 {
    match (version, size, opcode >> 8 & 0xFF) {
        (Version::Two, 2, 0xBA..=0xBD) => opcode ^ 0x0600,
        _ => opcode,
    }
}

// ---- the price of a data access ----

/// A data access that is the previous one for the next: its address as lowered, and its size.
pub type Access = (u32, AccessSize);

/// The price after a previous access, if there was one, which counts in ROM alone.
pub fn data_price(tables: WaitTables, previous: Option<Access>, size: u8, address: u32) -> u32 {
    match RomWindow::from_addr(address) {
        Some(window) => rom_price(tables, previous, access_size(size), lowered(address, size), window),
        None => plain_price(tables, access_size(size), address),
    }
}

/// Whether an access at a lowered address goes on from the previous one.
pub fn kind_after(previous: Option<Access>, at: u32) -> AccessKind {
    match previous {
        Some((prev_addr, prev_size)) => classify_access(prev_addr, prev_size, at, decode(prev_addr) == decode(at)),
        None => AccessKind::Nonseq,
    }
}

/// The price in ROM, at the lowered address (RULES, "Sequential accesses").
fn rom_price(tables: WaitTables, previous: Option<Access>, size: AccessSize, at: u32, window: RomWindow) -> u32 {
    let first = tables.rom_half_cycles_at(at, window, kind_after(previous, at));
    match size {
        AccessSize::Word => first + tables.rom_half_cycles(window, AccessKind::Seq),
        _ => first,
    }
}

/// The price elsewhere, by the region of the address (RULES, "What a data access costs").
fn plain_price(tables: WaitTables, size: AccessSize, address: u32) -> u32 {
    match decode(address) {
        Region::Ewram => tables.ewram_cycles(size),
        Region::Palette | Region::Vram => WaitTables::video_ram_cycles(size),
        Region::GamePakSram => tables.sram_byte_cycles(),
        _ => WaitTables::fixed_fast_cycles(size),
    }
}

pub fn access_size(bytes: u8) -> AccessSize {
    match bytes {
        1 => AccessSize::Byte,
        2 => AccessSize::Half,
        _ => AccessSize::Word,
    }
}

fn prefetch_of(b: &Board) -> PrefetchBuffer {
    PrefetchBuffer::from_parts(PrefetchParts {
        enabled: b.prefetch_on(),
        buf: b.halfwords,
        head: usize::from(b.head),
        count: usize::from(b.count),
        next_addr: b.next,
        wait_left: b.wait_left,
        filling: b.filling == 1,
        head_addr: b.head_addr,
        first_beat: b.first_beat == 1,
    })
}
