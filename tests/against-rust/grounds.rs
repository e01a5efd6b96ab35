//! Why a step has the price that it has: a second reading of the rule (docs/RULES.md, "The ground of a beat"), apart from the
//! library. The Rust has no grounds. What decides a price is asked of its own functions, and this puts their answers into the
//! rule's order; the grounds that come out are then held against the Rust's price, by waits at which each of them shows.

use crate::bytes::*;
use crate::machine::{access_size, data_price, kind_after, opcode_for_rust, refusal_with_second, refused, Access, Ran};
use graycart::bus::disable_bug::{arm_likely_i_cycles_no_pc, thumb_likely_i_cycles_no_pc};
use graycart::bus::region::{decode, BusWidth, Region};
use graycart::bus::wait::{rom_force_nonseq, AccessKind, AccessSize, RomWindow, WaitTables};
use graycart::bus::{PrefetchBuffer, WaitCnt};
use graycart::cpu::timing::{price_insn, TimingInput};
use graycart::cpu::IsaState;

/// A ground by its byte in the buffer.
#[derive(Clone, Copy, Debug, PartialEq, Eq)]
#[repr(u8)]
pub enum Ground {
    Hit = 1,
    Seq,
    /// Nonsequential by the force flag.
    Flag,
    /// Nonsequential by the 0x20000 block.
    Block,
    /// Nonsequential by the address.
    Address,
    Ewram,
    Sram,
    /// Palette and VRAM.
    Video,
    Fast,
}

use Ground::{Address, Block, Ewram, Fast, Flag, Hit, Seq, Sram, Video};

/// Each ground with its name in the printed lines.
const NAMES: [(Ground, &str); 9] = [
    (Hit, "hit"), (Seq, "seq"), (Flag, "flag"), (Block, "block"), (Address, "address"), (Ewram, "ewram"), (Sram, "sram"),
    (Video, "video"), (Fast, "fast"),
];

/// The byte of a ground's name.
pub fn byte_of(name: &str) -> Option<u8> {
    NAMES.iter().find(|(_, other)| *other == name).map(|(ground, _)| *ground as u8)
}

/// The bytes of a step's grounds in words, up to the last that isn't 0.
pub fn words_of(step: &[u8]) -> String {
    let used = step.iter().rposition(|&byte| byte != 0).map_or(0, |last| last + 1);
    let word = |&byte: &u8| match NAMES.iter().find(|(ground, _)| *ground as u8 == byte) {
        Some((_, name)) => name.to_string(),
        None => format!("({byte})"),
    };
    let words: Vec<String> = step[..used].iter().map(word).collect();
    if words.is_empty() { "none".to_string() } else { words.join("+") }
}

/// What decides the grounds of a step: the machine before it.
#[derive(Clone, Copy)]
pub struct Moment<'a> {
    pub prefetch: &'a PrefetchBuffer,
    /// The force flag.
    pub forced: bool,
    pub previous: Option<Access>,
}

/// The grounds of a step, one a beat.
pub fn of(moment: &Moment, r: &Record) -> Vec<Ground> {
    match r.kind {
        READ | WRITE => of_data(moment, r),
        INSTRUCTION => {
            let grounds = of_fetch(moment, r.size, r.address);
            assert_eq!(grounds, by_price(moment, r.size, r.address));
            grounds
        }
        BLOCK_READ | BLOCK_WRITE => of_block(moment, r),
        _ => Vec::new(),
    }
}

fn of_data(moment: &Moment, r: &Record) -> Vec<Ground> {
    let grounds = of_access(moment, r.size, r.address);
    assert_eq!(worth(&grounds, r, MARKED), Some(data_price(MARKED, moment.previous, r.size, r.address)));
    grounds
}

/// Those of a block's words, in order: the first follows what was before the block, and each other the one before it.
fn of_block(moment: &Moment, r: &Record) -> Vec<Ground> {
    let mut before = *moment;
    let mut grounds = Vec::new();
    for word in r.words() {
        grounds.extend(of_data(&before, &word_of(word)));
        before.previous = Some((word, AccessSize::Word));
    }
    grounds
}

/// A block's word as an access by itself; whether it is read or written is no matter to its price.
fn word_of(address: u32) -> Record {
    Record::new(READ, 4, address, 0)
}

// ---- fetches ----

/// Each half from ROM by itself; any other fetch as a whole.
fn of_fetch(moment: &Moment, size: u8, address: u32) -> Vec<Ground> {
    if RomWindow::from_addr(address).is_none() {
        return vec![if decode(address) == Region::Ewram { Ewram } else { Fast }];
    }
    let first = of_half(moment, address, moment.forced);
    match size {
        2 => vec![first],
        _ => vec![first, of_half(moment, address.wrapping_add(2), false)],
    }
}

/// A half fetched from ROM, its address as given. The flag forces the first one alone.
fn of_half(moment: &Moment, address: u32, forced: bool) -> Ground {
    if moment.prefetch.enabled() && moment.prefetch.peek_half(address).is_some() {
        Hit
    } else if rom_force_nonseq(address) {
        Block
    } else if forced {
        Flag
    } else {
        Seq
    }
}

// ---- data ----

/// By the region of the address; a word over a bus of 16 bits has two beats, any other access one.
fn of_access(moment: &Moment, size: u8, address: u32) -> Vec<Ground> {
    let region = decode(address);
    let first = match region {
        region if region.is_game_pak_rom() => of_rom_access(moment, lowered(address, size)),
        Region::Ewram => Ewram,
        Region::GamePakSram => Sram,
        Region::Palette | Region::Vram => Video,
        _ => Fast,
    };
    let second = if region.is_game_pak_rom() { Seq } else { first };
    match region.bus_width() {
        Some(BusWidth::Bits16) if size == 4 => vec![first, second],
        _ => vec![first],
    }
}

/// The first beat in ROM, at the lowered address.
fn of_rom_access(moment: &Moment, at: u32) -> Ground {
    if rom_force_nonseq(at) {
        return Block;
    }
    match kind_after(moment.previous, at) {
        AccessKind::Seq => Seq,
        AccessKind::Nonseq => Address,
    }
}

// ---- what the grounds are worth ----

/// Waits that no WAITCNT gives: N and S differ in and among the windows, from a hit, from EWRAM, SRAM and all else.
const MARKED: WaitTables = WaitTables {
    sram_waits: 80,
    ws0_n: 20,
    ws0_s: 10,
    ws1_n: 22,
    ws1_s: 12,
    ws2_n: 24,
    ws2_s: 14,
    ewram_waits: 40,
};

/// The grounds of a fetch as the Rust's price shows them, half by half: whether it costs a hit, S or N, and whether it would cost
/// that N without the flag too.
fn by_price(moment: &Moment, size: u8, address: u32) -> Vec<Ground> {
    let price = |isa: IsaState, force_fetch_n: bool| {
        let prefetch_enabled = moment.prefetch.enabled();
        // opcode 0 has no internal cycle in either state
        let input =
            TimingInput { isa, code_addr: address, opcode_raw: 0, pc_changed: false, prefetch_enabled, force_fetch_n };
        price_insn(input, MARKED, moment.prefetch).total
    };
    let isa = if size == 2 { IsaState::Thumb } else { IsaState::Arm };
    let Some(window) = RomWindow::from_addr(address) else {
        let ewram = price(isa, moment.forced) == MARKED.ewram_cycles(access_size(size));
        return vec![if ewram { Ewram } else { Fast }];
    };
    let halves = |forced: bool| {
        let first = price(IsaState::Thumb, forced);
        [first, price(IsaState::Arm, forced) - first]
    };
    let half = |(cycles, unforced): (u32, u32)| match cycles {
        _ if cycles == PrefetchBuffer::hit_cycles() => Hit,
        _ if cycles == MARKED.rom_half_cycles(window, AccessKind::Seq) => Seq,
        _ if cycles == unforced => Block,
        _ => Flag,
    };
    let both = halves(moment.forced).into_iter().zip(halves(false));
    both.map(half).take(usize::from(size / 2)).collect()
}

/// The cycles of a step's grounds by the Rust's own prices, those of ROM by the window in which its address lies; nothing where
/// it lies in none.
fn worth(grounds: &[Ground], r: &Record, tables: WaitTables) -> Option<u32> {
    let rom = |kind| RomWindow::from_addr(r.address).map(|window| tables.rom_half_cycles(window, kind));
    let cycles = |ground: &Ground| match ground {
        Hit => Some(PrefetchBuffer::hit_cycles()),
        Seq => rom(AccessKind::Seq),
        Flag | Block | Address => rom(AccessKind::Nonseq),
        Ewram if r.kind == INSTRUCTION => Some(tables.ewram_cycles(access_size(r.size))),
        Ewram => Some(tables.ewram_cycles(AccessSize::Half)),
        Sram => Some(tables.sram_byte_cycles()),
        Video => Some(WaitTables::video_ram_cycles(AccessSize::Half)),
        Fast => Some(WaitTables::fixed_fast_cycles(access_size(r.size))),
    };
    grounds.iter().map(cycles).sum()
}

/// The internal cycle of an instruction, by the Rust's tests.
fn internal(version: Version, r: &Record) -> u32 {
    let opcode = opcode_for_rust(version, r.size, r.value);
    u32::from(match (r.kind, r.size) {
        (INSTRUCTION, 2) => thumb_likely_i_cycles_no_pc(opcode as u16),
        (INSTRUCTION, _) => arm_likely_i_cycles_no_pc(opcode),
        _ => false,
    })
}

// ---- the run with grounds ----

/// What the case gives with a buffer for the grounds, from what the Rust's run gives.
pub fn with(case: &Case, lent: &[u8], ran: &Ran) -> Outcome {
    if let Some(refusal) = refusal_with_second(case, &ran.outcome.report, lent, GROUNDS) {
        return refused(case, refusal, lent);
    }
    let mut second = lent.to_vec();
    for (step, grounds) in second.chunks_exact_mut(GROUNDS).zip(&ran.grounds) {
        step.fill(0);
        step.iter_mut().zip(grounds).for_each(|(byte, &ground)| *byte = ground as u8);
    }
    Outcome { second, ..ran.outcome.clone() }
}

// ---- what must hold of the library's grounds by themselves ----

/// What is wrong with the grounds of an accepted run, whatever the second reading says: bytes that are no ground, grounds of a
/// step that has none, or cycles that with the internal one don't make the step's.
pub fn unpaid(case: &Case, outcome: &Outcome) -> Option<String> {
    if outcome.report.number != 0 {
        return None;
    }
    let version = Version::of(&case.sheet)?;
    let mut waitcnt = WaitCnt::from_u16(Board::of(&case.board).waitcnt);
    let steps = outcome.second.chunks_exact(GROUNDS).zip(outcome.answers.chunks_exact(ANSWER));
    for (k, (r, (step, answer))) in records_of(&case.sheet).iter().zip(steps).enumerate() {
        let cycles = Answer::of(answer).cycles;
        if !pays(version, step, r, waitcnt.to_tables(), cycles) {
            return Some(format!("step {k}, {r:X?}, has {cycles} cycles, and its grounds are {}", words_of(step)));
        }
        if r.kind == WAITCNT {
            waitcnt.write(r.value as u16);
        }
    }
    None
}

fn pays(version: Version, step: &[u8], r: &Record, tables: WaitTables, cycles: u32) -> bool {
    let grounds = step.iter().map_while(|&byte| NAMES.iter().find(|(ground, _)| *ground as u8 == byte));
    let grounds: Vec<Ground> = grounds.map(|(ground, _)| *ground).collect();
    let rest = step[grounds.len()..].iter().all(|&byte| byte == 0);
    rest && match r.kind {
        READ | WRITE | INSTRUCTION => worth(&grounds, r, tables).is_some_and(|sum| sum + internal(version, r) == cycles),
        BLOCK_READ | BLOCK_WRITE => worth_of_words(&grounds, r, tables) == Some(cycles),
        _ => grounds.is_empty(),
    }
}

/// The cycles of a block's grounds; nothing where they are more or fewer than the beats of its words.
fn worth_of_words(grounds: &[Ground], r: &Record, tables: WaitTables) -> Option<u32> {
    let (mut rest, mut sum) = (grounds, 0);
    for word in r.words() {
        let beats = if decode(word).bus_width() == Some(BusWidth::Bits16) { 2 } else { 1 };
        let (own, behind) = rest.split_at_checked(beats)?;
        sum += worth(own, &word_of(word), tables)?;
        rest = behind;
    }
    rest.is_empty().then_some(sum)
}
