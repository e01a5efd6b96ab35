//! Seeded cases: all of a case follows from its seed, so that any case can be run again.

use crate::bills;
use crate::boards;
use crate::bytes::*;
use crate::demand3::stores_mode;
use crate::machine::{BIOS_SIZE, ROM_WINDOW_SIZE, SIZES};
use crate::refusals;
pub use crate::rng::Rng;
use crate::rooms;
use crate::steps::Steps;

// ---- plans: a case but for what its memories hold ----

pub struct Plan {
    pub sheet: Vec<u8>,
    pub board: Vec<u8>,
    pub lengths: [usize; 7],
    pub store_len: usize,
    pub bios_len: usize,
    pub rom_len: usize,
    pub answers_len: usize,
    /// The number that the run must give by the way the case was made, where that is known.
    /// It holds the Rust side's refusals against a second view.
    pub meant: Option<u32>,
    /// Where that is 4, the number that a preview must give in its place, which looks at no lengths.
    pub behind_4: u32,
    /// The tariff that the case is made for, if it is.
    pub terms: Option<Terms>,
    /// The buffer for the grounds that the case is made for, if it is.
    pub grounds: Option<Room>,
}

/// A tariff but for what its shares hold.
#[derive(Clone, Copy)]
pub struct Terms {
    pub shares_len: usize,
    pub rate: u32,
    /// The number that the run must give under it, as above.
    pub meant: Option<u32>,
}

/// A buffer for the grounds but for what it holds.
#[derive(Clone, Copy)]
pub struct Room {
    pub len: usize,
    /// The number that the run must give with it, as above.
    pub meant: Option<u32>,
}

/// The five buffers whose contents before the run a plan leaves open. The second one behind the answers is that of the shares or
/// of the grounds.
pub const STORE: u64 = 1;
pub const BIOS: u64 = 2;
pub const ROM: u64 = 3;
pub const ANSWERS: u64 = 4;
pub const SECOND: u64 = 5;

impl Plan {
    /// The case, with contents given by tag and length.
    pub fn case(&self, mut contents: impl FnMut(u64, usize) -> Vec<u8>) -> Case {
        Case {
            sheet: self.sheet.clone(),
            board: self.board.clone(),
            lengths: self.lengths,
            store: contents(STORE, self.store_len),
            bios: contents(BIOS, self.bios_len),
            rom: contents(ROM, self.rom_len),
            answers: contents(ANSWERS, self.answers_len),
            tariff: self.terms.map(|terms| Tariff { shares: contents(SECOND, terms.shares_len), rate: terms.rate }),
            grounds: self.grounds.map(|room| contents(SECOND, room.len)),
        }
    }

    pub fn random_case(&self, rng: &mut Rng) -> Case {
        self.case(|_, len| rng.bytes(len))
    }

    /// The case over memories that follow from a number by a rule, as in the recorded sample.
    pub fn rule_case(&self, seed: u32) -> Case {
        self.case(|tag, len| (0..len).map(|i| rule_byte(seed, tag, i)).collect())
    }

    /// An accepted plan of these records, on a version 1 sheet, over these memories.
    pub fn accepted(board: Board, memories: &Memories, records: &[Record]) -> Plan {
        Plan::accepted_in(Version::One, board, memories, records)
    }

    /// The same on a sheet of a version.
    pub fn accepted_in(version: Version, board: Board, memories: &Memories, records: &[Record]) -> Plan {
        Plan {
            sheet: sheet_in(version, records),
            board: board.bytes(),
            lengths: memories.lengths,
            store_len: memories.lengths.iter().sum(),
            bios_len: memories.bios,
            rom_len: memories.rom,
            answers_len: ANSWER * records.len(),
            meant: Some(0),
            behind_4: 0,
            terms: None,
            grounds: None,
        }
    }

    /// What a preview is lent of the plan.
    pub fn without_memories(self) -> Plan {
        let meant = self.meant_by_preview();
        Plan { lengths: [0; 7], store_len: 0, bios_len: 0, rom_len: 0, meant, terms: None, grounds: None, ..self }
    }

    /// The plan under a tariff, for which the run must give this number.
    pub fn billed(self, shares_len: usize, rate: u32, meant: u32) -> Plan {
        Plan { terms: Some(Terms { shares_len, rate, meant: Some(meant) }), ..self }
    }

    /// The plan with a buffer for the grounds, with which the run must give this number.
    pub fn grounded(self, len: usize, meant: u32) -> Plan {
        Plan { grounds: Some(Room { len, meant: Some(meant) }), ..self }
    }

    pub fn meant(&self) -> Meant {
        Meant {
            run: self.meant,
            tariff: self.terms.and_then(|terms| terms.meant),
            grounds: self.grounds.and_then(|room| room.meant),
            preview: self.meant_by_preview(),
        }
    }

    /// The run's other conditions are the preview's too, in the same order.
    fn meant_by_preview(&self) -> Option<u32> {
        self.meant.map(|number| if number == 4 { self.behind_4 } else { number })
    }
}

/// The numbers that a case must give, where they are known: without a tariff, under its own, with its own buffer for the grounds,
/// and by the preview.
#[derive(Clone, Copy)]
pub struct Meant {
    pub run: Option<u32>,
    pub tariff: Option<u32>,
    pub grounds: Option<u32>,
    pub preview: Option<u32>,
}

pub const ACCEPTED: Meant = Meant { run: Some(0), tariff: Some(0), grounds: Some(0), preview: Some(0) };
pub const UNKNOWN: Meant = Meant { run: None, tariff: None, grounds: None, preview: None };

/// Byte i of the buffer `tag` under fill seed `seed`.
pub fn rule_byte(seed: u32, tag: u64, i: usize) -> u8 {
    let i = i as u64;
    ((i * 31 + (i / 256) * 17 + u64::from(seed) * 13 + tag * 101) % 251) as u8
}

// ---- lengths ----

pub struct Memories {
    pub lengths: [usize; 7],
    pub bios: usize,
    pub rom: usize,
}

const IO_ENDS: [usize; 14] =
    [0, 1, 2, 3, 0x204, 0x205, 0x206, 0x3FF, 0x400, 0x401, 0x800, 0x801, 0x803, 0x804];

impl Memories {
    /// Lengths of 0, 1, odd ones, short ones and full ones, each memory by itself.
    /// `large` in a hundred of the memories are full or nearly so.
    pub fn random(rng: &mut Rng, large: usize) -> Memories {
        let mut lengths = [0; 7];
        for (length, size) in lengths.iter_mut().zip(SIZES) {
            *length = length_up_to(rng, size, large);
        }
        if rng.percent(50) {
            // I/O is small, and its ends are worth more
            lengths[2] = rng.pick(&IO_ENDS);
        }
        Memories { lengths, bios: length_up_to(rng, BIOS_SIZE, large), rom: rom_length(rng, large) }
    }
}

fn length_up_to(rng: &mut Rng, size: usize, large: usize) -> usize {
    if rng.percent(large) {
        return size - rng.pick(&[0, 0, 0, 1, 2, 3]);
    }
    match rng.below(8) {
        0 => 0,
        1 => 1,
        2 => 2 * rng.below(32) + 1,
        3 | 4 => rng.below(65),
        5 => 1 << rng.below(10),
        6 => rng.below(1025),
        _ => rng.below(size.min(8192) + 1),
    }
}

fn rom_length(rng: &mut Rng, large: usize) -> usize {
    if large > 0 && rng.below(30_000) == 0 {
        return ROM_WINDOW_SIZE - rng.pick(&[0, 0, 1, 2]);
    }
    if rng.percent(large) {
        return rng.pick(&[65_535, 65_536, 0x1FFFF, 0x20000, 0x20001, 0x20040, 0x40011]);
    }
    match rng.below(6) {
        0 => rng.below(2),
        1 => 2 * rng.below(400) + 1,
        2 => 0x100 + rng.below(64),
        3 => rng.below(513),
        _ => rng.below(4097),
    }
}

// ---- cases ----

/// A random case: mostly an accepted run, else one refusal or several, blocks on a version 1 sheet, or random damage.
pub fn random(seed: u64) -> (Plan, Case) {
    let mut rng = Rng::new(seed);
    let plan = random_plan(&mut rng);
    let case = plan.random_case(&mut rng);
    (plan, case)
}

pub fn random_plan(rng: &mut Rng) -> Plan {
    let version = rng.pick(&VERSIONS);
    match rng.below(100) {
        0..=84 => accepted(rng, version, 2),
        85..=89 => refusals::one(rng, version),
        90..=94 => refusals::several(rng, version),
        95 => refusals::blocks_in_one(rng),
        _ => refusals::damaged(rng, version),
    }
}

/// A list of 0 to 60 steps from a sound board, on a sheet of a version, with answers lent a little longer at times.
pub fn accepted(rng: &mut Rng, version: Version, large: usize) -> Plan {
    let memories = Memories::random(rng, large);
    let board = boards::any_sound(rng);
    let n = match rng.below(400) {
        0 => rng.below(MOST_RECORDS + 1),
        1..=6 => rng.below(400),
        _ => rng.below(61),
    };
    let sort = rng.below(100);
    let steps = Steps::in_version(version, rng, &memories);
    let records = match sort {
        0..=29 => steps.code_run(n, &board),
        30..=54 => steps.rows(n, &board),
        _ => steps.mixed(n),
    };
    let mut plan = Plan::accepted_in(version, board, &memories, &records);
    if rng.percent(40) {
        plan.answers_len += rng.below(30);
    }
    plan
}

/// Two runs that are accepted, under one rate and with grounds, with alike sheets and alike boards, all else different, but in
/// half of the pairs the lengths and the display modes, so that what lands must agree too (docs/RULES.md, "Did a store land").
pub fn pair(seed: u64) -> (Case, Case) {
    let mut rng = Rng::new(seed);
    let version = rng.pick(&VERSIONS);
    let first = accepted(&mut rng, version, 2);
    let mut memories = Memories::random(&mut rng, 2);
    let same = rng.percent(50);
    if same {
        memories.lengths = first.lengths;
    }
    let records: Vec<Record> =
        records_of(&first.sheet).into_iter().map(|r| alike_record(&mut rng, r, same)).collect();
    let board = alike_board(&mut rng, Board::of(&first.board));
    let second = Plan::accepted_in(version, board, &memories, &records);
    let (rate, n) = (bills::good_rate(&mut rng), records.len());
    let [first, second] = [first, second].map(|plan| {
        let plan = plan.billed(rooms::enough(&mut rng, SHARE * n), rate, 0);
        plan.grounded(rooms::enough(&mut rng, GROUNDS * n), 0)
    });
    let (first, mut second) = (first.random_case(&mut rng), second.random_case(&mut rng));
    if same && first.lengths[IO] > 0 {
        let mode: usize = first.lengths[..IO].iter().sum();
        second.store[mode] = first.store[mode];
    }
    (first, second)
}

/// The record with another value, if it is a LATCH or a WRITE; the display mode's may be kept.
fn alike_record(rng: &mut Rng, r: Record, keep_mode: bool) -> Record {
    match r.kind {
        WRITE if keep_mode && stores_mode(&r) => r,
        WRITE | LATCH => Record { value: rng.u32(), ..r },
        _ => r,
    }
}

/// The board with other bytes 20–35 and 40–67: the previous access stays, as it must (RULES, "Alike sheets and boards").
fn alike_board(rng: &mut Rng, b: Board) -> Board {
    let other = boards::any_sound(rng);
    Board {
        halfwords: other.halfwords,
        latch: other.latch,
        vram: other.vram,
        oam: other.oam,
        palette: other.palette,
        ..b
    }
}
