//! Cases that a run must refuse: each of the seven conditions alone, several at once, random damage; with a buffer for the
//! grounds, which 6 looks at too; and under a tariff, which adds an eighth.

use crate::bills;
use crate::boards;
use crate::bytes::*;
use crate::gen::{self, Plan, Rng};
use crate::machine::{BIOS_SIZE, ROM_WINDOW_SIZE, SIZES};
use crate::rooms;

pub fn one(rng: &mut Rng, version: Version) -> Plan {
    let number = 1 + rng.below(8) as u32;
    with_second(rng, version, &[number])
}

/// Two conditions or more: the first in the table's order decides.
pub fn several(rng: &mut Rng, version: Version) -> Plan {
    let numbers = set_of(1 + rng.below(255));
    with_second(rng, version, &numbers)
}

/// Under a tariff or, if 8 isn't among them, with grounds.
fn with_second(rng: &mut Rng, version: Version, numbers: &[u32]) -> Plan {
    let short = rng.pick(&SHORT);
    match numbers.contains(&8) || rng.percent(50) {
        true => under_tariff(rng, version, numbers, short),
        false => with_grounds(rng, version, numbers, short),
    }
}

/// The conditions of a set, whose lowest bit is that of 1.
pub fn set_of(set: usize) -> Vec<u32> {
    (1..=8).filter(|k| set >> (k - 1) & 1 == 1).collect()
}

/// An accepted plan, whose sheet is of this version, with these conditions made true (given in rising order).
pub fn with(rng: &mut Rng, version: Version, numbers: &[u32]) -> Plan {
    let mut plan = some_steps(rng, version);
    make_true(rng, &mut plan, numbers);
    plan
}

/// Which buffers are too short where a run with a second one, shares or grounds, meets 6.
#[derive(Clone, Copy, PartialEq)]
pub enum Short {
    Answers,
    Second,
    Both,
}

pub const SHORT: [Short; 3] = [Short::Answers, Short::Second, Short::Both];

/// The same under a tariff, for which 8 is a bad rate. Without a tariff 8 isn't met, nor is 6 where only the shares are short.
pub fn under_tariff(rng: &mut Rng, version: Version, numbers: &[u32], short: Short) -> Plan {
    let mut plan = some_steps(rng, version);
    let shares_len = second_len(rng, &plan, SHARE, numbers, short);
    let rate = if numbers.contains(&8) { bills::bad_rate(rng) } else { bills::good_rate(rng) };
    make_true(rng, &mut plan, &of_run(numbers, short));
    plan.billed(shares_len, rate, numbers.first().copied().unwrap_or(0))
}

/// The same with a buffer for the grounds. Without it 6 isn't met where it alone is short.
pub fn with_grounds(rng: &mut Rng, version: Version, numbers: &[u32], short: Short) -> Plan {
    let mut plan = some_steps(rng, version);
    let len = second_len(rng, &plan, GROUNDS, numbers, short);
    make_true(rng, &mut plan, &of_run(numbers, short));
    plan.grounded(len, numbers.first().copied().unwrap_or(0))
}

/// A length of the second buffer, too short where 6 is met by it.
fn second_len(rng: &mut Rng, plan: &Plan, each: usize, numbers: &[u32], short: Short) -> usize {
    let n = record_count(&plan.sheet);
    let too_short = numbers.contains(&6) && short != Short::Answers;
    if too_short { rooms::too_few(rng, each, n) } else { rooms::enough(rng, each * n) }
}

/// Those that a run meets which has no second buffer and no rate.
fn of_run(numbers: &[u32], short: Short) -> Vec<u32> {
    let met = |k: u32| k < 8 && (k != 6 || short != Short::Second);
    numbers.iter().copied().filter(|&k| met(k)).collect()
}

/// An accepted plan with a record, which 6 and 7 need.
fn some_steps(rng: &mut Rng, version: Version) -> Plan {
    let mut plan = gen::accepted(rng, version, 1);
    while plan.sheet.len() == HEADER {
        plan = gen::accepted(rng, version, 1);
    }
    plan
}

fn make_true(rng: &mut Rng, plan: &mut Plan, numbers: &[u32]) {
    // from the last to the first, since damage to the header hides where the records are
    for &number in numbers.iter().rev() {
        match number {
            1 => no_sheet(rng, plan),
            2 => other_version(rng, plan),
            3 => header_wrong(rng, plan),
            4 => lengths_wrong(rng, plan),
            5 => board_wrong(rng, plan),
            6 => answers_short(rng, plan),
            _ => record_faulty(rng, plan),
        }
    }
    plan.meant = Some(numbers.first().copied().unwrap_or(0));
    plan.behind_4 = numbers.iter().copied().find(|&number| number != 4).unwrap_or(0);
}

fn no_sheet(rng: &mut Rng, plan: &mut Plan) {
    if rng.percent(50) {
        plan.sheet.truncate(rng.below(HEADER));
    } else {
        let at = rng.below(3);
        plan.sheet[at] ^= 1 << rng.below(8);
    }
}

/// A version that there isn't; each byte of some is that of one that there is.
fn other_version(rng: &mut Rng, plan: &mut Plan) {
    let version: u16 = rng.pick(&[0, 0x0200, 3, 0x0100, 0x0101, 0x8001, 0xFFFF]);
    plan.sheet[3..5].copy_from_slice(&version.to_le_bytes());
}

fn header_wrong(rng: &mut Rng, plan: &mut Plan) {
    let n = record_count(&plan.sheet);
    match rng.below(7) {
        0 => plan.sheet[5] = 1 + rng.below(255) as u8,
        1 => set_count(plan, n + 1),
        2 => set_count(plan, n - 1),
        3 => set_count(plan, rng.pick(&[4097, 4098, 32_768, 65_535])),
        4 => plan.sheet.push(0),
        5 => {
            plan.sheet.pop();
        }
        _ => too_many(rng, plan),
    }
}

fn set_count(plan: &mut Plan, n: usize) {
    plan.sheet[6..8].copy_from_slice(&(n as u16).to_le_bytes());
}

/// 4,097 records or a few more, with all their bytes.
fn too_many(rng: &mut Rng, plan: &mut Plan) {
    let n = MOST_RECORDS + 1 + rng.below(3);
    let record = Record::new(IDLE, 0, 0, 1).bytes();
    while plan.sheet.len() < HEADER + RECORD * n {
        plan.sheet.extend(record);
    }
    set_count(plan, n);
    plan.answers_len = ANSWER * n;
}

/// A length over its size, with a store to match or not; a sum that is off by one or that wraps.
fn lengths_wrong(rng: &mut Rng, plan: &mut Plan) {
    let which = rng.below(7);
    match rng.below(8) {
        0 => plan.bios_len = BIOS_SIZE + 1,
        1 if rng.percent(4) => plan.rom_len = ROM_WINDOW_SIZE + 1,
        1 | 2 => {
            plan.store_len = plan.store_len - plan.lengths[which] + SIZES[which] + 1;
            plan.lengths[which] = SIZES[which] + 1;
        }
        3 => plan.lengths[which] = SIZES[which] + 1,
        4 => plan.store_len += 1,
        5 if plan.store_len > 0 => plan.store_len -= 1,
        6 => {
            // the store's length again, modulo 2^64
            let other = (which + 1 + rng.below(6)) % 7;
            let by = rng.pick(&[1 << 63, usize::MAX, 1 << 32, usize::MAX - 65_535]);
            plan.lengths[which] = plan.lengths[which].wrapping_add(by);
            plan.lengths[other] = plan.lengths[other].wrapping_sub(by);
            if plan.lengths[which] <= SIZES[which] && plan.lengths[other] <= SIZES[other] {
                plan.lengths[which] = usize::MAX; // the shift met another valid split
            }
        }
        _ => plan.lengths[which] = rng.pick(&[usize::MAX, 1 << 63, 1 << 32, (1 << 32) + 1]),
    }
}

fn board_wrong(rng: &mut Rng, plan: &mut Plan) {
    if rng.percent(25) {
        plan.board.resize(rng.pick(&[0, 1, 36, 68, 71, 72, 73, 79, 81, 144]), 0);
    } else {
        plan.board = boards::unsound(rng).bytes();
    }
}

fn answers_short(rng: &mut Rng, plan: &mut Plan) {
    let need = ANSWER * record_count(&plan.sheet);
    plan.answers_len = match rng.below(4) {
        0 => 0,
        1 => need - ANSWER,
        2 => rng.below(need),
        _ => need - 1,
    };
}

/// One record that breaks the layout, or several.
fn record_faulty(rng: &mut Rng, plan: &mut Plan) {
    let n = record_count(&plan.sheet);
    let version = Version::of(&plan.sheet).unwrap();
    for _ in 0..rng.pick(&[1, 1, 2, 3]) {
        let at = HEADER + RECORD * rng.below(n);
        let faulty = faulty_record(rng, version, Record::of(&plan.sheet[at..]));
        plan.sheet[at..at + RECORD].copy_from_slice(&faulty.bytes());
    }
}

/// The record with one field wrong.
fn faulty_record(rng: &mut Rng, version: Version, r: Record) -> Record {
    let r = match rng.below(8) {
        0 => Record { kind: rng.pick(no_kinds(version)), ..r },
        1 => Record { size: rng.pick(&[3, 5, 8, 255]), ..r },
        2 if matches!(r.kind, READ | WRITE | INSTRUCTION) => Record { size: 0, ..r },
        2 if r.is_block() => Record { size: rng.pick(&[0, 1, 2]), ..r },
        2 => Record { size: rng.pick(&[1, 2, 4]), ..r },
        3 => Record { flag: if r.kind == INSTRUCTION { 2 } else { 1 }, ..r },
        4 => Record { flag: 2 + rng.below(254) as u8, ..r },
        5 => Record { zero: 1 << rng.below(8), ..r },
        6 if matches!(r.kind, WAITCNT | IDLE | LATCH) => Record { address: 1 << rng.below(32), ..r },
        6 | 7 => match r.kind {
            READ | FETCH | RESTART | PC => Record { value: 1 << rng.below(32), ..r },
            WAITCNT => Record { value: r.value | 0x1_0000 << rng.below(16), ..r },
            BLOCK_READ | BLOCK_WRITE if rng.percent(50) => Record { value: rng.pick(&[0, 17]), ..r },
            BLOCK_READ | BLOCK_WRITE => Record { value: rng.pick(&NO_WORDS), ..r },
            _ => Record { kind: 0, ..r },
        },
        _ => unreachable!(),
    };
    assert!(r.faulty_in(version));
    r
}

/// Kinds that a version doesn't have. It has a table of kinds, so that the next behind its last count.
fn no_kinds(version: Version) -> &'static [u8] {
    match version {
        Version::One => &[0, 10, 11, 99, 255],
        Version::Two => &[0, 12, 13, 99, 255],
    }
}

/// Numbers of words that no block has, some of them good in their low byte or half.
pub const NO_WORDS: [u32; 12] = [
    0, 17, 18, 31, 32, 255, 256, 0x0101, 0x1_0000, 0x1_0001, 0x8000_0001, u32::MAX,
];

/// A record of each fault, the two of kind and size first. They are faults in both versions.
pub fn faults() -> [Record; 6] {
    let read = Record::new(READ, 4, 0x0200_0000, 0);
    [
        Record { kind: 10, ..read },
        Record { size: 3, ..read },
        Record { flag: 1, ..read },
        Record { zero: 1, ..read },
        Record { value: 1, ..read },
        Record::new(IDLE, 0, 0x0200_0000, 1),
    ]
}

/// A good version 2 sheet that says it is of version 1: its first block, if it has one, is a faulty record, and all else is good.
pub fn blocks_in_one(rng: &mut Rng) -> Plan {
    let mut plan = gen::accepted(rng, Version::Two, 1);
    let block = records_of(&plan.sheet).iter().any(Record::is_block);
    plan.sheet[3] = Version::One as u8;
    plan.meant = Some(if block { 7 } else { 0 });
    plan
}

/// A good case with a few random bytes of its sheet or its board changed; it may still be accepted.
pub fn damaged(rng: &mut Rng, version: Version) -> Plan {
    let mut plan = gen::accepted(rng, version, 1);
    plan.meant = None;
    for _ in 0..1 + rng.below(3) {
        let bytes = match rng.below(10) {
            0..=5 => &mut plan.sheet,
            _ => &mut plan.board,
        };
        let at = if rng.percent(30) { rng.below(20) } else { rng.below(bytes.len()) };
        if let Some(byte) = bytes.get_mut(at) {
            *byte = if rng.percent(50) { *byte ^ 1 << rng.below(8) } else { rng.u32() as u8 };
        }
    }
    if rng.percent(5) {
        let cut = rng.below(plan.sheet.len() + 1);
        plan.sheet.truncate(cut);
    }
    plan
}
