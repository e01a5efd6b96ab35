//! Shows that the cost of a step doesn't grow with the IDLE value, the memories' lengths or the step's number, nor that of a
//! record's examination with the number of records or with a fault behind them.

use crate::bus::region::{BIOS_SIZE, ROM_WINDOW_SIZE};
use crate::bytes::*;
use crate::memories::{Memories, SIZES};
use crate::sheets;
use crate::timing::{timed, Sorted};

/// The greatest ratio that noise explains. The inputs grow at least 15-fold, so a cost that followed them would be far above.
pub const MOST: f64 = 1.5;

/// The shortest memories: so many bytes each.
const SHORT: usize = 64;

/// So many records are compared at the start and at the end of a sheet.
const PIECE: usize = 256;

/// A run of the library that is timed again and again; its times are in ns.
struct Case {
    name: String,
    records: usize,
    sheet: Vec<u8>,
    memories: Memories,
    board: Vec<u8>,
    answers: Vec<u8>,
    shares: Vec<u8>,
    /// What it gives back: 0 for a run; 7 or 8 for an examination alone.
    number: u32,
    times: Vec<f64>,
}

impl Case {
    fn new(name: &str, records: &[Record], memories: Memories) -> Case {
        Case {
            name: name.to_string(),
            records: records.len(),
            sheet: sheet_of(records),
            memories,
            board: vec![0; BOARD],
            answers: vec![0; ANSWER * records.len()],
            shares: vec![0; SHARE * records.len()],
            number: 0,
            times: Vec::new(),
        }
    }

    /// The examination alone: the rate of a tariff is looked at behind the last record, and 0 is refused.
    fn examination(name: &str, records: &[Record], memories: Memories) -> Case {
        let number = if records.iter().any(Record::faulty) { 7 } else { 8 };
        Case { number, ..Case::new(name, records, memories) }
    }

    fn round(&mut self) -> Result<(), String> {
        self.board.fill(0);
        let Case { sheet, board, answers, shares, memories, number, .. } = self;
        let (ns, given) = match number {
            0 => timed(|| memories.run(sheet, board, answers).number),
            _ => timed(|| memories.run_tariff(sheet, board, answers, shares, 0).number),
        };
        if given != *number {
            return Err(format!("gave {given} in place of {number}: {}", self.name));
        }
        self.times.push(ns);
        Ok(())
    }

    fn per_record(&self) -> Sorted {
        Sorted::of(self.times.iter().map(|ns| ns / self.records as f64).collect())
    }
}

/// Times the cases in turn.
fn time(cases: &mut [Case], rounds: usize) -> Result<(), String> {
    for _ in 0..rounds {
        for case in cases.iter_mut() {
            case.round()?;
        }
    }
    Ok(())
}

/// Prints a line; the name, if the ratio is too great.
fn tell(name: &str, times: &Sorted, base: Option<&Sorted>) -> Option<String> {
    let (low, high) = times.quartiles();
    let text = format!("{name:<44} {:7.2} {:7.2} ({low:6.2}–{high:6.2})", times.best(), times.median());
    let Some(base) = base else {
        println!("{text}");
        return None;
    };
    let (best, median) = (times.best() / base.best(), times.median() / base.median());
    println!("{text} {best:6.2} {median:6.2}");
    (median > MOST && best > MOST).then(|| name.to_string())
}

/// The table; the names of what grows.
pub fn show(rounds: usize) -> Result<Vec<String>, String> {
    println!("third: the library alone; ns a record, {rounds} rounds; ratio to the line marked *");
    println!("{:<44} {:>7} {:>7} {:>15} {:>6} {:>6}", "", "best", "median", "", "best", "median");
    let mut growing = idle_values(rounds)?;
    growing.extend(lengths(rounds)?);
    growing.extend(numbers(rounds)?);
    growing.extend(examinations(rounds)?);
    Ok(growing)
}

/// Tells the cases, each against number `base`; those before it only bound it from below.
fn tell_all(cases: &[Case], base: usize) -> Vec<String> {
    let standard = cases[base].per_record();
    let mut growing = Vec::new();
    for (i, case) in cases.iter().enumerate() {
        let mark = if i == base { "* " } else { "  " };
        let against = (i > base).then_some(&standard);
        growing.extend(tell(&format!("{mark}{}", case.name), &case.per_record(), against));
    }
    growing
}

/// IDLE 28 fills the buffer from nothing: beyond it, a value has no more to do. Below it the work is bounded by eight beats.
fn idle_values(rounds: usize) -> Result<Vec<String>, String> {
    let memories = Memories::random(8, SIZES, BIOS_SIZE, sheets::ROM_LEN);
    let case = |value: u32| {
        let records = sheets::restart_and_idle(value);
        Case::new(&format!("RESTART, IDLE {value}"), &records, memories.clone())
    };
    let mut cases: Vec<Case> = [1, 28, 1000, 1_000_000, u32::MAX].map(case).into();
    time(&mut cases, rounds)?;
    Ok(tell_all(&cases, 1))
}

/// The same records, all of them inside even the shortest memories, so that only the lengths differ.
fn lengths(rounds: usize) -> Result<Vec<String>, String> {
    let records = sheets::low_reads_and_writes(SHORT);
    let case = |name: &str, lengths, bios, rom| {
        Case::new(name, &records, Memories::random(9, lengths, bios, rom))
    };
    let mut cases = vec![
        case("READ and WRITE, memories of 64 bytes", [SHORT; 7], SHORT, SHORT),
        case("READ and WRITE, memories of 1,024 bytes", [1024; 7], 1024, 1024),
        case("READ and WRITE, all full, ROM 32 MiB", SIZES, BIOS_SIZE, ROM_WINDOW_SIZE),
    ];
    time(&mut cases, rounds)?;
    Ok(tell_all(&cases, 0))
}

/// One piece of mixed records again and again, so that only the steps' numbers differ.
fn numbers(rounds: usize) -> Result<Vec<String>, String> {
    let piece = sheets::mixed(PIECE, 0);
    let memories = Memories::random(10, SIZES, BIOS_SIZE, sheets::ROM_LEN);
    let case = |n: usize| {
        Case::new(&format!("mixed, sheet of {n}"), &piece.repeat(n / PIECE), memories.clone())
    };
    let mut cases: Vec<Case> = [PIECE, 1024, 4096 - PIECE, 4096].map(case).into();
    time(&mut cases, rounds)?;
    let mut growing = tell_all(&cases, 0);
    // what the last piece adds, round by round: the two sheets are timed next to one another
    let added = cases[3].times.iter().zip(&cases[2].times).map(|(all, less)| (all - less) / PIECE as f64);
    let added = Sorted::of(added.collect());
    let first = cases[0].per_record();
    let ratio = added.median() / first.median();
    let name = format!("  mixed, the last {PIECE} of 4096 (4096 less {})", 4096 - PIECE);
    let (low, high) = added.quartiles();
    println!("{name:<44} {:>7} {:7.2} ({low:6.2}–{high:6.2}) {:>6} {ratio:6.2}", "", added.median(), "");
    growing.extend((ratio > MOST).then_some(name));
    Ok(growing)
}

/// Mixed records without a fault, and with one in the last record: its zero byte, which no kind uses.
fn examinations(rounds: usize) -> Result<Vec<String>, String> {
    let memories = Memories::random(11, SIZES, BIOS_SIZE, sheets::ROM_LEN);
    let records = sheets::mixed(sheets::RECORDS, 0);
    let mut faulty = records.clone();
    faulty[sheets::RECORDS - 1].zero = 1;
    let case = |name: &str, records: &[Record]| Case::examination(name, records, memories.clone());
    let mut cases = vec![
        case(&format!("examination of {PIECE}, no fault"), &records[..PIECE]),
        case(&format!("examination of {}, no fault", sheets::RECORDS), &records),
        case(&format!("examination of {}, the last one faulty", sheets::RECORDS), &faulty),
    ];
    time(&mut cases, rounds)?;
    Ok(tell_all(&cases, 0))
}
