//! The sides whose times are compared, two at a time: the library and the Rust; a run of the library under a tariff and one
//! without; the library's preview and its run; a run of the library with the grounds of its prices and one without; the library
//! on blocks and on a record for each of their words.

use crate::bytes::*;
use crate::memories::Memories;
use crate::rust_side::Machine;
use crate::sheets::{self, Sort};
use crate::timing::timed;

/// The greatest ratio of best times at which the library isn't slower than the Rust: two builds of the same source differ by as
/// much, from the places of their code and data alone. A word of a block may cost as much of a record of its own.
const SAME: f64 = 1.05;

/// The most that a run under a tariff may cost of one without; and on IDLE 1, whose steps are the cheapest, while a share costs
/// the same for every step.
const TARIFF_MOST: f64 = 1.15;
const TARIFF_MOST_IDLE: f64 = 1.25;

/// The most that a preview may cost of a run.
const PREVIEW_MOST: f64 = 1.15;

/// The most that a run with grounds may cost of one without: 32 bytes are written for every step, and every record is read again.
const GROUNDS_MOST: f64 = 1.5;

/// Cents per million cycles.
const RATE: u32 = 307;

/// So many are the kinds of both versions, with 0, which is none.
const KINDS: usize = 1 + BLOCK_WRITE as usize;

/// The board that each run starts from.
const FRESH: [u8; BOARD] = [0; BOARD];

/// Fills answers, and shares or grounds, before a run, so that none is left there from the run before: each ends in a byte 0.
const NO_ANSWER: u8 = 0xA5;

// ---- a run ----

/// What is lent to a run beside the memories. Both sides get the same buffers, so that neither has them at a better place or
/// finds them warmer.
pub struct Lent {
    pub sheet: Vec<u8>,
    pub board: Vec<u8>,
    pub answers: Vec<u8>,
    /// The shares of a tariff, or the grounds; empty where no side has either.
    pub second: Vec<u8>,
}

/// What a run gave but for its memories.
pub struct Given {
    pub report: Report,
    pub board: Vec<u8>,
    pub answers: Vec<u8>,
}

impl Lent {
    pub fn new(second_len: usize) -> Lent {
        Lent {
            sheet: vec![0; HEADER + RECORD * sheets::RECORDS],
            board: vec![0; BOARD],
            answers: vec![0; ANSWER * sheets::RECORDS],
            second: vec![0; second_len],
        }
    }

    /// A side's run of a sheet from a fresh board: its time in ns a record, or a word where the sheet has `RECORDS` words in
    /// blocks, and what it gave. Only the run itself is timed.
    pub fn time(&mut self, sheet: &[u8], side: &mut dyn Side) -> Result<(f64, Given), String> {
        // its room is that of the longest sheet, so that it stays where it is
        self.sheet.clear();
        self.sheet.extend_from_slice(sheet);
        self.board.copy_from_slice(&FRESH);
        self.answers.fill(NO_ANSWER);
        self.second.fill(NO_ANSWER);
        let (ns, report) = timed(|| side.run(self));
        side.check(self)?;
        let given = Given { report, board: self.board.clone(), answers: self.answers.clone() };
        Ok((ns / sheets::RECORDS as f64, given))
    }
}

// ---- the sides ----

/// Has memories of its own, which go on from run to run, or none at all.
pub trait Side {
    fn run(&mut self, lent: &mut Lent) -> Report;

    /// The seven memories of the store, in its order, where it has memories.
    fn parts(&self) -> Option<[&[u8]; 7]>;

    /// Whether the last run left what only this side leaves as it should.
    fn check(&self, _lent: &Lent) -> Result<(), String> {
        Ok(())
    }
}

impl Side for Memories {
    fn run(&mut self, lent: &mut Lent) -> Report {
        Memories::run(self, &lent.sheet, &mut lent.board, &mut lent.answers)
    }

    fn parts(&self) -> Option<[&[u8]; 7]> {
        Some(Memories::parts(self))
    }
}

impl Side for Machine {
    fn run(&mut self, lent: &mut Lent) -> Report {
        Machine::run(self, &lent.sheet, &mut lent.board, &mut lent.answers)
    }

    fn parts(&self) -> Option<[&[u8]; 7]> {
        Some(Machine::parts(self))
    }
}

/// The library under a tariff, and the bill of its last run.
struct Billed {
    memories: Memories,
    bill: Bill,
}

impl Side for Billed {
    fn run(&mut self, lent: &mut Lent) -> Report {
        let Lent { sheet, board, answers, second } = lent;
        self.bill = self.memories.run_tariff(sheet, board, answers, second, RATE);
        Report { number: self.bill.number, index: self.bill.index, total: self.bill.total }
    }

    fn parts(&self) -> Option<[&[u8]; 7]> {
        Some(self.memories.parts())
    }

    /// The charge pays for the total and not a whole cent more, and the shares add up to it.
    fn check(&self, lent: &Lent) -> Result<(), String> {
        let Bill { total, charge, .. } = self.bill;
        let (cost, paid) = (u128::from(total) * u128::from(RATE), u128::from(charge) * 1_000_000);
        let shares = lent.second.chunks_exact(SHARE).map(|share| u128::from(u64_at(share, 0)));
        if cost <= paid && paid < cost + 1_000_000 && shares.sum::<u128>() == charge.into() {
            return Ok(());
        }
        Err(format!("the shares don't add up to the charge, or it is wrong: {:?}", self.bill))
    }
}

/// The library's preview, which is lent no memories.
struct Preview;

impl Side for Preview {
    #[inline(never)]
    fn run(&mut self, lent: &mut Lent) -> Report {
        let Lent { sheet, board, answers, .. } = lent;
        // each pointer is to so many bytes of a buffer of its own, which nothing else uses meanwhile
        unsafe {
            bts_preview(sheet.as_ptr(), sheet.len(), board.as_ptr(), board.len(), answers.as_mut_ptr(), answers.len())
        }
    }

    fn parts(&self) -> Option<[&[u8]; 7]> {
        None
    }
}

/// The library with the grounds of each step.
struct Grounded(Memories);

impl Side for Grounded {
    fn run(&mut self, lent: &mut Lent) -> Report {
        let Lent { sheet, board, answers, second } = lent;
        self.0.run_grounds(sheet, board, answers, second)
    }

    fn parts(&self) -> Option<[&[u8]; 7]> {
        Some(self.0.parts())
    }

    /// A step has a ground or two for each of its accesses, an instruction counting as one, and 0 behind them.
    fn check(&self, lent: &Lent) -> Result<(), String> {
        let priced: [Priced; KINDS] = std::array::from_fn(|kind| priced(kind as u8));
        let accesses = lent.sheet[HEADER..].chunks_exact(RECORD).map(|record| {
            let Priced { always, by_value } = priced[usize::from(record[0])];
            always + (u32_at(record, 8) & by_value) as usize
        });
        let good = |(accesses, grounds): (usize, &[u8])| {
            let count = grounds.iter().filter(|&&byte| byte != 0).count();
            let known = grounds.iter().enumerate().all(|(i, &byte)| byte <= 9 && (byte != 0) == (i < count));
            known && (accesses..=2 * accesses).contains(&count)
        };
        if accesses.zip(lent.second.chunks_exact(GROUNDS)).all(good) {
            return Ok(());
        }
        Err("a step has grounds that it can't have".to_string())
    }
}

/// How many accesses of a step of a kind have grounds: so many always, and as many as these bits of the record's value say. It is
/// looked up without a jump on the kind, for the reason that `previewed` gives.
#[derive(Clone, Copy)]
struct Priced {
    always: usize,
    by_value: u32,
}

fn priced(kind: u8) -> Priced {
    match kind {
        READ | WRITE | INSTRUCTION => Priced { always: 1, by_value: 0 },
        BLOCK_READ | BLOCK_WRITE => Priced { always: 0, by_value: u32::MAX },
        _ => Priced { always: 0, by_value: 0 },
    }
}

/// What a preview gives (docs/RULES.md) where a run of the same sheet gave this: the answers but for what it doesn't tell, and
/// the board as lent. A table and no jump on each record's kind: what is done between two runs must not make the processor forget
/// their branches.
fn previewed(sheet: &[u8], run: Given) -> Given {
    let Given { report, mut answers, .. } = run;
    let told: [[u8; ANSWER]; KINDS] = std::array::from_fn(|kind| told(kind as u8));
    let kinds = sheet[HEADER..].chunks_exact(RECORD).map(|record| usize::from(record[0]));
    for (kind, answer) in kinds.zip(answers.chunks_exact_mut(ANSWER)) {
        answer.iter_mut().zip(told[kind]).for_each(|(byte, told)| *byte &= told);
    }
    Given { report, board: FRESH.to_vec(), answers }
}

/// The bits of an answer that a preview tells: the value of READ, FETCH and BLOCK READ is 0, and so are the hits of WRITE and
/// BLOCK WRITE.
fn told(kind: u8) -> [u8; ANSWER] {
    let mut bits = [0xFF; ANSWER];
    match kind {
        READ | FETCH | BLOCK_READ => bits[..4].fill(0),
        WRITE | BLOCK_WRITE => bits[8] = 0,
        _ => {}
    }
    bits
}

/// What blocks give where the records of their words gave this (RULES, "Blocks"): one answer a block, with the cycles and the
/// bytes that landed of all its words, and else what its last word left. What lies behind the answers stays as it was.
fn joined(sheet: &[u8], apart: Given) -> Given {
    let Given { report, board, answers } = apart;
    let blocks = sheet[HEADER..].chunks_exact(RECORD);
    let index = blocks.len() as u32;
    let mut words = answers.chunks_exact(ANSWER).map(Answer::of);
    let of_block = |block: &[u8]| words.by_ref().take(u32_at(block, 8) as usize).reduce(in_one_answer);
    let mut joined: Vec<u8> = blocks.filter_map(of_block).flat_map(|answer| answer.bytes()).collect();
    joined.resize(answers.len(), NO_ANSWER);
    Given { report: Report { index, ..report }, board, answers: joined }
}

fn in_one_answer(before: Answer, next: Answer) -> Answer {
    Answer { cycles: before.cycles + next.cycles, hits: before.hits + next.hits, ..next }
}

// ---- two sides ----

/// Two sides of which the first may cost only so much of the second.
pub struct Match {
    pub names: [&'static str; 2],
    /// The second, in a sentence.
    pub other: &'static str,
    /// What the times are told for: a record, or a word of a block.
    pub unit: &'static str,
    /// The records of the second's sheet by those of the first's, where it isn't the same.
    pub apart: Option<fn(&[Record]) -> Vec<Record>>,
    /// The greatest ratio of best times on a sort of sheets.
    pub most: fn(&Sort) -> f64,
    /// What the first must give where the second gave this on a sheet.
    pub first_gives: fn(&[u8], Given) -> Given,
    /// The bytes a sheet of the buffer that the first is lent besides.
    pub second_len: usize,
    /// Each with a copy of the memories, if it has any.
    pub sides: fn(&Memories) -> [Box<dyn Side>; 2],
}

pub static LIBRARY_AND_RUST: Match = Match {
    names: ["library", "Rust"],
    other: "the Rust",
    unit: "record",
    apart: None,
    most: |_| SAME,
    first_gives: |_, given| given,
    second_len: 0,
    sides: |memories| [Box::new(memories.clone()), Box::new(Machine::new(memories))],
};

pub static TARIFF_AND_RUN: Match = Match {
    names: ["tariff", "run"],
    other: "bts_run",
    unit: "record",
    apart: None,
    most: |sort| if sort.word == "idle" { TARIFF_MOST_IDLE } else { TARIFF_MOST },
    first_gives: |_, given| given,
    second_len: SHARE * sheets::RECORDS,
    sides: |memories| {
        let bill = Bill { number: 0, index: 0, total: 0, charge: 0 };
        [Box::new(Billed { memories: memories.clone(), bill }), Box::new(memories.clone())]
    },
};

pub static PREVIEW_AND_RUN: Match = Match {
    names: ["preview", "run"],
    other: "bts_run",
    unit: "record",
    apart: None,
    most: |_| PREVIEW_MOST,
    first_gives: previewed,
    second_len: 0,
    sides: |memories| [Box::new(Preview), Box::new(memories.clone())],
};

pub static GROUNDS_AND_RUN: Match = Match {
    names: ["grounds", "run"],
    other: "bts_run",
    unit: "record",
    apart: None,
    most: |_| GROUNDS_MOST,
    first_gives: |_, given| given,
    second_len: GROUNDS * sheets::RECORDS,
    sides: |memories| [Box::new(Grounded(memories.clone())), Box::new(memories.clone())],
};

/// The library twice. A block's words are the same accesses as the records, and there are as many of both.
pub static BLOCKS_AND_RECORDS: Match = Match {
    names: ["blocks", "records"],
    other: "a record for each word",
    unit: "word",
    apart: Some(sheets::written_out),
    most: |_| SAME,
    first_gives: joined,
    second_len: 0,
    sides: |memories| [Box::new(memories.clone()), Box::new(memories.clone())],
};
