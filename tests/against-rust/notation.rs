//! The notation of docs/DIFFERENCES.md: an input in words, and what is claimed of it.

use crate::bytes::*;
use crate::compare::NAMES;
use crate::grounds::{self, words_of};
use crate::machine::{BIOS_SIZE, ROM_WINDOW_SIZE, SIZES};
use crate::tariff::shares_of;

// ---- inputs ----

/// The case that a list of items describes, from a fresh board over the memories of `bench`.
pub fn case_of(text: &str) -> Result<Case, String> {
    let mut setting = Setting::bench();
    for item in text.split(", ") {
        let words: Vec<&str> = item.split_whitespace().collect();
        setting.item(&words).ok_or(format!("can't read the item \"{item}\""))?;
    }
    setting.case().ok_or("a byte past the end of its buffer, or a buffer that isn't lent".to_string())
}

struct Setting {
    version: Version,
    memories: [Vec<u8>; 7],
    bios: Vec<u8>,
    rom: Vec<u8>,
    board: Board,
    records: Vec<Record>,
    rate: Option<u32>,
    /// Whether a buffer for the grounds is lent.
    with_grounds: bool,
    /// What is changed at the end in the bytes that are lent.
    changes: Vec<Change>,
}

/// A byte of a buffer set to a value, or a buffer cut off or lengthened by zeros.
struct Change {
    buffer: fn(&mut Case) -> Option<&mut Vec<u8>>,
    what: What,
}

enum What {
    Byte(usize, u8),
    Length(usize),
}

impl Setting {
    fn bench() -> Setting {
        let lengths = [16_384, 16_384, 2_052, 1_024, 16_384, 1_024, 8_192];
        Setting {
            version: Version::One,
            memories: lengths.map(|length| vec![0; length]),
            bios: Vec::new(),
            rom: Vec::new(),
            board: Board::default(),
            records: Vec::new(),
            rate: None,
            with_grounds: false,
            changes: Vec::new(),
        }
    }

    fn case(self) -> Option<Case> {
        let shares = vec![0x3C; SHARE * self.records.len()];
        let grounds = vec![0x3C; GROUNDS * self.records.len()];
        let mut case = Case {
            sheet: sheet_in(self.version, &self.records),
            board: self.board.bytes(),
            lengths: std::array::from_fn(|i| self.memories[i].len()),
            store: self.memories.concat(),
            bios: self.bios,
            rom: self.rom,
            answers: vec![0x3C; ANSWER * self.records.len()],
            tariff: self.rate.map(|rate| Tariff { shares, rate }),
            grounds: self.with_grounds.then_some(grounds),
        };
        for Change { buffer, what } in self.changes {
            let bytes = buffer(&mut case)?;
            match what {
                What::Byte(at, byte) => *bytes.get_mut(at)? = byte,
                What::Length(length) => bytes.resize(length, 0),
            }
        }
        Some(case)
    }

    /// A memory by its name, and its size.
    fn memory(&mut self, name: &str) -> Option<(&mut Vec<u8>, usize)> {
        match name {
            "BIOS" => Some((&mut self.bios, BIOS_SIZE)),
            "ROM" => Some((&mut self.rom, ROM_WINDOW_SIZE)),
            _ => {
                let i = NAMES.iter().position(|n| *n == name)?;
                Some((&mut self.memories[i], SIZES[i]))
            }
        }
    }

    fn item(&mut self, words: &[&str]) -> Option<()> {
        match words {
            [times, "×", step @ ..] => {
                for _ in 0..number(times)? {
                    self.item(step)?;
                }
            }
            ["no", name] => self.memory(name)?.0.clear(),
            [name @ ("sheet" | "board" | "store" | "answers" | "grounds"), "of", length, "byte" | "bytes"] => {
                self.change(name, What::Length(number(length)? as usize))?;
            }
            [name @ ("sheet" | "board"), "byte", at, byte] => {
                self.change(name, What::Byte(number(at)? as usize, number(byte)?.try_into().ok()?))?;
            }
            [name, "of", "bytes", bytes @ ..] => {
                let bytes: Option<Vec<u8>> = bytes.iter().map(|b| u8::from_str_radix(b, 16).ok()).collect();
                self.lend(name, bytes?)?;
            }
            [name, "of", length, "byte" | "bytes"] => self.lend(name, vec![0; number(length)? as usize])?,
            ["board", "WAITCNT", value] => self.board.waitcnt = number(value)?.try_into().ok()?,
            ["board", "flag", value] => self.board.force = number(value)?.try_into().ok()?,
            ["board", "VRAM", "counter", value] => self.board.vram = number(value)?,
            ["board", "previous", size, "at", address] => {
                self.board.prev_size = word(size)?.try_into().ok()?;
                self.board.prev_addr = word(address)?;
            }
            ["board", "buffer", "at", address, halfwords @ ..] => self.buffer(word(address)?, halfwords)?,
            ["board", "next", address] => self.board.next = word(address)?,
            ["board", "next", address, "in", cycles] => {
                self.board = Board { next: word(address)?, filling: 1, wait_left: word(cycles)?, ..self.board };
            }
            ["version", "2"] => self.version = Version::Two,
            ["rate", rate] => self.rate = Some(word(rate)?),
            ["with", "grounds"] => self.with_grounds = true,
            _ => self.records.push(step(words)?),
        }
        Some(())
    }

    fn change(&mut self, name: &str, what: What) -> Option<()> {
        let buffer: fn(&mut Case) -> Option<&mut Vec<u8>> = match name {
            "sheet" => |case| Some(&mut case.sheet),
            "board" => |case| Some(&mut case.board),
            "store" => |case| Some(&mut case.store),
            "answers" => |case| Some(&mut case.answers),
            "grounds" => |case| case.grounds.as_mut(),
            _ => return None,
        };
        self.changes.push(Change { buffer, what });
        Some(())
    }

    /// Halfwords that stand in the board's prefetch, from an address on; nothing is filling.
    fn buffer(&mut self, address: u32, halfwords: &[&str]) -> Option<()> {
        for (i, halfword) in halfwords.iter().enumerate() {
            *self.board.halfwords.get_mut(i)? = number(halfword)?.try_into().ok()?;
        }
        self.board.count = halfwords.len() as u8;
        self.board.head_addr = address;
        self.board.next = address + 2 * halfwords.len() as u32;
        Some(())
    }

    fn lend(&mut self, name: &str, bytes: Vec<u8>) -> Option<()> {
        let (memory, size) = self.memory(name)?;
        if bytes.len() > size {
            return None;
        }
        *memory = bytes;
        Some(())
    }
}

fn step(words: &[&str]) -> Option<Record> {
    Some(match words {
        ["READ", size, "at", address] => Record::new(READ, word(size)? as u8, word(address)?, 0),
        ["WRITE", size, "of", value, "at", address] => {
            Record::new(WRITE, word(size)? as u8, word(address)?, word(value)?)
        }
        ["BLOCK", "READ", "of", words, "word" | "words", "at", address] => {
            Record::new(BLOCK_READ, 4, word(address)?, word(words)?)
        }
        ["BLOCK", "WRITE", "of", words, "word" | "words", "at", address] => {
            Record::new(BLOCK_WRITE, 4, word(address)?, word(words)?)
        }
        ["WAITCNT", value] => Record::new(WAITCNT, 0, 0, word(value)?),
        ["IDLE", cycles] => Record::new(IDLE, 0, 0, word(cycles)?),
        ["FETCH", address] => Record::new(FETCH, 0, word(address)?, 0),
        ["RESTART", address] => Record::new(RESTART, 0, word(address)?, 0),
        ["PC", address] => Record::new(PC, 0, word(address)?, 0),
        ["LATCH", value] => Record::new(LATCH, 0, 0, word(value)?),
        [isa @ ("ARM" | "Thumb"), opcode, "at", address, rest @ ..] => {
            let size = if *isa == "ARM" { 4 } else { 2 };
            let flag = match rest {
                [] | ["with", "flag", "0"] => 0,
                ["with", "flag", "1"] => 1,
                _ => return None,
            };
            Record { flag, ..Record::new(INSTRUCTION, size, word(address)?, word(opcode)?) }
        }
        _ => return None,
    })
}

/// Base ten, with or without commas between thousands, or hexadecimal after 0x.
fn number(text: &str) -> Option<u64> {
    match text.strip_prefix("0x") {
        Some(digits) => u64::from_str_radix(digits, 16).ok(),
        None => text.replace(',', "").parse().ok(),
    }
}

fn word(text: &str) -> Option<u32> {
    number(text)?.try_into().ok()
}

// ---- claims ----

/// Holds each claim against what a run gave; the number of claims. What stands in brackets is no claim. Where a refusal is
/// claimed, nothing else is.
pub fn check(claims: &str, case: &Case, outcome: &Outcome) -> Result<usize, String> {
    if outcome.report.number != 0 && !claims.starts_with("refused ") {
        return Err(format!("refused: {:?}", outcome.report));
    }
    let plain = without_brackets(claims);
    let mut rest: Vec<&str> = plain.split_whitespace().map(|w| w.trim_end_matches(',')).collect();
    let mut done = 0;
    while !rest.is_empty() {
        let (claim, used) =
            Claim::first(&rest).ok_or(format!("can't read the claim \"{}\"", rest.join(" ")))?;
        claim.hold(case, outcome)?;
        rest.drain(..used);
        done += 1;
    }
    if done == 0 {
        return Err("no claim".to_string());
    }
    Ok(done)
}

fn without_brackets(text: &str) -> String {
    let mut depth = 0;
    let mut out = String::new();
    for c in text.chars() {
        match c {
            '(' => depth += 1,
            ')' => depth -= 1,
            _ if depth == 0 => out.push(c),
            _ => {}
        }
    }
    out
}

enum Claim {
    /// A refusal's number and index.
    Refused(u64, u64),
    Waitcnt(u64),
    VramCounter(u64),
    OamCounter(u64),
    PaletteCounter(u64),
    /// The previous data access that the run leaves, as size and address; (0, 0) for none.
    Previous(u64, u64),
    /// The whole answer of the last step.
    Bytes([u8; ANSWER]),
    Value(u64),
    /// Those of the last steps.
    Hits(Vec<u64>),
    Count(u64),
    Flag(u64),
    /// Those of the last steps.
    Cycles(Vec<u64>),
    Total(u64),
    /// Those of the last steps, in cents.
    Shares(Vec<u64>),
    Charge(u64),
    /// Those of the last steps, each step's as the bytes that aren't 0.
    Grounds(Vec<Vec<u8>>),
    /// A memory's byte after the run.
    Byte(usize, u64, u64),
    /// How many bytes of the store the run changed.
    Changed(u64),
}

impl Claim {
    /// The claim that the words begin with, and how many words it takes.
    fn first(words: &[&str]) -> Option<(Claim, usize)> {
        Some(match words {
            ["refused", v, "at", index, ..] => (Claim::Refused(number(v)?, number(index)?), 4),
            ["refused", v, ..] => (Claim::Refused(number(v)?, 0), 2),
            ["board", "WAITCNT", v, ..] => (Claim::Waitcnt(number(v)?), 3),
            ["VRAM", "counter", v, ..] => (Claim::VramCounter(number(v)?), 3),
            ["OAM", "counter", v, ..] => (Claim::OamCounter(number(v)?), 3),
            ["palette", "counter", v, ..] => (Claim::PaletteCounter(number(v)?), 3),
            ["previous", "none", ..] => (Claim::Previous(0, 0), 2),
            ["previous", size, "at", address, ..] => (Claim::Previous(number(size)?, number(address)?), 4),
            ["bytes", rest @ ..] => (Claim::Bytes(answer(rest)?), 1 + ANSWER),
            ["value", v, ..] => (Claim::Value(number(v)?), 2),
            ["count", v, ..] => (Claim::Count(number(v)?), 2),
            ["flag", v, ..] => (Claim::Flag(number(v)?), 2),
            ["total", v, ..] => (Claim::Total(number(v)?), 2),
            ["charge", v, ..] => (Claim::Charge(number(v)?), 2),
            ["changed", v, ..] => (Claim::Changed(number(v)?), 2),
            ["cycles", rest @ ..] => Claim::list(rest, number, Claim::Cycles)?,
            ["hits", rest @ ..] => Claim::list(rest, number, Claim::Hits)?,
            ["shares", rest @ ..] => Claim::list(rest, number, Claim::Shares)?,
            ["grounds", rest @ ..] => Claim::list(rest, ground_bytes, Claim::Grounds)?,
            [v, "cycle" | "cycles", ..] => (Claim::Cycles(vec![number(v)?]), 2),
            [memory, "byte", at, v, ..] => {
                let which = NAMES.iter().position(|n| n == memory)?;
                (Claim::Byte(which, number(at)?, number(v)?), 4)
            }
            _ => return None,
        })
    }

    /// A claim about the last steps: what is claimed, and a word for each.
    fn list<T>(words: &[&str], read: fn(&str) -> Option<T>, claim: fn(Vec<T>) -> Claim) -> Option<(Claim, usize)> {
        let list: Vec<T> = words.iter().map_while(|w| read(w)).collect();
        let used = 1 + list.len();
        (used > 1).then(|| (claim(list), used))
    }

    fn hold(&self, case: &Case, outcome: &Outcome) -> Result<(), String> {
        let steps = || outcome.answers.chunks_exact(ANSWER).take(outcome.report.index as usize);
        let answers: Vec<Answer> = steps().map(Answer::of).collect();
        let last = || answers.last().ok_or("no step");
        let column = |of: fn(&Answer) -> u64| -> Vec<u64> { answers.iter().map(of).collect() };
        let board = || Board::of(&outcome.board);
        match self {
            Claim::Refused(number, index) => same("refusal", *number, outcome.report.number.into())
                .and(same("index", *index, outcome.report.index.into())),
            Claim::Waitcnt(v) => same("board WAITCNT", *v, board().waitcnt.into()),
            Claim::VramCounter(v) => same("VRAM counter", *v, board().vram),
            Claim::OamCounter(v) => same("OAM counter", *v, board().oam),
            Claim::PaletteCounter(v) => same("palette counter", *v, board().palette),
            Claim::Previous(size, address) => same("previous size", *size, board().prev_size.into())
                .and(same("previous address", *address, board().prev_addr.into())),
            Claim::Bytes(bytes) => same_bytes(bytes, steps().last()),
            Claim::Value(v) => same("value", *v, last()?.value.into()),
            Claim::Hits(list) => same_list("hits", list, &column(|a| a.hits.into())),
            Claim::Count(v) => same("count", *v, last()?.count.into()),
            Claim::Flag(v) => same("flag", *v, last()?.force.into()),
            Claim::Total(v) => same("total", *v, outcome.report.total),
            Claim::Cycles(list) => same_list("cycles", list, &column(|a| a.cycles.into())),
            Claim::Shares(list) => same_list("shares", list, &shares_of(&outcome.second).collect::<Vec<_>>()),
            Claim::Charge(v) => same("charge", *v, outcome.report.charge),
            Claim::Grounds(list) => same_grounds(list, outcome),
            Claim::Byte(which, at, v) => {
                let start: usize = case.lengths[..*which].iter().sum();
                let byte = outcome.store[start + *at as usize];
                same(&format!("{} byte {at}", NAMES[*which]), *v, byte.into())
            }
            Claim::Changed(v) => {
                let changed = case.store.iter().zip(&outcome.store).filter(|(a, b)| a != b).count();
                same("changed bytes", *v, changed as u64)
            }
        }
    }
}

/// An answer's bytes, in hexadecimal.
fn answer(words: &[&str]) -> Option<[u8; ANSWER]> {
    let bytes: Vec<u8> = words.iter().take(ANSWER).map_while(|w| u8::from_str_radix(w, 16).ok()).collect();
    bytes.try_into().ok()
}

fn same_bytes(claimed: &[u8; ANSWER], given: Option<&[u8]>) -> Result<(), String> {
    match given {
        Some(given) if given == claimed => Ok(()),
        _ => Err(format!("answer: {claimed:02X?} is claimed, {given:02X?} was given")),
    }
}

/// A step's grounds as `hit+seq`, or `none`.
fn ground_bytes(word: &str) -> Option<Vec<u8>> {
    match word {
        "none" => Some(Vec::new()),
        _ => word.split('+').map(grounds::byte_of).collect(),
    }
}

/// The grounds of the last steps, with zeros up to the end of each step's bytes.
fn same_grounds(list: &[Vec<u8>], outcome: &Outcome) -> Result<(), String> {
    let n = outcome.report.index as usize;
    let skipped = n.checked_sub(list.len()).ok_or("grounds of more steps than there are")?;
    let given = outcome.second.chunks_exact(GROUNDS).take(n).skip(skipped);
    for (claimed, given) in list.iter().zip(given) {
        let (beats, rest) = given.split_at(claimed.len());
        if beats != claimed || rest.iter().any(|&byte| byte != 0) {
            return Err(format!("grounds: {} is claimed, {} was given", words_of(claimed), words_of(given)));
        }
    }
    Ok(())
}

/// The numbers of the last steps.
fn same_list(what: &str, list: &[u64], given: &[u64]) -> Result<(), String> {
    let skipped = given.len().checked_sub(list.len()).ok_or(format!("more {what} than steps"))?;
    list.iter().zip(&given[skipped..]).try_for_each(|(claimed, given)| same(what, *claimed, *given))
}

fn same(what: &str, claimed: u64, given: u64) -> Result<(), String> {
    if claimed == given {
        return Ok(());
    }
    Err(format!("{what}: {claimed} ({claimed:#X}) is claimed, {given} ({given:#X}) was given"))
}
