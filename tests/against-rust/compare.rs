//! The library's functions on guarded copies of what is lent, and the comparison of what they give with the Rust's side.

use crate::bytes::*;
use crate::grounds::words_of;

/// The memories of the store, in its order.
pub const NAMES: [&str; 7] = ["EWRAM", "IWRAM", "I/O", "palette", "VRAM", "OAM", "SRAM"];

/// A function of the library, with what it is given besides the case.
#[derive(Clone, Copy)]
pub enum Call<'a> {
    Run,
    RunTariff(&'a Tariff),
    /// What is lent for the grounds.
    RunGrounds(&'a [u8]),
    /// Sheet, board and answers alone are lent to it; a case that it is called for has no memories.
    Preview,
}

impl Call<'_> {
    /// In words.
    pub fn name(self) -> String {
        match self {
            Call::Run => "bts_run".to_string(),
            Call::RunTariff(tariff) => {
                format!("bts_run_tariff at rate {}, {} bytes of shares", tariff.rate, tariff.shares.len())
            }
            Call::RunGrounds(lent) => format!("bts_run_grounds, {} bytes of grounds", lent.len()),
            Call::Preview => "bts_preview".to_string(),
        }
    }

    /// The second buffer.
    fn second(&self) -> &[u8] {
        match self {
            Call::RunTariff(tariff) => &tariff.shares,
            Call::RunGrounds(lent) => lent,
            Call::Run | Call::Preview => &[],
        }
    }

    /// What stands in the second buffer: its name, the bytes of a step, and one step's in words.
    fn told(&self) -> Told {
        match self {
            Call::RunGrounds(_) => Told { name: "grounds", each: GROUNDS, words: words_of },
            _ => Told { name: "share", each: SHARE, words: |share| u64_at(share, 0).to_string() },
        }
    }
}

struct Told {
    name: &'static str,
    each: usize,
    words: fn(&[u8]) -> String,
}

const GUARD: usize = 61; // odd, so that the lent bytes are not aligned

/// The guard bytes: none is 0 or 0xFF, which a load past a memory's end gives.
fn guard(i: usize) -> u8 {
    (0x40 + i % 128) as u8
}

/// A copy of some bytes with guard bytes on both sides; the room is kept from case to case.
#[derive(Default)]
struct Lent {
    room: Vec<u8>,
    len: usize,
}

impl Lent {
    fn lend(&mut self, bytes: &[u8]) {
        self.len = bytes.len();
        self.room.clear();
        self.room.extend((0..GUARD).map(guard));
        self.room.extend_from_slice(bytes);
        self.room.extend((0..GUARD).map(guard));
    }

    fn start(&mut self) -> *mut u8 {
        self.room[GUARD..].as_mut_ptr()
    }

    fn bytes(&self) -> &[u8] {
        &self.room[GUARD..GUARD + self.len]
    }

    fn guards_kept(&self) -> bool {
        let (before, rest) = self.room.split_at(GUARD);
        let after = &rest[self.len..];
        before.iter().chain(after).copied().eq((0..GUARD).chain(0..GUARD).map(guard))
    }
}

/// The library, with the rooms that are lent to it.
#[derive(Default)]
pub struct Library {
    sheet: Lent,
    board: Lent,
    store: Lent,
    bios: Lent,
    rom: Lent,
    answers: Lent,
    second: Lent,
}

impl Library {
    /// Does the case by one of the functions; an error tells what was changed that none of them may change.
    pub fn run(&mut self, case: &Case, call: Call) -> Result<Outcome, String> {
        self.sheet.lend(&case.sheet);
        self.board.lend(&case.board);
        self.store.lend(&case.store);
        self.bios.lend(&case.bios);
        self.rom.lend(&case.rom);
        self.answers.lend(&case.answers);
        self.second.lend(call.second());
        let report = match call {
            Call::Run => self.call_run(case.lengths).into(),
            Call::RunTariff(tariff) => self.call_run_tariff(case.lengths, tariff.rate),
            Call::RunGrounds(_) => self.call_run_grounds(case.lengths).into(),
            Call::Preview => self.call_preview().into(),
        };
        self.untouched(case)?;
        Ok(Outcome {
            report,
            board: self.board.bytes().to_vec(),
            store: self.store.bytes().to_vec(),
            answers: self.answers.bytes().to_vec(),
            second: self.second.bytes().to_vec(),
        })
    }

    fn call_run(&mut self, lengths: [usize; 7]) -> Report {
        let Library { sheet, board, store, bios, rom, answers, .. } = self;
        let [ewram, iwram, io, palette, vram, oam, sram] = lengths;
        // each pointer is to so many bytes of a room of its own, which nothing else uses meanwhile
        unsafe {
            bts_run(
                sheet.start(), sheet.len, board.start(), board.len, store.start(), store.len,
                bios.start(), bios.len, rom.start(), rom.len, answers.start(), answers.len,
                ewram, iwram, io, palette, vram, oam, sram,
            )
        }
    }

    fn call_run_tariff(&mut self, lengths: [usize; 7], rate: u32) -> Bill {
        let Library { sheet, board, store, bios, rom, answers, second } = self;
        let [ewram, iwram, io, palette, vram, oam, sram] = lengths;
        // as above
        unsafe {
            bts_run_tariff(
                sheet.start(), sheet.len, board.start(), board.len, store.start(), store.len,
                bios.start(), bios.len, rom.start(), rom.len, answers.start(), answers.len,
                second.start(), second.len,
                ewram, iwram, io, palette, vram, oam, sram,
                rate,
            )
        }
    }

    fn call_run_grounds(&mut self, lengths: [usize; 7]) -> Report {
        let Library { sheet, board, store, bios, rom, answers, second } = self;
        let [ewram, iwram, io, palette, vram, oam, sram] = lengths;
        // as above
        unsafe {
            bts_run_grounds(
                sheet.start(), sheet.len, board.start(), board.len, store.start(), store.len,
                bios.start(), bios.len, rom.start(), rom.len, answers.start(), answers.len,
                second.start(), second.len,
                ewram, iwram, io, palette, vram, oam, sram,
            )
        }
    }

    fn call_preview(&mut self) -> Report {
        let Library { sheet, board, answers, .. } = self;
        // as above
        unsafe {
            bts_preview(sheet.start(), sheet.len, board.start(), board.len, answers.start(), answers.len)
        }
    }

    fn untouched(&self, case: &Case) -> Result<(), String> {
        let read_only = [
            ("sheet", &self.sheet, &case.sheet),
            ("BIOS", &self.bios, &case.bios),
            ("ROM", &self.rom, &case.rom),
        ];
        for (name, lent, before) in read_only {
            if lent.bytes() != &before[..] {
                return Err(format!("{name} was changed"));
            }
        }
        let all = [
            ("sheet", &self.sheet), ("board", &self.board), ("store", &self.store),
            ("BIOS", &self.bios), ("ROM", &self.rom), ("answers", &self.answers), ("shares or grounds", &self.second),
        ];
        match all.iter().find(|(_, lent)| !lent.guards_kept()) {
            Some((name, _)) => Err(format!("a byte just outside {name} was changed")),
            None => Ok(()),
        }
    }
}

/// The first field in which the two outcomes differ, in words.
pub fn first_difference(case: &Case, call: Call, rust: &Outcome, library: &Outcome) -> Option<String> {
    let (r, l) = (rust.report, library.report);
    if r != l {
        return Some(format!("report: Rust {r:?}, library {l:?}"));
    }
    if let Some(i) = first_byte(&rust.answers, &library.answers) {
        return Some(answer_difference(case, rust, library, i));
    }
    if let Some(i) = first_byte(&rust.board, &library.board) {
        let (r, l) = (rust.board[i], library.board[i]);
        return Some(format!("board byte {i}: Rust {r:#04X}, library {l:#04X}"));
    }
    if let Some(i) = first_byte(&rust.second, &library.second) {
        return Some(second_difference(case, &call.told(), rust, library, i));
    }
    let i = first_byte(&rust.store, &library.store)?;
    let (r, l) = (rust.store[i], library.store[i]);
    Some(format!("store byte {i} ({}): Rust {r:#04X}, library {l:#04X}", place_in_store(case, i)))
}

fn first_byte(a: &[u8], b: &[u8]) -> Option<usize> {
    assert_eq!(a.len(), b.len());
    if a == b {
        return None;
    }
    a.iter().zip(b).position(|(x, y)| x != y)
}

fn answer_difference(case: &Case, rust: &Outcome, library: &Outcome, i: usize) -> String {
    let k = i / ANSWER;
    let records = records_of(&case.sheet);
    if rust.report.number != 0 || k >= records.len() {
        let (r, l) = (rust.answers[i], library.answers[i]);
        return format!("answer byte {i}, which must stay: Rust {r:#04X}, library {l:#04X}");
    }
    let answer = |o: &Outcome| Answer::of(&o.answers[ANSWER * k..]);
    let step = records[k];
    format!(
        "answer of step {k}, byte {}, of {step:X?}: Rust {:X?}, library {:X?}",
        i % ANSWER, answer(rust), answer(library)
    )
}

/// The Rust's side of a share is the second reading's (tariff.rs), that of a ground is grounds.rs's, as that of a preview is
/// preview.rs's.
fn second_difference(case: &Case, told: &Told, rust: &Outcome, library: &Outcome, i: usize) -> String {
    let (k, name) = (i / told.each, told.name);
    if rust.report.number != 0 || k >= rust.report.index as usize {
        let (r, l) = (rust.second[i], library.second[i]);
        return format!("{name} byte {i}, which must stay: Rust {r:#04X}, library {l:#04X}");
    }
    let words = |o: &Outcome| (told.words)(&o.second[told.each * k..told.each * (k + 1)]);
    let step = records_of(&case.sheet)[k];
    format!("{name} of step {k}, {step:X?}: Rust {}, library {}", words(rust), words(library))
}

/// The memory and offset of a byte of the store.
fn place_in_store(case: &Case, i: usize) -> String {
    let mut start = 0;
    for (name, length) in NAMES.iter().zip(case.lengths) {
        if i - start < length {
            return format!("{name} offset {:#X}", i - start);
        }
        start += length;
    }
    "outside the seven".to_string()
}

// ---- telling one case in full ----

pub fn tell(case: &Case, call: Call, rust: &Outcome, library: &Outcome) {
    println!("---- {}", call.name());
    let (store, bios, rom) = (case.store.len(), case.bios.len(), case.rom.len());
    println!("lengths {:?}, store {store}, BIOS {bios}, ROM {rom}", case.lengths);
    let header = &case.sheet[..case.sheet.len().min(HEADER)];
    println!("sheet of {} bytes, header {header:02X?}", case.sheet.len());
    tell_board("before ", &case.board);
    let records = records_of(&case.sheet);
    for (k, r) in records.iter().enumerate() {
        let answer = |o: &Outcome| o.answers.get(ANSWER * k..ANSWER * (k + 1)).map(Answer::of);
        let (a, b) = (answer(rust), answer(library));
        let mark = if a == b { "" } else { "   <<<" };
        println!("{k} {r:X?}\n    Rust    {a:X?}\n    library {b:X?}{mark}");
    }
    let Told { name, each, words } = call.told();
    let steps = rust.second.chunks_exact(each).zip(library.second.chunks_exact(each)).take(records.len());
    for (k, (a, b)) in steps.enumerate() {
        let mark = if a == b { "" } else { "   <<<" };
        println!("{name} {k}: Rust {}, library {}{mark}", words(a), words(b));
    }
    tell_board("Rust   ", &rust.board);
    tell_board("library", &library.board);
    println!("Rust    {:?}\nlibrary {:?}", rust.report, library.report);
    for i in (0..case.store.len()).filter(|&i| rust.store[i] != library.store[i]).take(40) {
        let (place, r, l) = (place_in_store(case, i), rust.store[i], library.store[i]);
        println!("store byte {i} ({place}): Rust {r:#04X}, library {l:#04X}");
    }
}

fn tell_board(whose: &str, bytes: &[u8]) {
    match bytes.len() {
        BOARD => println!("board {whose} {:X?}", Board::of(bytes)),
        other => println!("board {whose} of {other} bytes"),
    }
}
