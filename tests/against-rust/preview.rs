//! A preview: a second reading of the rule (docs/RULES.md, "What a preview gives"), apart from the library. The Rust has no
//! preview, so that this has it from the Rust's run on a copy (machine.rs), over whatever memories the case lends: a preview is
//! lent none of them.

use crate::bytes::*;
use crate::machine;

/// The refusal that a preview doesn't make: what is wrong with the memories' lengths.
const LENGTHS: u32 = 4;

/// What a preview is lent of a case: sheet, board and answers.
pub fn lent(case: &Case) -> Case {
    Case {
        sheet: case.sheet.clone(),
        board: case.board.clone(),
        store: Vec::new(),
        bios: Vec::new(),
        rom: Vec::new(),
        answers: case.answers.clone(),
        lengths: [0; 7],
        tariff: None,
        grounds: None,
    }
}

/// What the preview gives of what it is lent, from what the Rust's run of the same sheet and board gives. If that is refused for
/// its memories, then from the run over none.
pub fn of(lent: &Case, run: &Outcome) -> Outcome {
    match run.report.number {
        LENGTHS => shown(lent, &machine::run(lent).outcome),
        _ => shown(lent, run),
    }
}

/// The run's report and its answers with the zeros, the answers as lent where the run is refused; the board is as lent.
fn shown(lent: &Case, run: &Outcome) -> Outcome {
    let mut answers = lent.answers.clone();
    if run.report.number == 0 {
        for (k, record) in records_of(&lent.sheet).iter().enumerate() {
            let at = ANSWER * k..ANSWER * (k + 1);
            answers[at.clone()].copy_from_slice(&run.answers[at.clone()]);
            answers[at][zeros(record.kind)].fill(0);
        }
    }
    Outcome { report: run.report, board: lent.board.clone(), store: Vec::new(), answers, second: Vec::new() }
}

/// The bytes of an answer that a preview doesn't tell: the value of READ and FETCH, the hits of WRITE; of blocks the same.
fn zeros(kind: u8) -> std::ops::Range<usize> {
    match kind {
        READ | FETCH | BLOCK_READ => 0..4,
        WRITE | BLOCK_WRITE => 8..9,
        _ => 0..0,
    }
}
