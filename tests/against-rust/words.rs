//! What a block stands for, by the library alone: a sheet gives the same as one in which each block is written out as the
//! accesses that it stands for, read from the rule (docs/RULES.md, "Blocks") once more and by neither machine.rs nor the Rust.

use crate::bytes::*;
use crate::compare::Call;
use crate::grounds::words_of as ground_words;
use crate::tariff::shares_of;

/// The case with its blocks written out, on a version 2 sheet; nothing where it has none, or too many accesses for a sheet.
pub fn written_out(case: &Case) -> Option<Case> {
    let records = records_of(&case.sheet);
    if !records.iter().any(Record::is_block) {
        return None;
    }
    let apart: Vec<Record> = records.iter().flat_map(accesses).collect();
    (apart.len() <= MOST_RECORDS).then(|| Case {
        sheet: sheet_in(Version::Two, &apart),
        answers: vec![0; ANSWER * apart.len()],
        ..case.clone()
    })
}

/// "That many word accesses at rising addresses from the address lowered to a multiple of 4, modulo 2^32", a write storing 0; any
/// other record as it is.
fn accesses(r: &Record) -> Vec<Record> {
    let kind = match r.kind {
        BLOCK_READ => READ,
        BLOCK_WRITE => WRITE,
        _ => return vec![*r],
    };
    let lowest = u64::from(r.address) / 4 * 4;
    let address = |i: u32| (lowest + 4 * u64::from(i)) % (1 << 32);
    (0..r.value).map(|i| Record::new(kind, 4, address(i) as u32, 0)).collect()
}

/// Where what a case gives isn't what it gives with its blocks written out.
pub fn difference(case: &Case, call: Call, whole: &Outcome, apart: &Outcome) -> Option<String> {
    let left = |o: &Outcome| (o.report.number, o.report.total, o.report.charge);
    if left(whole) != left(apart) {
        return Some(format!("{:?}, and {:?} with its blocks written out", whole.report, apart.report));
    }
    if whole.board != apart.board || whole.store != apart.store {
        return Some("another board or store is left than with its blocks written out".to_string());
    }
    let mut at = 0;
    for (k, r) in records_of(&case.sheet).iter().enumerate() {
        let end = at + accesses(r).len();
        let given = Answer::of(&whole.answers[ANSWER * k..]);
        let joined = joined_answer(&apart.answers[ANSWER * at..ANSWER * end]);
        if given != joined {
            return Some(format!("step {k}, {r:X?}, has the answer {given:X?}, and written out {joined:X?}"));
        }
        if let Some(what) = second_difference(call, &whole.second, k, &apart.second, at..end) {
            return Some(format!("step {k}, {r:X?}, has the {what}"));
        }
        at = end;
    }
    None
}

/// "One answer": the sum of the cycles, the bytes that landed together, and the last word; count and flag are those at the end.
fn joined_answer(bytes: &[u8]) -> Answer {
    let answers: Vec<Answer> = bytes.chunks_exact(ANSWER).map(Answer::of).collect();
    let last = *answers.last().unwrap();
    Answer {
        cycles: answers.iter().map(|answer| answer.cycles).sum(),
        hits: answers.iter().map(|answer| answer.hits).sum(),
        ..last
    }
}

/// A block is one step of the bill, and its share is what its words' shares are together; its grounds are theirs, in order.
fn second_difference(call: Call, whole: &[u8], k: usize, apart: &[u8], steps: std::ops::Range<usize>) -> Option<String> {
    match call {
        Call::RunTariff(_) => {
            let share = shares_of(whole).nth(k)?;
            let sum: u64 = shares_of(apart).take(steps.end).skip(steps.start).sum();
            (share != sum).then(|| format!("share {share}, and written out {sum}"))
        }
        Call::RunGrounds(_) => {
            let of_each = apart[GROUNDS * steps.start..GROUNDS * steps.end].iter();
            let mut joined: Vec<u8> = of_each.copied().filter(|&byte| byte != 0).collect();
            joined.resize(GROUNDS.max(joined.len()), 0);
            let given = &whole[GROUNDS * k..GROUNDS * (k + 1)];
            (given != joined).then(|| format!("grounds {}, and written out {}", ground_words(given), ground_words(&joined)))
        }
        Call::Run | Call::Preview => None,
    }
}
