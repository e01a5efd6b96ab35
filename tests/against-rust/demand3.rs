//! What is the same for every memory (docs/RULES.md, "What two runs have in common" and "The bounds of a total"), of one accepted
//! run and of two: the limits on the total, the columns that agree, the shares with them. What follows for two previews, and for
//! the grounds of two runs.

use crate::bytes::*;
use crate::grounds::words_of;
use crate::tariff::shares_of;

/// Where two runs with alike sheets and boards differ in answer bytes 4–7, 9 or 10, in byte 8 of any step but WRITE and BLOCK
/// WRITE, in the total, or, being under one rate, in a share or the charge. The hits of those two, the bytes that landed, are
/// compared only where nothing that they hang on differs (RULES, "Did a store land").
pub fn pair_difference(first: &Case, second: &Case, a: &Outcome, b: &Outcome) -> Option<String> {
    let landings = same_landings(first, second);
    for (k, record) in records_of(&first.sheet).iter().enumerate() {
        let columns = |outcome: &Outcome| {
            let answer = Answer::of(&outcome.answers[ANSWER * k..]);
            let hits = (landings || !matches!(record.kind, WRITE | BLOCK_WRITE)).then_some(answer.hits);
            (answer.cycles, hits, answer.count, answer.force)
        };
        let (ours, other) = (columns(a), columns(b));
        if ours != other {
            return Some(format!(
                "two alike runs give step {k}, {record:X?}, cycles, hits, count, flag {ours:?} and {other:?}"
            ));
        }
    }
    let (total, other) = (a.report.total, b.report.total);
    if total != other {
        return Some(format!("two alike runs have totals {total} and {other}"));
    }
    bill_difference(a, b)
}

fn bill_difference(a: &Outcome, b: &Outcome) -> Option<String> {
    let shares = shares_of(&a.second).zip(shares_of(&b.second)).take(a.report.index as usize);
    if let Some((k, (ours, other))) = shares.enumerate().find(|(_, (ours, other))| ours != other) {
        return Some(format!("two alike runs give step {k} shares of {ours} and {other}"));
    }
    let (charge, other) = (a.report.charge, b.report.charge);
    (charge != other).then(|| format!("two alike runs have charges {charge} and {other}"))
}

/// Where two previews with alike sheets and boards differ. They show only what must agree: all answers whole, and the report.
pub fn preview_difference(a: &Outcome, b: &Outcome) -> Option<String> {
    if a.report != b.report {
        return Some(format!("two alike previews give {:?} and {:?}", a.report, b.report));
    }
    let answers = a.answers.chunks_exact(ANSWER).zip(b.answers.chunks_exact(ANSWER)).take(a.report.index as usize);
    let (k, (ours, other)) = answers.enumerate().find(|(_, (ours, other))| ours != other)?;
    Some(format!("two alike previews give step {k} {ours:02X?} and {other:02X?}"))
}

/// Where two runs with alike sheets and boards differ in a byte of the grounds.
pub fn ground_difference(a: &Outcome, b: &Outcome) -> Option<String> {
    let steps = a.second.chunks_exact(GROUNDS).zip(b.second.chunks_exact(GROUNDS)).take(a.report.index as usize);
    let (k, (ours, other)) = steps.enumerate().find(|(_, (ours, other))| ours != other)?;
    Some(format!("two alike runs give step {k} the grounds {} and {}", words_of(ours), words_of(other)))
}

/// Whether the same bytes of both stores must be written at each WRITE and BLOCK WRITE: the number depends on the lengths and the
/// display mode alone, and the mode on I/O byte 0 and on what is stored there, which by a block is 0 in both.
fn same_landings(first: &Case, second: &Case) -> bool {
    let modes = |case: &Case| -> Vec<u32> {
        let lent = parts_of(&case.store, case.lengths)[IO].first().map(|&byte| u32::from(byte));
        let stored = records_of(&case.sheet).into_iter().filter(stores_mode).map(|r| r.value);
        lent.into_iter().chain(stored).map(|byte| byte % 8).collect()
    };
    first.lengths == second.lengths && modes(first) == modes(second)
}

/// A WRITE to I/O byte 0, which has the display mode.
pub fn stores_mode(record: &Record) -> bool {
    record.kind == WRITE && lowered(record.address, record.size) == 0x0400_0000
}

/// RULES, "The bounds of a total": I + A + D ≤ total ≤ 19·I + 18·A + D in an accepted run. Each word of a block counts in A.
pub fn past_limits(case: &Case, outcome: &Outcome) -> Option<String> {
    if outcome.report.number != 0 {
        return None;
    }
    let (mut least, mut most) = (0, 0);
    for record in records_of(&case.sheet) {
        let (low, high) = match record.kind {
            INSTRUCTION => (1, 19),
            READ | WRITE => (1, 18),
            BLOCK_READ | BLOCK_WRITE => (u64::from(record.value), 18 * u64::from(record.value)),
            IDLE => (u64::from(record.value), u64::from(record.value)),
            _ => (0, 0),
        };
        least += low;
        most += high;
    }
    let total = outcome.report.total;
    (total < least || most < total).then(|| format!("the total {total} is not in {least} to {most}"))
}
