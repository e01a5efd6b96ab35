//! Times `bts_run` of libbts.a against the same run done by the Rust, on the same sheets and memories, shows that the cost
//! of a step doesn't grow, times `bts_run_tariff`, `bts_preview` and `bts_run_grounds` against `bts_run`, and a word of a block
//! against a record. See README.md for what is timed and what the columns mean.

// the Rust's own files; not all that they have is called here
#[allow(dead_code, unused_imports)]
mod bus;
#[allow(dead_code, unused_imports)]
mod cpu;
// the layouts and the random numbers, as the comparison with the Rust has them
#[allow(dead_code)]
mod bytes;
#[allow(dead_code)]
mod rng;
mod growth;
mod memories;
mod race;
mod rust_side;
mod sheets;
mod sides;
mod timing;

use race::Table;
use sheets::{Sort, BLOCKS, LONG_BLOCKS, ROWS, SORTS};
use sides::{Match, BLOCKS_AND_RECORDS, GROUNDS_AND_RUN, LIBRARY_AND_RUST, PREVIEW_AND_RUN, TARIFF_AND_RUN};
use std::process::ExitCode;

/// Rounds of the first table.
const ROUNDS: usize = 5000;

/// So many sheets of each sort has the second table,
const MANY: usize = 64;

/// for each of so many rounds of the first one round,
const ROUNDS_FOR_MANY: usize = 25;

/// and the third for each of so many.
const ROUNDS_FOR_GROWTH: usize = 10;

/// The tables of blocks have one for each of so many in those of the four sorts: a sheet of them takes several times as long.
const ROUNDS_FOR_BLOCKS: usize = 4;

fn program(rounds: usize) -> Result<bool, String> {
    let mut tables = vec![
        again_and_again("first", &LIBRARY_AND_RUST, SORTS.iter(), rounds)?,
        by_turns("second", &LIBRARY_AND_RUST, judged(), rounds)?,
    ];
    let growing = growth::show(rounds.div_ceil(ROUNDS_FOR_GROWTH))?;
    println!();
    tables.extend(both(["tariff first", "tariff second"], &TARIFF_AND_RUN, judged, rounds)?);
    tables.extend(both(["preview first", "preview second"], &PREVIEW_AND_RUN, judged, rounds)?);
    tables.extend(both(["grounds first", "grounds second"], &GROUNDS_AND_RUN, judged, rounds)?);
    tables.extend(of_blocks(rounds)?);
    again_and_again("rows", &LIBRARY_AND_RUST, [&ROWS].into_iter(), rounds)?;
    tables.iter().for_each(|table| println!("{}", table.line()));
    let slower: Vec<String> = tables.iter().flat_map(Table::slower).collect();
    slower.iter().for_each(|line| println!("{line}"));
    for name in &growing {
        println!("GROWS, ratio over {}: {name}", growth::MOST);
    }
    let good = slower.is_empty() && growing.is_empty();
    if good {
        println!("no slower than the Rust on the four sorts and blocks, no cost grows, no tariff, preview, grounds or word dear");
    }
    Ok(good)
}

/// The four sorts.
fn judged() -> impl Iterator<Item = &'static Sort> {
    SORTS.iter().filter(|sort| sort.judged)
}

/// The same of blocks, in tables of their own; and a word of them against a record.
fn of_blocks(rounds: usize) -> Result<Vec<Table>, String> {
    let blocks = || [&BLOCKS].into_iter();
    let fewer = rounds.div_ceil(ROUNDS_FOR_BLOCKS);
    let mut tables = both(["blocks first", "blocks second"], &LIBRARY_AND_RUST, blocks, fewer)?;
    tables.extend(both(["blocks tariff first", "blocks tariff second"], &TARIFF_AND_RUN, blocks, fewer)?);
    tables.extend(both(["blocks preview first", "blocks preview second"], &PREVIEW_AND_RUN, blocks, fewer)?);
    tables.extend(both(["blocks grounds first", "blocks grounds second"], &GROUNDS_AND_RUN, blocks, fewer)?);
    tables.extend(both(["words first", "words second"], &BLOCKS_AND_RECORDS, || LONG_BLOCKS.iter(), rounds)?);
    Ok(tables)
}

/// Two tables of the same sorts.
fn both<I: Iterator<Item = &'static Sort>>(
    [first, second]: [&'static str; 2],
    between: &'static Match,
    sorts: impl Fn() -> I,
    rounds: usize,
) -> Result<Vec<Table>, String> {
    Ok(vec![again_and_again(first, between, sorts(), rounds)?, by_turns(second, between, sorts(), rounds)?])
}

/// One sheet of each sort.
fn again_and_again(
    name: &'static str,
    between: &'static Match,
    sorts: impl Iterator<Item = &'static Sort>,
    rounds: usize,
) -> Result<Table, String> {
    Ok(shown(Table::time(name, between, sorts, 1, rounds)?))
}

/// Many sheets of each sort, in fewer rounds.
fn by_turns(
    name: &'static str,
    between: &'static Match,
    sorts: impl Iterator<Item = &'static Sort>,
    rounds: usize,
) -> Result<Table, String> {
    Ok(shown(Table::time(name, between, sorts, MANY, rounds.div_ceil(ROUNDS_FOR_MANY))?))
}

/// Prints the table, with a line between it and the next.
fn shown(table: Table) -> Table {
    table.print();
    println!();
    table
}

fn main() -> ExitCode {
    let rounds = match std::env::args().nth(1).map(|text| text.parse()) {
        None => ROUNDS,
        Some(Ok(rounds)) if rounds > 0 => rounds,
        Some(_) => {
            eprintln!("usage: tests/speed/run [ROUNDS]");
            return ExitCode::from(2);
        }
    };
    match program(rounds) {
        Ok(true) => ExitCode::SUCCESS,
        Ok(false) => ExitCode::FAILURE,
        Err(what) => {
            eprintln!("{what}");
            ExitCode::from(2)
        }
    }
}
