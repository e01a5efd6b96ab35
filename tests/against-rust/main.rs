//! Compares `bts_run`, `bts_run_tariff`, `bts_run_grounds` and `bts_preview` of libbts.a with the same run done by the Rust,
//! byte for byte. See README.md for what is compared and how to run it.

mod bills;
mod block_lists;
mod block_sweeps;
mod boards;
mod bytes;
mod compare;
mod demand3;
mod differences;
mod figures;
mod gen;
mod ground_lists;
mod ground_sweeps;
mod grounds;
mod landed;
mod landings;
mod machine;
mod notation;
mod preview;
mod previews;
mod refusals;
mod rng;
mod rooms;
mod rows;
mod sample;
mod sample_bills;
mod sample_blocks;
mod sample_grounds;
mod sample_previews;
mod steps;
mod sweeps;
mod tariff;
mod tariffs;
mod words;

use bytes::*;
use compare::{Call, Library};
use gen::{Meant, Plan, Rng, ACCEPTED, UNKNOWN};
use std::time::{Duration, Instant};

/// After so many differences the comparison gives up.
const MOST_DIFFERENCES: u64 = 20;

/// What was compared so far.
#[derive(Default)]
struct Tally {
    library: Library,
    cases: u64,
    steps: u64,
    refused: u64,
    pairs: u64,
    /// Accepted runs and previews with blocks that were done once more with these written out.
    written_out: u64,
    differences: u64,
    /// Figures and values in words that were held against what the runs gave.
    claims: usize,
    /// Only this case is run, and told in full.
    only: Option<String>,
    /// Each case is named before it is run, to find one that ends the program.
    names: bool,
}

/// What both sides gave of a case, where they agree.
struct Given {
    /// By the run: under the case's own tariff, if it has one, else without.
    run: Outcome,
    grounds: Outcome,
    preview: Outcome,
}

/// What is claimed of one of the three, in words.
type Claims<'a> = (&'a str, fn(&Given) -> &Outcome);

impl Tally {
    fn wants(&self, name: &str) -> bool {
        self.only.as_ref().is_none_or(|only| only == name)
    }

    fn full(&self) -> bool {
        self.differences >= MOST_DIFFERENCES
    }

    fn differ(&mut self, name: &str, what: &str) {
        self.differences += 1;
        println!("DIFFERENCE in case {name}: {what}");
    }

    /// Does the case four times on both sides and compares: without a tariff, under its own or one that follows from its name,
    /// with grounds in a buffer of its own or one that follows from its name, and by the preview. What both gave, if they agree
    /// in all four.
    fn case(&mut self, name: &str, case: &Case, meant: Meant) -> Option<Given> {
        if self.names {
            println!("case {name}");
        }
        let _told = ToldOnPanic(name);
        let ran = machine::run(case);
        let rust = &ran.outcome;
        let plain = self.run(name, case, Call::Run, rust, meant.run);
        let tariff = case.tariff.clone().unwrap_or_else(|| bills::of_name(name, case));
        let meant_by_own = case.tariff.as_ref().and(meant.tariff);
        let billed = self.run(name, case, Call::RunTariff(&tariff), &tariff::under(case, &tariff, rust), meant_by_own);
        let room = case.grounds.clone().unwrap_or_else(|| rooms::grounds_of_name(name, case));
        let meant_by_own = case.grounds.as_ref().and(meant.grounds);
        let grounds = self.run(name, case, Call::RunGrounds(&room), &grounds::with(case, &room, &ran), meant_by_own);
        let lent = preview::lent(case);
        let preview = self.run(name, &lent, Call::Preview, &preview::of(&lent, rust), meant.preview);
        let (plain, billed, grounds, preview) = (plain?, billed?, grounds?, preview?);
        Some(Given { run: if case.tariff.is_some() { billed } else { plain }, grounds, preview })
    }

    /// Does the case by a function of the library and holds it against the Rust's side; what both gave, if they agree.
    fn run(
        &mut self,
        name: &str,
        case: &Case,
        call: Call,
        rust: &Outcome,
        meant: Option<u32>,
    ) -> Option<Outcome> {
        self.cases += 1;
        match rust.report.number {
            0 => self.steps += u64::from(rust.report.index),
            _ => self.refused += 1,
        }
        self.check_rust(name, rust, meant);
        let compared = self.library.run(case, call).and_then(|library| {
            if self.only.is_some() {
                compare::tell(case, call, rust, &library);
            }
            let difference = compare::first_difference(case, call, rust, &library)
                .or_else(|| demand3::past_limits(case, &library))
                .or_else(|| match call {
                    Call::RunTariff(tariff) => tariff::unfair(case, tariff, &library),
                    Call::RunGrounds(_) => grounds::unpaid(case, &library),
                    Call::Run | Call::Preview => None,
                });
            difference.map_or(Ok(library), Err)
        });
        let compared = compared.and_then(|library| match self.word_by_word(case, call, &library)? {
            Some(difference) => Err(difference),
            None => Ok(library),
        });
        compared.map_err(|what| self.differ(name, &format!("{}: {what}", call.name()))).ok()
    }

    /// An accepted case with blocks done once more by the same function with these written out: where that gives another thing.
    fn word_by_word(&mut self, case: &Case, call: Call, whole: &Outcome) -> Result<Option<String>, String> {
        if whole.report.number != 0 {
            return Ok(None);
        }
        let Some(apart) = words::written_out(case) else { return Ok(None) };
        self.written_out += 1;
        let n = record_count(&apart.sheet);
        let given = match call {
            Call::Run | Call::Preview => self.library.run(&apart, call)?,
            Call::RunTariff(&Tariff { rate, .. }) => {
                let tariff = Tariff { shares: vec![0; SHARE * n], rate };
                self.library.run(&apart, Call::RunTariff(&tariff))?
            }
            Call::RunGrounds(_) => self.library.run(&apart, Call::RunGrounds(&vec![0; GROUNDS * n]))?,
        };
        Ok(words::difference(case, call, whole, &given))
    }

    /// The Rust side against what is known beforehand: the refusal that was made, and a sound board kept.
    fn check_rust(&mut self, name: &str, rust: &Outcome, meant: Option<u32>) {
        let number = rust.report.number;
        if meant.is_some_and(|meant| meant != number) {
            self.differ(name, &format!("the Rust side gives number {number}, made for {meant:?}"));
        }
        if number == 0 && !Board::of(&rust.board).sound() {
            self.differ(name, "the Rust side leaves a board that isn't sound");
        }
    }

    fn plan(&mut self, name: &str, plan: &Plan, case: impl FnOnce() -> Case) {
        if self.wants(name) {
            self.case(name, &case(), plan.meant());
        }
    }

    // ---- the parts ----

    fn figures(&mut self) {
        for (i, (input, claims)) in figures::FIGURES.iter().enumerate() {
            self.line(&format!("figure:{i}"), input, claims);
        }
    }

    fn landings(&mut self) {
        for (i, (before, stores, claims)) in landings::LANDINGS.iter().enumerate() {
            self.line(&format!("landing:{i}"), &landings::input(before, stores), claims);
        }
    }

    fn tariffs(&mut self) {
        for (i, (input, claims)) in tariffs::TARIFFS.iter().enumerate() {
            self.line(&format!("tariff:{i}"), input, claims);
        }
    }

    fn rows(&mut self) {
        for (i, (input, claims)) in rows::ROWS.iter().enumerate() {
            self.line(&format!("row:{i}"), input, claims);
        }
    }

    fn ground_lists(&mut self) {
        for (i, (list, claims)) in ground_lists::LISTS.iter().enumerate() {
            let claims: [Claims; 1] = [(claims, |given| &given.grounds)];
            self.words(&format!("ground:{i}"), &ground_lists::input(list), UNKNOWN, &claims);
        }
    }

    fn previews(&mut self) {
        for (i, (input, run, preview)) in previews::PREVIEWS.iter().enumerate() {
            let claims: [Claims; 2] = [(run, |given| &given.run), (preview, |given| &given.preview)];
            self.words(&format!("preview:{i}"), input, UNKNOWN, &claims);
        }
    }

    fn block_lists(&mut self) {
        for (i, (list, run, preview)) in block_lists::LISTS.iter().enumerate() {
            let claims: [Claims; 2] = [(run, |given| &given.grounds), (preview, |given| &given.preview)];
            self.words(&format!("block:{i}"), &block_lists::input(list), UNKNOWN, &claims);
        }
    }

    fn differences_file(&mut self, path: &str) {
        let text = std::fs::read_to_string(path).map_err(|e| e.to_string());
        match text.and_then(|text| differences::lines_of(&text)) {
            Err(what) => self.differ(path, &what),
            Ok(lines) => lines.iter().for_each(|l| self.line(&l.name, &l.input, &l.claims)),
        }
    }

    /// An input in words that is accepted, and what is claimed of its run.
    fn line(&mut self, name: &str, input: &str, claims: &str) {
        self.words(name, input, ACCEPTED, &[(claims, |given| &given.run)]);
    }

    /// An input in words: both sides must agree, and give what is claimed.
    fn words(&mut self, name: &str, input: &str, meant: Meant, claims: &[Claims]) {
        if self.full() || !self.wants(name) {
            return;
        }
        let case = match notation::case_of(input) {
            Ok(case) => case,
            Err(what) => return self.differ(name, &format!("{what} ({input})")),
        };
        let Some(given) = self.case(name, &case, meant) else { return };
        for (claims, of) in claims {
            // the two sides agree, so that one of them stands for both
            match notation::check(claims, &case, of(&given)) {
                Ok(held) => self.claims += held,
                Err(what) => self.differ(name, &format!("{what} ({input} → {claims})")),
            }
        }
    }

    fn sweeps(&mut self) {
        let mut i = 0;
        sweeps::for_each(&mut |plan| {
            if !self.full() {
                self.plan(&format!("sweep:{i}"), &plan, || plan.random_case(&mut Rng::new(i)));
            }
            i += 1;
        });
    }

    fn sample(&mut self) {
        for (i, entry) in sample::entries().iter().enumerate() {
            if !self.full() {
                self.plan(&format!("sample:{i}"), &entry.plan, || entry.case(i));
            }
        }
    }

    fn random(&mut self, seed: u64) {
        let (plan, case) = gen::random(seed);
        self.case(&format!("random:{seed}"), &case, plan.meant());
    }

    /// A list at the edges of the rounding, under a tariff.
    fn bill(&mut self, seed: u64) {
        let (plan, case) = bills::random(seed);
        self.case(&format!("bill:{seed}"), &case, plan.meant());
    }

    /// What two runs have in common (docs/RULES.md), and what follows for their grounds and for two previews.
    fn pair(&mut self, seed: u64) {
        let name = format!("pair:{seed}");
        let (first, second) = gen::pair(seed);
        let a = self.case(&name, &first, ACCEPTED);
        let b = self.case(&name, &second, ACCEPTED);
        self.pairs += 1;
        let (Some(a), Some(b)) = (a, b) else { return };
        let of_runs = demand3::pair_difference(&first, &second, &a.run, &b.run);
        let of_grounds = demand3::ground_difference(&a.grounds, &b.grounds);
        let of_previews = demand3::preview_difference(&a.preview, &b.preview);
        for what in of_runs.into_iter().chain(of_grounds).chain(of_previews) {
            self.differ(&name, &what);
        }
    }

    fn last_line(&self) -> String {
        let Tally { cases, steps, refused, pairs, written_out, differences, .. } = self;
        format!(
            "cases {cases}, steps {steps}, refused {refused}, pairs {pairs}, written out {written_out}: \
             {differences} differences"
        )
    }
}

/// Names the case if something panics in it, as the Rust's own overflow checks would.
struct ToldOnPanic<'a>(&'a str);

impl Drop for ToldOnPanic<'_> {
    fn drop(&mut self) {
        if std::thread::panicking() {
            println!("stopped in case {}", self.0);
        }
    }
}

// ---- the program ----

enum Order {
    /// All parts, the random one for so many seconds from seed 1.
    Compare(u64),
    /// The random part alone: seconds, first seed.
    Random(u64, u64),
    OneCase(String),
    Record(String),
}

const USAGE: &str = "usage: run [--names] [SECONDS] | SECONDS --from SEED | --case NAME | --record FILE
--names: name each case before it is run
SECONDS: for the random part, 100 if not given
--from: the random part alone, from this seed on
NAME: random:SEED (or SEED alone), pair:SEED, bill:SEED, sweep:N, sample:N, figure:N, landing:N, tariff:N, row:N, preview:N,
    ground:N, block:N, D-N.K";

fn order(words: &[String]) -> Option<Order> {
    let words: Vec<&str> = words.iter().map(String::as_str).collect();
    Some(match words[..] {
        ["--case", name] if name.parse::<u64>().is_ok() => Order::OneCase(format!("random:{name}")),
        ["--case", name] => Order::OneCase(name.to_string()),
        ["--record", file] => Order::Record(file.to_string()),
        [] => Order::Compare(100),
        [seconds] => Order::Compare(seconds.parse().ok()?),
        [seconds, "--from", seed] => Order::Random(seconds.parse().ok()?, seed.parse().ok()?),
        _ => return None,
    })
}

fn main() {
    let mut words: Vec<String> = std::env::args().skip(1).collect();
    let names = words.first().is_some_and(|word| word == "--names");
    if names {
        words.remove(0);
    }
    let Some(order) = order(&words) else {
        eprintln!("{USAGE}");
        std::process::exit(2);
    };
    let mut tally = Tally { names, ..Tally::default() };
    match order {
        Order::Compare(seconds) => compare_all(&mut tally, seconds),
        Order::Random(seconds, from) => random_part(&mut tally, seconds, from),
        Order::OneCase(name) => one_case(&mut tally, &name),
        Order::Record(file) => record(&mut tally, &file),
    }
    println!("{}", tally.last_line());
    std::process::exit(i32::from(tally.differences > 0 || tally.cases == 0));
}

const DIFFERENCES: &str = "docs/DIFFERENCES.md";

fn compare_all(tally: &mut Tally, seconds: u64) {
    in_words(tally, "the figures", Tally::figures);
    in_words(tally, "the landings", Tally::landings);
    in_words(tally, "the tariffs", Tally::tariffs);
    in_words(tally, "the rows", Tally::rows);
    in_words(tally, "the previews", Tally::previews);
    in_words(tally, "the grounds", Tally::ground_lists);
    in_words(tally, "the blocks", Tally::block_lists);
    in_words(tally, DIFFERENCES, |tally| tally.differences_file(DIFFERENCES));
    tally.sample();
    told(tally, "the sample");
    tally.sweeps();
    told(tally, "sweeps");
    random_part(tally, seconds, 1);
}

/// A part whose inputs and values are words.
fn in_words(tally: &mut Tally, name: &str, part: fn(&mut Tally)) {
    tally.claims = 0;
    part(tally);
    told(tally, &format!("{name} ({} values)", tally.claims));
}

/// One case in sixteen is a pair, and one is a bill.
fn random_part(tally: &mut Tally, seconds: u64, from: u64) {
    let end = Instant::now() + Duration::from_secs(seconds);
    let mut seed = from;
    while !tally.full() && Instant::now() < end {
        match seed % 16 {
            0 => tally.pair(seed),
            8 => tally.bill(seed),
            _ => tally.random(seed),
        }
        seed += 1;
    }
    told(tally, &format!("random cases, pairs and bills, seeds {from} to {}", seed - 1));
}

fn told(tally: &Tally, part: &str) {
    println!("after {part}: {}", tally.last_line());
}

fn one_case(tally: &mut Tally, name: &str) {
    tally.only = Some(name.to_string());
    match name.split_once(':') {
        Some(("random", seed)) => tally.random(seed.parse().expect("a seed")),
        Some(("pair", seed)) => tally.pair(seed.parse().expect("a seed")),
        Some(("bill", seed)) => tally.bill(seed.parse().expect("a seed")),
        Some(("sweep", _)) => tally.sweeps(),
        Some(("sample", _)) => tally.sample(),
        Some(("figure", _)) => tally.figures(),
        Some(("landing", _)) => tally.landings(),
        Some(("tariff", _)) => tally.tariffs(),
        Some(("row", _)) => tally.rows(),
        Some(("preview", _)) => tally.previews(),
        Some(("ground", _)) => tally.ground_lists(),
        Some(("block", _)) => tally.block_lists(),
        _ => tally.differences_file(DIFFERENCES),
    }
}

/// Writes the sample with the Rust's answers; the library is held against them as well.
fn record(tally: &mut Tally, file: &str) {
    tally.sample();
    let entries = sample::entries();
    let mut out = (entries.len() as u32).to_le_bytes().to_vec();
    for (i, entry) in entries.iter().enumerate() {
        let case = entry.case(i);
        let ran = machine::run(&case);
        let given = match entry.call(&case) {
            Call::Run => ran.outcome,
            Call::RunTariff(tariff) => tariff::under(&case, tariff, &ran.outcome),
            Call::RunGrounds(lent) => grounds::with(&case, lent, &ran),
            Call::Preview => preview::of(&case, &ran.outcome),
        };
        out.extend(sample::encode(&case, entry.call(&case), i as u32, &given));
    }
    std::fs::write(file, &out).unwrap_or_else(|e| panic!("{file}: {e}"));
    println!("{file}: {} cases, {} bytes; at most {:?} lent", entries.len(), out.len(), sample::MOST);
}
