//! Two sides on the same sheets, by turns, and the table of their times.

use crate::bus::region::BIOS_SIZE;
use crate::bytes::sheet_in;
use crate::memories::{Memories, SIZES};
use crate::sheets::{self, Sort};
use crate::sides::{Given, Lent, Match, Side};
use crate::timing::Sorted;

// ---- one sort on both sides ----

/// A sheet, that of the second side where it isn't the same, and each side's times of all rounds so far, in ns a unit.
struct Sheet {
    bytes: Vec<u8>,
    apart: Option<Vec<u8>>,
    times: [Vec<f64>; 2],
}

impl Sheet {
    fn new(sort: &Sort, number: u64, between: &Match) -> Sheet {
        let records = (sort.records)(number);
        Sheet {
            bytes: sheet_in(sort.version, &records),
            apart: between.apart.map(|apart| sheet_in(sort.version, &apart(&records))),
            times: [Vec::new(), Vec::new()],
        }
    }

    fn bytes_for(&self, side: usize) -> &[u8] {
        match &self.apart {
            Some(apart) if side == 1 => apart,
            _ => &self.bytes,
        }
    }
}

/// The sheets of a sort, with the two sides.
struct Race {
    sort: &'static Sort,
    sheets: Vec<Sheet>,
    between: &'static Match,
    sides: [Box<dyn Side>; 2],
}

impl Race {
    fn new(sort: &'static Sort, count: usize, between: &'static Match) -> Race {
        let memories = Memories::random(7, SIZES, BIOS_SIZE, sheets::ROM_LEN);
        Race {
            sort,
            sheets: (0..count).map(|number| Sheet::new(sort, number as u64, between)).collect(),
            between,
            sides: (between.sides)(&memories),
        }
    }

    /// A sheet on both sides once, each over the memories that its last run left; `early` goes first.
    fn turn(&mut self, lent: &mut Lent, number: usize, early: usize) -> Result<(), String> {
        let one = self.run(lent, number, early)?;
        let other = self.run(lent, number, 1 - early)?;
        let (a, b) = if early == 0 { (one, other) } else { (other, one) };
        self.compare(number, a, b)
    }

    fn run(&mut self, lent: &mut Lent, number: usize, side: usize) -> Result<Given, String> {
        let sheet = &mut self.sheets[number];
        let (ns, given) = lent.time(sheet.bytes_for(side), self.sides[side].as_mut())?;
        sheet.times[side].push(ns);
        Ok(given)
    }

    /// Whether both sides did the same work: the first gave what it must where the second gave `b`, and their stores are equal if
    /// both have one.
    fn compare(&self, number: usize, a: Given, b: Given) -> Result<(), String> {
        let [first, second] = self.between.names;
        let must = (self.between.first_gives)(&self.sheets[number].bytes, b);
        let what = if a.report != must.report || a.report.number != 0 {
            format!("reports: {first} {:?}, by {second} {:?}", a.report, must.report)
        } else if a.answers != must.answers {
            "answers".to_string()
        } else if a.board != must.board {
            "boards".to_string()
        } else if self.sides[0].parts().zip(self.sides[1].parts()).is_some_and(|(a, b)| a != b) {
            "stores".to_string()
        } else {
            return Ok(());
        };
        Err(format!("the two sides differ on sheet {number} of \"{}\": {what}", self.sort.name))
    }

    // ---- what the times come to ----

    fn times(&self, side: usize) -> Times {
        Times::of(self.sheets.iter().map(|sheet| &sheet.times[side]))
    }

    /// The first side's best over the second's best.
    fn best_ratio(&self) -> f64 {
        self.times(0).best / self.times(1).best
    }

    /// The ratios of all turns.
    fn ratios(&self) -> Sorted {
        let of_sheet = |sheet: &Sheet| -> Vec<f64> {
            let [first, second] = &sheet.times;
            first.iter().zip(second).map(|(a, b)| a / b).collect()
        };
        Sorted::of(self.sheets.iter().flat_map(of_sheet).collect())
    }

    fn print(&self) {
        let ratios = self.ratios();
        let (low, high) = ratios.quartiles();
        println!(
            "{:<36} {} {} {:6.2} {:6.2} ({low:.2}–{high:.2})",
            self.sort.name,
            self.times(0).columns(),
            self.times(1).columns(),
            self.best_ratio(),
            ratios.median()
        );
    }
}

/// A side's times on a sort.
struct Times {
    /// The mean of the sheets' own bests.
    best: f64,
    all: Sorted,
}

impl Times {
    fn of<'a>(sheets: impl ExactSizeIterator<Item = &'a Vec<f64>> + Clone) -> Times {
        let bests = sheets.clone().map(|times| times.iter().copied().fold(f64::INFINITY, f64::min));
        Times { best: bests.sum::<f64>() / sheets.len() as f64, all: Sorted::of(sheets.flatten().copied().collect()) }
    }

    /// Best, median and the quartiles.
    fn columns(&self) -> String {
        let (low, high) = self.all.quartiles();
        format!("{:7.2} {:7.2} ({low:6.2}–{high:6.2})", self.best, self.all.median())
    }
}

// ---- a table ----

/// Some sorts, of each as many sheets.
pub struct Table {
    name: &'static str,
    what: String,
    between: &'static Match,
    races: Vec<Race>,
}

impl Table {
    /// Times the sheets: number after number, of each the sorts in turn, and from the first again in each round.
    pub fn time(
        name: &'static str,
        between: &'static Match,
        sorts: impl Iterator<Item = &'static Sort>,
        count: usize,
        rounds: usize,
    ) -> Result<Table, String> {
        let mut races: Vec<Race> = sorts.map(|sort| Race::new(sort, count, between)).collect();
        let mut lent = Lent::new(between.second_len);
        for round in 0..rounds {
            for number in 0..count {
                for race in &mut races {
                    race.turn(&mut lent, number, (round + number) % 2)?;
                }
            }
        }
        let by_turns = if count > 1 { " by turns" } else { "" };
        let Match { unit, .. } = between;
        let what = format!("sheets of each sort: {count}{by_turns}, of {} {unit}s, {rounds} rounds", sheets::RECORDS);
        Ok(Table { name, what, between, races })
    }

    pub fn print(&self) {
        println!("{}: {}; ns a {}, in brackets the quartiles", self.name, self.what, self.between.unit);
        let [first, second] = self.between.names;
        println!("{:<36} {first:^32} {second:^32} {:^20}", "", format!("{first} / {second}"));
        let head = format!("{:>7} {:>7} {:>15}", "best", "median", "");
        println!("{:<36} {head} {head} {:>6} {:>6}", "", "best", "median");
        for race in &self.races {
            race.print();
        }
    }

    /// One line for programs: of each sort that is judged its word, the ratio of best times and the median ratio.
    pub fn line(&self) -> String {
        let ratios = |race: &Race| format!(" {} {:.3} {:.3}", race.sort.word, race.best_ratio(), race.ratios().median());
        format!("RATIOS {}{}", self.name, self.judged().map(ratios).collect::<String>())
    }

    /// The sorts on which the first side is slower than it may be, a line for each.
    pub fn slower(&self) -> Vec<String> {
        let Match { other, most, .. } = self.between;
        let slow = self.judged().filter(|race| race.best_ratio() > most(race.sort));
        let line = |race: &Race| {
            let (sort, ratio, limit, table) = (race.sort.name, race.best_ratio(), most(race.sort), self.name);
            format!("SLOWER than {other}, best over {limit}: {sort}, {ratio:.3} in the table \"{table}\"")
        };
        slow.map(line).collect()
    }

    fn judged(&self) -> impl Iterator<Item = &Race> {
        self.races.iter().filter(|race| race.sort.judged)
    }
}
