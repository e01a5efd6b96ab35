//! One timing of a run, and what many of them come to.

use std::hint::black_box;
use std::time::Instant;

/// The time of a run in ns, and what it gave back.
pub fn timed<T>(run: impl FnOnce() -> T) -> (f64, T) {
    let start = Instant::now();
    let given = black_box(run());
    (start.elapsed().as_nanos() as f64, given)
}

/// Numbers in order.
pub struct Sorted(Vec<f64>);

impl Sorted {
    pub fn of(mut numbers: Vec<f64>) -> Sorted {
        numbers.sort_by(f64::total_cmp);
        Sorted(numbers)
    }

    /// The number below which `part` of them lie.
    fn at(&self, part: f64) -> f64 {
        let last = self.0.len() - 1;
        self.0[(last as f64 * part).round() as usize]
    }

    pub fn best(&self) -> f64 {
        self.0[0]
    }

    pub fn median(&self) -> f64 {
        self.at(0.5)
    }

    /// The first and the third quartile, which is the noise that is printed.
    pub fn quartiles(&self) -> (f64, f64) {
        (self.at(0.25), self.at(0.75))
    }
}
