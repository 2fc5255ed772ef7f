//! The times of a call on both sides, as the lines that tools/measure makes its tables of.

use std::hint::black_box;
use std::time::Instant;

/// Microseconds of each run: of the original's call, of the port's, and of the port's look by itself.
#[derive(Default)]
pub struct Runs {
    pub rust: Vec<f64>,
    pub port: Vec<f64>,
    pub look: Vec<f64>,
}

impl Runs {
    /// Prints the medians, less what it takes to time nothing.
    pub fn print(self, row: &str) {
        let nothing = median((0..1001).map(|_| time(|| ())).collect());
        let [rust, port, look] = [self.rust, self.port, self.look].map(|times| median(times) - nothing);
        println!("{row}\t{rust:.4}\t{port:.4}\t{look:.4}");
    }
}

/// Microseconds of an act.
pub fn time(act: impl FnOnce()) -> f64 {
    let start = Instant::now();
    black_box(act());
    start.elapsed().as_secs_f64() * 1e6
}

fn median(mut times: Vec<f64>) -> f64 {
    times.sort_by(f64::total_cmp);
    times[times.len() / 2]
}
