//! measure: the time of the port's look over sound worlds and of the judge's, in one run, as Markdown tables. The
//! port's may grow at most 2.2 times where the contents double, and be at most 1.0 times the judge's. The last line is
//! `N passed, M failed`.
//!
//! A look is timed in two states of the machine, since caches of fixed size bend any growth. A first look comes to a
//! world that many others have put out of the near caches. A second look follows it at once and finds near what fits.
//!
//! Each world is looked at in many rounds, and the least of its times counts: what else the machine does only ever adds
//! to a time. A row shows the mean over its worlds.

use std::hint::black_box;
use std::process::ExitCode;
use std::time::{Duration, Instant};

use judge::layout::Numbers;
use judge::tally::Tally;
use judge::worlds::{filled, World};
use judge::{port, sound};

/// Name, numbers, and how many worlds: more than fit into the near caches, even filled to a quarter.
const SIZES: [(&str, Numbers, u64); 2] = [
    ("S 64, M 256, R 4,095, V 8,192, P 32", Numbers::LARGEST, 24),
    ("S 4, M 32, R 512, V 512, P 2", Numbers::PROGRAM, 256),
];
const FILLED: [(&str, f64); 3] = [("a quarter", 0.25), ("a half", 0.5), ("all", 1.0)];
/// The rows come by turns, so that what slows the machine for a while slows them all.
const ROUNDS: usize = 48;

const MOST_GROWTH: f64 = 2.2;
const MOST_RATIO: f64 = 1.0;

fn main() -> ExitCode {
    let mut sizes = SIZES.map(|(size, numbers, worlds)| {
        FILLED.map(|(part, fraction)| {
            let worlds: Vec<World> = (0..worlds).map(|seed| filled(seed, numbers, fraction)).collect();
            let [judge, port] = [(); 2].map(|()| Least::of(worlds.len()));
            Row { name: format!("{size} | {part}"), worlds, judge, port }
        })
    });
    for _ in 0..ROUNDS {
        sizes.iter_mut().flatten().for_each(Row::look);
    }
    let mut tally = Tally::default();
    for (state, looks) in ["First look", "Second look"].into_iter().enumerate() {
        let means = sizes.each_ref().map(|rows| rows.each_ref().map(|row| row.means(state)));
        print_table(looks, &means);
        test(&mut tally, &means);
        println!();
    }
    tally.finish()
}

/// Worlds of one size and filling, and the times of the looks at them.
struct Row {
    name: String,
    worlds: Vec<World>,
    judge: Least,
    port: Least,
}

/// The least time of a first look at each world, and of a second one.
struct Least([Vec<Duration>; 2]);

/// The means of a row, in microseconds.
struct Means<'a> {
    name: &'a str,
    judge: f64,
    port: f64,
}

impl Row {
    /// The judge looks at each world twice, then the port does.
    fn look(&mut self) {
        self.judge.look(sound, &self.worlds);
        self.port.look(port::is_sound, &self.worlds);
    }

    fn means(&self, state: usize) -> Means<'_> {
        Means { name: &self.name, judge: self.judge.mean(state), port: self.port.mean(state) }
    }
}

impl Least {
    fn of(worlds: usize) -> Least {
        Least([(); 2].map(|()| vec![Duration::MAX; worlds]))
    }

    fn look(&mut self, look: fn(&[u64]) -> bool, worlds: &[World]) {
        for (i, world) in worlds.iter().enumerate() {
            for least in &mut self.0 {
                least[i] = least[i].min(time(look, &world.mem));
            }
        }
    }

    /// Over the worlds, in microseconds.
    fn mean(&self, state: usize) -> f64 {
        let least = &self.0[state];
        least.iter().sum::<Duration>().as_secs_f64() * 1e6 / least.len() as f64
    }
}

fn time(look: fn(&[u64]) -> bool, mem: &[u64]) -> Duration {
    let start = Instant::now();
    let sound = black_box(look(black_box(mem)));
    let taken = start.elapsed();
    assert!(sound, "a filled world is sound");
    taken
}

fn print_table(looks: &str, sizes: &[[Means; FILLED.len()]]) {
    println!("| {looks} | Filled | Judge | Port | Port / judge | Judge grows | Port grows |");
    println!("|---|---|---:|---:|---:|---:|---:|");
    for rows in sizes {
        for (i, Means { name, judge, port }) in rows.iter().enumerate() {
            let grows = match i.checked_sub(1).map(|above| &rows[above]) {
                Some(above) => format!("{:.2} | {:.2}", judge / above.judge, port / above.port),
                None => String::from("|"),
            };
            println!("| {name} | {judge:.1} | {port:.1} | {:.2} | {grows} |", port / judge);
        }
    }
    println!();
}

fn test(tally: &mut Tally, sizes: &[[Means; FILLED.len()]]) {
    let mut at_most = |what: String, value: f64, most: f64| {
        tally.test(&format!("{what} {value:.2}, at most {most:.1}"), value <= most);
    };
    for rows in sizes {
        for row in rows {
            at_most(format!("{}: port / judge", row.name), row.port / row.judge, MOST_RATIO);
        }
        for pair in rows.windows(2) {
            at_most(format!("{}: port grows", pair[1].name), pair[1].port / pair[0].port, MOST_GROWTH);
        }
    }
}
