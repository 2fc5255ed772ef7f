//! measure_memory: the bytes that the original has allocated for a state, beside the length that the port needs for the
//! world, as a Markdown table. The original takes the state over from the memory, which leaves its vectors and the
//! nodes of its trees full: one that grew call by call holds more.

mod allocated;

use judge::rng::Rng;
use oracle::worlds::{filled, SIZES};
use oracle::{memory, History};

const FILLED: [(&str, f64); 3] = [("nothing", 0.0), ("a half", 0.5), ("all", 1.0)];

fn main() {
    println!("| World | In use | Rust, bytes | Port, bytes | Port / Rust |");
    println!("|---|---|---:|---:|---:|");
    for (name, numbers) in SIZES {
        for (part, fraction) in FILLED {
            let view = memory::view(&filled(&Rng::new(1), numbers, fraction).world.mem).unwrap();
            // What an earlier state has left in the statics goes.
            drop(History::open(&[]));
            let before = allocated::bytes();
            let mut history = History::open(&vec![0; numbers.s]);
            history.put(&view);
            let rust = allocated::bytes() - before;
            let port = 8 * numbers.length();
            println!("| {name} | {part} | {rust} | {port} | {:.2} |", port as f64 / rust as f64);
        }
    }
}
