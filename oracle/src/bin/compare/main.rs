//! compare SUBJECT: the port, linked as its native static libraries, against the original.

mod kinds;
mod manager;
mod port;
mod revocation;
mod sound;
mod space;
mod stream;
mod table;
mod token;
mod world;

use std::env;
use std::process::ExitCode;

use oracle::Tally;

fn main() -> ExitCode {
    let mut tally = Tally::default();
    match env::args().nth(1).as_deref() {
        Some("token") => token::compare(&mut tally),
        Some("table") => table::compare(&mut tally),
        Some("space") => space::compare(&mut tally),
        Some("manager") => manager::compare(&mut tally),
        Some("revocation") => revocation::compare(&mut tally),
        Some("stream") => stream::compare(&mut tally),
        _ => {
            eprintln!("usage: compare token|table|space|manager|revocation|stream");
            return ExitCode::from(2);
        }
    }
    tally.finish()
}
