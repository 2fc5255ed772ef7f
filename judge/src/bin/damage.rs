//! damage [COUNT]: the port beside the judge of answer 26, on cases for each rule, on sound worlds, and on COUNT
//! damaged memories (a million). The last line is `N passed, M failed`.

use std::env;
use std::process::ExitCode;

use judge::{compare, port};

fn main() -> ExitCode {
    match env::args().nth(1).map_or(Ok(1_000_000), |count| count.parse()) {
        Ok(count) => compare::run(port::is_sound, count, 26),
        Err(_) => {
            eprintln!("usage: damage [COUNT]");
            ExitCode::from(2)
        }
    }
}
