//! token_list DIR: writes the fixed list for token.rs, the calls into DIR/stdin and the original's
//! answers into DIR/stdout.
//!
//! A call is a line of fixed width: its number and four words, in hex. An answer is a line as the
//! request stream prints it: the call's place in the list, its number, the answer, the value in hex.

use std::env;
use std::fmt::Write;
use std::fs;
use std::panic;
use std::path::PathBuf;

use oracle::arguments::{few_limits, random_arguments, Random};
use oracle::token_calls::{Function, FUNCTIONS};

const SEED: u64 = 0x5345_414C;
/// Random calls of each function, after its limits.
const RANDOM_CALLS: usize = 6;

fn main() {
    let folder = PathBuf::from(env::args_os().nth(1).expect("usage: token_list DIR"));
    // A failed debug_assert of the original is an answer here, and nothing to print.
    panic::set_hook(Box::new(|_| {}));
    let mut random = Random::new(SEED);
    let (mut calls, mut answers) = (String::new(), String::new());
    let mut place = 0;
    for (number, function) in (1..).zip(&FUNCTIONS) {
        for words in chosen(function, &mut random) {
            place += 1;
            let [a, b, c, d] = words;
            writeln!(calls, "{number:02x} {a:016x} {b:016x} {c:016x} {d:016x}").unwrap();
            writeln!(answers, "{place} {number} {}", (function.original)(words)).unwrap();
        }
    }
    drop(panic::take_hook());
    fs::write(folder.join("stdin"), calls).unwrap();
    fs::write(folder.join("stdout"), answers).unwrap();
}

fn chosen(function: &Function, random: &mut Random) -> Vec<[u64; 4]> {
    if function.arguments.is_empty() {
        return vec![[0; 4]];
    }
    let mut chosen = few_limits(function.arguments, random);
    chosen.extend((0..RANDOM_CALLS).map(|_| random_arguments(function.arguments, random)));
    chosen
}
