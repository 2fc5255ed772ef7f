//! Every function of token.rs on both sides: on all combinations of its arguments' limits, and on
//! random arguments; `combine` on lists of any bytes besides.

use std::panic;

use oracle::arguments::{all_limits, random_arguments, random_byte_list, short_byte_lists, Random};
use oracle::token_calls::{combine, COMBINE, FUNCTIONS};
use oracle::{Tally, Test};

use crate::port;

const SEED: u64 = 0x5354_4F4E_4553_5052;
const RANDOM_CALLS: u64 = 300_000;

pub fn compare(tally: &mut Tally) {
    println!("token.rs: {RANDOM_CALLS} random calls of each function, seed {SEED:#x}");
    let mut random = Random::new(SEED);
    // A failed debug_assert of the original is an answer here, and nothing to print.
    panic::set_hook(Box::new(|_| {}));
    for (function, port) in FUNCTIONS.iter().zip(port::TOKEN) {
        tally.test(function.name, |test| {
            for words in all_limits(function.arguments) {
                test.same(words, (function.original)(words), port(words));
            }
            let random_calls = if function.arguments.is_empty() { 0 } else { RANDOM_CALLS };
            for _ in 0..random_calls {
                let words = random_arguments(function.arguments, &mut random);
                test.same(words, (function.original)(words), port(words));
            }
            if function.name == COMBINE {
                byte_lists(test, &mut random);
            }
        });
    }
    drop(panic::take_hook());
}

fn byte_lists(test: &mut Test, random: &mut Random) {
    let random_lists = (0..RANDOM_CALLS).map(|_| random_byte_list(random));
    for bytes in short_byte_lists().chain(random_lists) {
        test.same(&bytes, combine(&bytes), port::combine(&bytes));
    }
}
