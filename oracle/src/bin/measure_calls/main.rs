//! The fifteen operations of document 01's request stream on the port and on the original, timed in one process, in
//! worlds that are in use to a half. Prints a line a row for tools/measure: operation and world, and the microseconds of
//! a call of the original, of the port, and of the port's look by itself, medians.
//!
//! Each run begins at the same state, which is put back outside the time, with arguments of its own; the two sides run
//! in turn, and their states are compared after it.

mod call;

use judge::layout::{NOTICE, NOTICES};
use judge::rng::Rng;
use oracle::arch::timer::set_timestamp_secs;
use oracle::services::process_server::set_process_ids;
use oracle::timing::{time, Runs};
use oracle::worlds::{filled, Filled, SIZES};
use oracle::{host, memory, History};

use call::{Lent, Operation, OPERATIONS, TIME};

const RUNS: usize = 501;

fn main() {
    let rng = &Rng::new(1);
    let worlds = SIZES.map(|(name, numbers)| (name, filled(rng, numbers, 0.5)));
    for operation in OPERATIONS {
        for (name, world) in &worlds {
            measured(rng, world, operation).print(&format!("{} | {name}", operation.0));
        }
    }
}

fn measured(rng: &Rng, filled: &Filled, (_, call_in): Operation) -> Runs {
    let world = &filled.world;
    let view = memory::view(&world.mem).unwrap();
    let mut history = History::open(&vec![0; world.numbers.s]);
    let pids: Vec<u64> = (1..=world.numbers.p as u64).collect();
    set_timestamp_secs(TIME);
    set_process_ids(&pids);
    let mut lent = Lent { mem: world.mem.clone(), pids, area: vec![0; NOTICES * NOTICE] };
    let mut runs = Runs::default();
    for _ in 0..RUNS {
        let call = call_in(filled, rng);
        history.put(&view);
        runs.rust.push(time(|| assert!(call.original(&mut history))));
        lent.mem.copy_from_slice(&world.mem);
        runs.port.push(time(|| assert_eq!(call.port(&mut lent), 0)));
        assert_eq!(memory::view(&lent.mem).unwrap(), history.view());
        lent.mem.copy_from_slice(&world.mem);
        runs.look.push(time(|| assert!(host::is_sound(&lent.mem))));
    }
    runs
}
