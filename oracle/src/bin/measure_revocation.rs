//! The port's revoke and the original's, timed in one process: a cascade from the root of 4,000 ids that are a chain,
//! stars or a tree of any shape, and a revoke of one id among them, with 32 pids listed. Prints a line a row for
//! tools/measure: what is revoked, and the medians as measure_calls has them.
//!
//! Each run begins at the same state, which is put back outside the time; the two sides run in turn, and their states
//! are compared after it.

use judge::layout::{Numbers, MOST_CHILDREN, NEXT};
use judge::rng::Rng;
use judge::worlds::{opened, World};
use oracle::arch::timer::set_timestamp_secs;
use oracle::cap::manager::cap_manager;
use oracle::cap::token::CapabilityToken;
use oracle::host::{is_sound, stonespry_revoke, CallAnswer};
use oracle::services::process_server::set_process_ids;
use oracle::timing::{time, Runs};
use oracle::{memory, History};

const RUNS: usize = 301;
const IDS: u64 = 4000;
const NUMBERS: Numbers = Numbers { s: 1, m: 1, r: 4095, v: 8192, p: 32 };
const TIME: u64 = 5;

/// Pairs that the log has before: none, or as many as leave room for all ids.
const LOGGED: [u64; 2] = [0, 8192 - IDS];

type Parent = fn(&Rng, usize) -> usize;
const SHAPES: [(&str, Parent); 3] = [
    ("a chain", |_, place| place - 1),
    ("stars of 1,024", |_, place| (place - 1) / MOST_CHILDREN),
    ("a tree of any shape", |rng, place| rng.below(place)),
];

fn main() {
    for (revoked, last) in [("all, from the root", false), ("one id", true)] {
        for (shape, parent) in SHAPES {
            for logged in LOGGED {
                let runs = measured(&world(parent, logged), if last { IDS } else { 1 });
                runs.print(&format!("{revoked} | {shape} | {logged}"));
            }
        }
    }
}

/// A world of ids 1 to 4,000, the first the root of all.
fn world(parent: Parent, logged: u64) -> World {
    let rng = &Rng::new(IDS);
    let mut world = opened(vec![0; NUMBERS.length()], NUMBERS, &[0]);
    world.mem[NEXT] = IDS + 1;
    for place in 0..IDS as usize {
        world.register(place as u64 + 1, (place > 0).then(|| parent(rng, place)), 0);
    }
    world.set_log(&(0..logged).map(|pair| (1 << 40) + pair).collect::<Vec<u64>>());
    assert!(judge::sound(&world.mem));
    world
}

/// The runs of a revoke of the id.
fn measured(world: &World, id: u64) -> Runs {
    let view = memory::view(&world.mem).unwrap();
    let mut history = History::open(&[0]);
    let pids: Vec<u64> = (1..=NUMBERS.p as u64).collect();
    set_timestamp_secs(TIME);
    set_process_ids(&pids);
    let mut mem = world.mem.clone();
    let mut runs = Runs::default();
    for _ in 0..RUNS {
        history.put(&view);
        runs.rust.push(time(|| assert_eq!(cap_manager().revoke(CapabilityToken::from_u64(id)), Ok(()))));
        mem.copy_from_slice(&world.mem);
        runs.port.push(time(|| assert_eq!(revoke(&mut mem, id, &pids), 0)));
        assert_eq!(memory::view(&mem).unwrap(), history.view());
        mem.copy_from_slice(&world.mem);
        runs.look.push(time(|| assert!(is_sound(&mem))));
    }
    runs
}

fn revoke(mem: &mut [u64], token: u64, pids: &[u64]) -> u8 {
    let mut out = CallAnswer::default();
    // SAFETY: the port reads and writes what it is lent, and no more.
    unsafe { stonespry_revoke(&mut out, mem.as_mut_ptr(), mem.len(), token, TIME, pids.as_ptr(), pids.len()) };
    out.answer
}
