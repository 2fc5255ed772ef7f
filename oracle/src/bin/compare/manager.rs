//! Random histories of the manager's calls among those of the spaces, each call made on both sides. Then the calls on
//! damaged memory, which answers each call was seen to give, and what was seen to happen in it.

mod trees;
mod wander;

use judge::layout::*;
use judge::rng::Rng;
use oracle::{memory, Tally, Test};

use self::wander::{some_create, some_rights};
use crate::world::{self, set_counters, Both, Call, Kind, ManagerCall, Run, SpaceCall};

const KINDS: [(&str, Kind); 15] = [
    ("opened worlds", opened),
    ("worlds in use to any degree", filled),
    ("the same delegation again", again),
    ("tokens of ids that are next", guessed),
    ("chains, cut and revoked", trees::chains),
    ("1,024 children and past it", trees::wide),
    ("1,024 children in worlds in use to any degree", trees::wide_and_filled),
    ("R registered ids", full_registry),
    ("R+1 recycled ids", full_recycled),
    ("the last ids", last_ids),
    ("counters at their ends", counters),
    ("space numbers, types, ids and areas out of range", bad_arguments),
    ("the largest numbers", largest),
    ("memory too short", short),
    ("damage to the memories reached", damaged),
];

pub fn compare(tally: &mut Tally) {
    let run = Run::of(tally, "manager.rs, the calls", &ManagerCall::ALL, &KINDS);
    run.test_answers(tally);
    run.test_done(tally, "the calls of a space among them", SpaceCall::ALL.map(|(_, name, _)| name).into_iter());
    run.test_events(tally);
}

// ---- The kinds of histories

fn some_numbers(rng: &Rng, m: usize) -> Numbers {
    let r = rng.pick(&[rng.between(1, 12), rng.between(1, 60), rng.between(60, 160)]);
    Numbers { s: rng.between(1, 5), m, r, v: rng.between(1, 400), p: rng.between(1, 2) }
}

fn open<'a>(run: &'a mut Run, test: &'a mut Test, rng: &Rng, numbers: Numbers) -> Both<'a> {
    Both::opened(run, test, rng, numbers, &vec![numbers.m as u64; numbers.s])
}

fn opened(run: &mut Run, test: &mut Test, rng: &Rng) {
    for _ in 0..160 {
        open(run, test, rng, some_numbers(rng, rng.between(1, 24))).manage(rng, 500);
    }
}

fn filled(run: &mut Run, test: &mut Test, rng: &Rng) {
    for _ in 0..160 {
        let m = if rng.once_in(8) { rng.between(1, 256) } else { rng.between(1, 16) };
        Both::filled(run, test, rng, some_numbers(rng, m)).manage(rng, 400);
    }
}

/// Few parents, and room for all: most delegations were asked for before, from this token or another of its id.
fn again(run: &mut Run, test: &mut Test, rng: &Rng) {
    for _ in 0..60 {
        let numbers = Numbers { s: rng.between(1, 3), m: 48, r: 80, v: 200, p: 1 };
        let mut both = open(run, test, rng, numbers);
        for _ in 0..20 {
            both.call(some_create(rng, rng.below(numbers.s)));
            for _ in 0..25 {
                both.call(both.some_delegate(rng, rng.below(numbers.s)));
            }
            both.manage(rng, 15);
        }
    }
}

/// Entries are there before their ids are registered, as children too.
fn guessed(run: &mut Run, test: &mut Test, rng: &Rng) {
    for _ in 0..60 {
        let numbers = Numbers { s: rng.between(2, 4), ..some_numbers(rng, 32) };
        let mut both = open(run, test, rng, numbers);
        for _ in 0..60 {
            both.guess(rng, rng.below(numbers.s));
            both.manage(rng, 8);
        }
    }
}

fn full_registry(run: &mut Run, test: &mut Test, rng: &Rng) {
    for r in (1..=8).cycle().take(80) {
        let mut both = open(run, test, rng, Numbers { r, ..some_numbers(rng, 16) });
        both.manage(rng, 400);
    }
}

/// As no history of calls alone comes to: a registered id, and R+1 that are recycled.
fn full_recycled(run: &mut Run, test: &mut Test, rng: &Rng) {
    for _ in 0..200 {
        let numbers = Numbers { r: rng.between(1, 6), ..some_numbers(rng, 6) };
        let mut both = Both::filled(run, test, rng, numbers);
        for _ in 0..4 {
            both.call(ManagerCall::Delete { token: both.some_known(rng) });
            both.manage(rng, 10);
        }
    }
}

/// Up to 2^48-1; then there is none.
fn last_ids(run: &mut Run, test: &mut Test, rng: &Rng) {
    for left in (0..=6).cycle().take(140) {
        let numbers = some_numbers(rng, rng.between(1, 12));
        let mut both = match rng.below(2) {
            0 => open(run, test, rng, numbers),
            _ => Both::filled(run, test, rng, numbers),
        };
        both.edit(|mem| mem[NEXT] = ID_END - left);
        both.manage(rng, 150);
    }
}

/// Statistics, hits, misses and uses, just below where they wrap.
fn counters(run: &mut Run, test: &mut Test, rng: &Rng) {
    for _ in 0..100 {
        let numbers = some_numbers(rng, rng.between(1, 12));
        let mut both = open(run, test, rng, numbers);
        for _ in 0..8 {
            both.edit(|mem| {
                (0..numbers.s).for_each(|s| set_counters(rng, &mut mem[numbers.space(s)]));
                mem[memory::STATISTICS..REGISTERED].fill_with(|| u64::MAX - rng.word() % 4);
            });
            both.manage(rng, 40);
        }
    }
}

/// 20 for a space number, whatever else is wrong; 21 for a type, an id or an area; then 5 for an object.
fn bad_arguments(run: &mut Run, test: &mut Test, rng: &Rng) {
    for _ in 0..100 {
        let numbers = some_numbers(rng, rng.between(1, 12));
        let mut both = Both::filled(run, test, rng, numbers);
        let (first, good) = (numbers.s, rng.below(numbers.s));
        let (token, object, rights) = (both.some_known(rng), rng.word(), some_rights(rng));
        for bad in [first, first + 1, 64, 1 << 32, usize::MAX] {
            for cap_type in [0, 15, 16] {
                both.call(ManagerCall::Create { s: bad, object, valid: rng.once_in(2), cap_type, rights });
            }
            for [source, target] in [[bad, good], [good, bad], [bad, bad]] {
                both.call(ManagerCall::Delegate { token, source, target, rights });
            }
            both.call(ManagerCall::Check { token, required: rights, s: bad });
            both.call(ManagerCall::Census { s: bad });
        }
        for (cap_type, valid) in [(15, true), (16, true), (16, false), (255, true), (15, false)] {
            both.call(ManagerCall::Create { s: good, object, valid, cap_type, rights });
        }
        for id in [ID_END, ID_END + id_of(token), 1 << 56, u64::MAX] {
            both.call(ManagerCall::GetChildren { id, area: rng.below(4) });
        }
        while let Some(id) = both.some_parent(rng).filter(|_| !rng.once_in(8)) {
            both.call(ManagerCall::GetChildren { id, area: rng.below(numbers.r + 2) });
        }
        both.manage(rng, 60);
    }
}

fn largest(run: &mut Run, test: &mut Test, rng: &Rng) {
    for _ in 0..3 {
        Both::filled(run, test, rng, Numbers::LARGEST).manage(rng, 100);
    }
}

// ---- Memory that is not sound

fn any_call(rng: &Rng) -> Box<dyn Call> {
    Box::new(world::any_manager_call(rng))
}

fn short(run: &mut Run, test: &mut Test, rng: &Rng) {
    world::short(run, test, rng, any_call);
}

fn damaged(run: &mut Run, test: &mut Test, rng: &Rng) {
    world::damaged(run, test, rng, any_call);
}
