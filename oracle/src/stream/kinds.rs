//! Kinds of streams: each goes for one part of what a run can come to, and on at random from there.

use judge::layout::{Numbers, NOTICES};
use judge::rng::Rng;

use super::requests::*;
use super::script::Script;
use super::wander::SPACES;
use super::Field::*;
use super::{Field, Request, MOST_RECORDS, QUOTA, READS, RECORD};

/// A kind by its name, how many records it takes to come to what it is about, and what writes a stream until it is
/// full.
#[derive(Clone, Copy)]
pub struct Kind {
    pub name: &'static str,
    pub least: usize,
    pub write: fn(&mut Script, &Rng),
}

pub const KINDS: [Kind; 12] = [
    Kind { name: "all operations", least: 0, write: mixed },
    Kind { name: "entries that come and go", least: 0, write: churn },
    Kind { name: "delegations", least: 0, write: delegations },
    Kind { name: "chains", least: 230, write: chains },
    Kind { name: "cascades", least: 320, write: cascades },
    Kind { name: "full spaces", least: 120, write: full_spaces },
    Kind { name: "copies", least: 0, write: copies },
    Kind { name: "recycled ids", least: 0, write: recycled },
    Kind { name: "records that are refused", least: 0, write: refused_records },
    Kind { name: "R registered ids", least: 530, write: full_registry },
    Kind { name: "V logged pairs", least: 520, write: full_log },
    Kind { name: "any bytes", least: 0, write: any_bytes },
];

const ALL: u32 = u32::MAX;

/// How often each operation comes, from 0 to 15.
type Weights = [usize; 16];

const EVEN: Weights = [0, 10, 16, 8, 8, 8, 4, 4, 1, 2, 1, 10, 4, 4, 3, 3];
const COMING_AND_GOING: Weights = [0, 4, 0, 4, 2, 12, 1, 0, 0, 1, 0, 16, 4, 8, 0, 0];
const DELEGATING: Weights = [0, 2, 24, 1, 4, 8, 2, 1, 0, 1, 0, 2, 0, 1, 1, 1];
const FILLING: Weights = [0, 10, 10, 2, 2, 3, 1, 1, 0, 2, 0, 10, 8, 2, 0, 0];
const COPYING: Weights = [0, 4, 4, 4, 2, 3, 1, 0, 1, 12, 1, 6, 2, 2, 0, 0];
const RECYCLING: Weights = [0, 14, 8, 2, 4, 3, 14, 2, 0, 2, 0, 8, 6, 1, 1, 2];
const REVOKING: Weights = [0, 6, 8, 1, 4, 2, 4, 8, 0, 1, 0, 4, 1, 1, 3, 16];

/// So many random records.
fn go_on(script: &mut Script, rng: &Rng, weights: &Weights, records: usize) {
    let ops: Vec<u64> = (0..).zip(weights).flat_map(|(op, &times)| std::iter::repeat(op).take(times)).collect();
    for _ in 0..records.min(script.left()) {
        script.ask(script.some(rng, rng.pick(&ops)));
    }
}

fn to_the_end(script: &mut Script, rng: &Rng, weights: &Weights) {
    go_on(script, rng, weights, MOST_RECORDS);
}

// ---- The kinds

fn mixed(script: &mut Script, rng: &Rng) {
    to_the_end(script, rng, &EVEN);
}

fn churn(script: &mut Script, rng: &Rng) {
    to_the_end(script, rng, &COMING_AND_GOING);
}

fn delegations(script: &mut Script, rng: &Rng) {
    for s in 0..SPACES {
        script.ask(create(s, 3, ALL, rng.word()));
    }
    to_the_end(script, rng, &DELEGATING);
}

/// A chain in one space, which holds its last link alone; cut in the middle or not, and revoked.
fn chains(script: &mut Script, rng: &Rng) {
    while !script.is_full() {
        let root = script.ask(create(0, 1, ALL, rng.word()));
        let mut last = root;
        for _ in 0..rng.pick(&[3, 20, 110]) {
            let next = script.ask(delegate(0, 0, ALL, last));
            if last != root {
                script.ask(remove(0, last));
            }
            last = next;
        }
        if rng.once_in(3) {
            script.ask(script.some(rng, 6));
        }
        script.ask(check(0, 1, last));
        script.ask(held_revoke(0, root, rng.word()));
        script.ask(check(0, 1, last));
        script.ask(clear(0));
        go_on(script, rng, &REVOKING, 12);
    }
}

/// A parent of many children, of which the target holds the last; revoked, and the notices drained or left to fill up.
fn cascades(script: &mut Script, rng: &Rng) {
    while !script.is_full() {
        let root = script.ask(create(0, 2, ALL, rng.word()));
        let target = rng.between(1, SPACES - 1);
        for n in 0..rng.pick(&[20, 100, NOTICES + 20]) {
            if n % QUOTA == 0 {
                script.ask(clear(target));
            }
            script.ask(delegate(0, target, ALL - n as u32, root));
        }
        go_on(script, rng, &DELEGATING, 10);
        script.ask(held_revoke(0, root, rng.word()));
        go_on(script, rng, &REVOKING, 10);
        script.ask(clear(0));
        script.ask(delete(root));
    }
}

fn full_spaces(script: &mut Script, rng: &Rng) {
    for s in 0..SPACES {
        for n in 0..QUOTA - 2 {
            let token = rng.word();
            script.ask(match n % 3 {
                0 => create(s, rng.word() % 16, ALL, n as u64),
                1 => insert(s, ALL, token, n as u64),
                _ => space_made_create(s, ALL, n as u64),
            });
        }
    }
    to_the_end(script, rng, &FILLING);
}

fn copies(script: &mut Script, rng: &Rng) {
    to_the_end(script, rng, &COPYING);
}

/// Ids are deleted and issued again while entries of their earlier issue stay; some are guessed before they are issued.
fn recycled(script: &mut Script, rng: &Rng) {
    while !script.is_full() {
        let (guessed, s) = (script.next_id(), rng.below(SPACES));
        script.ask(insert(s, ALL, guessed | rng.pick(&[0, 0xF3 << 56, rng.word() << 56]), rng.word()));
        let held = script.ask(create(rng.below(SPACES), 3, ALL, rng.word()));
        script.ask(delegate(rng.below(SPACES), rng.below(SPACES), ALL, held));
        go_on(script, rng, &RECYCLING, 12);
    }
}

/// Among good records some with a space that is not there, a field that is not read, or an operation that is none.
fn refused_records(script: &mut Script, rng: &Rng) {
    let bad = every_bad_record();
    while !script.is_full() {
        script.ask(rng.pick(&bad));
        let (field, width) = rng.pick(&Field::ALL);
        let request = script.some(rng, rng.word() % 16);
        script.ask(request.with(field, request.get(field) ^ 1 << rng.below(width)));
        go_on(script, rng, &EVEN, 2);
    }
}

/// All places of the registry taken, with capabilities that could be delegated.
fn full_registry(script: &mut Script, rng: &Rng) {
    let first = script.ask(create(1, 4, ALL, 1));
    let kept = rng.below(12);
    for n in 0..kept {
        script.ask(delegate(1, 2, ALL - n as u32, first));
    }
    for n in kept + 1..Numbers::PROGRAM.r {
        if n % QUOTA == 0 {
            script.ask(clear(0));
        }
        script.ask(create(0, 5, ALL, n as u64));
    }
    script.ask(clear(0));
    script.ask(create(0, 5, ALL, 2));
    script.ask(delegate(1, 3, 1, first));
    script.ask(delegate(2, 3, 1, first));
    to_the_end(script, rng, &EVEN);
}

/// The log nearly full while there is something to revoke.
fn full_log(script: &mut Script, rng: &Rng) {
    let root = script.ask(create(0, 6, ALL, 1));
    for n in 0..rng.between(1, 8) {
        script.ask(delegate(0, 1, ALL - n as u32, root));
    }
    let logged = script.state.revocation.log.len();
    for _ in logged..Numbers::PROGRAM.v - rng.below(6) {
        script.ask(revoke_capability(rng.word() | 1 << 47, rng.word()));
    }
    script.ask(held_revoke(0, root, 9));
    script.ask(check(0, 1, root));
    to_the_end(script, rng, &REVOKING);
}

/// Bytes of any value, or few bits among zeros.
fn any_bytes(script: &mut Script, rng: &Rng) {
    while !script.is_full() {
        let mut record = [0; RECORD];
        match rng.below(2) {
            0 => record.fill_with(|| rng.word() as u8),
            _ => (0..rng.below(6)).for_each(|_| record[rng.below(RECORD)] |= 1 << rng.below(8)),
        }
        script.ask(Request::read(&record));
    }
}

// ---- What is refused before a call is made

/// Operations that are none; each field that an operation does not read, by its first and its last bit; each space
/// number that is not there; and these beside a field that is not read, which comes after them.
pub fn every_bad_record() -> Vec<Request> {
    let mut bad = Vec::new();
    for op in [0].into_iter().chain(16..32) {
        bad.extend([Request::of(op), Request::of(op).with(Space, 63).with(A, u64::MAX)]);
    }
    for op in 1..READS.len() as u64 {
        let request = Request::of(op);
        for (field, width) in Field::ALL.into_iter().filter(|&(field, _)| field != Op) {
            match field {
                Space | Second if request.reads(field) => {
                    bad.extend([4, 32, 63].map(|number| request.with(field, number)));
                    bad.push(request.with(field, 4).with(Zero, 1));
                }
                _ if request.reads(field) => {}
                _ => bad.extend([1, 1 << (width - 1)].map(|value| request.with(field, value))),
            }
        }
    }
    bad.dedup();
    bad
}
