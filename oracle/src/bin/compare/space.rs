//! Random histories of the calls of a space, over several spaces at once, each call made on both sides. Then the calls
//! on damaged memory, and which answers each call was seen to give.

use judge::layout::*;
use judge::rng::Rng;
use oracle::{Tally, Test};

use crate::table::ids_at;
use crate::world::{self, any_token, set_counters, some_numbers, some_token_of, Both, Call, Kind, Run, SpaceCall};

const KINDS: [(&str, Kind); 16] = [
    ("opened worlds, small ids", opened),
    ("worlds in use to any degree", filled),
    ("quotas 0, 1, one short and M", quotas),
    ("ids with one home", one_home),
    ("churn at constant size", churn),
    ("one id, any generation, type and flags", stale),
    ("copies onto full and empty spaces and onto itself", copies),
    ("growth to 512 slots and back to 0", growth),
    ("recycled ids, and the last ones", last_ids),
    ("holders of registered ids", holders),
    ("counters at their ends", counters),
    ("the n-th entry for all n", all_entries),
    ("the largest numbers", largest),
    ("space numbers and ids out of range", bad_arguments),
    ("memory too short", short),
    ("damage to the memories reached", damaged),
];

pub fn compare(tally: &mut Tally) {
    let about = SpaceCall::ALL.map(|(_, name, possible)| (name, possible));
    Run::of(tally, "space.rs, the calls", &about, &KINDS).test_answers(tally);
}

// ---- The kinds of histories

/// The quotas 0, 1, one short of M, and M.
fn some_quotas(rng: &Rng, Numbers { s, m, .. }: Numbers) -> Vec<u64> {
    (0..s).map(|_| rng.pick(&[0, 1, m - 1, m, m]) as u64).collect()
}

/// Ids as creates issue them, so that these meet entries that are there.
fn opened(run: &mut Run, test: &mut Test, rng: &Rng) {
    for _ in 0..60 {
        let numbers = some_numbers(rng, rng.between(1, 16));
        let ids = 2 * numbers.m as u64 + 4;
        let mut both = Both::opened(run, test, rng, numbers, &vec![numbers.m as u64; numbers.s]);
        both.wander(rng, 600, &|rng| rng.word() % ids);
    }
}

fn filled(run: &mut Run, test: &mut Test, rng: &Rng) {
    for _ in 0..100 {
        let m = if rng.once_in(2) { rng.between(1, 12) } else { rng.between(1, 256) };
        let mut both = Both::filled(run, test, rng, some_numbers(rng, m));
        both.wander(rng, 500, &any_token);
    }
}

fn quotas(run: &mut Run, test: &mut Test, rng: &Rng) {
    for m in 1..=40 {
        let numbers = some_numbers(rng, m);
        let mut both = Both::opened(run, test, rng, numbers, &some_quotas(rng, numbers));
        for _ in 0..numbers.s * (m + 2) {
            both.call_some(rng, SpaceCall::Insert, rng.below(numbers.s), &any_token);
        }
        both.wander(rng, 600, &any_token);
    }
}

/// Half of the time the last slot, so that walks go around.
fn one_home(run: &mut Run, test: &mut Test, rng: &Rng) {
    for slots in [8, 16, 32, 64, 128, 256, 512] {
        for _ in 0..6 {
            let home = if rng.once_in(2) { slots - 1 } else { rng.below(slots) };
            let pool = ids_at(home, slots, rng.word() >> 24, 3 * slots / 4);
            let numbers = some_numbers(rng, slots / 2);
            let mut both = Both::opened(run, test, rng, numbers, &vec![numbers.m as u64; numbers.s]);
            both.wander(rng, 700, &|rng| some_token_of(rng, rng.pick(&pool)));
        }
    }
}

/// One entry leaves and another comes, so that removed marks gather until a rebuild clears them.
fn churn(run: &mut Run, test: &mut Test, rng: &Rng) {
    for size in (1..=12).chain([24, 48, 96, 192, 256]) {
        let numbers = Numbers { s: 2, ..some_numbers(rng, size) };
        let mut both = Both::opened(run, test, rng, numbers, &[size as u64; 2]);
        for n in 0..600 {
            let s = n % 2;
            if both.mem[numbers.space(s)][LIVE] == size as u64 {
                let token = both.live(rng, s).unwrap();
                both.call((SpaceCall::Remove, [s as u64, token, 0, 0]));
            }
            both.call_some(rng, SpaceCall::Insert, s, &any_token);
            both.call_some(rng, SpaceCall::Lookup, s, &any_token);
        }
    }
}

fn stale(run: &mut Run, test: &mut Test, rng: &Rng) {
    for ids in 1..=24 {
        let numbers = some_numbers(rng, 8);
        let mut both = Both::opened(run, test, rng, numbers, &vec![8; numbers.s]);
        both.wander(rng, 800, &|rng| some_token_of(rng, rng.word() % ids));
    }
}

fn copies(run: &mut Run, test: &mut Test, rng: &Rng) {
    for m in [1, 2, 3, 6, 7, 12, 24, 48, 96, 192, 256] {
        for _ in 0..4 {
            let numbers = some_numbers(rng, m);
            let mut both = Both::filled(run, test, rng, numbers);
            for _ in 0..8 {
                for (target, source) in (0..numbers.s * numbers.s).map(|n| (n / numbers.s, n % numbers.s)) {
                    both.call((SpaceCall::Copy, [target as u64, source as u64, 0, 0]));
                    let emptied = rng.pick(&[SpaceCall::Clear, SpaceCall::RevokeAll]);
                    both.call((if rng.once_in(8) { emptied } else { SpaceCall::Stats }, [source as u64, 0, 0, 0]));
                    both.wander(rng, 4, &any_token);
                }
                for _ in 0..m + 4 {
                    both.call_some(rng, SpaceCall::Insert, 0, &any_token);
                }
            }
        }
    }
}

/// 256 entries come and leave, one by one or all at once.
fn growth(run: &mut Run, test: &mut Test, rng: &Rng) {
    for round in 0..9 {
        let mut both = Both::opened(run, test, rng, Numbers { s: 2, ..some_numbers(rng, 256) }, &[256; 2]);
        for s in [0, 1] {
            while both.call((SpaceCall::Insert, [s, any_token(rng), rng.word(), rng.word() >> 32])).answer != 11 {}
            both.call((SpaceCall::TableCapacity, [s, 0, 0, 0]));
        }
        match round % 3 {
            0 => both.call((SpaceCall::Clear, [1, 0, 0, 0])),
            1 => both.call((SpaceCall::RevokeAll, [1, 0, 0, 0])),
            _ => both.call((SpaceCall::Copy, [1, 0, 0, 0])),
        };
        while let Some(token) = both.live(rng, 0) {
            both.call((SpaceCall::LookupEntry, [0, token, 0, 0]));
            both.call((SpaceCall::Remove, [0, token, 0, 0]));
            both.call((SpaceCall::TableCapacity, [0; 4]));
        }
    }
}

/// Recycled ids are taken first, then the next ones up to 2^48-1; then there is none.
fn last_ids(run: &mut Run, test: &mut Test, rng: &Rng) {
    for left in (0..=4).cycle().take(100) {
        let numbers = some_numbers(rng, rng.between(1, 8));
        let mut both = Both::filled(run, test, rng, numbers);
        both.edit(|mem| mem[NEXT] = ID_END - left);
        while both.mem[RECYCLED] > 0 || both.mem[NEXT] < ID_END {
            let call = rng.pick(&[SpaceCall::AllocCapId, SpaceCall::CreateCapability, SpaceCall::CreateCapability]);
            both.call_some(rng, call, rng.below(numbers.s), &any_token);
        }
        for s in 0..numbers.s as u64 {
            both.call((SpaceCall::AllocCapId, [0; 4]));
            both.call((SpaceCall::CreateCapability, [s, rng.word() >> 32, rng.word(), 0]));
        }
        both.wander(rng, 60, &|rng| ID_END - 1 - rng.word() % 8);
    }
}

/// Nearly all entries are of registered ids, some of which were there before the id was registered.
fn holders(run: &mut Run, test: &mut Test, rng: &Rng) {
    for _ in 0..60 {
        let numbers = Numbers { s: rng.between(2, 5), r: rng.between(1, 8), ..some_numbers(rng, rng.between(1, 9)) };
        let mut both = Both::filled(run, test, rng, numbers);
        let ids = both.mem[numbers.ids()][..both.mem[REGISTERED] as usize].to_vec();
        both.wander(rng, 500, &|rng| if ids.is_empty() { 0 } else { some_token_of(rng, rng.pick(&ids)) });
    }
}

/// Hits, misses and uses of 64 bits, generations of 8: they are set just below where they wrap.
fn counters(run: &mut Run, test: &mut Test, rng: &Rng) {
    for _ in 0..60 {
        let numbers = some_numbers(rng, rng.between(1, 12));
        let mut both = Both::filled(run, test, rng, numbers);
        for _ in 0..8 {
            both.edit(|mem| (0..numbers.s).for_each(|s| set_counters(rng, &mut mem[numbers.space(s)])));
            both.wander(rng, 20, &any_token);
            both.call((SpaceCall::IncrementGeneration, [rng.below(numbers.s) as u64, 0, 0, 0]));
            both.call((SpaceCall::RevokeAll, [rng.below(numbers.s) as u64, 0, 0, 0]));
            both.wander(rng, 20, &any_token);
        }
    }
}

fn all_entries(run: &mut Run, test: &mut Test, rng: &Rng) {
    for m in [1, 2, 4, 6, 12, 24, 48, 256] {
        let numbers = some_numbers(rng, m);
        let mut both = Both::filled(run, test, rng, numbers);
        for _ in 0..2_000 / (m + 10) {
            let s = rng.below(numbers.s);
            both.wander(rng, 4, &any_token);
            for n in (0..both.mem[numbers.space(s)][LIVE] + 2).chain([u64::MAX]) {
                both.call((SpaceCall::NthEntry, [s as u64, n, 0, 0]));
            }
        }
    }
}

fn largest(run: &mut Run, test: &mut Test, rng: &Rng) {
    for _ in 0..2 {
        Both::filled(run, test, rng, Numbers::LARGEST).wander(rng, 100, &any_token);
    }
}

/// 20 for a space number, whatever else is wrong; 21 for an id.
fn bad_arguments(run: &mut Run, test: &mut Test, rng: &Rng) {
    for _ in 0..60 {
        let numbers = some_numbers(rng, rng.between(1, 12));
        let mut both = Both::filled(run, test, rng, numbers);
        let first = numbers.s as u64;
        for space in [first, first + 1, 63, 64, 1 << 32, 1 << 63, u64::MAX - first, u64::MAX] {
            for (call, ..) in SpaceCall::ALL {
                let [_, a, b, c] = both.some_words(rng, call, 0, &any_token);
                both.call((call, [space.max(first), a, b, c]));
            }
            both.call((SpaceCall::Copy, [rng.word() % first, space.max(first), 0, 0]));
        }
        for id in [ID_END, ID_END + 1, 1 << 56, u64::MAX, ID_END + rng.word() % (u64::MAX - ID_END)] {
            for call in [SpaceCall::GetEntry, SpaceCall::Revoke] {
                both.call((call, [rng.word() % first, id, 0, 0]));
                both.call((call, [first, id, 0, 0]));
            }
        }
        both.wander(rng, 60, &any_token);
    }
}

// ---- Memory that is not sound

/// Any call with any words.
fn any_call(rng: &Rng) -> Box<dyn Call> {
    let (call, ..) = rng.pick(&SpaceCall::ALL);
    Box::new((call, [rng.word() % 6, any_token(rng), rng.word(), rng.word()]))
}

fn short(run: &mut Run, test: &mut Test, rng: &Rng) {
    world::short(run, test, rng, any_call);
}

fn damaged(run: &mut Run, test: &mut Test, rng: &Rng) {
    world::damaged(run, test, rng, any_call);
}
