//! Random histories of the calls of revocation among those of the manager and the spaces, each call made on both sides.
//! Then the calls on damaged memory, which answers each call was seen to give, and what was seen to happen in it.

mod trees;
mod wander;

use judge::layout::*;
use judge::rng::Rng;
use oracle::{memory, Tally, Test};

use self::wander::some_time;
use crate::world::{
    self, some_token_of, Both, Call, Kernel, Kind, ManagerCall, RevocationCall, Run, SpaceCall, MOST_LISTED,
    MOST_TOKENS,
};

const KINDS: [(&str, Kind); 19] = [
    ("opened worlds", opened),
    ("worlds in use to any degree", filled),
    ("chains, revoked from the middle and the root", trees::chains),
    ("parents of up to 1,024 children", trees::wide),
    ("trees of any shape", trees::any_shape),
    ("trees of 4,095 ids", trees::largest),
    ("ids that are issued again", issued_again),
    ("logs that fill up", short_logs),
    ("tables of pids that fill up", few_queues),
    ("lists of 0 to 33 pids", process_lists),
    ("queues at 256 notices and past it", full_queues),
    ("batches, to 65,536 tokens", batches),
    ("held revokes", held),
    ("epochs and counts at their ends", counters),
    ("ids, reasons, lists and areas out of range", bad_arguments),
    ("the names of the reasons", names),
    ("the largest numbers", largest),
    ("memory too short", short),
    ("damage to the memories reached", damaged),
];

pub fn compare(tally: &mut Tally) {
    let run = Run::of(tally, "revocation.rs and revoke, the calls", &RevocationCall::ALL, &KINDS);
    run.test_answers(tally);
    let spaces = SpaceCall::ALL.map(|(_, name, _)| name).into_iter();
    let others = spaces.chain(ManagerCall::ALL.map(|(name, _)| name));
    run.test_done(tally, "the calls of the manager and of a space among them", others);
    run.test_events(tally);
}

// ---- The kinds of histories

const PIDS: [u64; 6] = [0, 1, 2, 3, 4, u64::MAX];

fn some_numbers(rng: &Rng, m: usize) -> Numbers {
    let r = rng.pick(&[rng.between(1, 12), rng.between(1, 60), rng.between(60, 160)]);
    Numbers { s: rng.between(1, 4), m, r, v: rng.between(1, 400), p: rng.between(1, 4) }
}

fn open<'a>(run: &'a mut Run, test: &'a mut Test, rng: &Rng, numbers: Numbers) -> Both<'a> {
    Both::opened(run, test, rng, numbers, &vec![numbers.m as u64; numbers.s])
}

fn opened(run: &mut Run, test: &mut Test, rng: &Rng) {
    for _ in 0..160 {
        open(run, test, rng, some_numbers(rng, rng.between(1, 24))).revoke_among(rng, 500, &PIDS);
    }
}

fn filled(run: &mut Run, test: &mut Test, rng: &Rng) {
    for _ in 0..160 {
        let m = if rng.once_in(8) { rng.between(1, 256) } else { rng.between(1, 16) };
        Both::filled(run, test, rng, some_numbers(rng, m)).revoke_among(rng, 300, &PIDS);
    }
}

/// An id is revoked, deleted, created again and revoked again: its pair is in the log already.
fn issued_again(run: &mut Run, test: &mut Test, rng: &Rng) {
    for _ in 0..60 {
        let numbers = Numbers { r: rng.between(1, 6), v: rng.between(1, 12), ..some_numbers(rng, 12) };
        let mut both = open(run, test, rng, numbers);
        for _ in 0..40 {
            let s = rng.below(numbers.s);
            let token = both.create(rng, s);
            both.call(RevocationCall::IsRevoked { token });
            both.call(RevocationCall::RevokeHeld { s, token, kernel: both.some_kernel(rng, &PIDS) });
            for token in [token, token ^ 1 << 48] {
                both.call(RevocationCall::IsRevoked { token });
                both.call(ManagerCall::IsValid { token });
            }
            both.call(ManagerCall::Delete { token });
            both.call((SpaceCall::Remove, [s as u64, token, 0, 0]));
            both.revoke_among(rng, 12, &PIDS);
        }
    }
}

/// 24 comes sooner or later, then for all that would join the log.
fn short_logs(run: &mut Run, test: &mut Test, rng: &Rng) {
    for v in (1..=20).cycle().take(80) {
        let numbers = Numbers { v, r: rng.between(8, 60), ..some_numbers(rng, 24) };
        let mut both = open(run, test, rng, numbers);
        both.manage(rng, 120);
        both.revoke_among(rng, 300, &PIDS);
    }
}

/// 25 where the pids of a list are more than the places left; a place comes free again.
fn few_queues(run: &mut Run, test: &mut Test, rng: &Rng) {
    for p in (1..=8).cycle().take(80) {
        let numbers = Numbers { p, v: 8192, r: rng.between(8, 120), ..some_numbers(rng, 32) };
        let mut both = open(run, test, rng, numbers);
        let pids: Vec<u64> = (0..p as u64 + 2).collect();
        for _ in 0..20 {
            both.manage(rng, 12);
            let kernel = both.some_kernel(rng, &pids);
            let token = both.some_parent(rng).map_or_else(|| both.some_revoked(rng), |id| some_token_of(rng, id));
            both.call(RevocationCall::RevokeCapability { token, kernel });
            both.call(both.some_notification(rng, &pids));
            both.revoke_among(rng, 4, &pids);
        }
    }
}

/// With repeats and without, in a world of a queue for each pid, or of one too few.
fn process_lists(run: &mut Run, test: &mut Test, rng: &Rng) {
    for length in (0..=MOST_LISTED + 1).cycle().take(100) {
        let p = (length + rng.below(2)).saturating_sub(1).clamp(1, MOST_LISTED);
        let numbers = Numbers { p, s: 2, r: 40, v: 100, m: 24 };
        let mut both = open(run, test, rng, numbers);
        for _ in 0..8 {
            both.manage(rng, 20);
            let pids = if rng.once_in(3) { length.div_ceil(2).max(1) } else { length.max(1) };
            let listed = (0..length).map(|n| (n % pids) as u64).collect();
            let token = both.some_parent(rng).unwrap_or(1);
            both.call(RevocationCall::Revoke { token, kernel: Kernel { time: some_time(rng), listed } });
            both.call(RevocationCall::QueueStats);
            let pid = rng.word() % pids as u64;
            both.call(RevocationCall::Drain { pid, area: NOTICE * both.notices(pid) });
        }
    }
}

/// Notices come until there are 256, and more; the areas are exact, one word short, and longer.
fn full_queues(run: &mut Run, test: &mut Test, rng: &Rng) {
    for _ in 0..12 {
        let numbers = Numbers { p: rng.between(1, 3), ..some_numbers(rng, 8) };
        let mut both = open(run, test, rng, numbers);
        for n in 0..1000 {
            both.call(both.some_notice(rng, 1 + rng.word() % 3));
            if n % 16 == 0 {
                let pid = 1 + rng.word() % 3;
                let words = NOTICE * both.notices(pid);
                for area in [words, words.saturating_sub(1), words + 4] {
                    both.call(RevocationCall::Peek { pid, area });
                }
                both.call(both.some_notification(rng, &[1, 2, 3]));
            }
        }
        for pid in [1, 2, 3, 4] {
            let words = NOTICE * both.notices(pid);
            for area in [words.saturating_sub(1), words, words] {
                both.call(RevocationCall::Drain { pid, area });
            }
        }
    }
}

/// With tokens again and again, unregistered ones, and more than the log has places for.
fn batches(run: &mut Run, test: &mut Test, rng: &Rng) {
    for _ in 0..60 {
        let numbers = Numbers { v: rng.between(1, 60), ..some_numbers(rng, 24) };
        let mut both = open(run, test, rng, numbers);
        for _ in 0..20 {
            both.manage(rng, 16);
            both.call(both.some_batch(rng, &PIDS));
            let stray = some_token_of(rng, rng.word() % ID_END);
            let tokens = (0..rng.below(12)).map(|_| both.some_revoked(rng)).chain([stray]).collect();
            both.call(RevocationCall::RevokeBatch { tokens, kernel: both.some_kernel(rng, &PIDS) });
        }
    }
    let mut both = open(run, test, rng, Numbers { s: 1, m: 4, r: 8, v: 20, p: 1 });
    both.manage(rng, 20);
    for length in [MOST_TOKENS - 1, MOST_TOKENS, MOST_TOKENS + 1, MOST_TOKENS + 9] {
        let ids = rng.pick(&[4, 30]);
        let tokens = (0..length).map(|_| rng.word() % ids).collect();
        both.call(RevocationCall::RevokeBatch { tokens, kernel: Kernel::default() });
    }
}

/// Of spaces that hold much: with the right and without, by tokens of other generations, types and flags, of strays.
fn held(run: &mut Run, test: &mut Test, rng: &Rng) {
    for _ in 0..80 {
        let numbers = Numbers { v: rng.between(1, 200), ..some_numbers(rng, rng.between(4, 60)) };
        let mut both = Both::filled(run, test, rng, numbers);
        for _ in 0..40 {
            both.guess(rng, rng.below(numbers.s));
            both.call(both.some_held(rng, &PIDS));
            let s = rng.below(numbers.s);
            if let Some(token) = both.stale(rng, s) {
                both.call(RevocationCall::RevokeHeld { s, token, kernel: both.some_kernel(rng, &PIDS) });
            }
            both.revoke_among(rng, 4, &PIDS);
        }
    }
}

/// The epoch and the statistics, just below where they wrap.
fn counters(run: &mut Run, test: &mut Test, rng: &Rng) {
    for _ in 0..80 {
        let mut both = open(run, test, rng, Numbers { v: 400, ..some_numbers(rng, 16) });
        for _ in 0..8 {
            both.manage(rng, 16);
            both.edit(|mem| mem[EPOCH..REGISTERED].fill_with(|| u64::MAX - rng.word() % 4));
            assert_eq!(memory::STATISTICS, EPOCH + 1);
            both.revoke_among(rng, 16, &PIDS);
        }
    }
}

/// 20 for a space number, whatever else is wrong; 21 for a list, a batch, an id, a reason or an area.
fn bad_arguments(run: &mut Run, test: &mut Test, rng: &Rng) {
    for _ in 0..80 {
        let numbers = some_numbers(rng, rng.between(1, 12));
        let mut both = Both::filled(run, test, rng, numbers);
        for s in [numbers.s, numbers.s + 1, 64, 1 << 32, usize::MAX] {
            for length in [0, 1, MOST_LISTED, MOST_LISTED + 1] {
                let kernel = Kernel { time: 0, listed: vec![1; length] };
                both.call(RevocationCall::RevokeHeld { s, token: both.some_revoked(rng), kernel });
            }
        }
        for length in [MOST_LISTED + 1, MOST_LISTED + 2, 1000] {
            let kernel = Kernel { time: some_time(rng), listed: vec![rng.word() % 4; length] };
            let (s, token) = (rng.below(numbers.s), both.some_revoked(rng));
            both.call(RevocationCall::Revoke { token, kernel: kernel.clone() });
            both.call(RevocationCall::RevokeCapability { token, kernel: kernel.clone() });
            both.call(RevocationCall::RevokeHeld { s, token, kernel: kernel.clone() });
            both.call(RevocationCall::RevokeBatch { tokens: vec![token], kernel });
        }
        for id in [ID_END, ID_END + id_of(both.some_revoked(rng)), 1 << 56, u64::MAX] {
            both.call(RevocationCall::Descendants { id, area: rng.below(4) });
            both.call(RevocationCall::Notify { pid: 1, id, reason: rng.below(6) as u8, time: 0 });
        }
        for reason in 3..8 {
            both.call(RevocationCall::Notify { pid: 1, id: 1, reason, time: some_time(rng) });
        }
        both.revoke_among(rng, 40, &PIDS);
    }
}

/// Every number of a reason, with areas too short, exact and longer.
fn names(run: &mut Run, test: &mut Test, rng: &Rng) {
    let mut both = open(run, test, rng, some_numbers(rng, 1));
    for reason in 0..=255 {
        for area in 0..20 {
            both.call(RevocationCall::WriteReason { reason, area });
        }
    }
}

fn largest(run: &mut Run, test: &mut Test, rng: &Rng) {
    for _ in 0..4 {
        let mut both = Both::filled(run, test, rng, Numbers::LARGEST);
        both.edit(|mem| mem[LOGGED] = mem[LOGGED].min(4000));
        both.revoke_among(rng, 100, &PIDS);
    }
}

// ---- Memory that is not sound

fn any_call(rng: &Rng) -> Box<dyn Call> {
    Box::new(world::any_revocation_call(rng))
}

fn short(run: &mut Run, test: &mut Test, rng: &Rng) {
    world::short(run, test, rng, any_call);
}

fn damaged(run: &mut Run, test: &mut Test, rng: &Rng) {
    world::damaged(run, test, rng, any_call);
}
