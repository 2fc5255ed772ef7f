//! For each rule, memories that come within one of breaking it and are sound, each with a step further that breaks
//! this rule alone. All parts that a case does not need hold random contents. Where a count passes its part's end, the
//! words behind are such that nothing but the count is wrong.

mod registry;
mod revocation;
mod spaces;

use crate::layout::*;
use crate::rng::Rng;
use crate::table::Entry;
use crate::worlds::{self, World};
use crate::Rule;

pub struct Pair {
    /// Sound.
    pub near: Vec<u64>,
    /// Breaks the rule, and no other.
    pub broken: Vec<u64>,
}

/// Some cases of a rule.
pub fn pairs(rule: Rule, rng: &Rng) -> Vec<Pair> {
    match rule {
        Rule::Numbers => opening_numbers(rng),
        Rule::Length => length(rng),
        Rule::Quota => spaces::quota(rng),
        Rule::Generation => spaces::generation(rng),
        Rule::Slots => spaces::slots(rng),
        Rule::NoLive => spaces::no_live(rng),
        Rule::Live => spaces::live(rng),
        Rule::Load => spaces::load(rng),
        Rule::Kind => spaces::kind(rng),
        Rule::Counts => spaces::counts(rng),
        Rule::EntriesDiffer => spaces::entries_differ(rng),
        Rule::Met => spaces::met(rng),
        Rule::Next => registry::next(rng),
        Rule::Registered => registry::registered(rng),
        Rule::RegisteredRange => registry::registered_range(rng),
        Rule::RegisteredDiffer => registry::registered_differ(rng),
        Rule::Holders => registry::holders(rng),
        Rule::Link => registry::link(rng),
        Rule::Listed => registry::listed(rng),
        Rule::Revoked => registry::revoked(rng),
        Rule::Children => registry::children(rng),
        Rule::Recycled => registry::recycled(rng),
        Rule::RecycledRange => registry::recycled_range(rng),
        Rule::RecycledAscend => registry::recycled_ascend(rng),
        Rule::RecycledFree => registry::recycled_free(rng),
        Rule::Logged => revocation::logged(rng),
        Rule::Pair => revocation::pair(rng),
        Rule::PairsDiffer => revocation::pairs_differ(rng),
        Rule::QueueLength => revocation::queue_length(rng),
        Rule::First => revocation::first(rng),
        Rule::Reason => revocation::reason(rng),
        Rule::PidsDiffer => revocation::pids_differ(rng),
    }
}

/// A sound memory and the same with some words changed.
fn step(world: &World, changes: &[(usize, u64)]) -> Pair {
    let near = world.mem.clone();
    let mut broken = near.clone();
    for &(place, word) in changes {
        broken[place] = word;
    }
    Pair { near, broken }
}

/// Small numbers, with room for the cases.
fn small(rng: &Rng) -> Numbers {
    Numbers {
        s: rng.between(1, 3),
        m: rng.between(2, 9),
        r: rng.between(4, 12),
        v: rng.between(2, 8),
        p: rng.between(2, 4),
    }
}

fn entry(rng: &Rng, id: u64) -> Entry {
    [rng.word() << 48 | id, rng.word(), rng.word(), rng.word() >> 32]
}

fn opening_numbers(rng: &Rng) -> Vec<Pair> {
    let mut pairs = Vec::new();
    for (number, most) in Numbers::LARGEST.words().into_iter().enumerate() {
        for (last, past) in [(1, 0), (most, most + 1)] {
            let mut words = small(rng).words();
            words[number] = last;
            let near = worlds::random(rng, Numbers::from_words(words));
            words[number] = past;
            // But for the one number, a sound world of its numbers.
            let broken = worlds::random(rng, Numbers::from_words(words));
            pairs.push(step(&near, &[(number, last + (1 << 32))]));
            pairs.push(Pair { near: near.mem, broken: broken.mem });
        }
    }
    pairs
}

fn length(rng: &Rng) -> Vec<Pair> {
    let numbers = small(rng);
    let needed = numbers.length();
    let mut near = worlds::random(rng, numbers).mem;
    near.truncate(needed);
    let cut = |words: usize| Pair { broken: near[..words].to_vec(), near: near.clone() };
    vec![cut(needed - 1), cut(rng.below(needed)), cut(HEAD), cut(HEAD - 1), cut(4), cut(0)]
}
