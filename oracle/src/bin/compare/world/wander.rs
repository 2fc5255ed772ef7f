//! Random worlds, and random calls of their spaces: tokens of entries that are there, stale ones, ids that are registered
//! or recycled, and those of a pool.

use std::ops::Range;

use judge::layout::*;
use judge::rng::Rng;
use judge::table;

use super::{Both, SpaceCall, Words};

/// Where new tokens come from.
pub type Pool<'a> = &'a dyn Fn(&Rng) -> u64;

const READS: [SpaceCall; 12] = [
    SpaceCall::Used,
    SpaceCall::Quota,
    SpaceCall::TableCapacity,
    SpaceCall::Generation,
    SpaceCall::Stats,
    SpaceCall::Lookup,
    SpaceCall::Lookup,
    SpaceCall::LookupEntry,
    SpaceCall::CheckRights,
    SpaceCall::CheckRights,
    SpaceCall::GetEntry,
    SpaceCall::NthEntry,
];
const WHOLE: [SpaceCall; 6] = [
    SpaceCall::IncrementGeneration,
    SpaceCall::Clear,
    SpaceCall::RevokeAll,
    SpaceCall::Copy,
    SpaceCall::Copy,
    SpaceCall::AllocCapId,
];
const MORE: [SpaceCall; 4] = [SpaceCall::Insert, SpaceCall::Insert, SpaceCall::Insert, SpaceCall::CreateCapability];
const LESS: [SpaceCall; 4] = [SpaceCall::Remove, SpaceCall::Remove, SpaceCall::Remove, SpaceCall::Revoke];

/// Some spaces, of at most so many entries each.
pub fn some_numbers(rng: &Rng, m: usize) -> Numbers {
    Numbers { s: rng.between(1, 5), m, r: rng.between(1, 40), v: rng.between(1, 8), p: rng.between(1, 2) }
}

/// Any id, with anything above it.
pub fn any_token(rng: &Rng) -> u64 {
    if rng.once_in(4) {
        rng.limit() ^ rng.word() << 48
    } else {
        rng.word()
    }
}

/// A token of the id, of any generation, type and flags.
pub fn some_token_of(rng: &Rng, id: u64) -> u64 {
    rng.word() << 48 | id
}

/// Sets hits, misses, uses and generation of a space just below where they wrap.
pub fn set_counters(rng: &Rng, space: &mut [u64]) {
    space[GENERATION] = rng.between(253, 255) as u64;
    space[HITS] = u64::MAX - rng.word() % 4;
    space[HITS + 1] = u64::MAX - rng.word() % 4;
    for slot in 0..space[SLOTS] as usize {
        space[table::slot_at(slot) + 2] = u64::MAX - rng.word() % 4;
    }
}

impl Both<'_> {
    /// So many calls, in stretches in which entries come or leave more often.
    pub fn wander(&mut self, rng: &Rng, calls: usize, pool: Pool) {
        let mut growth = 6;
        for n in 1..=calls {
            if n % 64 == 0 {
                growth = rng.below(9);
            }
            let call = match rng.below(32) {
                0 => rng.pick(&WHOLE),
                1..=14 => rng.pick(&READS),
                _ if rng.below(8) < growth => rng.pick(&MORE),
                _ => rng.pick(&LESS),
            };
            self.call_some(rng, call, rng.below(self.numbers.s), pool);
        }
    }

    /// One call of space `s`.
    pub fn call_some(&mut self, rng: &Rng, call: SpaceCall, s: usize, pool: Pool) {
        self.call((call, self.some_words(rng, call, s, pool)));
    }

    /// Words for a call of space `s`.
    pub fn some_words(&self, rng: &Rng, call: SpaceCall, s: usize, pool: Pool) -> Words {
        let at = s as u64;
        match call {
            SpaceCall::Insert => [at, self.some_new(rng, s, pool), rng.word(), rng.word() >> 32],
            SpaceCall::Lookup | SpaceCall::LookupEntry | SpaceCall::Remove => [at, self.some_token(rng, s, pool), 0, 0],
            SpaceCall::CheckRights => [at, self.some_token(rng, s, pool), rng.word() & rng.word() & 0x8000_00FF, 0],
            SpaceCall::GetEntry | SpaceCall::Revoke => [at, id_of(self.some_token(rng, s, pool)), 0, 0],
            SpaceCall::NthEntry => [at, rng.word() % (self.mem[self.numbers.space(s)][LIVE] + 2), 0, 0],
            SpaceCall::Copy => [at, rng.below(self.numbers.s) as u64, 0, 0],
            SpaceCall::CreateCapability => [at, rng.word() >> 32, rng.word(), 0],
            SpaceCall::AllocCapId => [0; 4],
            _ => [at, 0, 0, 0],
        }
    }

    /// A token that is to come: mostly of an id that the space has not.
    fn some_new(&self, rng: &Rng, s: usize, pool: Pool) -> u64 {
        match rng.below(8) {
            0 => self.stale(rng, s),
            1 => self.live(rng, rng.below(self.numbers.s)),
            2 | 3 => self.known(rng),
            _ => None,
        }
        .unwrap_or_else(|| pool(rng))
    }

    /// A token that is looked for: mostly of an entry that the space has.
    fn some_token(&self, rng: &Rng, s: usize, pool: Pool) -> u64 {
        match rng.below(8) {
            0 => self.stale(rng, s),
            1 => self.live(rng, rng.below(self.numbers.s)),
            2 => None,
            _ => self.live(rng, s),
        }
        .unwrap_or_else(|| pool(rng))
    }

    /// The token of some entry of a space, if it has one.
    pub fn live(&self, rng: &Rng, s: usize) -> Option<u64> {
        let space = &self.mem[self.numbers.space(s)];
        let slots = space[SLOTS] as usize;
        let first = rng.below(slots.max(1));
        let full = (first..slots).chain(0..first).find(|&slot| table::kind(space, slot) == KIND_FULL)?;
        Some(space[table::slot_at(full)])
    }

    /// The same of another generation, type or flags.
    pub fn stale(&self, rng: &Rng, s: usize) -> Option<u64> {
        self.live(rng, s).map(|token| token ^ 1 << rng.between(48, 63))
    }

    /// A token of a registered or a recycled id, if there is one.
    pub fn known(&self, rng: &Rng) -> Option<u64> {
        let part = |part: Range<usize>, count: usize| &self.mem[part][..self.mem[count] as usize];
        let ids = match rng.below(3) {
            0 => part(self.numbers.recycled(), RECYCLED),
            _ => part(self.numbers.ids(), REGISTERED),
        };
        (!ids.is_empty()).then(|| some_token_of(rng, rng.pick(ids)))
    }
}
