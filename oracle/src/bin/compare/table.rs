//! Random histories of one table on both sides. After every operation the two are compared whole: the
//! answer, the visits or the moved entries, the slots, live entries and removed marks, and slot for slot;
//! and the port's is sound. Then damaged tables, against the rules of soundness written out.

use std::ops::RangeInclusive;
use std::sync::atomic::AtomicU64;

use oracle::arguments::Random;
use oracle::cap::object::ObjectRef;
use oracle::cap::space::{BareTable, CapabilityEntry, EntryView};
use oracle::cap::token::{CapabilityToken, Rights};
use oracle::port_table::{Ended, PortTable};
use oracle::{Tally, Test};

use crate::kinds;
use crate::sound::is_sound;

const SEED: u64 = 0x5354_4F4E_4553_5052;

const LAST_ID: u64 = (1 << 48) - 1;

type Kind = fn(&mut Test, &mut Random);

const KINDS: [(&str, Kind); 19] = [
    ("random small ids", small_ids),
    ("sequential ids", sequential_ids),
    ("random ids", random_ids),
    ("one home in 8 slots", |t, r| one_home(t, r, 8)),
    ("one home in 16 slots", |t, r| one_home(t, r, 16)),
    ("one home in 32 slots", |t, r| one_home(t, r, 32)),
    ("one home in 64 slots", |t, r| one_home(t, r, 64)),
    ("one home in 128 slots", |t, r| one_home(t, r, 128)),
    ("one home in 256 slots", |t, r| one_home(t, r, 256)),
    ("one home in 512 slots", |t, r| one_home(t, r, 512)),
    ("churn at constant size, up to 6 live", |t, r| churn(t, r, 1..=6)),
    ("churn at constant size, up to 256 live", |t, r| churn(t, r, 7..=256)),
    ("growth to 512 slots and back to 0", growth),
    ("ids 0, 2^48 - 1 and around", limits),
    ("one id, any generation, type and flags", same_ids),
    ("copies onto another table and onto itself", copies),
    ("the n-th entry for all n", all_entries),
    ("absent ids", absent_ids),
    ("soundness of damaged tables", damaged),
];

pub fn compare(tally: &mut Tally) {
    println!("space.rs, the table: random histories, each from seed {SEED:#x}");
    for (name, kind) in KINDS {
        kinds::test(tally, name, |test| kind(test, &mut Random::new(SEED)));
    }
}

// ---- One table on both sides

struct Both {
    original: BareTable,
    port: PortTable,
    /// The ids in the table.
    live: Vec<u64>,
    most: usize,
}

/// What an operation answered on one side: a slot, an entry, visits or moved entries.
#[derive(Debug, Clone, Copy, PartialEq, Eq)]
enum Answer {
    Found(Option<usize>, usize),
    Entry(Option<EntryView>),
    Moved(usize),
}

impl Both {
    /// A table for this many live entries.
    fn new(most: usize) -> Self {
        Self { original: BareTable::new(), port: PortTable::new(most), live: Vec::new(), most }
    }

    /// One operation was done on both sides: the answers are the same, and so are the tables.
    fn same(&self, test: &mut Test, operation: (&str, u64), expected: Answer, answered: Answer) {
        let (original, port) = (&self.original, &self.port);
        let slots = original.counts()[0].min(port.counts()[0]);
        let differs = (0..slots).find(|&i| Some(original.slot(i)) != port.slot(i));
        let good = port.is_sound() && port.behind_is_kept();
        let expected = (expected, original.counts(), differs.map(|i| (i, Some(original.slot(i)))), true);
        let answered = (answered, port.counts(), differs.map(|i| (i, port.slot(i))), good);
        test.same(operation, expected, answered);
        kinds::end_if_apart(test);
    }

    fn find(&self, test: &mut Test, id: u64) {
        let expected = Answer::Found(self.original.find(id), self.original.visits(id));
        let Ended { at, visits } = self.port.find(id);
        let slot = (at != usize::MAX).then_some(at);
        self.same(test, ("find", id), expected, Answer::Found(slot, visits));
    }

    fn get(&self, test: &mut Test, id: u64) {
        let expected = self.original.get(id).map(CapabilityEntry::view);
        self.same(test, ("get", id), Answer::Entry(expected), Answer::Entry(self.port.get(id)));
    }

    fn nth(&self, test: &mut Test, n: usize) {
        let expected = self.original.entries().get(n).copied();
        self.same(test, ("nth", n as u64), Answer::Entry(expected), Answer::Entry(self.port.nth(n)));
    }

    /// Inserts an entry of this token, whose id is absent, with a random object, rights and uses.
    fn insert(&mut self, test: &mut Test, random: &mut Random, token: u64) {
        let (object, rights, uses) = (random.up_to_width(64), random.up_to_width(32) as u32, random.up_to_width(64));
        let expected = self.original.insert_new(CapabilityEntry {
            usage_count: AtomicU64::new(uses),
            ..CapabilityEntry::new(
                CapabilityToken::from_u64(token),
                ObjectRef { identity: object, valid: true, type_code: 0 },
                Rights::new(rights),
            )
        });
        let moved = self.port.insert_new(EntryView { token, object, rights, uses });
        self.live.push(token & LAST_ID);
        self.same(test, ("insert", token), Answer::Moved(expected), Answer::Moved(moved));
    }

    /// Removes the entry of the `n`-th id of `live`.
    fn remove(&mut self, test: &mut Test, n: usize) {
        let id = self.live.swap_remove(n);
        let i = self.original.find(id).unwrap();
        let expected = self.original.remove_at(i).as_ref().map(CapabilityEntry::view);
        let entry = self.port.remove_at(i);
        self.same(test, ("remove", id), Answer::Entry(expected), Answer::Entry(entry));
    }

    /// Becomes a copy of `source`, or of itself.
    fn copy(&mut self, test: &mut Test, source: Option<&mut Self>) {
        let (expected, moved) = match source {
            Some(source) => {
                self.live.clone_from(&source.live);
                self.original.copy_from(&mut source.original);
                (source.original.moved_by_copy(), self.port.copy_from(Some(&source.port)))
            }
            None => {
                let expected = self.original.moved_by_copy();
                self.original.copy_from_itself();
                (expected, self.port.copy_from(None))
            }
        };
        self.same(test, ("copy", 0), Answer::Moved(expected), Answer::Moved(moved));
    }

    fn is_full(&self) -> bool {
        self.live.len() == self.most
    }

    /// One random operation over the tokens of `pool`. `growth` of 8 writes insert, the others remove.
    fn step(&mut self, test: &mut Test, random: &mut Random, growth: u64, pool: impl Fn(&mut Random) -> u64) {
        let token = pool(random);
        let id = token & LAST_ID;
        let writes = random.below(4) != 0;
        if writes && random.below(8) < growth {
            if !self.is_full() && !self.live.contains(&id) {
                return self.insert(test, random, token);
            }
        } else if writes && !self.live.is_empty() {
            return self.remove(test, random.below(self.live.len() as u64) as usize);
        }
        match random.below(3) {
            0 => self.find(test, id),
            1 => self.get(test, id),
            _ => self.nth(test, random.below(self.live.len() as u64 + 2) as usize),
        }
    }

    /// A history over the tokens of `pool`: it grows and shrinks in turn, `steps` operations in all.
    fn wander(&mut self, test: &mut Test, random: &mut Random, steps: usize, pool: impl Fn(&mut Random) -> u64) {
        let mut growth = 6;
        for _ in 0..steps {
            if self.is_full() {
                growth = random.below(4);
            } else if self.live.is_empty() {
                growth = 4 + random.below(4);
            }
            self.step(test, random, growth, &pool);
        }
    }
}

// ---- The kinds of histories

fn small_ids(test: &mut Test, random: &mut Random) {
    for most in 1..=40 {
        Both::new(most).wander(test, random, 2_500, |r| r.below(most as u64 + 8));
    }
}

/// Ids as the allocator gives them, one after the other; half of the time the oldest leaves.
fn sequential_ids(test: &mut Test, random: &mut Random) {
    for round in 0..100 {
        let mut both = Both::new(1 + random.below(64) as usize);
        let first = if round % 2 == 0 { 1 } else { 1 + random.below(1 << 47) };
        for id in first..first + 600 {
            if both.is_full() {
                let n = if random.below(2) == 0 { 0 } else { random.below(both.live.len() as u64) };
                both.remove(test, n as usize);
            }
            both.insert(test, random, id);
            both.find(test, id - random.below(id.min(64)));
        }
    }
}

fn random_ids(test: &mut Test, random: &mut Random) {
    for most in [1, 2, 4, 8, 16, 32, 64, 128, 256] {
        let pool: Vec<u64> = (0..3 * most).map(|_| random.up_to_width(64)).collect();
        Both::new(most).wander(test, random, 10_000, |r| pick(r, &pool));
    }
}

/// Ids that share their home in this many slots, half of the time the last slot, so that walks go around.
fn one_home(test: &mut Test, random: &mut Random, slots: usize) {
    let most = (3 * slots / 4).min(256);
    for round in 0..4 {
        let home = if round % 2 == 0 { slots - 1 } else { random.below(slots as u64) as usize };
        let pool = ids_at(home, slots, random.below(1 << 40), 3 * slots / 2);
        let mut both = Both::new(most);
        both.wander(test, random, 10_000, |r| pick(r, &pool));
    }
}

/// As many ids with this home in this many slots, from `first` on.
pub fn ids_at(home: usize, slots: usize, first: u64, count: usize) -> Vec<u64> {
    let spread = |id: u64| (id.wrapping_mul(0x9E37_79B9_7F4A_7C15) >> 32) as usize;
    (first..).filter(|&id| spread(id) % slots == home).take(count).collect()
}

/// One entry leaves and another comes, so that removed marks gather until a rebuild clears them.
fn churn(test: &mut Test, random: &mut Random, sizes: RangeInclusive<usize>) {
    let rounds = 60_000 / (sizes.end() - sizes.start() + 1);
    for size in sizes {
        let mut both = Both::new(size);
        let mut next = random.below(1 << 40);
        for _ in 0..size {
            next += 1 + random.below(3);
            both.insert(test, random, next);
        }
        for _ in 0..rounds {
            both.remove(test, random.below(size as u64) as usize);
            next += 1 + random.below(3);
            both.insert(test, random, next);
            both.find(test, next - random.below(8).min(next));
        }
    }
}

/// 256 entries come; they leave oldest first, newest first or at random.
fn growth(test: &mut Test, random: &mut Random) {
    for round in 0..60 {
        let mut both = Both::new(256);
        let mut pool: Vec<u64> = (0..256).map(|_| random.below(LAST_ID + 1)).collect();
        pool.sort_unstable();
        pool.dedup();
        for &token in &pool {
            both.insert(test, random, token);
            both.get(test, pick(random, &pool));
        }
        while let Some(last) = both.live.len().checked_sub(1) {
            let n = [0, last, random.below(last as u64 + 1) as usize][round % 3];
            both.remove(test, n);
            both.find(test, pick(random, &pool));
        }
        both.insert(test, random, pool[0]);
    }
}

fn limits(test: &mut Test, random: &mut Random) {
    let mut pool: Vec<u64> = (0..48).map(|k| 1 << k).flat_map(|bit: u64| [bit - 1, bit, LAST_ID - bit]).collect();
    pool.push(LAST_ID);
    for most in [1, 2, 3, 6, 7, 12, 24, 48, 96] {
        Both::new(most).wander(test, random, 6_000, |r| pick(r, &pool));
        Both::new(most).wander(test, random, 3_000, |r| pick(r, &[0, LAST_ID]));
    }
}

/// Tokens of few ids that differ in all else; the whole token is searched for as an id too.
fn same_ids(test: &mut Test, random: &mut Random) {
    for ids in 1..=12 {
        let mut both = Both::new(8);
        for _ in 0..800 {
            let token = |r: &mut Random| r.below(ids) | r.below(1 << 16) << 48;
            both.wander(test, random, 6, token);
            both.find(test, token(random));
            both.get(test, token(random));
        }
    }
}

fn copies(test: &mut Test, random: &mut Random) {
    for most in [1, 3, 6, 7, 12, 24, 48, 96, 192, 256] {
        let (mut a, mut b) = (Both::new(most), Both::new(most));
        for round in 0..120 {
            let pool = |r: &mut Random| r.below(4 * most as u64);
            a.wander(test, random, 2 * most + 8, pool);
            b.wander(test, random, 2 * most + 8, pool);
            match round % 4 {
                0 => b.copy(test, Some(&mut a)),
                1 => a.copy(test, None),
                2 => a.copy(test, Some(&mut b)),
                _ => Both::new(most).copy(test, Some(&mut b)),
            }
        }
    }
}

fn all_entries(test: &mut Test, random: &mut Random) {
    for most in [1, 2, 4, 6, 12, 24, 48] {
        let mut both = Both::new(most);
        for _ in 0..30_000 / (most + 10) {
            both.wander(test, random, 4, |r| r.below(2 * most as u64));
            for n in 0..=both.live.len() + 1 {
                both.nth(test, n);
            }
            both.nth(test, usize::MAX);
        }
    }
}

/// Ids that are absent, of any width, while the table changes: each search ends at an empty slot.
fn absent_ids(test: &mut Test, random: &mut Random) {
    for most in [0, 1, 2, 4, 6, 12, 24, 48, 96, 192, 256] {
        let mut both = Both::new(most);
        for _ in 0..700 {
            both.wander(test, random, 6, |r| r.below(1 << 20) << 1);
            for _ in 0..6 {
                both.find(test, random.up_to_width(64) | 1);
            }
        }
    }
}

/// Some words or numbers of a table are changed, one after the other: the port's test answers as the rules do.
fn damaged(test: &mut Test, random: &mut Random) {
    for most in [1, 2, 3, 6, 7, 12, 24, 48, 96, 192, 256] {
        for _ in 0..40_000 / (most + 80) {
            let mut both = Both::new(most);
            let steps = random.below(2 * most as u64 + 20) as usize;
            both.wander(test, random, steps, |r| r.below(2 * most as u64));
            for _ in 0..12 {
                let (words, numbers) = both.port.parts();
                damage(random, words, numbers);
                let expected = is_sound(words, numbers, most);
                test.same(("is_sound", *numbers), expected, both.port.is_sound());
            }
        }
    }
}

/// Another kind or token in a slot, or another number; mostly the counts then agree with the slots.
fn damage(random: &mut Random, words: &mut [u64], numbers: &mut [usize; 4]) {
    let slots = numbers[0].clamp(1, words.len() / 4);
    let slot = random.below(slots as u64) as usize;
    let (full, removed) = (2 << 32, 1 << 32);
    match random.below(12) {
        0 => words[4 * slot + 3] = random.below(4) << 32,
        1 => words[4 * slot] ^= 1 << random.below(64),
        2 => words[4 * slot] = words[4 * random.below(slots as u64) as usize],
        3 => return numbers[1] = numbers[1].wrapping_add_signed(random.below(3) as isize - 1),
        4 => return numbers[2] = numbers[2].wrapping_add_signed(random.below(3) as isize - 1),
        5 => numbers[0] = [0, 4, 8, 12, 16, 512, 1024, usize::MAX][random.below(8) as usize],
        6 | 7 => words[4 * slot + 3] = removed,
        8 => (0..slots).for_each(|i| words[4 * i + 3] = removed),
        // An entry at home.
        9 | 10 => [words[4 * slot], words[4 * slot + 3]] = [ids_at(slot, slots, random.below(1 << 40), 1)[0], full],
        // An object or the uses, which no rule speaks of.
        _ => words[4 * slot + 1 + random.below(2) as usize] = random.word(),
    }
    let kinds = |kind: u64| (0..slots).filter(|&i| words[4 * i + 3] >> 32 == kind).count();
    (numbers[1], numbers[2]) = (kinds(2), kinds(1));
}

fn pick(random: &mut Random, pool: &[u64]) -> u64 {
    pool[random.below(pool.len() as u64) as usize]
}
