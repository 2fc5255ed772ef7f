//! Sound memories, made by opening and by hand. Every word that is not in use holds garbage.

use std::collections::{HashMap, HashSet};

use crate::layout::*;
use crate::rng::Rng;
use crate::table::{self, Entry};

pub struct World {
    pub numbers: Numbers,
    pub mem: Vec<u64>,
}

/// How much of each part is in use: the entries of each space, the notices of each queue.
struct Amounts {
    live: Vec<usize>,
    registered: usize,
    recycled: usize,
    logged: usize,
    notices: Vec<usize>,
}

/// A world opened on memory that held `before`, which is long enough: the counts are 0, all else stays as it was.
pub fn opened(mut before: Vec<u64>, numbers: Numbers, quotas: &[u64]) -> World {
    before[..5].copy_from_slice(&numbers.words());
    before[NEXT..=LOGGED].fill(0);
    before[NEXT] = 1;
    for (i, &quota) in quotas.iter().enumerate() {
        let head = numbers.space(i).start;
        before[head..head + SPACE_HEAD].fill(0);
        before[head + QUOTA] = quota;
    }
    for j in 0..numbers.p {
        before[numbers.queue(j).start + LENGTH] = 0;
    }
    World { numbers, mem: before }
}

/// A world each part of which is in use to a fraction of its capacity.
pub fn filled(seed: u64, numbers: Numbers, fraction: f64) -> World {
    let rng = &Rng::new(seed);
    let part = |capacity: usize| (capacity as f64 * fraction).round() as usize;
    let amounts = Amounts {
        live: vec![part(numbers.m); numbers.s],
        registered: part(numbers.r),
        recycled: part(numbers.r + 1),
        logged: part(numbers.v),
        notices: vec![part(NOTICES); numbers.p],
    };
    let mem = (0..numbers.length()).map(|_| rng.word()).collect();
    fill(rng, opened_at_random(rng, mem, numbers), amounts)
}

/// A world of which each part is empty, full or in between, with or without words past its end.
pub fn random(rng: &Rng, numbers: Numbers) -> World {
    let amounts = Amounts {
        live: (0..numbers.s).map(|_| amount(rng, numbers.m)).collect(),
        registered: amount(rng, numbers.r),
        recycled: amount(rng, numbers.r + 1),
        logged: amount(rng, numbers.v),
        notices: (0..numbers.p).map(|_| amount(rng, NOTICES)).collect(),
    };
    let past = rng.pick(&[0, 0, 0, 1, 2, 100, 1000]);
    let mem = garbage(rng, numbers.length() + past);
    fill(rng, opened_at_random(rng, mem, numbers), amounts)
}

fn amount(rng: &Rng, capacity: usize) -> usize {
    match rng.below(6) {
        0 => 0,
        1 => capacity.min(1),
        2 | 3 => capacity,
        _ => rng.below(capacity + 1),
    }
}

/// What memory held before: zeros, small words, words at limits, or any words.
pub fn garbage(rng: &Rng, words: usize) -> Vec<u64> {
    match rng.below(5) {
        0 => vec![0; words],
        1 => (0..words).map(|_| rng.word() % 4).collect(),
        2 => (0..words).map(|_| rng.limit()).collect(),
        _ => (0..words).map(|_| rng.word()).collect(),
    }
}

pub fn opened_at_random(rng: &Rng, before: Vec<u64>, numbers: Numbers) -> World {
    let quotas: Vec<u64> = (0..numbers.s).map(|_| amount(rng, numbers.m) as u64).collect();
    opened(before, numbers, &quotas)
}

fn fill(rng: &Rng, mut world: World, amounts: Amounts) -> World {
    let (next, mut ids) = some_ids(rng, amounts.registered + amounts.recycled);
    let mut recycled = ids.split_off(amounts.registered);
    recycled.sort_unstable();
    world.mem[NEXT] = next;
    world.set_recycled(&recycled);
    for (i, &live) in amounts.live.iter().enumerate() {
        fill_space(rng, world.space(i), live, &ids);
    }
    fill_registry(rng, &mut world, &ids);
    fill_log(rng, &mut world, amounts.logged, &ids);
    fill_queues(rng, &mut world, &amounts.notices);
    // The epoch and the four statistics have no rule.
    world.mem[EPOCH..REGISTERED].fill_with(|| rng.word());
    world
}

/// A next id, and so many different ids below it, in no order: nearly all that there are, or spread.
fn some_ids(rng: &Rng, count: usize) -> (u64, Vec<u64>) {
    if rng.once_in(2) {
        let next = (count + 1 + rng.below(3)) as u64;
        let mut ids: Vec<u64> = (1..next).collect();
        rng.shuffle(&mut ids);
        ids.truncate(count);
        return (next, ids);
    }
    let next = rng.pick(&[ID_END, ID_END - 1, 1 << 32, 1 << 20]);
    (next, different(count, || 1 + rng.word() % (next - 1)))
}

/// So many different words of those that `make` gives.
fn different(count: usize, mut make: impl FnMut() -> u64) -> Vec<u64> {
    let mut seen = HashSet::new();
    let mut words = Vec::new();
    while words.len() < count {
        let word = make();
        if seen.insert(word) {
            words.push(word);
        }
    }
    words
}

/// Inserts and removes until `live` entries remain, then changes some for others, which leaves removed marks.
fn fill_space(rng: &Rng, space: &mut [u64], live: usize, ids: &[u64]) {
    space[GENERATION] = rng.word() % 256;
    // Hits, misses and the spare word have no rule.
    space[HITS..SLOTS].fill_with(|| rng.word());
    let mut held = HashSet::new();
    while held.len() < live {
        if !held.is_empty() && rng.once_in(5) {
            remove_one(rng, space, &mut held);
        } else {
            insert_one(rng, space, &mut held, ids);
        }
    }
    for _ in 0..rng.below(live / 2 + 1) {
        remove_one(rng, space, &mut held);
        insert_one(rng, space, &mut held, ids);
    }
}

fn remove_one(rng: &Rng, space: &mut [u64], held: &mut HashSet<u64>) {
    let slots = space[SLOTS] as usize;
    let mut slot = rng.below(slots);
    while table::kind(space, slot) != KIND_FULL {
        slot = rng.below(slots);
    }
    held.remove(&id_of(table::entry_in(space, slot)[0]));
    table::remove(space, slot);
}

fn insert_one(rng: &Rng, space: &mut [u64], held: &mut HashSet<u64>, ids: &[u64]) {
    let entry = loop {
        let entry = some_entry(rng, ids);
        if held.insert(id_of(entry[0])) {
            break entry;
        }
    };
    table::insert(space, entry);
}

/// An entry of a registered id or of a stray one, which may be any, 0 too.
fn some_entry(rng: &Rng, ids: &[u64]) -> Entry {
    let id = if !ids.is_empty() && !rng.once_in(4) { rng.pick(ids) } else { some_stray(rng) };
    [rng.word() << 48 | id, rng.word(), rng.word(), rng.word() >> 32]
}

fn some_stray(rng: &Rng) -> u64 {
    match rng.below(8) {
        0 => 0,
        1 => ID_END - 1,
        _ => id_of(rng.word()),
    }
}

fn fill_registry(rng: &Rng, world: &mut World, ids: &[u64]) {
    let spaces_with = world.spaces_with();
    let shape = Shape::some(rng, ids.len());
    let exact = rng.once_in(2);
    for &id in ids {
        let parent = shape.parent(rng, world);
        let most = spaces_with.get(&id).copied().unwrap_or(0);
        let holders = if exact { most } else { rng.word() % (most + 1) };
        let empty_list = rng.once_in(4);
        let revoked = parent.is_some_and(|parent| world.revoked(parent)) || rng.once_in(8);
        world.register(id, parent, u64::from(revoked) + LISTED * u64::from(empty_list) + HOLDER * holders);
    }
}

/// How places choose their parents.
enum Shape {
    NoParents,
    Chain,
    Star,
    Any,
    Late,
}

impl Shape {
    /// Of so many places; stars are the rule where a list can be full.
    fn some(rng: &Rng, places: usize) -> Shape {
        match rng.below(if places > MOST_CHILDREN { 10 } else { 5 }) {
            0 => Shape::NoParents,
            1 => Shape::Chain,
            2 => Shape::Any,
            3 => Shape::Late,
            _ => Shape::Star,
        }
    }

    /// The parent of the next place, if it has one.
    fn parent(&self, rng: &Rng, world: &World) -> Option<usize> {
        let places = world.mem[REGISTERED] as usize;
        if places == 0 {
            return None;
        }
        match self {
            Shape::NoParents => None,
            Shape::Chain => Some(places - 1),
            // Stars of 1,024 children each.
            Shape::Star => Some((places - 1) / MOST_CHILDREN * MOST_CHILDREN),
            _ if rng.once_in(10) => None,
            Shape::Any => Some(rng.below(places)),
            Shape::Late => Some(places - 1 - rng.below(places.min(5))),
        }
    }
}

fn fill_log(rng: &Rng, world: &mut World, logged: usize, ids: &[u64]) {
    let pairs = different(logged, || {
        let id = if !ids.is_empty() && rng.once_in(2) { rng.pick(ids) } else { some_stray(rng) };
        let generation = if rng.once_in(2) { rng.word() % 256 } else { 0 };
        generation << 48 | id
    });
    world.set_log(&pairs);
}

fn fill_queues(rng: &Rng, world: &mut World, notices: &[usize]) {
    let small = rng.once_in(2);
    let pids = different(notices.len(), || if small { rng.word() % 64 } else { rng.limit() ^ rng.word() });
    for (j, (&pid, &length)) in pids.iter().zip(notices).enumerate() {
        if length > 0 {
            world.set_queue(j, pid, rng.below(NOTICES), length);
        }
    }
}

impl World {
    pub fn space(&mut self, i: usize) -> &mut [u64] {
        &mut self.mem[self.numbers.space(i)]
    }

    /// How many spaces have an entry of an id.
    fn spaces_with(&mut self) -> HashMap<u64, u64> {
        let mut spaces_with = HashMap::new();
        for i in 0..self.numbers.s {
            let space = self.space(i);
            for slot in table::full_slots(space) {
                *spaces_with.entry(id_of(table::entry_in(space, slot)[0])).or_insert(0) += 1;
            }
        }
        spaces_with
    }

    pub fn revoked(&self, place: usize) -> bool {
        self.mem[self.numbers.states().start + place] & REVOKED != 0
    }

    /// Registers an id in the next place, whose object keeps what the memory held. A parent gets a list.
    pub fn register(&mut self, id: u64, parent: Option<usize>, state: u64) {
        let place = self.mem[REGISTERED] as usize;
        self.mem[REGISTERED] += 1;
        self.mem[self.numbers.ids().start + place] = id;
        self.mem[self.numbers.states().start + place] = state;
        self.mem[self.numbers.links().start + place] = parent.map_or(0, |parent| parent as u64 + 1);
        if let Some(parent) = parent {
            self.mem[self.numbers.states().start + parent] |= LISTED;
        }
    }

    pub fn set_recycled(&mut self, ids: &[u64]) {
        self.mem[RECYCLED] = ids.len() as u64;
        self.mem[self.numbers.recycled()][..ids.len()].copy_from_slice(ids);
    }

    pub fn set_log(&mut self, pairs: &[u64]) {
        self.mem[LOGGED] = pairs.len() as u64;
        self.mem[self.numbers.log()][..pairs.len()].copy_from_slice(pairs);
    }

    /// Makes a queue of so many notices, which keep what the memory held but for their reasons.
    pub fn set_queue(&mut self, j: usize, pid: u64, first: usize, length: usize) {
        let queue = &mut self.mem[self.numbers.queue(j)];
        queue[PID] = pid;
        queue[FIRST] = first as u64;
        queue[LENGTH] = length as u64;
        for n in 0..length {
            queue[reason_at(first, n)] %= REASONS;
        }
    }
}
