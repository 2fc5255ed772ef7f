//! Cases of the rules on a space and its table.

use super::{entry, small, step, Pair};
use crate::layout::*;
use crate::rng::Rng;
use crate::table::{self, Entry};
use crate::worlds::{self, World};

/// A world in which no id has holders, with a space whose table is empty.
fn with_empty_space(rng: &Rng, numbers: Numbers) -> (World, usize) {
    let mut world = worlds::random(rng, numbers);
    for place in numbers.states() {
        world.mem[place] %= HOLDER;
    }
    let i = rng.below(numbers.s);
    table::clear(world.space(i));
    let start = numbers.space(i).start;
    (world, start)
}

fn space_at(world: &mut World, start: usize) -> &mut [u64] {
    let width = world.numbers.space(0).len();
    &mut world.mem[start..start + width]
}

/// So many entries, of ids in a row.
fn entries(rng: &Rng, count: usize) -> Vec<Entry> {
    let id = rng.word() >> 17;
    (0..count as u64).map(|n| entry(rng, id + n)).collect()
}

/// Two ids that walk from one home in a table of so many slots.
fn two_of_one_home(rng: &Rng, slots: usize) -> [u64; 2] {
    let one = id_of(rng.word());
    loop {
        let other = id_of(rng.word());
        if other != one && home(other, slots) == home(one, slots) {
            return [one, other];
        }
    }
}

pub fn quota(rng: &Rng) -> Vec<Pair> {
    let mut world = worlds::random(rng, small(rng));
    let place = world.numbers.space(rng.below(world.numbers.s)).start + QUOTA;
    let most = world.numbers.m as u64;
    world.mem[place] = most;
    vec![step(&world, &[(place, most + 1)]), step(&world, &[(place, u64::MAX)])]
}

pub fn generation(rng: &Rng) -> Vec<Pair> {
    let mut world = worlds::random(rng, small(rng));
    let place = world.numbers.space(rng.below(world.numbers.s)).start + GENERATION;
    world.mem[place] = 255;
    vec![step(&world, &[(place, 256)]), step(&world, &[(place, u64::MAX)])]
}

pub fn slots(rng: &Rng) -> Vec<Pair> {
    let (mut world, start) = with_empty_space(rng, Numbers { m: 9, ..small(rng) });
    let capacity = world.numbers.capacity();
    let entry = entries(rng, 1);
    let mut laid = |slots: usize| {
        table::lay(space_at(&mut world, start), slots as u64, &entry);
        world.mem.clone()
    };
    let mut pairs = Vec::new();
    for (near, broken) in [(8, 7), (8, 9), (8, 4), (8, 2), (16, 15), (16, 17), (capacity, capacity - 1), (16, 24)] {
        pairs.push(Pair { near: laid(near), broken: laid(broken) });
    }
    pairs.push(slots_past_the_space(rng));
    pairs
}

/// A table of 2C slots, over the words of a registry that is not in use.
fn slots_past_the_space(rng: &Rng) -> Pair {
    let numbers = Numbers { s: 1, m: rng.between(1, 4), r: 64, v: 2, p: 1 };
    let before = worlds::garbage(rng, numbers.length());
    let mut world = worlds::opened_at_random(rng, before, numbers);
    let entry = entries(rng, 1);
    let start = numbers.space(0).start;
    table::lay(space_at(&mut world, start), 8, &entry);
    let near = world.mem.clone();
    table::lay(&mut world.mem[start..], 16, &entry);
    Pair { near, broken: world.mem }
}

pub fn no_live(rng: &Rng) -> Vec<Pair> {
    let (mut world, start) = with_empty_space(rng, small(rng));
    let space = space_at(&mut world, start);
    table::lay(space, 8, &entries(rng, 1));
    let slot = table::full_slots(space).next().unwrap();
    let tag = start + table::slot_at(slot) + TAG;
    let no_live = (start + LIVE, 0);
    vec![
        step(&world, &[no_live, (tag, KIND_EMPTY << 32)]),
        step(&world, &[no_live, (tag, KIND_REMOVED << 32), (start + REMOVED, 1)]),
    ]
}

pub fn live(rng: &Rng) -> Vec<Pair> {
    // With M up to 5, a table has room for M + 1.
    let m = rng.between(1, 5);
    let (mut world, start) = with_empty_space(rng, Numbers { m, ..small(rng) });
    let entries = entries(rng, m + 1);
    table::lay(space_at(&mut world, start), 8, &entries[..m]);
    let near = world.mem.clone();
    table::lay(space_at(&mut world, start), 8, &entries);
    vec![Pair { near, broken: world.mem }]
}

pub fn load(rng: &Rng) -> Vec<Pair> {
    let (mut world, start) = with_empty_space(rng, Numbers { m: rng.between(5, 9), ..small(rng) });
    let slots = rng.pick(&[8, 16]);
    let space = space_at(&mut world, start);
    table::lay(space, slots, &entries(rng, rng.between(1, 5)));
    while 4 * (space[LIVE] + space[REMOVED]) < 3 * slots {
        mark_removed(space);
    }
    let near = world.mem.clone();
    mark_removed(space_at(&mut world, start));
    let over = world.mem.clone();
    // No empty slot is left.
    while world.mem[start + LIVE] + world.mem[start + REMOVED] < slots {
        mark_removed(space_at(&mut world, start));
    }
    vec![Pair { near: near.clone(), broken: over }, Pair { near, broken: world.mem }]
}

/// Makes the first empty slot a removed one.
fn mark_removed(space: &mut [u64]) {
    let slot = first_empty(space);
    table::set_kind(space, slot, KIND_REMOVED);
    space[REMOVED] += 1;
}

fn first_empty(space: &[u64]) -> usize {
    (0..).find(|&slot| table::kind(space, slot) == KIND_EMPTY).unwrap()
}

pub fn kind(rng: &Rng) -> Vec<Pair> {
    let (mut world, start) = with_empty_space(rng, small(rng));
    let space = space_at(&mut world, start);
    let [one, [token, object, uses, _]] = entries(rng, 2).try_into().unwrap();
    table::lay(space, 8, &[one, [token, object, uses, u32::MAX.into()]]);
    let slot = table::full_slots(space).find(|&slot| table::entry_in(space, slot)[0] == token).unwrap();
    let full = start + table::slot_at(slot) + TAG;
    let empty = start + table::slot_at(first_empty(space)) + TAG;
    vec![
        step(&world, &[(full, 3 << 32), (start + LIVE, 1)]),
        step(&world, &[(empty, 3 << 32)]),
        step(&world, &[(empty, u64::MAX)]),
    ]
}

pub fn counts(rng: &Rng) -> Vec<Pair> {
    let (mut world, start) = with_empty_space(rng, Numbers { m: rng.between(5, 9), ..small(rng) });
    let space = space_at(&mut world, start);
    table::lay(space, 8, &entries(rng, rng.between(2, 4)));
    mark_removed(space);
    // Slots past the table's are not counted.
    if space.len() > table::slot_at(9) {
        table::set_kind(space, 8, rng.pick(&[KIND_REMOVED, KIND_FULL]));
    }
    let (live, removed) = (space[LIVE], space[REMOVED]);
    vec![
        step(&world, &[(start + LIVE, live - 1)]),
        step(&world, &[(start + LIVE, live + 1)]),
        step(&world, &[(start + REMOVED, removed - 1)]),
        step(&world, &[(start + REMOVED, removed + 1)]),
        step(&world, &[(start + LIVE, live - 1), (start + REMOVED, removed + 1)]),
    ]
}

pub fn entries_differ(rng: &Rng) -> Vec<Pair> {
    let (mut world, start) = with_empty_space(rng, small(rng));
    let id = id_of(rng.word());
    let mut laid = |other: u64| {
        table::lay(space_at(&mut world, start), 8, &[entry(rng, id), entry(rng, other)]);
        world.mem.clone()
    };
    let near = [laid(id ^ 1), laid(id ^ (1 << 47))];
    near.map(|near| Pair { near, broken: laid(id) }).into()
}

pub fn met(rng: &Rng) -> Vec<Pair> {
    let (mut world, start) = with_empty_space(rng, small(rng));
    let space = space_at(&mut world, start);
    let ids = two_of_one_home(rng, 8);
    table::lay(space, 8, &ids.map(|id| entry(rng, id)));
    let slot = home(ids[0], 8);
    let tag = start + table::slot_at(slot) + TAG;
    let one_live = (start + LIVE, 1);
    let behind_an_entry = step(&world, &[one_live, (tag, KIND_EMPTY << 32)]);
    table::remove(space_at(&mut world, start), slot);
    let behind_a_mark = step(&world, &[(start + REMOVED, 0), (tag, KIND_EMPTY << 32)]);
    vec![behind_an_entry, behind_a_mark, behind_all_marks(rng)]
}

/// An entry behind as many marks as a table may have, one of which then stands past the entry instead.
fn behind_all_marks(rng: &Rng) -> Pair {
    let (mut world, start) = with_empty_space(rng, small(rng));
    let space = space_at(&mut world, start);
    let entry = entry(rng, id_of(rng.word()));
    let slot_up = |up: usize| (home(id_of(entry[0]), 8) + up) % 8;
    table::lay(space, 8, &[]);
    (0..5).for_each(|up| table::set_kind(space, slot_up(up), KIND_REMOVED));
    table::put(space, slot_up(5), entry);
    (space[LIVE], space[REMOVED]) = (1, 5);
    let near = world.mem.clone();
    let space = space_at(&mut world, start);
    table::set_kind(space, slot_up(rng.below(5)), KIND_EMPTY);
    table::set_kind(space, slot_up(6), KIND_REMOVED);
    Pair { near, broken: world.mem }
}
