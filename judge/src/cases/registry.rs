//! Cases of the rules on registered and recycled ids, their holders and their derivation.

use super::{entry, small, step, Pair};
use crate::layout::*;
use crate::rng::Rng;
use crate::table;
use crate::worlds::{self, World};

/// A world with nothing registered or recycled.
fn with_empty_registry(rng: &Rng, numbers: Numbers) -> World {
    let mut world = worlds::random(rng, numbers);
    world.mem[NEXT] = 1;
    world.mem[REGISTERED] = 0;
    world.mem[RECYCLED] = 0;
    world
}

/// A world with the ids 1 to `count` registered, no parents, no holders, and all issued ids among them.
fn with_registered(rng: &Rng, numbers: Numbers, count: usize) -> World {
    let mut world = with_empty_registry(rng, numbers);
    world.mem[NEXT] = count as u64 + 1;
    (1..=count as u64).for_each(|id| world.register(id, None, 0));
    world
}

pub fn next(rng: &Rng) -> Vec<Pair> {
    let numbers = small(rng);
    let none = with_empty_registry(rng, numbers);
    let mut all = worlds::random(rng, numbers);
    all.mem[NEXT] = ID_END;
    vec![step(&none, &[(NEXT, 0)]), step(&all, &[(NEXT, ID_END + 1)]), step(&all, &[(NEXT, u64::MAX)])]
}

pub fn registered(rng: &Rng) -> Vec<Pair> {
    let numbers = small(rng);
    let r = numbers.r;
    let mut world = with_registered(rng, numbers, r);
    // The place R of each column is the first word behind the column.
    let id = r as u64 + 1;
    world.mem[NEXT] = id + 1;
    world.mem[numbers.objects().start] = id;
    world.mem[numbers.recycled().start] = 0;
    vec![step(&world, &[(REGISTERED, id)]), step(&world, &[(REGISTERED, u64::MAX)])]
}

pub fn registered_range(rng: &Rng) -> Vec<Pair> {
    let numbers = small(rng);
    let count = rng.between(1, numbers.r);
    let world = with_registered(rng, numbers, count);
    let (first, last) = (numbers.ids().start, numbers.ids().start + count - 1);
    let next = world.mem[NEXT];
    vec![step(&world, &[(first, 0)]), step(&world, &[(last, next)]), step(&world, &[(last, u64::MAX)])]
}

pub fn registered_differ(rng: &Rng) -> Vec<Pair> {
    let numbers = small(rng);
    let count = rng.between(2, numbers.r);
    let world = with_registered(rng, numbers, count);
    let mut places: Vec<usize> = numbers.ids().take(count).collect();
    rng.shuffle(&mut places);
    vec![step(&world, &[(places[0], world.mem[places[1]])])]
}

pub fn holders(rng: &Rng) -> Vec<Pair> {
    let numbers = Numbers { s: rng.between(1, 5), ..small(rng) };
    let mut world = with_empty_registry(rng, numbers);
    let id = 1 + id_of(rng.word()) % (ID_END - 2);
    let holders = rng.between(0, numbers.s) as u64;
    for i in 0..numbers.s as u64 {
        let space = world.space(i as usize);
        table::lay(space, 8, &[entry(rng, id), entry(rng, id - 1)]);
        if i >= holders {
            // A removed entry of the id does not hold it.
            table::remove(space, home(id, 8));
        }
    }
    world.mem[NEXT] = ID_END;
    world.register(id, None, HOLDER * holders);
    let place = numbers.states().start;
    vec![step(&world, &[(place, HOLDER * (holders + 1))]), step(&world, &[(place, u64::MAX)])]
}

pub fn link(rng: &Rng) -> Vec<Pair> {
    let numbers = small(rng);
    let mut world = with_registered(rng, numbers, 1);
    let place = rng.between(1, numbers.r - 1);
    // A chain, each of which has a list.
    (1..numbers.r).for_each(|k| world.register(k as u64 + 1, Some(k - 1), LISTED));
    world.mem[NEXT] = numbers.r as u64 + 1;
    let at = numbers.links().start;
    vec![
        step(&world, &[(at, 1)]),
        step(&world, &[(at + place, place as u64 + 1)]),
        step(&world, &[(at + place - 1, place as u64 + 1)]),
        step(&world, &[(at + place, u64::MAX)]),
    ]
}

/// A world of a parent and a child, with their states, at two random places.
fn parent_and_child(rng: &Rng, parent_state: u64, child_state: u64) -> (World, [usize; 2]) {
    let numbers = small(rng);
    let child = rng.between(1, numbers.r - 1);
    let parent = rng.below(child);
    let mut world = with_registered(rng, numbers, numbers.r);
    let states = numbers.states().start;
    world.mem[numbers.links().start + child] = parent as u64 + 1;
    world.mem[states + parent] = parent_state;
    world.mem[states + child] = child_state;
    (world, [states + parent, states + child])
}

pub fn listed(rng: &Rng) -> Vec<Pair> {
    let (world, [parent, _]) = parent_and_child(rng, LISTED, 0);
    let (both_revoked, [revoked_parent, _]) = parent_and_child(rng, LISTED | REVOKED, REVOKED);
    vec![step(&world, &[(parent, 0)]), step(&both_revoked, &[(revoked_parent, REVOKED)])]
}

pub fn revoked(rng: &Rng) -> Vec<Pair> {
    let (neither, [parent, _]) = parent_and_child(rng, LISTED, 0);
    let (both, [_, child]) = parent_and_child(rng, LISTED | REVOKED, REVOKED);
    let (child_only, [its_parent, only_child]) = parent_and_child(rng, LISTED, LISTED | REVOKED);
    vec![
        step(&neither, &[(parent, LISTED | REVOKED)]),
        step(&both, &[(child, 0)]),
        step(&child_only, &[(its_parent, LISTED | REVOKED), (only_child, LISTED)]),
    ]
}

pub fn children(rng: &Rng) -> Vec<Pair> {
    let count = MOST_CHILDREN + rng.between(3, 6);
    let numbers = Numbers { r: count, ..small(rng) };
    let mut world = with_registered(rng, numbers, count);
    let parent = rng.below(2);
    world.mem[numbers.states().start + parent] = LISTED;
    let links = &mut world.mem[numbers.links()];
    links[parent + 1..][..MOST_CHILDREN].fill(parent as u64 + 1);
    let last = numbers.links().start + count - 1;
    vec![step(&world, &[(last, parent as u64 + 1)])]
}

/// A world with these ids recycled, and nothing registered.
fn with_recycled(rng: &Rng, numbers: Numbers, next: u64, ids: &[u64]) -> World {
    let mut world = with_empty_registry(rng, numbers);
    world.mem[NEXT] = next;
    world.set_recycled(ids);
    world
}

pub fn recycled(rng: &Rng) -> Vec<Pair> {
    let numbers = small(rng);
    let most = numbers.r as u64 + 1;
    let ids: Vec<u64> = (1..=most).collect();
    let mut world = with_recycled(rng, numbers, most + 2, &ids);
    // The first word behind the recycled ids would be one more of them.
    world.mem[LOGGED] = 0;
    world.mem[numbers.log().start] = most + 1;
    vec![step(&world, &[(RECYCLED, most + 1)]), step(&world, &[(RECYCLED, u64::MAX)])]
}

pub fn recycled_range(rng: &Rng) -> Vec<Pair> {
    let numbers = small(rng);
    let next = rng.pick(&[3, 1000, ID_END]);
    let world = with_recycled(rng, numbers, next, &[1, next - 1]);
    let at = numbers.recycled().start;
    vec![step(&world, &[(at, 0)]), step(&world, &[(at + 1, next)]), step(&world, &[(at + 1, u64::MAX)])]
}

pub fn recycled_ascend(rng: &Rng) -> Vec<Pair> {
    let numbers = small(rng);
    let id = 1 + rng.word() % (ID_END - 4);
    let world = with_recycled(rng, numbers, ID_END, &[id, id + 1, id + 2]);
    let at = numbers.recycled().start;
    vec![
        step(&world, &[(at, id + 1)]),
        step(&world, &[(at + 2, id + 1)]),
        step(&world, &[(at, id + 1), (at + 1, id)]),
        step(&world, &[(at + 2, 1)]),
    ]
}

pub fn recycled_free(rng: &Rng) -> Vec<Pair> {
    let numbers = small(rng);
    let count = rng.between(1, numbers.r);
    let mut world = with_registered(rng, numbers, count);
    let recycled = count as u64 + 1;
    world.mem[NEXT] = recycled + 1;
    world.set_recycled(&[recycled]);
    let taken = rng.between(1, count) as u64;
    vec![
        step(&world, &[(numbers.recycled().start, taken)]),
        step(&world, &[(numbers.ids().start + taken as usize - 1, recycled)]),
    ]
}
