//! Cases of the rules on the log and the queues.

use super::{small, step, Pair};
use crate::layout::*;
use crate::rng::Rng;
use crate::worlds::{self, World};

/// A world whose log has these pairs at its end, and is full.
fn with_log_end(rng: &Rng, numbers: Numbers, end: &[u64]) -> (World, usize) {
    let mut world = worlds::random(rng, numbers);
    let others = (numbers.v - end.len()) as u64;
    let pairs: Vec<u64> = (0..others).chain(end.iter().copied()).collect();
    world.set_log(&pairs);
    (world, numbers.log().end)
}

pub fn logged(rng: &Rng) -> Vec<Pair> {
    let numbers = small(rng);
    let v = numbers.v as u64;
    let (mut world, _) = with_log_end(rng, numbers, &[]);
    // The first word behind the log, the pid of a free queue, would be one more pair.
    let queue = numbers.queue(0).start;
    world.mem[queue + PID] = v;
    world.mem[queue + LENGTH] = 0;
    vec![step(&world, &[(LOGGED, v + 1)]), step(&world, &[(LOGGED, u64::MAX)])]
}

pub fn pair(rng: &Rng) -> Vec<Pair> {
    let (world, end) = with_log_end(rng, small(rng), &[PAIR_END - 1]);
    vec![step(&world, &[(end - 1, PAIR_END)]), step(&world, &[(end - 1, u64::MAX)])]
}

pub fn pairs_differ(rng: &Rng) -> Vec<Pair> {
    let pair = 100 + rng.word() % (PAIR_END - 200);
    let (ids, end) = with_log_end(rng, small(rng), &[pair, pair + 1]);
    let (generations, other_end) = with_log_end(rng, small(rng), &[pair ^ ID_END, pair]);
    vec![step(&ids, &[(end - 1, pair)]), step(&generations, &[(other_end - 2, pair)])]
}

/// A world with all its queues free but one, and where that queue begins.
fn with_queue(rng: &Rng, first: usize, length: usize) -> (World, usize) {
    let numbers = small(rng);
    let mut world = worlds::random(rng, numbers);
    for j in 0..numbers.p {
        world.mem[numbers.queue(j).start + LENGTH] = 0;
    }
    let j = rng.below(numbers.p);
    world.set_queue(j, rng.word(), first, length);
    (world, numbers.queue(j).start)
}

pub fn queue_length(rng: &Rng) -> Vec<Pair> {
    let (world, queue) = with_queue(rng, rng.pick(&[0, 1, 255]), NOTICES);
    vec![step(&world, &[(queue + LENGTH, NOTICES as u64 + 1)]), step(&world, &[(queue + LENGTH, u64::MAX)])]
}

pub fn first(rng: &Rng) -> Vec<Pair> {
    let length = rng.between(1, NOTICES);
    let (mut world, queue) = with_queue(rng, NOTICES - 1, length);
    // The ring from 256 on would be the ring from 0 on.
    world.mem[queue + reason_at(0, length - 1)] = 3;
    vec![step(&world, &[(queue + FIRST, NOTICES as u64)]), step(&world, &[(queue + FIRST, u64::MAX)])]
}

pub fn reason(rng: &Rng) -> Vec<Pair> {
    let (first, length) = (rng.below(NOTICES), rng.between(1, NOTICES - 1));
    let (mut world, queue) = with_queue(rng, first, length);
    let place = queue + reason_at(first, rng.pick(&[0, length / 2, length - 1]));
    world.mem[place] = REASONS - 1;
    // The notice past the last is not in use.
    world.mem[queue + reason_at(first, length)] = REASONS;
    vec![step(&world, &[(place, REASONS)]), step(&world, &[(place, u64::MAX)])]
}

pub fn pids_differ(rng: &Rng) -> Vec<Pair> {
    let numbers = Numbers { p: 3, ..small(rng) };
    let mut world = worlds::random(rng, numbers);
    let mut queues = [0, 1, 2];
    rng.shuffle(&mut queues);
    let [one, other, free] = queues.map(|j| numbers.queue(j).start);
    let pid = rng.word() | 1;
    world.set_queue(queues[0], pid, rng.below(NOTICES), rng.between(1, NOTICES));
    world.set_queue(queues[1], pid - 1, rng.below(NOTICES), rng.between(1, NOTICES));
    // A free place may have the pid of another.
    world.mem[free + PID] = pid;
    world.mem[free + LENGTH] = 0;
    vec![step(&world, &[(other + PID, pid)]), step(&world, &[(one + PID, pid - 1)])]
}
