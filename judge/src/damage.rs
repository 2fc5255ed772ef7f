//! Damage: a sound memory with one to three words or bits changed, its last word cut off, or its head altered. It is
//! done in place and undone.

use crate::layout::*;
use crate::rng::Rng;

#[derive(Clone, Copy, PartialEq, Eq, Debug)]
pub enum Kind {
    /// One to three words replaced.
    Words,
    /// One to three bits flipped.
    Bits,
    /// A slot of another kind, and the table's counts with it.
    Slot,
    /// One word cut off the end.
    Cut,
    /// One or two numbers in the head altered.
    Head,
}

impl Kind {
    pub const ALL: [Kind; 5] = [Kind::Words, Kind::Bits, Kind::Slot, Kind::Cut, Kind::Head];
}

/// A sound memory, and its places by what they hold, so that damage meets each of them often.
pub struct Target<'a> {
    mem: &'a mut [u64],
    groups: Vec<Vec<usize>>,
}

/// What was done to a memory.
pub struct Blow {
    pub kind: Kind,
    /// The words that changed, with what they held; in the order of changing.
    pub changed: Vec<(usize, u64)>,
    /// The words that are left.
    pub length: usize,
}

impl Target<'_> {
    pub fn new(mem: &mut [u64]) -> Target<'_> {
        let mut groups = groups(mem);
        groups.retain(|group| !group.is_empty());
        Target { mem, groups }
    }

    /// Damages the memory, shows what is left of it to `look`, and undoes the damage.
    pub fn strike<T>(&mut self, rng: &Rng, look: impl FnOnce(&[u64], &Blow) -> T) -> T {
        let kind = match rng.below(50) {
            0 => Kind::Cut,
            1..=10 => Kind::Head,
            11..=21 => Kind::Bits,
            22..=24 => Kind::Slot,
            _ => Kind::Words,
        };
        let mut blow = Blow { kind, changed: Vec::new(), length: self.mem.len() };
        match kind {
            Kind::Words => (0..rng.between(1, 3)).for_each(|_| self.replace_word(rng, &mut blow)),
            Kind::Bits => (0..rng.between(1, 3)).for_each(|_| self.flip_bit(rng, &mut blow)),
            Kind::Slot => self.change_slot(rng, &mut blow),
            Kind::Cut => blow.length -= 1,
            Kind::Head => (0..rng.between(1, 2)).for_each(|_| self.alter_head(rng, &mut blow)),
        }
        let answer = look(&self.mem[..blow.length], &blow);
        for &(place, word) in blow.changed.iter().rev() {
            self.mem[place] = word;
        }
        answer
    }

    fn change(&mut self, blow: &mut Blow, place: usize, word: u64) {
        let old = self.mem[place];
        blow.changed.push((place, old));
        self.mem[place] = if word == old { old ^ 1 } else { word };
    }

    /// A place, and another of those that hold the like of it.
    fn two_places(&self, rng: &Rng) -> (usize, usize) {
        let group = &self.groups[rng.below(self.groups.len())];
        (rng.pick(group), rng.pick(group))
    }

    fn replace_word(&mut self, rng: &Rng, blow: &mut Blow) {
        let (place, other) = self.two_places(rng);
        let word = match rng.below(8) {
            0 => rng.word(),
            1 => rng.limit(),
            2 => rng.word() % 8,
            3 => self.mem[other],
            4 => near(rng, self.mem[other]),
            _ => near(rng, self.mem[place]),
        };
        self.change(blow, place, word);
    }

    fn flip_bit(&mut self, rng: &Rng, blow: &mut Blow) {
        let (place, _) = self.two_places(rng);
        // The low bits, the bits around the kind of a slot, and all bits.
        let bit = match rng.below(4) {
            0 => rng.below(4),
            1 => rng.between(30, 35),
            _ => rng.below(64),
        };
        self.change(blow, place, self.mem[place] ^ 1 << bit);
    }

    fn change_slot(&mut self, rng: &Rng, blow: &mut Blow) {
        let numbers = Numbers::read(self.mem).expect("a sound memory");
        let space = numbers.space(rng.below(numbers.s)).start;
        let slots = self.mem[space + SLOTS] as usize;
        if slots == 0 {
            return self.replace_word(rng, blow);
        }
        let place = space + SPACE_HEAD + SLOT * rng.below(slots) + TAG;
        let tag = self.mem[place];
        let old_kind = tag >> 32;
        let kind = (old_kind + rng.pick(&[1, 2])) % 3;
        self.change(blow, place, kind << 32 | tag & 0xFFFF_FFFF);
        for (counted, count) in [(KIND_FULL, space + LIVE), (KIND_REMOVED, space + REMOVED)] {
            if counted == kind {
                self.change(blow, count, self.mem[count] + 1);
            } else if counted == old_kind {
                self.change(blow, count, self.mem[count] - 1);
            }
        }
    }

    fn alter_head(&mut self, rng: &Rng, blow: &mut Blow) {
        let place = if rng.once_in(2) { rng.below(5) } else { rng.below(HEAD) };
        let most = Numbers::LARGEST.words().get(place).copied().unwrap_or(ID_END);
        let word = match rng.below(8) {
            0 => rng.limit(),
            1 => rng.word() % 16,
            2 => rng.word() % (most + 2),
            3 => rng.pick(&[0, 1, most, most + 1]),
            _ => near(rng, self.mem[place]),
        };
        self.change(blow, place, word);
    }
}

/// A step away: by one, by a bit of a state, by a kind of a slot, by a generation.
fn near(rng: &Rng, word: u64) -> u64 {
    let step = rng.pick(&[1, 1, 1, 1, 2, 4, 1 << 32, 1 << 48]);
    if rng.once_in(2) {
        word.wrapping_add(step)
    } else {
        word.wrapping_sub(step)
    }
}

/// The places of a sound memory that are in use, by what they hold; then all places.
fn groups(mem: &[u64]) -> Vec<Vec<usize>> {
    let numbers = Numbers::read(mem).expect("a sound memory");
    let first = |range: std::ops::Range<usize>, count: u64| range.take(count as usize).collect();
    let mut groups = vec![
        vec![NEXT, REGISTERED, RECYCLED, LOGGED],
        first(numbers.ids(), mem[REGISTERED]),
        first(numbers.states(), mem[REGISTERED]),
        first(numbers.links(), mem[REGISTERED]),
        first(numbers.recycled(), mem[RECYCLED]),
        first(numbers.log(), mem[LOGGED]),
    ];
    groups.extend(space_groups(mem, numbers));
    groups.extend(queue_groups(mem, numbers));
    groups.push((0..mem.len()).collect());
    groups
}

fn space_groups(mem: &[u64], numbers: Numbers) -> [Vec<usize>; 5] {
    let [mut limits, mut slots, mut counts, mut tokens, mut tags] = [const { Vec::new() }; 5];
    for i in 0..numbers.s {
        let head = numbers.space(i).start;
        limits.extend([head + QUOTA, head + GENERATION]);
        slots.push(head + SLOTS);
        counts.extend([head + LIVE, head + REMOVED]);
        for slot in 0..mem[head + SLOTS] as usize {
            tokens.push(head + SPACE_HEAD + SLOT * slot);
            tags.push(head + SPACE_HEAD + SLOT * slot + TAG);
        }
    }
    [limits, slots, counts, tokens, tags]
}

fn queue_groups(mem: &[u64], numbers: Numbers) -> [Vec<usize>; 3] {
    let [mut pids, mut rings, mut reasons] = [const { Vec::new() }; 3];
    for j in 0..numbers.p {
        let queue = numbers.queue(j).start;
        pids.push(queue + PID);
        rings.extend([queue + FIRST, queue + LENGTH]);
        let notices = mem[queue + LENGTH] as usize;
        reasons.extend((0..notices).map(|n| queue + reason_at(mem[queue + FIRST] as usize, n)));
    }
    [pids, rings, reasons]
}
