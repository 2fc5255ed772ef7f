//! A space's table by the rules of document 01, "Table of a space": what the builder of worlds fills a space with.

use crate::layout::*;

/// Token, object, uses and rights.
pub type Entry = [u64; 4];

/// Inserts an entry, after a rebuild where one is due. The caller minds the largest quota and that ids differ.
pub fn insert(space: &mut [u64], entry: Entry) {
    let (slots, live, removed) = (space[SLOTS], space[LIVE], space[REMOVED]);
    if 4 * (live + removed + 1) > 3 * slots {
        let entries: Vec<Entry> = full_slots(space).map(|slot| entry_in(space, slot)).collect();
        lay(space, (2 * (live + 1)).next_power_of_two().max(8), &entries);
    }
    place(space, entry);
}

/// Removes the entry in a full slot; the last one returns the table to 0 slots.
pub fn remove(space: &mut [u64], slot: usize) {
    set_kind(space, slot, KIND_REMOVED);
    space[LIVE] -= 1;
    space[REMOVED] += 1;
    if space[LIVE] == 0 {
        clear(space);
    }
}

pub fn clear(space: &mut [u64]) {
    space[SLOTS..=REMOVED].fill(0);
}

/// Lays out a table anew: so many slots, holding the entries, placed in order. An empty slot keeps what words it had.
pub fn lay(space: &mut [u64], slots: u64, entries: &[Entry]) {
    clear(space);
    space[SLOTS] = slots;
    for slot in 0..slots as usize {
        set_kind(space, slot, KIND_EMPTY);
    }
    for &entry in entries {
        place(space, entry);
    }
}

/// Places an entry at the first slot of its walk that is not live; a removed mark there is used up.
fn place(space: &mut [u64], entry: Entry) {
    let slots = space[SLOTS] as usize;
    let mut slot = home(id_of(entry[0]), slots);
    while kind(space, slot) == KIND_FULL {
        slot = (slot + 1) % slots;
    }
    if kind(space, slot) == KIND_REMOVED {
        space[REMOVED] -= 1;
    }
    space[LIVE] += 1;
    put(space, slot, entry);
}

/// Writes an entry into a slot, wherever its home is; the counts stay.
pub fn put(space: &mut [u64], slot: usize, [token, object, uses, rights]: Entry) {
    space[slot_at(slot)..][..SLOT].copy_from_slice(&[token, object, uses, rights]);
    set_kind(space, slot, KIND_FULL);
}

pub fn kind(space: &[u64], slot: usize) -> u64 {
    space[slot_at(slot) + TAG] >> 32
}

pub fn set_kind(space: &mut [u64], slot: usize, kind: u64) {
    let tag = &mut space[slot_at(slot) + TAG];
    *tag = kind << 32 | *tag & 0xFFFF_FFFF;
}

/// Where in a space a slot begins.
pub fn slot_at(slot: usize) -> usize {
    SPACE_HEAD + SLOT * slot
}

pub fn full_slots(space: &[u64]) -> impl Iterator<Item = usize> + '_ {
    (0..space[SLOTS] as usize).filter(|&slot| kind(space, slot) == KIND_FULL)
}

pub fn entry_in(space: &[u64], slot: usize) -> Entry {
    let words: Entry = space[slot_at(slot)..][..SLOT].try_into().unwrap();
    [words[0], words[1], words[2], words[TAG] & 0xFFFF_FFFF]
}
