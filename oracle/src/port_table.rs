//! The port's table: the exported functions of the crate `table_probe`, over one slice of words and
//! the four numbers beside it. The ranges that their contracts ask for are kept here.
//!
//! The declarations keep to what tools/native says holds on both processors.

use crate::cap::space::{EntryView, SlotView};
use crate::memory;

/// A search's end: the slot, or all ones where the id is absent, and the slots visited.
#[repr(C)]
pub struct Ended {
    pub at: usize,
    pub visits: usize,
}

#[link(name = "table_probe", kind = "static")]
unsafe extern "C" {
    fn table_probe_find(words: *const u64, length: usize, slots: usize, id: u64) -> Ended;
    fn table_probe_get(words: *const u64, length: usize, slots: usize, id: u64, out: &mut [u64; 4]) -> bool;
    fn table_probe_nth_entry(words: *const u64, length: usize, slots: usize, n: usize, out: &mut [u64; 4]) -> bool;
    fn table_probe_insert_new(
        words: *mut u64,
        length: usize,
        numbers: &mut [usize; 4],
        token: u64,
        object: u64,
        rights: u32,
        uses: u64,
    );
    fn table_probe_remove_at(
        words: *mut u64,
        length: usize,
        numbers: &mut [usize; 4],
        i: usize,
        out: &mut [u64; 4],
    ) -> bool;
    fn table_probe_gather(words: *const u64, length: usize, slots: usize, scratch: &mut [u64; 2048]) -> usize;
    fn table_probe_copy_from(
        words: *mut u64,
        length: usize,
        numbers: &mut [usize; 4],
        scratch: &[u64; 2048],
        count: usize,
    );
    fn table_probe_is_sound(words: *const u64, length: usize, numbers: &[usize; 4], most: usize) -> bool;
}

/// What the words hold before a table uses them: each slot looks full.
const JUNK: u64 = 2 << 32 | 7;
/// Words behind the lent ones.
const BEHIND: usize = 16;

pub struct PortTable {
    /// The largest quota.
    most: usize,
    words: Vec<u64>,
    /// How many of the words are lent.
    length: usize,
    /// Slots, full, tombstones, and the entries that the last call moved.
    numbers: [usize; 4],
}

impl PortTable {
    /// A table for this many live entries: it is lent the slots that document 01 has for them, no more.
    pub fn new(most: usize) -> Self {
        assert!(most <= 256);
        let length = 4 * (2 * most).next_power_of_two().max(8);
        Self { most, words: vec![JUNK; length + BEHIND], length, numbers: [0; 4] }
    }

    /// Back to 0 slots; the words stay as they are.
    pub fn clear(&mut self) {
        self.numbers = [0; 4];
    }

    #[inline]
    pub fn find(&self, id: u64) -> Ended {
        unsafe { table_probe_find(self.words.as_ptr(), self.length, self.numbers[0], id) }
    }

    pub fn get(&self, id: u64) -> Option<EntryView> {
        entry(|out| unsafe { table_probe_get(self.words.as_ptr(), self.length, self.numbers[0], id, out) })
    }

    pub fn nth(&self, n: usize) -> Option<EntryView> {
        entry(|out| unsafe { table_probe_nth_entry(self.words.as_ptr(), self.length, self.numbers[0], n, out) })
    }

    /// Places an entry whose id is absent; the answer is how many entries were moved.
    #[inline]
    pub fn insert_new(&mut self, entry: EntryView) -> usize {
        debug_assert!(4 * (2 * (self.numbers[1] + 1)).next_power_of_two().max(8) <= self.length);
        let EntryView { token, object, rights, uses } = entry;
        let words = self.words.as_mut_ptr();
        unsafe { table_probe_insert_new(words, self.length, &mut self.numbers, token, object, rights, uses) };
        self.numbers[3]
    }

    /// Removes the entry of slot `i`, if there is one.
    pub fn remove_at(&mut self, i: usize) -> Option<EntryView> {
        let mut out = [0; 4];
        self.remove_into(i, &mut out).then(|| shown(out))
    }

    /// The same as the port has it: the entry over four words, and whether there was one.
    #[inline]
    pub fn remove_into(&mut self, i: usize, out: &mut [u64; 4]) -> bool {
        debug_assert!(4 * i + 3 < self.length);
        unsafe { table_probe_remove_at(self.words.as_mut_ptr(), self.length, &mut self.numbers, i, out) }
    }

    /// Becomes a copy of `source`, or of itself; the answer is how many entries were moved.
    pub fn copy_from(&mut self, source: Option<&Self>) -> usize {
        let Self { words, length, numbers: [slots, ..], .. } = source.unwrap_or(self);
        let mut scratch = [JUNK; 2048];
        let count = unsafe { table_probe_gather(words.as_ptr(), *length, *slots, &mut scratch) };
        debug_assert!(4 * (2 * count).next_power_of_two().max(8) <= self.length);
        let words = self.words.as_mut_ptr();
        unsafe { table_probe_copy_from(words, self.length, &mut self.numbers, &scratch, count) };
        self.numbers[3]
    }

    pub fn is_sound(&self) -> bool {
        unsafe { table_probe_is_sound(self.words.as_ptr(), self.length, &self.numbers, self.most) }
    }

    /// Slots, full ones, removed marks.
    pub fn counts(&self) -> [usize; 3] {
        let [slots, full, tombstones, _] = self.numbers;
        [slots, full, tombstones]
    }

    /// Slot `i`; nothing where its kind is none of the three.
    pub fn slot(&self, i: usize) -> Option<SlotView> {
        memory::slot(self.words[4 * i..self.length].first_chunk()?)
    }

    /// The lent words and the numbers, to be damaged.
    pub fn parts(&mut self) -> (&mut [u64], &mut [usize; 4]) {
        (&mut self.words[..self.length], &mut self.numbers)
    }

    /// The words behind the lent ones are as they were.
    pub fn behind_is_kept(&self) -> bool {
        self.words[self.length..].iter().all(|&word| word == JUNK)
    }
}

/// The entry that a call leaves in four words, if it says that there is one.
fn entry(call: impl FnOnce(&mut [u64; 4]) -> bool) -> Option<EntryView> {
    let mut out = [0; 4];
    call(&mut out).then(|| shown(out))
}

fn shown([token, object, uses, rights]: [u64; 4]) -> EntryView {
    EntryView { token, object, rights: rights.try_into().unwrap(), uses }
}
