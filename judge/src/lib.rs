//! The judge of answer 26: which rules of document 01, "Sound memory", a memory breaks.
//!
//! Written from that document and the layout alone, plainly, over std's hash sets and maps: it is the second opinion
//! on the port's own look over the memory, and the measure of its time.

pub mod cases;
pub mod compare;
pub mod damage;
pub mod layout;
#[cfg(feature = "port")]
pub mod port;
pub mod rng;
mod rule;
pub mod table;
pub mod tally;
pub mod worlds;

use std::collections::{BTreeSet, HashMap, HashSet};
use std::ops::ControlFlow::{self, Break, Continue};

use layout::*;
pub use rule::Rule;

/// Whether the memory keeps every rule.
pub fn sound(mem: &[u64]) -> bool {
    first_broken(mem).is_none()
}

/// The first rule found broken; the look ends there.
pub fn first_broken(mem: &[u64]) -> Option<Rule> {
    match (Judge { on_broken: Break }).memory(mem) {
        Break(rule) => Some(rule),
        Continue(()) => None,
    }
}

/// Every rule that the memory breaks, in order. What cannot be read is not judged: everything behind opening numbers
/// out of range or a short length, the slots of a table of more than C, the places of a part whose count is too large.
pub fn broken(mem: &[u64]) -> Vec<Rule> {
    let mut rules = BTreeSet::new();
    let on_broken = |rule| {
        rules.insert(rule);
        Continue(())
    };
    let _ = Judge { on_broken }.memory(mem);
    rules.into_iter().collect()
}

/// A look that goes on with a `T`, or ends at a broken rule.
type Look<T = ()> = ControlFlow<Rule, T>;

struct Judge<F> {
    on_broken: F,
}

impl<F: FnMut(Rule) -> Look> Judge<F> {
    fn rule(&mut self, rule: Rule, holds: bool) -> Look {
        if holds {
            Continue(())
        } else {
            (self.on_broken)(rule)
        }
    }

    fn memory(&mut self, mem: &[u64]) -> Look {
        if mem.len() < HEAD {
            return self.rule(Rule::Length, false);
        }
        let Some(numbers) = Numbers::read(mem) else {
            return self.rule(Rule::Numbers, false);
        };
        if mem.len() < numbers.length() {
            return self.rule(Rule::Length, false);
        }
        let ids = self.in_use(Rule::Registered, &mem[numbers.ids()], mem[REGISTERED])?;
        let states = &mem[numbers.states()][..ids.len()];
        let links = &mem[numbers.links()][..ids.len()];
        // How many spaces have an entry of each registered id.
        let mut spaces_with: HashMap<u64, u64> = ids.iter().map(|&id| (id, 0)).collect();
        self.rule(Rule::RegisteredDiffer, spaces_with.len() == ids.len())?;
        self.rule(Rule::RegisteredRange, ids.iter().all(|id| (1..mem[NEXT]).contains(id)))?;
        if self.spaces(mem, numbers, &mut spaces_with)? {
            for (id, state) in ids.iter().zip(states) {
                self.rule(Rule::Holders, state / HOLDER <= spaces_with[id])?;
            }
        }
        self.derivation(states, links)?;
        self.free_ids(mem, numbers, |id| spaces_with.contains_key(id))?;
        self.log(mem, numbers)?;
        self.queues(mem, numbers)
    }

    /// All spaces, counted for each id of their entries. Goes on with whether every table could be read.
    fn spaces(&mut self, mem: &[u64], numbers: Numbers, spaces_with: &mut HashMap<u64, u64>) -> Look<bool> {
        let mut all_read = true;
        for i in 0..numbers.s {
            let Some(ids) = self.space(&mem[numbers.space(i)], numbers)? else {
                all_read = false;
                continue;
            };
            for id in ids {
                if let Some(spaces) = spaces_with.get_mut(&id) {
                    *spaces += 1;
                }
            }
        }
        Continue(all_read)
    }

    /// One space. Goes on with the ids of its entries, unless it has more slots than C.
    fn space(&mut self, space: &[u64], numbers: Numbers) -> Look<Option<HashSet<u64>>> {
        let most = numbers.m as u64;
        let capacity = numbers.capacity() as u64;
        let (slots, live, removed) = (space[SLOTS], space[LIVE], space[REMOVED]);
        self.rule(Rule::Quota, space[QUOTA] <= most)?;
        self.rule(Rule::Generation, space[GENERATION] < 256)?;
        self.rule(Rule::Slots, slots == 0 || (8..=capacity).contains(&slots) && slots.is_power_of_two())?;
        self.rule(Rule::NoLive, live > 0 || slots == 0)?;
        self.rule(Rule::Live, live <= most)?;
        self.rule(Rule::Load, 4 * (u128::from(live) + u128::from(removed)) <= 3 * u128::from(slots))?;
        if slots > capacity {
            return Continue(None);
        }
        let table = Table { words: &space[SPACE_HEAD..][..SLOT * slots as usize] };
        Continue(Some(self.table(table, live, removed)?))
    }

    fn table(&mut self, table: Table, live: u64, removed: u64) -> Look<HashSet<u64>> {
        let mut ids = HashSet::with_capacity(table.slots());
        let (mut full_slots, mut removed_slots) = (0, 0);
        for slot in 0..table.slots() {
            match table.kind(slot) {
                KIND_EMPTY => {}
                KIND_REMOVED => removed_slots += 1,
                KIND_FULL => {
                    full_slots += 1;
                    self.rule(Rule::EntriesDiffer, ids.insert(table.id(slot)))?;
                    self.rule(Rule::Met, table.meets(slot))?;
                }
                _ => self.rule(Rule::Kind, false)?,
            }
        }
        self.rule(Rule::Counts, live == full_slots && removed == removed_slots)?;
        Continue(ids)
    }

    fn derivation(&mut self, states: &[u64], links: &[u64]) -> Look {
        let mut children = vec![0; links.len()];
        for (place, &link) in links.iter().enumerate() {
            let earlier = link <= place as u64;
            self.rule(Rule::Link, earlier)?;
            if link == 0 || !earlier {
                continue;
            }
            let parent = link as usize - 1;
            children[parent] += 1;
            self.rule(Rule::Listed, states[parent] & LISTED != 0)?;
            self.rule(Rule::Revoked, states[parent] & REVOKED == 0 || states[place] & REVOKED != 0)?;
            self.rule(Rule::Children, children[parent] <= MOST_CHILDREN)?;
        }
        Continue(())
    }

    /// The ids that are not in use: from next on, and the recycled ones.
    fn free_ids(&mut self, mem: &[u64], numbers: Numbers, registered: impl Fn(&u64) -> bool) -> Look {
        let next = mem[NEXT];
        self.rule(Rule::Next, (1..=ID_END).contains(&next))?;
        let recycled = self.in_use(Rule::Recycled, &mem[numbers.recycled()], mem[RECYCLED])?;
        self.rule(Rule::RecycledRange, recycled.iter().all(|id| (1..next).contains(id)))?;
        self.rule(Rule::RecycledAscend, recycled.windows(2).all(|pair| pair[0] < pair[1]))?;
        self.rule(Rule::RecycledFree, !recycled.iter().any(registered))
    }

    fn log(&mut self, mem: &[u64], numbers: Numbers) -> Look {
        let pairs = self.in_use(Rule::Logged, &mem[numbers.log()], mem[LOGGED])?;
        self.rule(Rule::Pair, pairs.iter().all(|&pair| pair < PAIR_END))?;
        let different: HashSet<u64> = pairs.iter().copied().collect();
        self.rule(Rule::PairsDiffer, different.len() == pairs.len())
    }

    fn queues(&mut self, mem: &[u64], numbers: Numbers) -> Look {
        let mut pids = HashSet::new();
        for j in 0..numbers.p {
            let queue = &mem[numbers.queue(j)];
            if queue[LENGTH] != 0 {
                self.rule(Rule::PidsDiffer, pids.insert(queue[PID]))?;
                self.queue(queue)?;
            }
        }
        Continue(())
    }

    fn queue(&mut self, queue: &[u64]) -> Look {
        let (first, length) = (queue[FIRST], queue[LENGTH]);
        let (first_fits, length_fits) = (first < NOTICES as u64, length <= NOTICES as u64);
        self.rule(Rule::First, first_fits)?;
        self.rule(Rule::QueueLength, length_fits)?;
        if first_fits && length_fits {
            for n in 0..length as usize {
                self.rule(Rule::Reason, queue[reason_at(first as usize, n)] < REASONS)?;
            }
        }
        Continue(())
    }

    /// The places in use of a part of the memory; none if the count is larger than the part.
    fn in_use<'a>(&mut self, rule: Rule, part: &'a [u64], count: u64) -> Look<&'a [u64]> {
        let fits = count <= part.len() as u64;
        self.rule(rule, fits)?;
        Continue(if fits { &part[..count as usize] } else { &[] })
    }
}

/// The slots of one table.
struct Table<'a> {
    words: &'a [u64],
}

impl Table<'_> {
    fn slots(&self) -> usize {
        self.words.len() / SLOT
    }

    fn id(&self, slot: usize) -> u64 {
        id_of(self.words[SLOT * slot])
    }

    fn kind(&self, slot: usize) -> u64 {
        self.words[SLOT * slot + TAG] >> 32
    }

    /// Whether the walk of the entry in `slot` comes to it before an empty slot.
    fn meets(&self, slot: usize) -> bool {
        let mut at = home(self.id(slot), self.slots());
        while at != slot {
            if self.kind(at) == KIND_EMPTY {
                return false;
            }
            at = (at + 1) % self.slots();
        }
        true
    }
}
