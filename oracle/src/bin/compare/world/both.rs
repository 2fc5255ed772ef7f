//! One world on both sides: the original's spaces and statics, and the port's memory. After every call the two are
//! compared whole: the answer with its values, the state word for word, and that no other word of the memory changed.

use std::ops::Range;

use judge::layout::*;
use judge::rng::Rng;
use judge::worlds;
use oracle::calls::Reply;
use oracle::cap::space::SpaceView;
use oracle::{memory, History, Test, View};

use super::call::{Call, Made};
use super::{port, Run};
use crate::kinds;

pub struct Both<'a> {
    pub run: &'a mut Run,
    test: &'a mut Test,
    pub numbers: Numbers,
    pub(super) original: History,
    /// The state of both.
    pub state: View,
    /// The port's memory, and what it was before the last call.
    pub mem: Vec<u64>,
    before: Vec<u64>,
}

impl<'a> Both<'a> {
    /// A world opened by the port on memory that held anything.
    pub fn opened(run: &'a mut Run, test: &'a mut Test, rng: &Rng, numbers: Numbers, quotas: &[u64]) -> Self {
        let mut mem = worlds::garbage(rng, numbers.length() + rng.pick(&[0, 0, 1, 100]));
        test.same(("open", numbers, quotas), 0, port::open(&mut mem, numbers, quotas));
        let both = Self::new(run, test, numbers, quotas, mem);
        let differs = both.difference();
        both.test.same(("opened", numbers, quotas), None, differs);
        kinds::end_if_apart(both.test);
        both
    }

    /// A sound world that is in use to any degree.
    pub fn filled(run: &'a mut Run, test: &'a mut Test, rng: &Rng, numbers: Numbers) -> Self {
        let mem = worlds::random(rng, numbers).mem;
        let mut both = Self::new(run, test, numbers, &vec![0; numbers.s], mem);
        both.take_over();
        both
    }

    fn new(run: &'a mut Run, test: &'a mut Test, numbers: Numbers, quotas: &[u64], mem: Vec<u64>) -> Self {
        let quotas: Vec<usize> = quotas.iter().map(|&quota| quota as usize).collect();
        let original = History::open(&quotas);
        Self { run, test, numbers, state: original.view(), original, before: mem.clone(), mem }
    }

    /// Changes words of the memory by hand, to another sound one, on both sides.
    pub fn edit(&mut self, change: impl FnOnce(&mut [u64])) {
        change(&mut self.mem);
        self.take_over();
    }

    /// The original takes over what the memory holds.
    fn take_over(&mut self) {
        assert!(judge::sound(&self.mem));
        self.state = memory::view(&self.mem).unwrap();
        self.original.put(&self.state);
    }

    /// One call on both sides.
    pub fn call(&mut self, call: impl Call) -> Reply {
        self.before.clone_from(&self.mem);
        let expected = call.original(&mut self.original, self.numbers);
        let reply = call.port(&mut self.mem);
        let before = std::mem::replace(&mut self.state, self.original.view());
        let kept = self.kept(&call, reply.answer);
        let differs = self.difference();
        self.test.same(&call, (&expected, true, None), (&reply, kept, differs));
        kinds::end_if_apart(self.test);
        let made = Made { numbers: self.numbers, reply: &reply, before: &before, after: &self.state };
        self.run.note(&call, &made, &self.mem);
        reply
    }

    /// Whether of the words that the state does not show none changed but those that the call may change, and the
    /// registered ids stand in the order of registration.
    fn kept(&self, call: &impl Call, answer: u8) -> bool {
        if !call.changes_on(answer) {
            return self.mem == self.before;
        }
        let spaces = call.spaces();
        let same = |range: Range<usize>| self.mem[range.clone()] == self.before[range];
        let same_space = |s: usize| {
            let space = self.numbers.space(s);
            let spare = space.start + SLOTS - 1;
            if spaces.contains(&s) {
                same(spare..spare + 1)
            } else {
                same(space)
            }
        };
        same(0..NEXT)
            && same(LOGGED + 1..HEAD)
            && (0..self.numbers.s).all(same_space)
            && self.unused_places(answer).into_iter().all(same)
            && self.ids_in_order()
            && (0..self.numbers.p).all(|q| self.queue_kept(q, call.changes_queues()))
    }

    /// The places of the registry and the log that were not in use and are not, and what is past the world. With 4, an
    /// id whose registration was undone stood one place further.
    fn unused_places(&self, answer: u8) -> [Range<usize>; 7] {
        let used = |count: usize| self.mem[count].max(self.before[count]) as usize;
        let registered = used(REGISTERED) + usize::from(answer == 4);
        let unused = |part: Range<usize>, used: usize| part.end.min(part.start + used)..part.end;
        let numbers = self.numbers;
        [
            unused(numbers.ids(), registered),
            unused(numbers.objects(), registered),
            unused(numbers.states(), registered),
            unused(numbers.links(), registered),
            unused(numbers.recycled(), used(RECYCLED)),
            unused(numbers.log(), used(LOGGED)),
            numbers.length()..self.mem.len(),
        ]
    }

    /// Whether a place of a queue is as it was but for what a call may change there: the length where it is free now,
    /// else the head and the notices. A queue keeps its place, and a new one takes the first that is free.
    fn queue_kept(&self, q: usize, may_change: bool) -> bool {
        let [before, now] = [&self.before, &self.mem].map(|mem| &mem[self.numbers.queue(q)]);
        if !may_change {
            return before == now;
        }
        let same = |range: Range<usize>| before[range.clone()] == now[range];
        if now[LENGTH] == 0 {
            return same(0..LENGTH) && same(LENGTH + 1..QUEUE);
        }
        let unused = |n: usize| reason_at(now[FIRST] as usize, n);
        let in_place = match before[LENGTH] {
            0 => (0..q).all(|earlier| self.mem[self.numbers.queue(earlier)][LENGTH] > 0),
            _ => same(PID..PID + 1),
        };
        in_place && (now[LENGTH] as usize..NOTICES).all(|n| same(unused(n) - REASON..unused(n) + 1))
    }

    /// Whether the ids that stayed registered stand as they stood, and new ones behind them.
    fn ids_in_order(&self) -> bool {
        let [before, now] = [&self.before, &self.mem].map(|mem| &mem[self.numbers.ids()][..mem[REGISTERED] as usize]);
        let mut stayed = 0;
        for id in before {
            stayed += usize::from(now.get(stayed) == Some(id));
        }
        now[stayed..].iter().all(|id| !before.contains(id))
    }

    /// Where the states of the two sides differ, if they do.
    pub(super) fn difference(&self) -> Option<String> {
        match memory::view(&self.mem) {
            Some(port) if port == self.state => None,
            Some(port) => Some(shown(&self.state, &port)),
            None => Some("a count or a coded field of the memory is none".to_string()),
        }
    }
}

/// The first difference of two states that differ.
fn shown(original: &View, port: &View) -> String {
    for (s, (original, port)) in original.spaces.iter().zip(&port.spaces).enumerate() {
        if original != port {
            let slots = original.table.slots.iter().zip(&port.table.slots);
            let slot = slots.enumerate().find(|(_, (original, port))| original != port);
            return format!("space {s}: {:x?}, {:x?}, slot {slot:x?}", numbers(original), numbers(port));
        }
    }
    if original.manager != port.manager {
        return format!("{:x?}, {:x?}", original.manager, port.manager);
    }
    format!("{:x?}, {:x?}", original.revocation, port.revocation)
}

/// Quota, generation, used, hits, misses, total_caps, slots, live, removed.
fn numbers(space: &SpaceView) -> [u64; 9] {
    let [quota, used] = [space.quota, space.used].map(|number| number as u64);
    let table = [space.table.slots.len(), space.table.full, space.table.tombstones].map(|number| number as u64);
    let [slots, live, removed] = table;
    [quota, space.generation.into(), used, space.hits, space.misses, space.total_caps, slots, live, removed]
}
