//! Histories of deep and of wide trees: chains, and parents with 1,024 children, where collections begin.

use judge::layout::*;
use judge::rng::Rng;
use oracle::Test;

use super::wander::{some_type, token_of};
use crate::world::{Both, ManagerCall, Run, SpaceCall};

const ALL_RIGHTS: u32 = u32::MAX;

/// The spaces that a chain goes through, around and around.
const SPACES: usize = 4;

/// Each capability is delegated from the one before it, from space to space.
pub fn chains(run: &mut Run, test: &mut Test, rng: &Rng) {
    for depth in [1, 2, 3, 5, 8, 13, 30, 60, 120, 250, 600] {
        let numbers = Numbers { s: SPACES, m: depth / SPACES + 2, r: depth + rng.below(4), v: 2 * depth + 8, p: 1 };
        let mut both = Both::opened(run, test, rng, numbers, &[numbers.m as u64; SPACES]);
        let mut chain = vec![both.create(rng, 0)];
        for n in 1..depth {
            let [source, target] = [n - 1, n].map(|place| place % SPACES);
            chain.push(both.delegate(chain[n - 1], source, target, ALL_RIGHTS));
        }
        both.each(&chain);
        for _ in 0..3 {
            let [cut, revoked] = [0, 1].map(|_| chain[rng.below(depth)]);
            both.call(ManagerCall::Delete { token: cut });
            both.revoke(revoked);
            both.each(&chain);
            both.manage(rng, 40);
        }
    }
}

/// One parent in space 0, its children in the others, of which the last takes none; at 1,024 children calls go on around
/// the limit, at last with the parent revoked.
pub fn wide(run: &mut Run, test: &mut Test, rng: &Rng) {
    for r in [1025, 1026, 1040, 1100] {
        let numbers = Numbers { s: 7, m: 256, r, v: 2048, p: 1 };
        let mut both = Both::opened(run, test, rng, numbers, &[256, 256, 256, 256, 256, 256, 0]);
        let parent = both.create(rng, 0);
        both.around_the_limit(rng, parent, 4);
        both.fill(rng, parent);
        both.revoke(parent);
        both.loosen_and_ask(rng, parent);
    }
}

/// The same in worlds that hold anything, from the parents with the most children on.
pub fn wide_and_filled(run: &mut Run, test: &mut Test, rng: &Rng) {
    for _ in 0..20 {
        let numbers = Numbers { s: 5, m: rng.between(16, 200), r: rng.between(1025, 1500), v: 1200, p: 1 };
        let mut both = Both::filled(run, test, rng, numbers);
        let lists = &both.state.revocation.tree;
        let Some((parent, _)) = lists.iter().max_by_key(|(_, children)| children.len()) else { continue };
        let parent = token_of(*parent, some_type(rng), ALL_RIGHTS);
        both.around_the_limit(rng, parent, 2);
    }
}

impl Both<'_> {
    /// A capability that may be delegated, in space `s`.
    pub fn create(&mut self, rng: &Rng, s: usize) -> u64 {
        let call =
            ManagerCall::Create { s, object: rng.word(), valid: true, cap_type: some_type(rng), rights: ALL_RIGHTS };
        self.call(call).values[0]
    }

    pub fn delegate(&mut self, token: u64, source: usize, target: usize, rights: u32) -> u64 {
        self.call(ManagerCall::Delegate { token, source, target, rights }).values[0]
    }

    /// Checks each token where it was put, and looks at its children.
    fn each(&mut self, tokens: &[u64]) {
        for (n, &token) in tokens.iter().enumerate() {
            self.call(ManagerCall::Check { token, required: 1, s: n % SPACES });
            self.call(ManagerCall::GetChildren { id: id_of(token), area: 1 });
        }
        self.call(ManagerCall::TreeStats);
    }

    /// So often: children come until there are 1,024; then a few lose their holders and others are asked for, again and
    /// again; then many leave.
    fn around_the_limit(&mut self, rng: &Rng, parent: u64, rounds: usize) {
        for _ in 0..rounds {
            // The space may have lost it.
            self.call((SpaceCall::Insert, [0, parent, rng.word(), ALL_RIGHTS.into()]));
            self.fill(rng, parent);
            self.call(ManagerCall::GetChildren { id: id_of(parent), area: rng.between(1022, 1025) });
            for _ in 0..50 {
                self.loosen_and_ask(rng, parent);
            }
            self.disturb(rng);
        }
    }

    fn loosen_and_ask(&mut self, rng: &Rng, parent: u64) {
        self.loosen(rng);
        for _ in 0..rng.between(1, 4) {
            self.ask(rng, parent);
        }
    }

    /// Children come until there are 1,024; others leave a full space or a full registry for them.
    fn fill(&mut self, rng: &Rng, parent: u64) {
        for _ in 0..2 * MOST_CHILDREN {
            if self.children(id_of(parent)).len() == MOST_CHILDREN {
                break;
            }
            let (target, rights) = (rng.between(1, self.numbers.s - 1), rng.word() as u32);
            match self.call(ManagerCall::Delegate { token: parent, source: 0, target, rights }).answer {
                0 => {}
                4 => drop(self.call((SpaceCall::Clear, [target as u64, 0, 0, 0]))),
                22 => self.delete_other(rng, id_of(parent)),
                _ => break,
            }
        }
    }

    /// Deletes a capability that is neither the parent nor a child of it.
    fn delete_other(&mut self, rng: &Rng, parent: u64) {
        let (family, registry) = (self.children(parent), &self.state.manager.registry);
        let others = registry.iter().map(|e| e.id).filter(|id| *id != parent && !family.contains(id));
        let others: Vec<u64> = others.collect();
        self.call(ManagerCall::Delete { token: rng.pick(&others) });
    }

    /// The parent is delegated with new rights, or with those of a child that is held.
    fn ask(&mut self, rng: &Rng, parent: u64) {
        let target = rng.below(self.numbers.s);
        let held = self.some_entry(rng, target, |e| e.rights != ALL_RIGHTS).filter(|_| rng.once_in(4));
        self.delegate(parent, 0, target, held.map_or(rng.word() as u32, |e| e.rights));
    }

    /// A child or two lose a holder, or get a child of their own or a list at least, or are revoked.
    fn loosen(&mut self, rng: &Rng) {
        for _ in 0..rng.between(1, 3) {
            let s = rng.between(1, self.numbers.s - 1);
            match rng.below(16) {
                0..=9 => self.call_some(rng, SpaceCall::Remove, s, &|rng| rng.word()),
                10..=14 => drop(self.call(self.some_delegate(rng, s))),
                _ => self.revoke(self.live(rng, s).unwrap_or(0)),
            }
        }
    }

    /// A space is emptied, or capabilities are deleted, or anything happens.
    fn disturb(&mut self, rng: &Rng) {
        match rng.below(3) {
            0 => drop(self.call((SpaceCall::Clear, [rng.between(1, self.numbers.s - 1) as u64, 0, 0, 0]))),
            1 => {
                for _ in 0..20 {
                    self.call(ManagerCall::Delete { token: self.some_known(rng) });
                }
            }
            _ => self.manage(rng, 30),
        }
    }
}
