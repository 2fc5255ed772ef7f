//! Histories of cascades: down chains, over parents with 1,024 children, over trees of any shape, and over the largest.

use judge::layout::*;
use judge::rng::Rng;
use oracle::Test;

use super::wander::{some_area, some_time};
use crate::world::{some_token_of, Both, Kernel, ManagerCall, RevocationCall, Run, MOST_LISTED};

const ALL_RIGHTS: u32 = u32::MAX;
const PIDS: [u64; 3] = [1, 2, 7];

/// The spaces that a tree stands in: the n-th capability in space n % 5.
const SPACES: usize = 5;

/// Each capability is delegated from the one before it; then some are revoked late in the chain, at last the root.
pub fn chains(run: &mut Run, test: &mut Test, rng: &Rng) {
    for depth in [1, 2, 3, 5, 8, 13, 30, 60, 120, 120, 250, 250, 600, 1000] {
        let mut both = open(run, test, rng, depth, depth + 8);
        let chain = both.grow(rng, depth, |_, grown| grown - 1);
        both.revoke_and_look(rng, &chain);
    }
}

/// One parent has as many children as it may, of which some are revoked before it.
pub fn wide(run: &mut Run, test: &mut Test, rng: &Rng) {
    for children in [1, 2, 20, 254, 255, 256, 257, 258, 600, MOST_CHILDREN, MOST_CHILDREN] {
        let mut both = open(run, test, rng, children + 1, children + 1);
        let family = both.grow(rng, children + 1, |_, _| 0);
        both.revoke_and_look(rng, &family);
    }
}

/// Each capability is delegated from any before it, or from one of the last.
pub fn any_shape(run: &mut Run, test: &mut Test, rng: &Rng) {
    for size in (2..=60).chain(2..=60).chain(20..=60).chain([100, 200, 300, 400, 800]) {
        let mut both = open(run, test, rng, size, size + rng.below(4));
        let late = rng.once_in(2);
        let tree = both.grow(rng, size, |rng, grown| match late {
            true => grown - 1 - rng.below(grown.min(5)),
            false => rng.below(grown),
        });
        both.revoke_and_look(rng, &tree);
    }
}

/// 4,095 ids of which none is revoked; the log has half of their pairs, and room for the rest or nearly.
pub fn largest(run: &mut Run, test: &mut Test, rng: &Rng) {
    for _ in 0..60 {
        let numbers = Numbers { s: 1, m: 4, r: 4095, v: 8192, p: rng.between(28, 32) };
        let mut both = Both::filled(run, test, rng, numbers);
        let room = rng.pick(&[4095, 4095, 2000]);
        both.edit(|mem| {
            mem[numbers.states()].iter_mut().for_each(|state| *state &= !REVOKED);
            mem[LOGGED] = mem[LOGGED].min((numbers.v - room) as u64);
        });
        let first: Vec<u64> = both.mem[numbers.ids()][..both.mem[REGISTERED].min(3) as usize].to_vec();
        for id in first.into_iter().rev() {
            both.look_under(rng, id);
            let kernel = both.most_listed(rng);
            both.call(RevocationCall::RevokeCapability { token: some_token_of(rng, id), kernel });
            both.revoke_among(rng, 10, &PIDS);
        }
    }
}

/// A world for so many capabilities, and at least so many pairs.
fn open<'a>(run: &'a mut Run, test: &'a mut Test, rng: &Rng, size: usize, pairs: usize) -> Both<'a> {
    let (m, r) = (size / SPACES + 2, size + rng.below(4));
    let numbers = Numbers { s: SPACES, m, r, v: pairs + rng.below(4), p: PIDS.len() };
    Both::opened(run, test, rng, numbers, &[m as u64; SPACES])
}

impl Both<'_> {
    /// So many capabilities, each delegated from the one that `parent` names of those grown so far.
    fn grow(&mut self, rng: &Rng, size: usize, parent: impl Fn(&Rng, usize) -> usize) -> Vec<u64> {
        let mut grown = vec![self.create(rng, 0)];
        for n in 1..size {
            let of = parent(rng, n);
            grown.push(self.delegate(grown[of], of % SPACES, n % SPACES, ALL_RIGHTS ^ (n as u32) << 8));
        }
        grown
    }

    /// Revokes here and there, or not, and looks at what is left; at last revokes all.
    fn revoke_and_look(&mut self, rng: &Rng, tree: &[u64]) {
        for _ in 0..rng.pick(&[0, 3, 6]) {
            self.revoke_one(rng, tree);
            self.look(rng, tree);
        }
        let kernel = Kernel { time: some_time(rng), listed: PIDS[..rng.below(4)].to_vec() };
        self.call(RevocationCall::Revoke { token: tree[0], kernel });
        self.look(rng, tree);
        self.revoke_among(rng, 60, &PIDS);
    }

    /// By any of the ways to revoke, mostly late in the tree.
    fn revoke_one(&mut self, rng: &Rng, tree: &[u64]) {
        let last = tree.len() - 1;
        let place = if rng.once_in(4) { rng.below(tree.len()) } else { last - rng.below(tree.len().min(9)) };
        let (token, kernel) = (tree[place], self.some_kernel(rng, &PIDS));
        self.look_under(rng, id_of(token));
        self.call(match rng.below(4) {
            0 => RevocationCall::Revoke { token, kernel },
            1 => RevocationCall::RevokeCapability { token: some_token_of(rng, id_of(token)), kernel },
            2 => RevocationCall::RevokeHeld { s: place % SPACES, token, kernel },
            _ => RevocationCall::RevokeBatch { tokens: vec![token, tree[last / 2]], kernel },
        });
    }

    /// About as many pids as can be listed: those that have queues, if any, or the first.
    fn most_listed(&self, rng: &Rng) -> Kernel {
        let with_queues: Vec<u64> = self.state.revocation.queues.iter().map(|q| q.pid).collect();
        let count = rng.between(MOST_LISTED - 4, MOST_LISTED);
        let listed = match with_queues.is_empty() || rng.once_in(4) {
            true => (0..count as u64).collect(),
            false => with_queues.into_iter().cycle().take(count).collect(),
        };
        Kernel { time: some_time(rng), listed }
    }

    /// The descendants of an id, with areas around the length that is needed.
    fn look_under(&mut self, rng: &Rng, id: u64) {
        let needed = self.descendants(id);
        for area in [needed, needed.saturating_sub(1), some_area(rng, needed)] {
            self.call(RevocationCall::Descendants { id, area });
        }
    }

    /// Some of a tree, and the queues.
    fn look(&mut self, rng: &Rng, tree: &[u64]) {
        for _ in 0..tree.len().min(20) {
            let place = rng.below(tree.len());
            self.call(ManagerCall::Check { token: tree[place], required: 1, s: place % SPACES });
            self.call(RevocationCall::IsRevoked { token: tree[place] });
        }
        for _ in 0..4 {
            self.call(self.some_notification(rng, &PIDS));
        }
        self.call(RevocationCall::Epoch);
    }
}
