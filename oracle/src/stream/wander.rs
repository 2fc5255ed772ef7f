//! Random requests that fit the state of a stream: tokens are mostly ones that were issued.

use judge::layout::{id_of, Numbers, ID_END};
use judge::rng::Rng;

use super::requests::*;
use super::script::Script;
use super::Field::*;
use super::{Request, PIDS};
use crate::cap::space::EntryView;
use crate::states::entries;

pub const SPACES: usize = Numbers::PROGRAM.s;
pub const GRANT: u32 = 8;
pub const REVOKE: u32 = 16;

impl Script<'_> {
    /// A request of an operation, mostly one that is done.
    pub fn some(&self, rng: &Rng, op: u64) -> Request {
        let (s, rights, time) =
            (self.some_space(rng), some_rights(rng), rng.pick(&[5, rng.word() % 1000, rng.limit()]));
        let request = match op {
            1 => create(s, rng.word() % 16, rights, rng.word()),
            2 => self.some_delegate(rng, s, rights),
            3 => lookup(s, self.some_token(rng, s)),
            4 => self.some_check(rng, s),
            5 => remove(s, self.some_token(rng, s)),
            6 => delete(self.some_known(rng)),
            7 => held_revoke(s, self.entry_with(rng, s, REVOKE), time),
            8 => clear(s),
            9 => copy(s, self.some_space(rng)),
            10 => revoke_all(s),
            11 => insert(s, rights, self.some_new(rng, s), rng.word()),
            12 => space_made_create(s, rights, rng.word()),
            13 => space_revoke(s, self.some_id(rng, s)),
            14 => drain(if rng.once_in(8) { rng.limit() } else { rng.pick(&PIDS) }),
            15 => revoke_capability(self.some_revoked(rng), time),
            _ => Request::of(op),
        };
        match rng.below(64) {
            0 if op == 1 => request.with(Valid, 0),
            1 if request.reads(Second) => request.with(Second, 4 + rng.word() % 60),
            2 if request.reads(Space) => request.with(Space, 4 + rng.word() % 60),
            _ => request,
        }
    }

    /// Two of the spaces more often than the others.
    pub fn some_space(&self, rng: &Rng) -> usize {
        rng.pick(&[0, 0, 1, 1, 2, 3])
    }

    fn some_delegate(&self, rng: &Rng, s: usize, rights: u32) -> Request {
        delegate(s, rng.below(SPACES), rights, self.entry_with(rng, s, GRANT))
    }

    /// For rights that the entry has, or others.
    fn some_check(&self, rng: &Rng, s: usize) -> Request {
        match self.entry(rng, s) {
            Some(entry) if !rng.once_in(4) => check(s, entry.rights & rng.word() as u32, entry.token),
            _ => check(s, some_rights(rng), self.some_token(rng, s)),
        }
    }

    /// Some entry of a space, if it has one.
    pub fn entry(&self, rng: &Rng, s: usize) -> Option<EntryView> {
        let count = self.state.spaces[s].used;
        (count > 0).then(|| entries(&self.state, s).nth(rng.below(count)).unwrap())
    }

    /// Mostly the token of an entry that has this right.
    fn entry_with(&self, rng: &Rng, s: usize, right: u32) -> u64 {
        let fit: Vec<EntryView> = entries(&self.state, s).filter(|e| e.rights & right != 0).collect();
        if fit.is_empty() || rng.once_in(8) {
            return self.some_token(rng, s);
        }
        rng.pick(&fit).token
    }

    /// A token that is looked for: mostly of an entry that the space has.
    fn some_token(&self, rng: &Rng, s: usize) -> u64 {
        let token = match rng.below(16) {
            0 => None,
            1 => Some(self.some_known(rng)),
            2 => self.entry(rng, rng.below(SPACES)).map(|e| e.token),
            3 => self.entry(rng, s).map(|e| e.token ^ 1 << rng.between(48, 63)),
            _ => self.entry(rng, s).map(|e| e.token),
        };
        token.unwrap_or_else(|| rng.word())
    }

    /// A token that is to come: of an id that is next, of one that another space has, of a registered one, of any.
    fn some_new(&self, rng: &Rng, s: usize) -> u64 {
        match rng.below(8) {
            0 | 1 => self.next_id() + rng.word() % 3 | rng.word() << 48,
            2 => self.some_token(rng, s),
            3 => self.some_token(rng, rng.below(SPACES)),
            4 | 5 => self.some_known(rng) & !(0xFE << 48),
            _ => rng.word(),
        }
    }

    /// The id that is taken next.
    pub fn next_id(&self) -> u64 {
        self.state.manager.recycled.first().copied().unwrap_or(self.state.manager.next_id)
    }

    /// A token of a registered id, as it was issued or nearly so; seldom of a recycled or any other id.
    fn some_known(&self, rng: &Rng) -> u64 {
        let (registry, recycled) = (&self.state.manager.registry, &self.state.manager.recycled);
        let id = match rng.below(16) {
            0 => rng.word() % ID_END,
            1 | 2 if !recycled.is_empty() => rng.pick(recycled),
            _ if !registry.is_empty() => registry[rng.below(registry.len())].id,
            _ => self.next_id(),
        };
        id | rng.pick(&[0, 1 << 48, rng.word() << 48, rng.word() << 56])
    }

    /// The id of an entry that the space itself can revoke, or of another; seldom one over 2^48-1.
    fn some_id(&self, rng: &Rng, s: usize) -> u64 {
        let own = |e: &EntryView| e.token / ID_END == u64::from(self.state.spaces[s].generation);
        let fit: Vec<EntryView> = entries(&self.state, s).filter(own).collect();
        match rng.below(16) {
            0 => ID_END + rng.word() % 4,
            1 => rng.limit(),
            2..=5 => id_of(self.some_token(rng, s)),
            _ if fit.is_empty() => id_of(self.some_token(rng, s)),
            _ => id_of(rng.pick(&fit).token),
        }
    }

    /// A token that is revoked: registered, or in the log, or neither.
    fn some_revoked(&self, rng: &Rng) -> u64 {
        let log = &self.state.revocation.log;
        match rng.below(8) {
            0 => rng.word(),
            1 if !log.is_empty() => {
                let (id, generation) = log[rng.below(log.len())];
                id | u64::from(generation) << 48 | rng.word() << 56
            }
            _ => self.some_known(rng),
        }
    }
}

/// Few, so that they meet again; mostly with GRANT and REVOKE.
pub fn some_rights(rng: &Rng) -> u32 {
    rng.pick(&[u32::MAX, u32::MAX, 31, 31, GRANT | REVOKE | 1, GRANT | 0x100, REVOKE | 3, 1, 0, rng.word() as u32])
}
