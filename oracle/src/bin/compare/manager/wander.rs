//! Random calls of the manager: few rights and types, so that calls meet what earlier ones left; tokens of entries that
//! are there, stale ones, and guesses of ids that are registered, recycled or next.

use judge::layout::*;
use judge::rng::Rng;
use oracle::cap::space::{EntryView, SlotView};

use crate::world::{Both, Kernel, ManagerCall, RevocationCall, SpaceCall};

const GRANT: u32 = 8;

/// Some differ in the flags, some above them alone.
pub fn some_rights(rng: &Rng) -> u32 {
    rng.pick(&[0, 1, 8, 9, 0xF, 0xF, 0xF, 0x1F, 0xFF, u32::MAX, u32::MAX, rng.word() as u32])
}

pub fn some_type(rng: &Rng) -> u8 {
    rng.pick(&[0, 0, 0, 1, 15])
}

/// The token of an unrevoked id.
pub fn token_of(id: u64, cap_type: u8, rights: u32) -> u64 {
    id | u64::from(cap_type) << 56 | u64::from(rights % 16) << 60
}

impl Both<'_> {
    /// So many calls of the manager and of the spaces, in stretches in which capabilities leave more or less often; now
    /// and then one is revoked.
    pub fn manage(&mut self, rng: &Rng, calls: usize) {
        let mut leave = rng.below(20);
        for n in 1..=calls {
            if n % 64 == 0 {
                leave = rng.below(20);
            }
            let s = rng.below(self.numbers.s);
            match rng.below(64) {
                0 => self.revoke(self.some_known(rng)),
                1..=8 => self.wander(rng, 1, &|rng| rng.word()),
                9..=12 => self.guess(rng, s),
                few if few < 13 + leave => self.leave(rng, s),
                _ => drop(self.call(self.some_call(rng, s))),
            }
        }
    }

    /// Revokes a capability with all its descendants, with no process listed.
    pub fn revoke(&mut self, token: u64) {
        self.call(RevocationCall::Revoke { token, kernel: Kernel::default() });
    }

    /// An entry leaves a space, or a capability the registry.
    fn leave(&mut self, rng: &Rng, s: usize) {
        match rng.below(3) {
            0 => drop(self.call(ManagerCall::Delete { token: self.some_known(rng) })),
            _ => self.call_some(rng, SpaceCall::Remove, s, &|rng| rng.word()),
        }
    }

    /// A call of the manager, of space `s` if it is one of a space.
    fn some_call(&self, rng: &Rng, s: usize) -> ManagerCall {
        match rng.below(32) {
            0..=5 => some_create(rng, s),
            6..=20 => self.some_delegate(rng, s),
            21..=24 => ManagerCall::Check { token: self.some_asked(rng, s), required: rng.pick(&[0, 1, 8, 0xF]), s },
            25 | 26 => ManagerCall::IsValid { token: self.some_asked(rng, s) },
            27 | 28 => self.some_children(rng),
            29 => ManagerCall::Census { s },
            30 => ManagerCall::Stats,
            _ => ManagerCall::TreeStats,
        }
    }

    /// Of an entry that may be delegated, mostly.
    pub fn some_delegate(&self, rng: &Rng, source: usize) -> ManagerCall {
        let registry = &self.state.manager.registry;
        let may = |e: &EntryView| {
            let registered = registry.binary_search_by_key(&id_of(e.token), |e| e.id);
            e.rights & GRANT != 0 && registered.is_ok_and(|place| !registry[place].revoked)
        };
        let entry = self.some_entry(rng, source, may).filter(|_| !rng.once_in(8));
        let token = entry.map_or_else(|| self.some_asked(rng, source), |e| e.token);
        ManagerCall::Delegate { token, source, target: rng.below(self.numbers.s), rights: some_rights(rng) }
    }

    /// With an area around the length that is needed.
    fn some_children(&self, rng: &Rng) -> ManagerCall {
        let id = match rng.below(4) {
            0 => id_of(self.some_known(rng)),
            _ => self.some_parent(rng).unwrap_or_else(|| id_of(self.some_known(rng))),
        };
        let area = (self.children(id).len() + rng.pick(&[0, 1, 1, 2, 9])).saturating_sub(1);
        ManagerCall::GetChildren { id, area }
    }

    pub fn children(&self, id: u64) -> &[u64] {
        let lists = &self.state.revocation.tree;
        lists.binary_search_by_key(&id, |(parent, _)| *parent).map_or(&[], |place| &lists[place].1)
    }

    /// An id that has a list of children.
    pub fn some_parent(&self, rng: &Rng) -> Option<u64> {
        let lists = &self.state.revocation.tree;
        (!lists.is_empty()).then(|| lists[rng.below(lists.len())].0)
    }

    /// An entry enters a space with a token that was not given to it: of an id that is registered, recycled or next.
    pub fn guess(&mut self, rng: &Rng, s: usize) {
        let manager = &self.state.manager;
        let recycled = manager.recycled.first().copied();
        let id = match rng.below(3) {
            0 => id_of(self.some_known(rng)),
            1 => recycled.unwrap_or(manager.next_id),
            _ => manager.next_id + rng.word() % 3,
        };
        let rights = some_rights(rng);
        let token = token_of(id % ID_END, some_type(rng), rights);
        self.call((SpaceCall::Insert, [s as u64, token, rng.word(), rights.into()]));
    }

    /// A token of a registered or a recycled id, or of any.
    pub fn some_known(&self, rng: &Rng) -> u64 {
        self.known(rng).unwrap_or_else(|| rng.word())
    }

    /// A token that is asked for: of an entry of the space, mostly.
    pub fn some_asked(&self, rng: &Rng, s: usize) -> u64 {
        match rng.below(16) {
            0 => self.stale(rng, s),
            1 => self.known(rng),
            2 => self.live(rng, rng.below(self.numbers.s)),
            _ => self.live(rng, s),
        }
        .unwrap_or_else(|| rng.word())
    }

    /// Some entry of a space that is as wanted.
    pub fn some_entry(&self, rng: &Rng, s: usize, wanted: impl Fn(&EntryView) -> bool) -> Option<EntryView> {
        let slots = &self.state.spaces[s].table.slots;
        let (before, from) = slots.split_at(rng.below(slots.len().max(1)).min(slots.len()));
        let full = |slot: &SlotView| match slot {
            SlotView::Full(entry) => Some(*entry),
            _ => None,
        };
        from.iter().chain(before).filter_map(full).find(wanted)
    }
}

pub fn some_create(rng: &Rng, s: usize) -> ManagerCall {
    let (cap_type, rights) = (some_type(rng), some_rights(rng) | rng.pick(&[0, GRANT, GRANT, GRANT]));
    ManagerCall::Create { s, object: rng.word(), valid: !rng.once_in(16), cap_type, rights }
}
