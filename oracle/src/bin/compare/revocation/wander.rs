//! Random calls of revocation: tokens of what is registered, logged or neither; few pids, so that calls meet the queues
//! that earlier ones left; areas around the length that is needed.

use judge::layout::*;
use judge::rng::Rng;

use crate::world::{list, some_token_of, Both, Kernel, RevocationCall, MOST_LISTED};

const REVOKE: u32 = 16;

impl Both<'_> {
    /// So many calls of revocation among those of the manager and the spaces; pids are mostly these.
    pub fn revoke_among(&mut self, rng: &Rng, calls: usize, pids: &[u64]) {
        for _ in 0..calls {
            match rng.below(8) {
                0..=2 => drop(self.call(self.some_revocation(rng, pids))),
                _ => self.manage(rng, 1),
            }
        }
    }

    pub fn some_revocation(&self, rng: &Rng, pids: &[u64]) -> RevocationCall {
        match rng.below(32) {
            0..=2 => RevocationCall::Revoke { token: self.some_revoked(rng), kernel: self.some_kernel(rng, pids) },
            3..=5 => {
                RevocationCall::RevokeCapability { token: self.some_revoked(rng), kernel: self.some_kernel(rng, pids) }
            }
            6..=9 => self.some_held(rng, pids),
            10 | 11 => self.some_batch(rng, pids),
            12..=15 => RevocationCall::IsRevoked { token: self.some_revoked(rng) },
            16 => RevocationCall::Epoch,
            17..=19 => self.some_descendants(rng),
            20 => RevocationCall::WriteReason { reason: rng.below(5) as u8, area: rng.below(18) },
            _ => self.some_notification(rng, pids),
        }
    }

    /// A call on the queues.
    pub fn some_notification(&self, rng: &Rng, pids: &[u64]) -> RevocationCall {
        let pid = self.some_pid(rng, pids);
        let area = some_area(rng, NOTICE * self.notices(pid));
        match rng.below(16) {
            0..=6 => self.some_notice(rng, pid),
            7..=9 => RevocationCall::Peek { pid, area },
            10 | 11 => RevocationCall::Drain { pid, area },
            12 | 13 => RevocationCall::Count { pid },
            14 => RevocationCall::Cleanup { pid },
            _ => RevocationCall::QueueStats,
        }
    }

    /// Of any id, for one of the four reasons mostly.
    pub fn some_notice(&self, rng: &Rng, pid: u64) -> RevocationCall {
        let id = if rng.once_in(16) { rng.word() } else { id_of(self.some_revoked(rng)) };
        let reason = if rng.once_in(16) { rng.pick(&[4, 5, 255]) } else { rng.below(4) as u8 };
        RevocationCall::Notify { pid, id, reason, time: some_time(rng) }
    }

    /// A revoke on behalf of a space, mostly of an entry of it that has the right.
    pub fn some_held(&self, rng: &Rng, pids: &[u64]) -> RevocationCall {
        let s = rng.below(self.numbers.s);
        let entry = self.some_entry(rng, s, |e| e.rights & REVOKE != 0).filter(|_| !rng.once_in(3));
        let token = entry.map_or_else(|| self.some_asked(rng, s), |e| e.token);
        RevocationCall::RevokeHeld { s, token, kernel: self.some_kernel(rng, pids) }
    }

    /// A few tokens, of which some come again.
    pub fn some_batch(&self, rng: &Rng, pids: &[u64]) -> RevocationCall {
        let mut tokens: Vec<u64> = (0..rng.below(6)).map(|_| self.some_revoked(rng)).collect();
        if !tokens.is_empty() && rng.once_in(2) {
            tokens.push(rng.pick(&tokens));
        }
        RevocationCall::RevokeBatch { tokens, kernel: self.some_kernel(rng, pids) }
    }

    /// With an area around the length that is needed.
    pub fn some_descendants(&self, rng: &Rng) -> RevocationCall {
        let id = match rng.below(4) {
            0 => id_of(self.some_revoked(rng)),
            _ => self.some_parent(rng).unwrap_or_else(|| id_of(self.some_revoked(rng))),
        };
        RevocationCall::Descendants { id, area: some_area(rng, self.descendants(id)) }
    }

    /// How many ids are under this one.
    pub fn descendants(&self, id: u64) -> usize {
        let mut open = vec![id];
        let mut count = 0;
        while let Some(children) = open.pop().map(|id| list(&self.state, id).unwrap_or_default()) {
            count += children.len();
            open.extend(children);
        }
        count
    }

    /// A token that is revoked or asked for: registered, or in the log, or neither.
    pub fn some_revoked(&self, rng: &Rng) -> u64 {
        let log = &self.state.revocation.log;
        match rng.below(8) {
            0 => Some(some_token_of(rng, rng.word() % ID_END)),
            1 if !log.is_empty() => {
                let (id, generation) = log[rng.below(log.len())];
                Some(id | u64::from(generation) << 48 | rng.word() << 56)
            }
            2 | 3 => self.some_parent(rng).map(|id| some_token_of(rng, id)),
            4 => self.live(rng, rng.below(self.numbers.s)),
            5 => self.known(rng).map(|token| token & !(0xFE << 48)),
            _ => None,
        }
        .unwrap_or_else(|| self.some_known(rng))
    }

    /// Any time, and up to 32 pids, seldom one more.
    pub fn some_kernel(&self, rng: &Rng, pids: &[u64]) -> Kernel {
        let length = match rng.below(16) {
            0..=2 => 0,
            3..=8 => rng.between(1, 3),
            9..=12 => rng.between(1, 8),
            13 | 14 => rng.pick(&[self.numbers.p, MOST_LISTED - 1, MOST_LISTED]),
            _ => rng.pick(&[MOST_LISTED, MOST_LISTED, MOST_LISTED + 1]),
        };
        Kernel { time: some_time(rng), listed: (0..length).map(|_| self.some_pid(rng, pids)).collect() }
    }

    fn some_pid(&self, rng: &Rng, pids: &[u64]) -> u64 {
        let queues = &self.state.revocation.queues;
        match rng.below(16) {
            0 => rng.limit(),
            1..=4 if !queues.is_empty() => queues[rng.below(queues.len())].pid,
            _ => rng.pick(pids),
        }
    }

    /// How many notices a pid has.
    pub fn notices(&self, pid: u64) -> usize {
        let queues = &self.state.revocation.queues;
        queues.binary_search_by_key(&pid, |q| q.pid).map_or(0, |place| queues[place].notices.len())
    }
}

pub fn some_time(rng: &Rng) -> u64 {
    rng.pick(&[rng.word() % 1000, rng.limit(), rng.word()])
}

/// The length that is needed, or one around it.
pub fn some_area(rng: &Rng, needed: usize) -> usize {
    (needed + rng.pick(&[0, 1, 1, 2, 9])).saturating_sub(1)
}
