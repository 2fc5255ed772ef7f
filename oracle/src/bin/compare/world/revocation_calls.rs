//! The calls of revocation on the port, what each may change, and what may happen in it.

mod events;

use judge::rng::Rng;
use oracle::calls::{Kernel, Reply, RevocationCall};

use super::call::{Call, Event, Made};
use super::{any_token, port};

use RevocationCall::*;

/// Any of them that looks at a memory, with any arguments.
pub fn any_revocation_call(rng: &Rng) -> RevocationCall {
    let [s, area, length] = [6, 4, 34].map(|end| rng.below(end));
    let [token, pid, time] = [any_token(rng), rng.word() % 64, rng.word()];
    let kernel = Kernel { time, listed: (0..length).map(|_| rng.word() % 64).collect() };
    match rng.below(RevocationCall::ALL.len() - 1) {
        0 => Revoke { token, kernel },
        1 => RevokeCapability { token, kernel },
        2 => RevokeHeld { s, token, kernel },
        3 => RevokeBatch { tokens: (0..area).map(|_| any_token(rng)).collect(), kernel },
        4 => IsRevoked { token },
        5 => Epoch,
        6 => Descendants { id: token, area },
        7 => Notify { pid, id: token, reason: rng.below(6) as u8, time },
        8 => Drain { pid, area },
        9 => Peek { pid, area },
        10 => Count { pid },
        11 => Cleanup { pid },
        _ => QueueStats,
    }
}

impl Call for RevocationCall {
    /// A lookup stays counted.
    fn changes_on(&self, answer: u8) -> bool {
        match self {
            RevokeHeld { .. } => !matches!(answer, 20 | 21 | 26),
            _ => self.changes_queues() && answer == 0,
        }
    }

    fn spaces(&self) -> Vec<usize> {
        match self {
            RevokeHeld { s, .. } => vec![*s],
            _ => Vec::new(),
        }
    }

    fn changes_queues(&self) -> bool {
        self.kernel().is_some() || matches!(self, Notify { .. } | Drain { .. } | Cleanup { .. })
    }

    fn port(&self, mem: &mut [u64]) -> Reply {
        port::revocation_call(mem, self)
    }

    fn events(&self, made: &Made) -> Vec<Event> {
        events::of(self, made)
    }
}
