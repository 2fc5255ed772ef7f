//! The calls of revocation: what the original answers to each, and the answers that document 01 has for it.
//!
//! The source has no limit of logged pairs or of queues, so document 01's 24 and 25 are given here: where the original
//! comes out of a call with more of either than the world has places, it is put back to what it was.

use judge::layout::{Numbers, ID_END};

use crate::arch::timer::set_timestamp_secs;
use crate::cap::manager::{cap_manager, CapError};
use crate::cap::revocation::{self, RevocationNotification, RevocationReason};
use crate::cap::space::CapabilitySpace;
use crate::cap::token::CapabilityToken;
use crate::error::{self, KernelError};
use crate::memory::REASON_BY_NUMBER;
use crate::services::process_server::set_process_ids;
use crate::History;

use super::{done, lent, listed, refused, OnOriginal, Reply};

/// The most pids of a process list, and the most tokens of a batch.
pub const MOST_LISTED: usize = 32;
pub const MOST_TOKENS: usize = 65_535;

/// What the source asks its kernel for: the time in seconds and the process list.
#[derive(Debug, Clone, Default, PartialEq, Eq)]
pub struct Kernel {
    pub time: u64,
    pub listed: Vec<u64>,
}

/// With the arguments in the order of the port's call; a lent area by its length.
#[derive(Debug, Clone, PartialEq, Eq)]
pub enum RevocationCall {
    Revoke {
        token: u64,
        kernel: Kernel,
    },
    RevokeCapability {
        token: u64,
        kernel: Kernel,
    },
    RevokeHeld {
        s: usize,
        token: u64,
        kernel: Kernel,
    },
    RevokeBatch {
        tokens: Vec<u64>,
        kernel: Kernel,
    },
    IsRevoked {
        token: u64,
    },
    Epoch,
    Descendants {
        id: u64,
        area: usize,
    },
    Notify {
        pid: u64,
        id: u64,
        reason: u8,
        time: u64,
    },
    Drain {
        pid: u64,
        area: usize,
    },
    Peek {
        pid: u64,
        area: usize,
    },
    Count {
        pid: u64,
    },
    Cleanup {
        pid: u64,
    },
    QueueStats,
    /// The area is bytes. It has no memory to look at.
    WriteReason {
        reason: u8,
        area: usize,
    },
}

use RevocationCall::*;

impl RevocationCall {
    /// In the order above, each by its name and with the answers that it can give.
    pub const ALL: [(&'static str, &'static [u8]); 14] = [
        ("revoke", &[0, 1, 21, 24, 25, 26]),
        ("revoke_capability", &[0, 21, 24, 25, 26]),
        ("revoke_held", &[0, 2, 8, 20, 21, 24, 25, 26]),
        ("revoke_batch", &[0, 21, 26]),
        ("is_revoked", &[0, 26]),
        ("epoch", &[0, 26]),
        ("get_derivation_tree", &[0, 21, 26]),
        ("notify_process", &[0, 21, 25, 26]),
        ("drain_notifications", &[0, 21, 26]),
        ("peek_notifications", &[0, 21, 26]),
        ("notification_count", &[0, 26]),
        ("cleanup_process_notifications", &[0, 26]),
        ("notification_stats", &[0, 26]),
        ("as_str", &[0, 21]),
    ];

    fn number(&self) -> usize {
        match self {
            Revoke { .. } => 0,
            RevokeCapability { .. } => 1,
            RevokeHeld { .. } => 2,
            RevokeBatch { .. } => 3,
            IsRevoked { .. } => 4,
            Epoch => 5,
            Descendants { .. } => 6,
            Notify { .. } => 7,
            Drain { .. } => 8,
            Peek { .. } => 9,
            Count { .. } => 10,
            Cleanup { .. } => 11,
            QueueStats => 12,
            WriteReason { .. } => 13,
        }
    }

    /// The time and the process list, where it takes them.
    pub fn kernel(&self) -> Option<&Kernel> {
        match self {
            Revoke { kernel, .. } | RevokeCapability { kernel, .. } => Some(kernel),
            RevokeHeld { kernel, .. } | RevokeBatch { kernel, .. } => Some(kernel),
            _ => None,
        }
    }
}

impl OnOriginal for RevocationCall {
    fn name(&self) -> &'static str {
        Self::ALL[self.number()].0
    }

    /// Document 01's 20 comes first, then its 21.
    fn original(&self, history: &mut History, numbers: Numbers) -> Reply {
        if self.kernel().is_some_and(|kernel| MOST_LISTED < kernel.listed.len()) {
            let bad_space = matches!(self, RevokeHeld { s, .. } if history.spaces.len() <= *s);
            return refused(if bad_space { 20 } else { 21 });
        }
        match *self {
            RevokeHeld { s, .. } if history.spaces.len() <= s => refused(20),
            RevokeBatch { ref tokens, .. } if MOST_TOKENS < tokens.len() => refused(21),
            Revoke { token, ref kernel } => revoked(within(numbers, kernel, || cap_manager().revoke(of(token)))),
            RevokeCapability { token, ref kernel } => revoked_by_token(numbers, kernel, token),
            RevokeHeld { s, token, ref kernel } => revoked_held(numbers, kernel, &history.spaces[s], of(token)),
            RevokeBatch { ref tokens, ref kernel } => revoked_all(numbers, kernel, tokens),
            IsRevoked { token } => done(revocation::is_revoked(of(token)).into(), 0),
            Epoch => done(revocation::epoch(), 0),
            Descendants { id, area } => descendants(id, lent(area)),
            Notify { pid, id, reason, time } => notified(numbers, pid, id, reason, time),
            Drain { pid, area } => drained(pid, lent(area)),
            Peek { pid, area } => peeked(&revocation::peek_notifications(pid), lent(area)),
            Count { pid } => done(revocation::notification_count(pid) as u64, 0),
            Cleanup { pid } => {
                revocation::cleanup_process_notifications(pid);
                done(0, 0)
            }
            QueueStats => {
                let (processes, notices) = revocation::notification_stats();
                done(processes as u64, notices)
            }
            WriteReason { reason, area } => named(reason, lent_bytes(area)),
        }
    }
}

// ---- Replies

fn of(token: u64) -> CapabilityToken {
    CapabilityToken::from_u64(token)
}

/// What the source makes of it at that time with those processes; or 24 or 25, and all but the spaces as it was.
fn within<T>(numbers: Numbers, Kernel { time, listed }: &Kernel, make: impl FnOnce() -> T) -> Result<T, u8> {
    let before = (cap_manager().view(), revocation::view());
    set_timestamp_secs(*time);
    set_process_ids(listed);
    let made = make();
    let why = match revocation::notification_stats() {
        _ if numbers.v < revocation::logged() => 24,
        (queues, _) if numbers.p < queues => 25,
        _ => return Ok(made),
    };
    cap_manager().put(&before.0);
    revocation::put(&before.1);
    Err(why)
}

/// The manager's: 1 for an id that is not registered.
fn revoked(made: Result<Result<(), CapError>, u8>) -> Reply {
    match made {
        Ok(Ok(())) => done(0, 0),
        Ok(Err(why)) => {
            assert_eq!(why, CapError::InvalidCapability);
            refused(1)
        }
        Err(why) => refused(why),
    }
}

fn revoked_by_token(numbers: Numbers, kernel: &Kernel, token: u64) -> Reply {
    match within(numbers, kernel, || revocation::revoke_capability(of(token))) {
        Ok(made) => {
            assert_eq!(made, Ok(()));
            done(0, 0)
        }
        Err(why) => refused(why),
    }
}

fn revoked_held(numbers: Numbers, kernel: &Kernel, space: &CapabilitySpace, token: CapabilityToken) -> Reply {
    let visits = space.visits(token.id());
    let answer = match within(numbers, kernel, || revocation::revoke_held(space, token)) {
        Ok(Ok(())) => 0,
        Ok(Err(KernelError::InvalidCapability { reason: error::CapError::NotFound, .. })) => 8,
        Ok(Err(KernelError::InvalidCapability { reason: error::CapError::InsufficientRights, .. })) => 2,
        Ok(Err(why)) => unreachable!("no answer of a held revoke: {why:?}"),
        Err(why) => why,
    };
    Reply { answer, ..done(0, visits) }
}

/// All at once where the world has places for all; else each by itself, and those given 24 or 25 do not count.
fn revoked_all(numbers: Numbers, kernel: &Kernel, tokens: &[u64]) -> Reply {
    let caps: Vec<CapabilityToken> = tokens.iter().map(|&token| of(token)).collect();
    if let Ok(made) = within(numbers, kernel, || revocation::revoke_batch(&caps)) {
        return done(made.unwrap().into(), 0);
    }
    let gave_0 = |&&token: &&u64| revoked_by_token(numbers, kernel, token).answer == 0;
    done(tokens.iter().filter(gave_0).count() as u64, 0)
}

/// 21 for an id over 2^48-1 too.
fn descendants(id: u64, area: Vec<u64>) -> Reply {
    if ID_END <= id {
        return Reply { area, ..refused(21) };
    }
    let ids = revocation::get_derivation_tree(id);
    listed(&ids, ids.len(), area)
}

/// 25 where the pid has no queue and there are P.
fn notified(numbers: Numbers, pid: u64, id: u64, reason: u8, time: u64) -> Reply {
    let Some(&reason) = REASON_BY_NUMBER.get(usize::from(reason)).filter(|_| id < ID_END) else { return refused(21) };
    let kernel = Kernel { time, listed: Vec::new() };
    match within(numbers, &kernel, || revocation::notify_process(pid, id, reason)) {
        Ok(()) => done(0, 0),
        Err(why) => refused(why),
    }
}

/// The notices of a queue, three words each.
fn peeked(notices: &[RevocationNotification], area: Vec<u64>) -> Reply {
    let words = |n: &RevocationNotification| [n.cap_id, n.revoked_at, n.reason as u64];
    listed(&notices.iter().flat_map(words).collect::<Vec<u64>>(), notices.len(), area)
}

/// The queue stays where the area is too short for it.
fn drained(pid: u64, area: Vec<u64>) -> Reply {
    let reply = peeked(&revocation::peek_notifications(pid), area.clone());
    if reply.answer != 0 {
        return reply;
    }
    peeked(&revocation::drain_notifications(pid), area)
}

/// The name of a reason by its number, byte for byte.
fn named(reason: u8, area: Vec<u8>) -> Reply {
    let area = area.into_iter().map(u64::from).collect();
    match REASON_BY_NUMBER.get(usize::from(reason)) {
        Some(reason) => {
            let name: Vec<u64> = RevocationReason::as_str(*reason).bytes().map(u64::from).collect();
            listed(&name, name.len(), area)
        }
        None => Reply { area, ..refused(21) },
    }
}

/// An area of so many bytes, as it is when it is lent.
pub fn lent_bytes(places: usize) -> Vec<u8> {
    lent(places).into_iter().map(|word| word as u8).collect()
}
