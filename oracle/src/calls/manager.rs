//! The calls of the manager and the reads of the derivation tree: what the original answers to each, and the answers
//! that document 01 has for it.
//!
//! The source has no limit of registered or recycled ids, so document 01's 22 and 23 are given here. What a call does
//! before and after its 22 it does by the source's own steps, so that the state is compared there too; a delete that is
//! given 23 changes nothing, and is not made on the original.

use std::sync::atomic::Ordering::Relaxed;

use judge::layout::{Numbers, ID_END};

use crate::cap::manager::{cap_manager, check_capability, CapError};
use crate::cap::object::ObjectRef;
use crate::cap::revocation::{derivation_tree_stats, drop_list, get_children};
use crate::cap::space::CapabilitySpace;
use crate::cap::token::{alloc_cap_id, CapabilityToken, Rights};
use crate::History;

use super::{done, lent, listed, moves, refused, replied, OnOriginal, Reply};

/// With the arguments in the order of the port's call; a lent area by its length.
#[derive(Debug, Clone, Copy, PartialEq, Eq)]
pub enum ManagerCall {
    Create { s: usize, object: u64, valid: bool, cap_type: u8, rights: u32 },
    Delegate { token: u64, source: usize, target: usize, rights: u32 },
    Delete { token: u64 },
    Check { token: u64, required: u32, s: usize },
    IsValid { token: u64 },
    Stats,
    GetChildren { id: u64, area: usize },
    TreeStats,
    Census { s: usize },
}

use ManagerCall::*;

impl ManagerCall {
    /// In the order above, each by its name and with the answers that it can give.
    pub const ALL: [(&'static str, &'static [u8]); 9] = [
        ("create_capability", &[0, 4, 5, 9, 20, 21, 22, 26]),
        ("delegate", &[0, 1, 3, 4, 6, 9, 10, 20, 22, 26]),
        ("delete", &[0, 8, 23, 26]),
        ("check_capability", &[0, 2, 3, 20, 26]),
        ("is_valid", &[0, 26]),
        ("manager stats", &[0, 26]),
        ("get_children", &[0, 21, 26]),
        ("derivation_tree_stats", &[0, 26]),
        ("census", &[0, 20, 26]),
    ];

    fn number(&self) -> usize {
        match self {
            Create { .. } => 0,
            Delegate { .. } => 1,
            Delete { .. } => 2,
            Check { .. } => 3,
            IsValid { .. } => 4,
            Stats => 5,
            GetChildren { .. } => 6,
            TreeStats => 7,
            Census { .. } => 8,
        }
    }
}

impl OnOriginal for ManagerCall {
    fn name(&self) -> &'static str {
        Self::ALL[self.number()].0
    }

    /// Document 01's 20 comes first, and is the same for all; the calls give its 21.
    fn original(&self, history: &mut History, numbers: Numbers) -> Reply {
        let spaces = history.spaces.len();
        match *self {
            Create { s, .. } | Check { s, .. } | Census { s } if spaces <= s => refused(20),
            Delegate { source, target, .. } if spaces <= source || spaces <= target => refused(20),
            Create { s, object, valid, cap_type, rights } => {
                let object = ObjectRef { identity: object, valid, type_code: cap_type };
                created(&history.spaces[s], numbers.r, object, Rights::new(rights))
            }
            Delegate { token, source, target, rights } => {
                delegated(history, numbers.r, of(token), [source, target], Rights::new(rights))
            }
            Delete { token } => deleted(numbers.r, of(token)),
            Check { token, required, s } => checked(&history.spaces[s], of(token), Rights::new(required)),
            IsValid { token } => done(cap_manager().is_valid(of(token)).into(), 0),
            Stats => stats(),
            GetChildren { id, area } => children(id, lent(area)),
            TreeStats => {
                let (parents, children) = derivation_tree_stats();
                done(parents as u64, children)
            }
            Census { s } => done(strays(&history.spaces[s]) as u64, 0),
        }
    }
}

// ---- Replies, in a world of R registry places

fn of(token: u64) -> CapabilityToken {
    CapabilityToken::from_u64(token)
}

/// 22 after the id is taken, which goes to the recycled set.
fn created(space: &CapabilitySpace, places: usize, object: ObjectRef, rights: Rights) -> Reply {
    if object.type_code > 15 {
        return refused(21);
    }
    if object.valid && places <= cap_manager().registered() {
        return alloc_cap_id().map_or(refused(9), |id| {
            cap_manager().give_back(id);
            refused(22)
        });
    }
    let moved = moves(space);
    made(cap_manager().create_capability(object, rights, space), || moved(space))
}

/// 22 after the parent was found good. Where all places are registered at the start, the target's quota is 0 for the
/// while: then the original answers 4 exactly if it found the parent good, and has undone all but the parent's list.
fn delegated(
    history: &mut History,
    places: usize,
    token: CapabilityToken,
    [source, target]: [usize; 2],
    rights: Rights,
) -> Reply {
    if cap_manager().registered() < places {
        return delegated_with_place(history, token, [source, target], rights);
    }
    let (before, quota) = (history.view(), history.spaces[target].quota());
    history.spaces[target].set_quota(0);
    let reply = delegated_with_place(history, token, [source, target], rights);
    history.spaces[target].set_quota(quota);
    if reply.answer != 4 {
        return reply;
    }
    if cap_manager().registered() < places {
        // A collection made room.
        history.put(&before);
        return delegated_with_place(history, token, [source, target], rights);
    }
    if before.revocation.tree.iter().all(|&(parent, _)| parent != token.id()) {
        drop_list(token.id());
    }
    refused(22)
}

fn delegated_with_place(
    history: &History,
    token: CapabilityToken,
    [source, target]: [usize; 2],
    rights: Rights,
) -> Reply {
    let target = &history.spaces[target];
    let moved = moves(target);
    made(cap_manager().delegate(token, &history.spaces[source], target, rights), || moved(target))
}

fn made(made: Result<CapabilityToken, CapError>, moved: impl FnOnce() -> usize) -> Reply {
    match made {
        Ok(token) => done(token.to_u64(), moved()),
        Err(why) => refused(number(why)),
    }
}

/// 23 for a registered id where R+1 are recycled.
fn deleted(places: usize, token: CapabilityToken) -> Reply {
    if cap_manager().is_registered(token.id()) && places < cap_manager().recycled() {
        return refused(23);
    }
    match cap_manager().delete(token) {
        Ok(()) => done(0, 0),
        Err(why) => refused(number(why)),
    }
}

fn checked(space: &CapabilitySpace, token: CapabilityToken, required: Rights) -> Reply {
    let visits = space.visits(token.id());
    let answer = check_capability(token, required, space).map_or_else(number, |()| 0);
    Reply { answer, ..done(0, visits) }
}

fn stats() -> Reply {
    let stats = cap_manager().stats();
    let counts = [
        &stats.capabilities_created,
        &stats.capabilities_delegated,
        &stats.capabilities_revoked,
        &stats.capabilities_deleted,
    ];
    let [created, delegated, revoked, deleted] = counts.map(|count| count.load(Relaxed));
    replied(0, [created, delegated, revoked, deleted, 0])
}

/// 21 for an id over 2^48-1 too.
fn children(id: u64, area: Vec<u64>) -> Reply {
    let children = get_children(id);
    if ID_END <= id {
        return Reply { area, ..refused(21) };
    }
    listed(&children, children.len(), area)
}

/// The census, which document 01 adds: entries whose id is not registered.
fn strays(space: &CapabilitySpace) -> usize {
    space.entries().iter().filter(|entry| !cap_manager().is_registered(entry.capability.id())).count()
}

/// Document 01's number for what the source says.
fn number(why: CapError) -> u8 {
    match why {
        CapError::InvalidCapability => 1,
        CapError::InsufficientRights => 2,
        CapError::CapabilityRevoked => 3,
        CapError::OutOfMemory => 4,
        CapError::InvalidObject => 5,
        CapError::PermissionDenied => 6,
        CapError::AlreadyExists => 7,
        CapError::NotFound => 8,
        CapError::IdExhausted => 9,
        CapError::QuotaExceeded => 10,
    }
}
