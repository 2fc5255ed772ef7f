//! The calls of a space, by number and words: what the original answers to each, and the answers that document 01 has
//! for it. Visits and moved entries, which the source does not answer, are counted on its own slots.

use std::sync::atomic::Ordering::Relaxed;

use judge::layout::{Numbers, ID_END};

use crate::cap::object::ObjectRef;
use crate::cap::space::{CapabilityEntry, CapabilitySpace};
use crate::cap::token::{alloc_cap_id, CapabilityToken, Rights};
use crate::cap::types::CapabilityId;
use crate::error::{CapError, KernelError};
use crate::History;

use super::{done, moves, refused, replied, OnOriginal, Reply};

/// A call's words: the space, then its arguments in the order of the port's call; 0 where it has fewer.
pub type Words = [u64; 4];

#[derive(Debug, Clone, Copy, PartialEq, Eq)]
pub enum SpaceCall {
    Used,
    Quota,
    TableCapacity,
    Generation,
    Stats,
    Lookup,
    LookupEntry,
    CheckRights,
    GetEntry,
    NthEntry,
    Insert,
    Remove,
    IncrementGeneration,
    Clear,
    RevokeAll,
    Copy,
    AllocCapId,
    CreateCapability,
    Revoke,
}

use SpaceCall::*;

impl OnOriginal for (SpaceCall, Words) {
    fn name(&self) -> &'static str {
        SpaceCall::ALL[self.0 as usize].1
    }

    /// Document 01's 20 and 21 come first.
    fn original(&self, history: &mut History, _: Numbers) -> Reply {
        let (call, [s, a, b, c]) = *self;
        let [at, other] = [s, a].map(|number| number as usize);
        let spaces = history.spaces.len();
        if call != AllocCapId && spaces <= at || call == Copy && spaces <= other {
            return refused(20);
        }
        if matches!(call, GetEntry | Revoke) && ID_END <= a {
            return refused(21);
        }
        match call {
            AllocCapId => alloc_cap_id().map_or(refused(9), |id| done(id, 0)),
            Copy => copied(&history.spaces[at], &history.spaces[other]),
            _ => call.original_in(&mut history.spaces[at], [a, b, c]),
        }
    }
}

impl SpaceCall {
    /// In the order above, each by its name in the source and with the answers that it can give.
    pub const ALL: [(SpaceCall, &'static str, &'static [u8]); 19] = [
        (Used, "used", &[0, 20, 26]),
        (Quota, "quota", &[0, 20, 26]),
        (TableCapacity, "table_capacity", &[0, 20, 26]),
        (Generation, "generation", &[0, 20, 26]),
        (Stats, "stats", &[0, 20, 26]),
        (Lookup, "lookup", &[0, 8, 20, 26]),
        (LookupEntry, "lookup_entry", &[0, 8, 20, 26]),
        (CheckRights, "check_rights", &[0, 20, 26]),
        (GetEntry, "get_entry", &[0, 8, 20, 21, 26]),
        (NthEntry, "entries, iter_capabilities", &[0, 8, 20, 26]),
        (Insert, "insert", &[0, 7, 11, 20, 26]),
        (Remove, "remove", &[0, 8, 20, 26]),
        (IncrementGeneration, "increment_generation", &[0, 20, 26]),
        (Clear, "clear", &[0, 20, 26]),
        (RevokeAll, "revoke_all", &[0, 20, 26]),
        (Copy, "clone_from", &[0, 20, 26]),
        (AllocCapId, "alloc_cap_id", &[0, 9, 26]),
        (CreateCapability, "space-made create", &[0, 7, 11, 12, 20, 26]),
        (Revoke, "space revoke", &[0, 8, 20, 21, 26]),
    ];

    fn original_in(self, space: &mut CapabilitySpace, [a, b, c]: [u64; 3]) -> Reply {
        let token = CapabilityToken::from_u64(a);
        let visits = space.visits(token.id());
        match self {
            Used => done(space.used() as u64, 0),
            Quota => done(space.quota() as u64, 0),
            TableCapacity => done(space.capacity() as u64, 0),
            Generation => done(space.generation().into(), 0),
            Stats => stats(space),
            Lookup => found(space.lookup(token).map(|rights| rights.word().into()), visits),
            LookupEntry => looked_up(space, token, visits),
            CheckRights => done(space.check_rights(token, Rights::new(b as u32)).into(), visits),
            GetEntry => entry(space.get_entry(a as usize), visits),
            NthEntry => entry(nth(space, a), 0),
            Insert => inserted(space, |space| space.insert(token, object(b), Rights::new(c as u32)).map(|()| 0)),
            Remove => found(space.remove(token).map(|object| object.identity), visits),
            IncrementGeneration => after(|| space.increment_generation()),
            Clear => after(|| space.clear()),
            RevokeAll => after(|| space.revoke_all()),
            CreateCapability => {
                inserted(space, |space| space.create_capability(Rights::new(a as u32), object(b)).map(u64::from))
            }
            Revoke => match space.revoke(CapabilityId(a)) {
                Ok(()) => done(0, visits),
                Err(why) => Reply { answer: number(why), ..done(0, visits) },
            },
            Copy | AllocCapId => unreachable!("not a call of one space"),
        }
    }
}

// ---- Replies

fn after(change: impl FnOnce()) -> Reply {
    change();
    done(0, 0)
}

/// What a search of so many visits found, or 8.
fn found(value: Option<u64>, visits: usize) -> Reply {
    let answer = if value.is_some() { 0 } else { 8 };
    Reply { answer, ..done(value.unwrap_or(0), visits) }
}

/// An entry that a search of so many visits found, or 8.
fn entry(entry: Option<CapabilityEntry>, visits: usize) -> Reply {
    let visits = visits as u64;
    match entry.as_ref().map(CapabilityEntry::view) {
        Some(e) => replied(0, [e.token, e.object, e.rights.into(), e.uses, visits]),
        None => replied(8, [0, 0, 0, 0, visits]),
    }
}

fn stats(space: &CapabilitySpace) -> Reply {
    let stats = space.stats();
    let [hits, misses, total] = [&stats.hits, &stats.misses, &stats.total_caps].map(|count| count.load(Relaxed));
    replied(0, [hits, misses, total, 0, 0])
}

/// The port answers the whole entry as it was before this use; of it the source answers object and rights.
fn looked_up(space: &CapabilitySpace, token: CapabilityToken, visits: usize) -> Reply {
    let before = space.get_entry(token.id() as usize);
    let answered = space.lookup_entry(token);
    let whole = before.filter(|before| before.capability == token);
    assert_eq!(answered, whole.as_ref().map(|e| (e.object.clone(), e.rights)));
    entry(whole, visits)
}

/// By both of the source's ways through the entries.
fn nth(space: &CapabilitySpace, n: u64) -> Option<CapabilityEntry> {
    let (mut passed, mut met) = (0, None);
    let walked = space.iter_capabilities(|entry| {
        met = (passed == n).then(|| entry.clone());
        passed += 1;
        met.is_none()
    });
    assert_eq!(walked, Ok(()));
    let entry = usize::try_from(n).ok().and_then(|n| space.entries().into_iter().nth(n));
    assert_eq!(met.as_ref().map(CapabilityEntry::view), entry.as_ref().map(CapabilityEntry::view));
    entry
}

/// An insert, with the entries that it moved.
fn inserted(
    space: &mut CapabilitySpace,
    insert: impl FnOnce(&mut CapabilitySpace) -> Result<u64, KernelError>,
) -> Reply {
    let moved = moves(space);
    match insert(space) {
        Ok(value) => done(value, moved(space)),
        Err(why) => refused(number(why)),
    }
}

/// The port answers how many entries the target accepted, and the moves.
fn copied(target: &CapabilitySpace, source: &CapabilitySpace) -> Reply {
    let (accepted, moved) = (source.used() as u64, source.moved_by_copy());
    target.clone_from(source).unwrap();
    done(accepted, moved)
}

/// Document 01's number for what the source says.
fn number(why: KernelError) -> u8 {
    match why {
        KernelError::AlreadyExists { .. } => 7,
        KernelError::InvalidCapability { reason: CapError::NotFound, .. } => 8,
        KernelError::ResourceExhausted { resource: "capability quota" } => 11,
        KernelError::ResourceExhausted { resource: "capability IDs" } => 12,
        _ => unreachable!("no answer of a space: {why:?}"),
    }
}

fn object(identity: u64) -> ObjectRef {
    ObjectRef { identity, valid: true, type_code: 0 }
}
