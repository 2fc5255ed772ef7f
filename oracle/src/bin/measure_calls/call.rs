//! The fifteen operations of document 01's request stream as calls on both sides, with arguments that are answered 0.

use judge::rng::Rng;
use oracle::cap::manager::{cap_manager, check_capability};
use oracle::cap::object::ObjectRef;
use oracle::cap::revocation::{drain_notifications, revoke_capability, revoke_held};
use oracle::cap::token::{CapabilityToken, Rights};
use oracle::cap::types::CapabilityId;
use oracle::host::*;
use oracle::worlds::{token, Filled, CAP_TYPE, OBJECT, RIGHTS};
use oracle::History;

pub const TIME: u64 = 5;
/// READ alone: no delegation of these rights is there to be returned.
const FEWER: u32 = 1;

pub enum Call {
    Create { s: usize },
    Delegate { s: usize, target: usize, token: u64 },
    Lookup { s: usize, token: u64 },
    Check { s: usize, token: u64 },
    Remove { s: usize, token: u64 },
    Delete { token: u64 },
    HeldRevoke { s: usize, token: u64 },
    Clear { s: usize },
    Copy { target: usize, source: usize },
    RevokeAll { s: usize },
    Insert { s: usize, token: u64 },
    SpaceCreate { s: usize },
    SpaceRevoke { s: usize, id: u64 },
    Drain { pid: u64 },
    RevokeCapability { token: u64 },
}

/// An operation's name, and a call of it in a world.
pub type Operation = (&'static str, fn(&Filled, &Rng) -> Call);

pub const OPERATIONS: [Operation; 15] = [
    ("create", |world, rng| Call::Create { s: space(world, rng) }),
    ("delegate", |world, rng| {
        let (s, token) = such(|| held(world, rng), |&(_, token)| world.is_parent(token));
        Call::Delegate { s, target: space(world, rng), token }
    }),
    ("lookup", |world, rng| {
        let (s, token) = held(world, rng);
        Call::Lookup { s, token }
    }),
    ("check", |world, rng| {
        let (s, token) = held(world, rng);
        Call::Check { s, token }
    }),
    ("remove", |world, rng| {
        let (s, token) = held(world, rng);
        Call::Remove { s, token }
    }),
    ("delete", |world, rng| Call::Delete { token: registered(world, rng) }),
    ("held revoke", |world, rng| {
        let (s, token) = such(|| held(world, rng), |&(_, token)| world.is_parent(token));
        Call::HeldRevoke { s, token }
    }),
    ("clear", |world, rng| Call::Clear { s: space(world, rng) }),
    ("copy", |world, rng| {
        let source = space(world, rng);
        Call::Copy { target: such(|| space(world, rng), |&target| target != source), source }
    }),
    ("`revoke_all`", |world, rng| Call::RevokeAll { s: space(world, rng) }),
    ("insert", |world, rng| {
        let s = space(world, rng);
        Call::Insert { s, token: such(|| registered(world, rng), |token| !world.held[s].contains(token)) }
    }),
    ("space-made create", |world, rng| Call::SpaceCreate { s: space(world, rng) }),
    ("space revoke", |world, rng| {
        let s = space(world, rng);
        Call::SpaceRevoke { s, id: rng.pick(&world.made[s]) }
    }),
    ("drain", |world, rng| Call::Drain { pid: 1 + rng.below(world.world.numbers.p) as u64 }),
    ("`revoke_capability`", |world, rng| Call::RevokeCapability {
        token: such(|| registered(world, rng), |&token| world.is_leaf(token)),
    }),
];

fn space(world: &Filled, rng: &Rng) -> usize {
    rng.below(world.world.numbers.s)
}

fn registered(world: &Filled, rng: &Rng) -> u64 {
    token(1 + rng.below(world.registered as usize) as u64)
}

/// A space, and a token of a registered id that it holds.
fn held(world: &Filled, rng: &Rng) -> (usize, u64) {
    let s = space(world, rng);
    (s, rng.pick(&world.held[s]))
}

fn such<T>(make: impl FnMut() -> T, wanted: impl FnMut(&T) -> bool) -> T {
    std::iter::repeat_with(make).find(wanted).unwrap()
}

/// What a caller of the port lends: the memory, the process list and the area for notices.
pub struct Lent {
    pub mem: Vec<u64>,
    pub pids: Vec<u64>,
    pub area: Vec<u64>,
}

impl Call {
    /// The port's answer.
    pub fn port(&self, lent: &mut Lent) -> u8 {
        let (m, n) = (lent.mem.as_mut_ptr(), lent.mem.len());
        let (pids, count) = (lent.pids.as_ptr(), lent.pids.len());
        let (area, places) = (lent.area.as_mut_ptr(), lent.area.len());
        let mut reply = CallAnswer::default();
        let out = &mut reply;
        // SAFETY: the port reads and writes what it is lent, and no more.
        unsafe {
            match *self {
                Call::Create { s } => stonespry_create_capability(out, m, n, s, OBJECT, true, CAP_TYPE, RIGHTS),
                Call::Delegate { s, target, token } => stonespry_delegate(out, m, n, token, s, target, FEWER),
                Call::Lookup { s, token } => stonespry_space_lookup(out, m, n, s, token),
                Call::Check { s, token } => stonespry_check_capability(out, m, n, token, FEWER, s),
                Call::Remove { s, token } => stonespry_space_remove(out, m, n, s, token),
                Call::Delete { token } => stonespry_delete(out, m, n, token),
                Call::HeldRevoke { s, token } => stonespry_revoke_held(out, m, n, s, token, TIME, pids, count),
                Call::Clear { s } => stonespry_space_clear(out, m, n, s),
                Call::Copy { target, source } => stonespry_space_copy(out, m, n, target, source),
                Call::RevokeAll { s } => stonespry_space_revoke_all(out, m, n, s),
                Call::Insert { s, token } => stonespry_space_insert(out, m, n, s, token, OBJECT, RIGHTS),
                Call::SpaceCreate { s } => stonespry_space_create_capability(out, m, n, s, RIGHTS, OBJECT),
                Call::SpaceRevoke { s, id } => stonespry_space_revoke(out, m, n, s, id),
                Call::Drain { pid } => stonespry_drain_notifications(out, m, n, pid, area, places),
                Call::RevokeCapability { token } => stonespry_revoke_capability(out, m, n, token, TIME, pids, count),
            }
        }
        reply.answer
    }

    /// Whether the original did it.
    pub fn original(&self, History { spaces }: &mut History) -> bool {
        let cap = CapabilityToken::from_u64;
        let object = ObjectRef { identity: OBJECT, valid: true, type_code: CAP_TYPE };
        let [rights, fewer] = [RIGHTS, FEWER].map(Rights::new);
        match *self {
            Call::Create { s } => cap_manager().create_capability(object, rights, &spaces[s]).is_ok(),
            Call::Delegate { s, target, token } => {
                cap_manager().delegate(cap(token), &spaces[s], &spaces[target], fewer).is_ok()
            }
            Call::Lookup { s, token } => spaces[s].lookup(cap(token)).is_some(),
            Call::Check { s, token } => check_capability(cap(token), fewer, &spaces[s]).is_ok(),
            Call::Remove { s, token } => spaces[s].remove(cap(token)).is_some(),
            Call::Delete { token } => cap_manager().delete(cap(token)).is_ok(),
            Call::HeldRevoke { s, token } => revoke_held(&spaces[s], cap(token)).is_ok(),
            Call::Clear { s } => {
                spaces[s].clear();
                true
            }
            Call::Copy { target, source } => spaces[target].clone_from(&spaces[source]).is_ok(),
            Call::RevokeAll { s } => {
                spaces[s].revoke_all();
                true
            }
            Call::Insert { s, token } => spaces[s].insert(cap(token), object, rights).is_ok(),
            Call::SpaceCreate { s } => spaces[s].create_capability(rights, object).is_ok(),
            Call::SpaceRevoke { s, id } => spaces[s].revoke(CapabilityId(id)).is_ok(),
            Call::Drain { pid } => !drain_notifications(pid).is_empty(),
            Call::RevokeCapability { token } => revoke_capability(cap(token)).is_ok(),
        }
    }
}
