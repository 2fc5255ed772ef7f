//! The port's opening, its look, a run of the request stream, and its calls of a space, of the manager and of revocation.

mod revocation;

use judge::layout::Numbers;
use oracle::calls::{lent, replied, ManagerCall, Reply, SpaceCall, Words};
pub use oracle::host::is_sound;
use oracle::host::*;

pub use self::revocation::revocation_call;

pub fn open(mem: &mut [u64], Numbers { s, m, r, v, p }: Numbers, quotas: &[u64]) -> u8 {
    // SAFETY: here and below, the port reads and writes so many words from there, and no others.
    unsafe { stonespry_open(mem.as_mut_ptr(), mem.len(), s, m, r, v, p, quotas.as_ptr(), quotas.len()) }
}

pub fn run(records: &[u8], mem: &mut [u64], lines: &mut [u8]) -> Reply {
    let (records, count) = (records.as_ptr(), records.len());
    let (mem, length, lines, places) = (mem.as_mut_ptr(), mem.len(), lines.as_mut_ptr(), lines.len());
    reply(|out| unsafe { stonespry_run(out, records, count, mem, length, lines, places) })
}

pub fn space_call(mem: &mut [u64], call: SpaceCall, [s, a, b, c]: Words) -> Reply {
    let (m, n, s) = (mem.as_mut_ptr(), mem.len(), s as usize);
    unsafe {
        match call {
            SpaceCall::Used => reply(|out| stonespry_space_used(out, m, n, s)),
            SpaceCall::Quota => reply(|out| stonespry_space_quota(out, m, n, s)),
            SpaceCall::TableCapacity => reply(|out| stonespry_space_table_capacity(out, m, n, s)),
            SpaceCall::Generation => reply(|out| stonespry_space_generation(out, m, n, s)),
            SpaceCall::Stats => stats(|out| stonespry_space_stats(out, m, n, s)),
            SpaceCall::Lookup => reply(|out| stonespry_space_lookup(out, m, n, s, a)),
            SpaceCall::LookupEntry => entry(|out| stonespry_space_lookup_entry(out, m, n, s, a)),
            SpaceCall::CheckRights => reply(|out| stonespry_space_check_rights(out, m, n, s, a, b as u32)),
            SpaceCall::GetEntry => entry(|out| stonespry_space_get_entry(out, m, n, s, a)),
            SpaceCall::NthEntry => entry(|out| stonespry_space_nth_entry(out, m, n, s, a as usize)),
            SpaceCall::Insert => reply(|out| stonespry_space_insert(out, m, n, s, a, b, c as u32)),
            SpaceCall::Remove => reply(|out| stonespry_space_remove(out, m, n, s, a)),
            SpaceCall::IncrementGeneration => reply(|out| stonespry_space_increment_generation(out, m, n, s)),
            SpaceCall::Clear => reply(|out| stonespry_space_clear(out, m, n, s)),
            SpaceCall::RevokeAll => reply(|out| stonespry_space_revoke_all(out, m, n, s)),
            SpaceCall::Copy => reply(|out| stonespry_space_copy(out, m, n, s, a as usize)),
            SpaceCall::AllocCapId => reply(|out| stonespry_alloc_cap_id(out, m, n)),
            SpaceCall::CreateCapability => reply(|out| stonespry_space_create_capability(out, m, n, s, a as u32, b)),
            SpaceCall::Revoke => reply(|out| stonespry_space_revoke(out, m, n, s, a)),
        }
    }
}

pub fn manager_call(mem: &mut [u64], call: ManagerCall) -> Reply {
    let (m, n) = (mem.as_mut_ptr(), mem.len());
    unsafe {
        match call {
            ManagerCall::Create { s, object, valid, cap_type, rights } => {
                reply(|out| stonespry_create_capability(out, m, n, s, object, valid, cap_type, rights))
            }
            ManagerCall::Delegate { token, source, target, rights } => {
                reply(|out| stonespry_delegate(out, m, n, token, source, target, rights))
            }
            ManagerCall::Delete { token } => reply(|out| stonespry_delete(out, m, n, token)),
            ManagerCall::Check { token, required, s } => {
                reply(|out| stonespry_check_capability(out, m, n, token, required, s))
            }
            ManagerCall::IsValid { token } => reply(|out| stonespry_is_valid(out, m, n, token)),
            ManagerCall::Stats => manager_stats(|out| stonespry_manager_stats(out, m, n)),
            ManagerCall::GetChildren { id, area } => {
                in_area(area, |out, area, places| stonespry_get_children(out, m, n, id, area, places))
            }
            ManagerCall::TreeStats => tree(|out| stonespry_derivation_tree_stats(out, m, n)),
            ManagerCall::Census { s } => reply(|out| stonespry_space_census(out, m, n, s)),
        }
    }
}

fn reply(call: impl FnOnce(Out)) -> Reply {
    let mut out = CallAnswer::default();
    call(&mut out);
    replied(out.answer, [out.value, out.count, 0, 0, 0])
}

/// A call that is lent an area of so many places.
fn in_area(places: usize, call: impl FnOnce(Out, *mut u64, usize)) -> Reply {
    let mut area = lent(places);
    let start = area.as_mut_ptr();
    let reply = reply(|out| call(out, start, places));
    Reply { area, ..reply }
}

fn entry(call: impl FnOnce(EntryOut)) -> Reply {
    let mut out = EntryAnswer::default();
    call(&mut out);
    replied(out.answer, [out.token, out.object, out.rights.into(), out.uses, out.visits])
}

fn stats(call: impl FnOnce(&mut StatsAnswer)) -> Reply {
    let mut out = StatsAnswer::default();
    call(&mut out);
    replied(out.answer, [out.hits, out.misses, out.total_caps, 0, 0])
}

fn manager_stats(call: impl FnOnce(&mut ManagerAnswer)) -> Reply {
    let mut out = ManagerAnswer::default();
    call(&mut out);
    replied(out.answer, [out.created, out.delegated, out.revoked, out.deleted, 0])
}

fn tree(call: impl FnOnce(&mut TreeAnswer)) -> Reply {
    let mut out = TreeAnswer::default();
    call(&mut out);
    replied(out.answer, [out.parents, out.children, 0, 0, 0])
}
