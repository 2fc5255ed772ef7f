//! The port's calls of revocation.

use oracle::calls::revocation::lent_bytes;
use oracle::calls::{replied, Kernel, Reply, RevocationCall};
use oracle::host::*;

use super::{in_area, reply};

pub fn revocation_call(mem: &mut [u64], call: &RevocationCall) -> Reply {
    let (m, n) = (mem.as_mut_ptr(), mem.len());
    // SAFETY: as in the module above.
    unsafe {
        match *call {
            RevocationCall::Revoke { token, kernel: Kernel { time, ref listed } } => {
                reply(|out| stonespry_revoke(out, m, n, token, time, listed.as_ptr(), listed.len()))
            }
            RevocationCall::RevokeCapability { token, kernel: Kernel { time, ref listed } } => {
                reply(|out| stonespry_revoke_capability(out, m, n, token, time, listed.as_ptr(), listed.len()))
            }
            RevocationCall::RevokeHeld { s, token, kernel: Kernel { time, ref listed } } => {
                reply(|out| stonespry_revoke_held(out, m, n, s, token, time, listed.as_ptr(), listed.len()))
            }
            RevocationCall::RevokeBatch { ref tokens, kernel: Kernel { time, ref listed } } => {
                let (tokens, batch) = (tokens.as_ptr(), tokens.len());
                reply(|out| stonespry_revoke_batch(out, m, n, tokens, batch, time, listed.as_ptr(), listed.len()))
            }
            RevocationCall::IsRevoked { token } => reply(|out| stonespry_is_revoked(out, m, n, token)),
            RevocationCall::Epoch => reply(|out| stonespry_epoch(out, m, n)),
            RevocationCall::Descendants { id, area } => {
                in_area(area, |out, area, places| stonespry_get_derivation_tree(out, m, n, id, area, places))
            }
            RevocationCall::Notify { pid, id, reason, time } => {
                reply(|out| stonespry_notify_process(out, m, n, pid, id, reason, time))
            }
            RevocationCall::Drain { pid, area } => {
                in_area(area, |out, area, places| stonespry_drain_notifications(out, m, n, pid, area, places))
            }
            RevocationCall::Peek { pid, area } => {
                in_area(area, |out, area, places| stonespry_peek_notifications(out, m, n, pid, area, places))
            }
            RevocationCall::Count { pid } => reply(|out| stonespry_notification_count(out, m, n, pid)),
            RevocationCall::Cleanup { pid } => reply(|out| stonespry_cleanup_process_notifications(out, m, n, pid)),
            RevocationCall::QueueStats => queues(|out| stonespry_notification_stats(out, m, n)),
            RevocationCall::WriteReason { reason, area } => write_reason(reason, area),
        }
    }
}

/// Its area is bytes.
fn write_reason(reason: u8, places: usize) -> Reply {
    let mut area = lent_bytes(places);
    let start = area.as_mut_ptr();
    // SAFETY: the port writes so many bytes from there, and no others.
    let reply = reply(|out| unsafe { stonespry_write_reason(out, reason, start, places) });
    Reply { area: area.into_iter().map(u64::from).collect(), ..reply }
}

fn queues(call: impl FnOnce(&mut QueuesAnswer)) -> Reply {
    let mut out = QueuesAnswer::default();
    call(&mut out);
    replied(out.answer, [out.processes, out.notifications, 0, 0, 0])
}
