// ---- Appended to the copy of revocation.rs: private state for the comparison.

/// The notices of one pid, the oldest first: id, time, reason.
#[derive(Debug, Clone, PartialEq, Eq)]
pub struct QueueView {
    pub pid: u64,
    pub notices: Vec<(u64, u64, RevocationReason)>,
}

/// The tree by ascending parent, each list in its own order; the set ascends, the log has the same
/// pairs in the order of arrival; queues by ascending pid.
#[derive(Debug, Default, Clone, PartialEq, Eq)]
pub struct RevocationView {
    pub tree: Vec<(u64, Vec<u64>)>,
    pub set: Vec<(u64, u8)>,
    pub log: Vec<(u64, u8)>,
    pub epoch: u64,
    pub queues: Vec<QueueView>,
}

pub fn view() -> RevocationView {
    let notice = |n: &RevocationNotification| (n.cap_id, n.revoked_at, n.reason);
    RevocationView {
        tree: DERIVATION_TREE.read().iter().map(|(&p, c)| (p, c.clone())).collect(),
        set: REVOCATION_LIST.revoked.read().iter().copied().collect(),
        log: REVOCATION_LIST.log.read().clone(),
        epoch: REVOCATION_LIST.epoch(),
        queues: REVOCATION_QUEUE
            .read()
            .iter()
            .map(|(&pid, q)| QueueView { pid, notices: q.iter().map(notice).collect() })
            .collect(),
    }
}

/// Takes over what a view shows, so that a history can begin anywhere.
pub fn put(view: &RevocationView) {
    let notice = |&(cap_id, revoked_at, reason): &_| RevocationNotification { cap_id, revoked_at, reason };
    *DERIVATION_TREE.write() = view.tree.iter().cloned().collect();
    *REVOCATION_LIST.revoked.write() = view.set.iter().copied().collect();
    // With room behind it, as a log that grew has mostly.
    let mut log = view.log.clone();
    log.reserve(1);
    *REVOCATION_LIST.log.write() = log;
    REVOCATION_LIST.epoch.store(view.epoch, Ordering::SeqCst);
    *REVOCATION_QUEUE.write() =
        view.queues.iter().map(|q| (q.pid, q.notices.iter().map(notice).collect())).collect();
}

/// How many pairs are logged.
pub fn logged() -> usize {
    REVOCATION_LIST.log.read().len()
}

pub fn epoch() -> u64 {
    REVOCATION_LIST.epoch()
}

/// A capability has no list of children any more.
pub fn drop_list(id: u64) {
    DERIVATION_TREE.write().remove(&id);
}

/// Back to the state of a new process.
pub fn reset() {
    put(&RevocationView::default());
}
